"""python3 -m gate COMMAND WORD..: runs a command of the gate, the module of its name. `.ci/COMMAND WORD..` does the same; `run` is `check`."""

import importlib
import sys
from pathlib import Path

command, *words = sys.argv[1:] or [""]
name = "check" if command == "run" else command.replace("-", "_")
module = importlib.import_module(f"gate.{name}") if (Path(__file__).parent / f"{name}.py").exists() else None
if not hasattr(module, "main"):
    sys.exit(f"{__doc__}\nThere is no command `{command}`.")
sys.exit(module.main(words))
