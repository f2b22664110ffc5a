"""A test of the repository's own proofs: something uses each lemma and each import. An import of an operator isn't looked for."""

import re
import unittest

from gate import tree
from gate.layout import SIGNATURE

# Files of lemmas that stand for themselves.
WORKED = ("crates/ftl_one/proofs/Rows.antt",)
# How a source names a lemma of a file, and how a file names another one.
BY_PATH = re.compile(r"\bproofs::(\w+)::([^\s,:()]+)")
ALIAS = re.compile(r"^use \S+\.(\w+) as (\w+)$", re.M)


def words(lines):
    """The words of the lines that are neither comments nor imports."""
    return set(re.findall(r"[^\s(){}\[\],;.:=λ→]+", "\n".join(it for it in lines if not re.match(r" *(?:--|(?:pub )?use )", it))))


def lemmas(lines):
    """Each lemma of a file, with the number of its first line and the words of the file's other lines. A field of a record is none."""
    for at, line in enumerate(lines):
        found = SIGNATURE.match(line)
        if found and not (found[1] and "record " in next(it for it in lines[at::-1] if it.strip() and not it.startswith(found[1]))):
            own = re.compile(found[1] + r"(?: |[})\]]|unfolding |" + re.escape(found[2]) + r" )")
            end = next((n for n in range(at + 1, len(lines)) if not own.match(lines[n])), len(lines))
            yield found[2], at + 1, words(lines[:at] + lines[end:])


class Proofs(unittest.TestCase):
    def test_something_uses_each_lemma_and_each_import(self):
        files = {path: tree.by_module(path.read_text()) for name in tree.crates() for path in sorted(tree.folder(name).glob("proofs/**/*.antt"))}
        taken, unused = {it for name in tree.crates() for path in tree.sources(name) for it in BY_PATH.findall(path.read_text())}, []
        for path, text in files.items():
            known = words(text.splitlines())
            for module, here in ALIAS.findall(text):
                taken.update((module, it) for it in re.findall(rf"\b{here}\.([^\s(){{}},;]+)", text))
            for head, module, items, _ in tree.IMPORT.findall(text):
                for item, _, here in (it.partition(" as ") for it in items.split(", ")):
                    taken.add((module.split(".")[-1], item))
                    if not ("◌" in item or item == "[]" or head.startswith("pub") or (here or item) in known):
                        unused.append(f"{tree.relative(path)}: the import {item}")
        for path in (it for it in files if it.parent.name == "proofs" and tree.relative(it) not in WORKED):
            its = lemmas(path.read_text().splitlines())
            unused += [f"{tree.relative(path)}:{n}: {name}" for name, n, others in its if not ("◌" in name or name in others or (path.stem, name) in taken)]
        self.assertFalse(unused, "nothing uses these:\n" + "\n".join(unused))


if __name__ == "__main__":
    unittest.main()
