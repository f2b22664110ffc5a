"""The manifest of a simulation: all that is needed to play it again, as a TOML file that may be changed by hand."""

import hashlib
import os
import pathlib
import tomllib
from dataclasses import dataclass, field, replace

from . import convert, device, image, inputs, model, part
from .faults import ARGUMENTS, BROKEN, Fault
from .numbers import CLIENTS, PAGE_BYTES, SPEED, Number
from .titles import printable

NAME = "run.toml"
LONGEST_FILE = 1 << 20
NONE, FILL = "none", "fill"
NUMBERINGS = ("as in the log", "wrap", "dense")
OVER_PROVISIONING = Number(0, 10_000, whole=False)
# How often each sector is written again, behind the fill of a precondition `uniform:N`.
UNIFORM = Number(0, 1_000, whole=False)
MOST_DEVICES = 100
OF_DEVICE = tuple(name for name in device.DEFAULTS if name != "blocks")


def rounds_of(precondition: str) -> float | None:
    """How often each sector is written at random behind the fill, if the precondition is made."""
    kind, _, rounds = precondition.partition(":")
    if precondition == FILL:
        return 0.0
    return UNIFORM.read(rounds) if kind == "uniform" else None


def is_file(precondition: str) -> bool:
    """Whether a precondition is the file of a trace."""
    return precondition != NONE and rounds_of(precondition) is None


@dataclass
class Manifest:
    """What is simulated. Paths are absolute here, and relative to the manifest in its file."""

    logs: list
    format: str
    page_bytes: int
    over_provisioning: list
    device: dict
    numbering: str = NUMBERINGS[0]
    log_device: str | None = None
    action: str = "D"
    precondition: str = NONE
    speed: float = 1.0
    clients: int = 0
    victims: str = model.POLICIES[0]
    part: dict = field(default_factory=dict)
    image: str | None = None
    sums: list = field(default_factory=list)

    def devices(self) -> dict:
        """The numbers of each device, by its over-provisioning. An image has its own."""
        if self.image:
            numbers = image.numbers_of(self.image, self.device["endurance"])
            return {round(device.over_provisioning(numbers), 3): numbers}
        return {percent: {**self.device, "blocks": self._blocks(percent)} for percent in self.over_provisioning}

    def _blocks(self, percent: float) -> int:
        """The blocks whose pages are nearest to the sectors and this share more, a multiple of the LUNs."""
        luns = self.device["luns"]
        wanted = self.device["sectors"] * (1 + percent / 100) / self.device["pages"]
        return max(luns * round(wanted / luns), device.fewest_blocks(self.device))

    def files(self) -> list:
        """The files that it reads."""
        return [*self.logs, *([self.precondition] if is_file(self.precondition) else []), *([self.image] if self.image else [])]


def sum_of(path) -> str:
    """The SHA-256 sum of a file."""
    with inputs.with_an_end(path) as source:
        return hashlib.file_digest(source, "sha256").hexdigest()


def checked(manifest: Manifest, where: str) -> Manifest:
    """A manifest whose values are in their ranges, with the sums of its files; those that it has are compared."""
    try:
        _check(manifest)
    except ValueError as error:
        raise Fault(f"{where}: {error}", ARGUMENTS)
    for numbers in manifest.devices().values():
        device.check(numbers, ranges=_ranges(manifest))
    if manifest.part:
        part.part_in(manifest.part, where)
    sums = [sum_of(path) for path in manifest.files()]
    for path, given, found in zip(manifest.files(), manifest.sums, sums):
        if given != found:
            raise Fault(f"{path} isn't the file that {where} was written for; without its sum there it is taken", BROKEN)
    return replace(manifest, sums=sums)


TYPES = {"logs": list, "over_provisioning": list, "sums": list, "device": dict, "part": dict, "precondition": str, "format": str, "numbering": str}


def _check(manifest: Manifest):
    for name, kind in TYPES.items():
        if not isinstance(getattr(manifest, name), kind):
            raise ValueError(f"{name} isn't a {'table' if kind is dict else 'list' if kind is list else 'text'}")
    PAGE_BYTES.check(manifest.page_bytes, "page_bytes")
    SPEED.check(manifest.speed, "speed")
    if manifest.clients:
        CLIENTS.check(manifest.clients, "clients")
        if not manifest.part or manifest.speed != 1:
            raise ValueError("clients need the times of a part, and no speed")
    for percent in manifest.over_provisioning:
        OVER_PROVISIONING.check(percent, "over_provisioning")
    if manifest.image:
        _check_image(manifest)
    elif len(set(manifest.over_provisioning)) != len(manifest.over_provisioning) or not 0 < len(manifest.over_provisioning) <= MOST_DEVICES:
        raise ValueError(f"over_provisioning has 1 to {MOST_DEVICES} percentages, each once")
    for name in OF_DEVICE:
        _ranges(manifest)[name].check(manifest.device.get(name), name)
    words = {"format": convert.FORMATS, "numbering": NUMBERINGS, "action": convert.ACTIONS, "victims": model.POLICIES}
    for name, known in words.items():
        if getattr(manifest, name) not in known:
            raise ValueError(f"{name} {getattr(manifest, name)!r} is none of {', '.join(known)}")
    rounds_of(manifest.precondition)
    if not manifest.logs or not all(isinstance(text, str) for text in manifest.logs):
        raise ValueError("logs are a list of files")


def _ranges(manifest: Manifest) -> dict:
    return device.IMAGE_RANGES if manifest.image else device.RANGES


def _check_image(manifest: Manifest):
    """An image has its numbers, and was aged before; and its runs have no log of collections, of which latencies are made."""
    others = {"over_provisioning": manifest.over_provisioning, "precondition": manifest.precondition != NONE, "part": manifest.part}
    others["victims"] = manifest.victims != model.POLICIES[0]
    for name, is_there in others.items():
        if is_there:
            raise ValueError(f"{name} isn't for a device that starts from an image")
    found = image.numbers_of(manifest.image, manifest.device["endurance"])
    if other := next((name for name in OF_DEVICE if manifest.device[name] != found[name]), None):
        raise ValueError(f"{other} is {manifest.device[other]:,}, and the image has {found[other]:,}")


def read(path) -> Manifest:
    """The manifest in a file, whose files have their sums."""
    return checked(load(path), str(path))


def load(path) -> Manifest:
    """The manifest as it is in a file."""
    folder = pathlib.Path(path).parent
    try:
        with open(path, "rb") as source:
            keys = tomllib.loads(source.read(LONGEST_FILE).decode())
    except (ValueError, RecursionError) as error:
        raise Fault(f"{path} isn't a TOML file: {error}", BROKEN)
    known = set(Manifest.__dataclass_fields__)
    if unknown := sorted(set(keys) - known):
        raise Fault(f"{path}: {unknown[0]!r} isn't a key of a manifest; its keys are {', '.join(sorted(known))}", BROKEN)
    try:
        manifest = Manifest(**keys)
        manifest.logs = [_absolute(folder, name) for name in manifest.logs]
        if is_file(manifest.precondition):
            manifest.precondition = _absolute(folder, manifest.precondition)
        if manifest.image:
            manifest.image = _absolute(folder, manifest.image)
        return manifest
    except (TypeError, AttributeError, ValueError) as error:
        raise Fault(f"{path}: {error}", BROKEN)


def _absolute(folder, name) -> str:
    return os.path.abspath(folder / name)


def is_same(one: Manifest, other: Manifest) -> bool:
    """Whether two manifests say the same, whatever their files hold now."""
    return replace(one, sums=[]) == replace(other, sums=[])


def text_of(manifest: Manifest, folder) -> str:
    """The file of a manifest in a folder."""
    relative = [os.path.relpath(path, folder) for path in manifest.files()]
    logs = relative[: len(manifest.logs)]
    values = {
        "logs": logs,
        "sums": manifest.sums,
        "format": manifest.format,
        "page_bytes": manifest.page_bytes,
        "numbering": manifest.numbering,
        "log_device": manifest.log_device,
        "action": manifest.action,
        "precondition": relative[len(logs)] if is_file(manifest.precondition) else manifest.precondition,
        "image": relative[-1] if manifest.image else None,
        "speed": manifest.speed,
        "clients": manifest.clients or None,
        "victims": manifest.victims if manifest.victims != model.POLICIES[0] else None,
        "over_provisioning": manifest.over_provisioning,
    }
    lines = ["# flashplay-simulate run.toml --out FOLDER plays this again. Each number of the devices stands here once."]
    lines += [f"{name} = {_value(value)}" for name, value in values.items() if value is not None]
    for name, table in (("device", manifest.device), ("part", manifest.part)):
        if table:
            lines += ["", f"[{name}]", *(f"{key} = {_value(value)}" for key, value in table.items())]
    return printable("\n".join([*lines, ""]))


def _value(value) -> str:
    """A value as TOML writes it."""
    if isinstance(value, list):
        return f"[{', '.join(map(_value, value))}]"
    if isinstance(value, str):
        escaped = "".join(f"\\u{ord(c):04x}" if c < " " or c == "\x7f" else f"\\{c}" if c in '\\"' else c for c in value)
        return f'"{escaped}"'
    return repr(value)
