"""Wrong sources, which tests have to refuse. In a file of them each has a line `edit: NAME`, a line that says what is wrong, the part of the tests that
refuses it and why (a pattern of what that part says), the file of the sources, and each change of it as `old:` and `new:`."""

from dataclasses import dataclass, field


@dataclass
class Edit:
    name: str
    file: str = ""
    part: str = ""
    why: str = ""
    changes: list = field(default_factory=list)

    def changed(self, folder):
        """Its file in a folder of sources, with the changes."""
        text = (folder / self.file).read_text()
        for old, new in self.changes:
            if text.count(old) != 1:
                raise SystemExit(f"{self.name}: the old text stands {text.count(old)} times in {self.file}")
            text = text.replace(old, new)
        return text


def edits(path):
    """The wrong sources of a file."""
    found = []
    for lines in (text.splitlines() for text in path.read_text().removeprefix("edit: ").split("\nedit: ")):
        its = Edit(lines[0])
        for line in filter(None, lines[2:]):
            key, _, text = line.partition(": ")
            text = text.replace("\\n", "\n")
            if key == "old":
                its.changes.append([text])
            elif key == "new":
                its.changes[-1].append(text)
            elif key in ("file", "part", "why"):
                setattr(its, key, text)
            else:
                raise SystemExit(f"{path.name}: {its.name}: {line}")
        if not (its.file and its.why and all(len(change) == 2 for change in its.changes)):
            raise SystemExit(f"{path.name}: {its.name} has no file, no reason or a change without its new text")
        found.append(its)
    return found
