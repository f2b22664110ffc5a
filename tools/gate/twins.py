"""twins CRATE.. | --all | --missing | --due: shows that the twins of the wrong bodies of these crates, of all, of those without an entry in
.ci/proved-twins, or of these and some others that the commit draws, are proved. `twins --check` fails if a wrong body or a twin doesn't fit its file or
changes nothing, and names the crates without an entry."""

import re

from gate import record, tree

# What a check prints for a goal that it doesn't prove, and for a text that it can't read.
# What a change of a body may differ in without being one.
BLANK = re.compile(r"//[^\n]*|\s+")
UNPROVED = re.compile(r": error|\berror\[|it is not proved|^logic=not")


def misfits(edits):
    """What is wrong with these edits."""
    yield from (f"{it.place} changes a text that isn't there exactly once" for it in edits if tree.edited({}, it) is None)
    yield from (f"{it.place} changes nothing" for it in edits if all(BLANK.sub("", old) == BLANK.sub("", new) for _, old, new in it.changes()))


def together(edits):
    """As many of these edits as fit together, as texts of the crate's files, and the edits left over."""
    texts, left = {}, []
    for it in edits:
        more = tree.edited(texts, it)
        for wrong in misfits([it]) if more is None else ():
            raise SystemExit(wrong)
        texts, left = (texts, [*left, it]) if more is None else (more, left)
    return texts, left


def are_proved(room, name):
    """The lines that say that all twins of a crate are proved in copies of it, or nothing. It puts their texts in place of its own for a check."""
    crate, left, lines = room / "crates" / name, tree.edits(name, "twins"), []
    while left:
        texts, behind = together(left)
        before = {file: (crate / file).read_text() for file in texts}
        for file, text in texts.items():
            (crate / file).write_text(text)
        status, said = tree.said_by(crate, "rt", "check", "--jobs", "1")
        for file, text in before.items():
            (crate / file).write_text(text)
        lines.append(f"twins {name}: {'NOT PROVED' if status else 'proved'}: {', '.join(it.name for it in left if it not in behind)}")
        print(lines[-1], flush=True)
        if status:
            print("\n".join(it for it in said.splitlines() if UNPROVED.search(it)))
            return []
        left = behind
    return lines


def main(words):
    book = record.Record("proved-twins", "twins")
    if words == ["--check"]:
        edits = [it for name in book.having() for kind in ("must-fail", "twins") for it in tree.edits(name, kind)]
        return book.verdict(list(misfits(edits)), "wrong bodies have a twin that was proved", "prove: the twins of")
    return book.main(words, lambda names: record.in_copies(names, are_proved), "twins of {} were not proved")
