"""wrong-bodies CRATE.. | --all: tries the wrong bodies of these crates, or of all, by `rt ci` in a copy that has these crates and those below them. Each
crate whose wrong bodies are all refused gets an entry in .ci/refused, and docs/GALLERY.md gets the goals that the refusals name. With --all it then
proves all twins. `wrong-bodies --write CRATE..` only writes them to crates/CRATE/must-fail/, which git ignores, for `rt must-fail CRATE`."""

import re
import shutil

from gate import gallery, record, tree, twins

# Each run tries the edits of these crates, to show that it can still refuse.
ALWAYS = ("uses",)
# An edit that is refused, and the goal that is left open: at an answer, or at code without an answer.
REFUSED = re.compile(r"rt: must-fail (\w+)/(\w+)\.edit: refused, as it must be(?!.*says little of the contract)(?:.*?(?:\d: error: `|\(`)([\w-]+)`)?")


def refused():
    return record.Record("refused", "must-fail")


def note(names, said, again=True):
    """Records the crates of these all of whose edits `rt` refused, by what it printed, and the goals that it named. Returns 1 if there are others, or,
    unless `again`, if a crate has an entry of this version that says otherwise."""
    book, found = refused(), set(REFUSED.findall(said))
    goals = {its[:2]: its[2] for its in sorted(found)}
    gallery.put(found)
    edits = {name: [it.name for it in tree.edits(name)] for name in names}
    lines = {name: [f"{name}/{it}: {goals[name, it]}" for it in its if (name, it) in goals] for name, its in edits.items()}
    tried = [(name, book.sum_of(name), lines[name] if len(lines[name]) == len(edits[name]) else []) for name in names]
    return book.note(tried, "wrong bodies of {} were not refused", again)


def write(names, top=None):
    """Writes the wrong bodies of these crates for `rt`, each as a file of must-fail/, and removes those of the others."""
    for name in tree.crates():
        edits, folder = {f"{it.name}.edit": it.text for it in tree.edits(name)}, (top or tree.TOP) / "crates" / name / "must-fail"
        if others := [tree.relative(it) for it in folder.glob("*") if it.name not in edits]:
            raise SystemExit(f"not in crates/{name}/wrong-bodies.edits: {', '.join(others)}")
        shutil.rmtree(folder, ignore_errors=True)
        for file, text in edits.items() if name in names else ():
            folder.mkdir(exist_ok=True)
            (folder / file).write_text(text)


def untried():
    """The crates whose wrong bodies a run of the gate tries: those without an entry for their text, and those that the commit draws. Prints the versions
    that refused the others."""
    book = refused()
    versions = book.versions()
    again = {*ALWAYS, *book.due(versions)}
    known = {name: its for name, its in versions.items() if name not in again}
    if known:
        by = " and ".join(sorted({it for its in known.values() for it in its}))
        print(f"not tried again: {sum(len(tree.edits(it)) for it in known)} wrong bodies, refused with {by}; this machine has {record.version()}")
    return [name for name in book.having() if name not in known]


def main(words):
    only_write = words[:1] == ["--write"]
    names = refused().asked(words[only_write:])
    if only_write:
        return write(names)
    with tree.copied(names) as room:
        write(names, room)
        _, said = tree.said_by(room, "rt", "ci", shown=True)
    return note(names, said) | (twins.main(["--all"]) if words == ["--all"] else 0)
