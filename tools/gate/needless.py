"""needless CRATE.. | --all | --missing: removes the answers without which no goal stays open, and what only they use, but for the answer to a goal that
docs/GALLERY.md names first for a wrong body. --check fails if a crate recorded in .ci/needed has others, and names the crates that were never tried."""

import hashlib
import re
import sys

from gate import gallery, record, said, tree
from gate.wrong_definitions import part_of

ANSWER = re.compile(r"^pub (\S+) : goal\.\S+$", re.M)
# How the check names the goals that it leaves open: a file of answers to write, and each goal of it, whose type may stand on the next line.
FILE = re.compile(r"help: write \./proofs/(\S+)/Answers\.antt with these lines")
OPEN = re.compile(r"^[ \t]+pub (\S+) :(?: goal\.|$)", re.M)
# How it names a function that it hasn't tried, since another one that this calls isn't proved.
UNTRIED = re.compile(r"has not tried the goals of `\w+::([\w:]+)`")


def files(folder):
    """The files of answers of a crate, each by the path of its function."""
    return {path.parent.relative_to(folder / "proofs").as_posix(): path for path in sorted(folder.glob("proofs/**/Answers.antt"))}


class Needed(record.Record):
    """The record of the answers that were left when those that the check doesn't need were removed."""

    def having(self):
        """The crates with answers, but for those of tests, which the check of a crate doesn't prove."""
        return [name for name in self.used if files(tree.folder(name)) and not any("#[test]" in path.read_text() for path in tree.sources(name))]

    def sum_of(self, name):
        its = [(it, goal) for it, path in files(tree.folder(name)).items() for goal in ANSWER.findall(path.read_text())]
        return hashlib.sha256(repr(sorted((said.OF_FUNCTION.sub("", f"{it}/Answers.antt"), goal) for it, goal in its)).encode()).hexdigest()


def tried(room, name):
    """The goals that the check of a crate leaves open without any answer, or doesn't try, each after its function, and what it printed if it failed."""
    crate = room / "crates" / name
    answers = {function: (path, path.read_text()) for function, path in files(crate).items()}
    for path, _ in answers.values():
        path.unlink()
    said = tree.said_by(crate, "rt", "check", "--allow-holes", "--jobs", "2")[1]
    # The crates above, which are tried in the same copy, need them.
    for path, text in answers.values():
        path.write_text(text)
    _, *parts = FILE.split(said)
    opened = {(function, goal) for function, text in zip(parts[::2], parts[1::2]) for goal in OPEN.findall(text)}
    untried = answers.keys() & {it.replace("::", "/") for it in UNTRIED.findall(said)}
    opened |= {(function, goal) for function in untried for goal in ANSWER.findall(answers[function][1])}
    return opened, "" if "\nholes=" in said else said


def cut(name, needed):
    """Removes the answers of a crate that it doesn't need. Returns how many."""
    # The goals that refuse the wrong bodies of the crate, each as the name of its function and its own.
    gone, goals = 0, gallery.goals_on_page()
    refusals = ((it, re.findall(r"`([\w-]+)`", goals.get((name, gallery.in_words(it.name)), ""))[:1]) for it in tree.edits(name))
    kept = {(place and place.name, goal) for it, refusal in refusals for place in gallery.places_of(it) for goal in refusal}
    # Of the clauses of an invariant the check may name the invariant alone, and an answer to all clauses of a contract is needed if one stays open.
    wholes = {(function, clause.split("-clause-")[0]) for function, clause in needed}
    for function, path in files(tree.folder(name)).items():
        text = path.read_text()
        goals = set(ANSWER.findall(text))
        stay = {goal for goal in goals if (function, goal) in needed | wholes or (function, goal.split("-clause-")[0]) in needed}
        stay |= {goal for goal in goals if {(function.split("/")[-1], goal), (None, goal)} & kept}
        gone += len(goals - stay)
        if stay and stay != goals:
            path.write_text(part_of(text, stay))
        elif not stay and goals:
            path.unlink()
            if not any(path.parent.iterdir()):
                path.parent.rmdir()
    return gone


def main(words):
    book, status = Needed("needed", "proofs"), 0
    if words == ["--check"]:
        known, lacking = {it.crate for it in book.entries()}, book.lacking()
        others = [f"answers of {name} were not tried without: .ci/needless {name}" for name in lacking if name in known]
        untried = ", ".join(name for name in lacking if name not in known)
        return tree.verdict(others, f"each answer is needed, except in crates that were never tried: {untried or 'none'}")
    names = book.asked(words)
    for name, (needed, trouble) in zip(names, record.in_copies(names, tried)):
        print(trouble[-2000:] or f"needless {name}: {cut(name, needed)} answers go", file=sys.stderr if trouble else sys.stdout, flush=True)
        status |= book.note([(name, book.sum_of(name), [] if trouble else [f"{name}: {len(needed)} goals stay open"])], "the check can't read {}")
    return status
