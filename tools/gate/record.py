"""The records in .ci/: what was tried on each crate's present text, as lines of the crate, a sum of that text, a sum of what the trial printed of each
edit, and the toolchain's version. Lines of an earlier form lack the second sum. A line alone ends no trying: each run of the gate tries crates anew that
the commit draws."""

import hashlib
import os
import re
import subprocess
import threading
from collections import namedtuple
from concurrent.futures import ThreadPoolExecutor
from contextlib import ExitStack

from gate import said, tree

# An entry: its crate, the sum of its text, the sum of what was printed, or None in a line of the earlier form, and the version.
Entry = namedtuple("Entry", "crate text told version")
LINE = re.compile(r"(\S+) (\S+) (?:([0-9a-f]{16}) )?(.*)")
# One of so many crates is tried anew, and of those whose proof alone takes many minutes one of so many times as many.
TENTH, SLOW = 10, ("durable", "nand", "durable_exports", "exports", "player", "runs", "workers")


def version():
    """The line that `rt version` prints."""
    return subprocess.run(["rt", "version"], check=True, capture_output=True, text=True).stdout.strip()


def files_of(name, *parts):
    """The files of some folders of a crate."""
    return [path for part in parts for path in sorted((tree.folder(name) / part).rglob("*")) if path.is_file()]


def sum_of(parts):
    """A sum of what some files and edits say. An edit counts as a file of its own, whichever file it is in and changes."""
    edits = [it for it in parts if isinstance(it, tree.Edit)]
    its = {(f"{it.crate}/{it.kind}/{it.name}.edit", re.sub(r"^file: .*\n", "", it.text, flags=re.M)) for it in edits}
    return hashlib.sha256(repr(sorted(its | said.of({*parts} - {*edits}))).encode()).hexdigest()


def told_by(text, here, lines):
    """A sum of what a trial of a text was made from: the text's sum, the version, and the line that says of each edit what came of it."""
    return hashlib.sha256(repr((text, here, sorted(lines))).encode()).hexdigest()[:16]


def commit():
    """The commit that is checked out, which nobody who wrote an entry of it knew before."""
    return subprocess.run(["git", "rev-parse", "HEAD"], cwd=tree.TOP, capture_output=True, text=True, check=False).stdout.strip()


def in_copies(names, work):
    """What `work` returns for each of these crates, given a folder with a copy. Each thread has its own, since a check locks the crates below."""
    here, at_once = threading.local(), max(1, len(os.sched_getaffinity(0)) // 2)

    def enter():
        here.room = rooms.enter_context(tree.copied(names))

    with ExitStack() as rooms, ThreadPoolExecutor(at_once, initializer=enter) as pool:
        yield from pool.map(lambda name: work(here.room, name), names)


class Record:
    """A file of .ci/ with the results for one kind of edits."""

    def __init__(self, file, kind):
        self.file, self.kind, self.used = tree.TOP / ".ci" / file, kind, tree.crates()

    def having(self):
        """The crates with edits of this kind."""
        return [name for name in self.used if tree.edits(name, self.kind)]

    def sum_of(self, name):
        """A sum of the text that a result depends on: the crate with its edits, and the definitions of the crates below."""
        below = [path for it in sorted(tree.reached(self.used[name], self.used)) for path in files_of(it, "specs")]
        return sum_of([*files_of(name, "src", "specs", "proofs"), *tree.edits(name, self.kind), *below])

    def entries(self):
        """The entries."""
        return [Entry(*LINE.fullmatch(line).groups()) for line in self.file.read_text().splitlines()] if self.file.exists() else []

    def versions(self):
        """For each crate with edits the versions that have an entry for its present text."""
        entries = self.entries()
        sums = {name: self.sum_of(name) for name in self.having()}
        return {name: sorted({it.version for it in entries if it[:2] == (name, mine)}) for name, mine in sums.items()}

    def lacking(self):
        """The crates that have edits and no entry for their present text."""
        return [name for name, its in self.versions().items() if not its]

    def due(self, versions):
        """The crates without a version here, and those whose edits are tried anew: a tenth, and fewer of the slow ones, by the commit."""
        its = commit()
        draw = {name: int(hashlib.sha256(f"{its} {self.file.name} {name}".encode()).hexdigest(), 16) for name in versions}
        return [name for name, number in draw.items() if not versions[name] or number % (TENTH * TENTH if name in SLOW else TENTH) == 0]

    def verdict(self, wrong, said, still):
        """Prints what is wrong, or how many edits have an entry, and the crates that lack one. Returns the status."""
        lacking = [] if wrong else self.lacking()
        well = f"{sum(len(tree.edits(name, self.kind)) for name in self.having() if name not in lacking)} {said} on the present text"
        return tree.verdict(wrong, well + (f"\nstill to {still} {', '.join(lacking)}" if lacking else ""))

    def asked(self, words):
        """The crates that words ask for: those named, all that have edits of this kind, those without an entry, or these and the drawn ones."""
        having = self.having()
        asked = {("--all",): self.having, ("--missing",): self.lacking, ("--due",): lambda: self.due(self.versions())}.get(tuple(words))
        names = asked() if asked else words
        if not words or set(names) - set(having):
            tree.verdict([f"name crates that have {self.kind}, or --all: {', '.join(having)}"], "")
            raise SystemExit(2)
        return names

    def main(self, words, work, fault):
        """Records what `work` says of the crates that words ask for: of each a line for each edit, or nothing if not all was well."""
        names = self.asked(words)
        sums, is_due = [self.sum_of(name) for name in names], words == ["--due"]
        return max((self.note([its], fault, again=not is_due) for its in zip(names, sums, work(names))), default=0)

    def unlike(self, tried, here):
        """The crates of these whose entry of this text and version was made from other lines than a trial has printed now."""
        told = {(name, mine): told_by(mine, here, lines) for name, mine, lines in tried if lines}
        return [it.crate for it in self.entries() if it.version == here and it.told and told.get(it[:2], it.told) != it.told]

    def note(self, tried, fault, again=True):
        """Records this version's results: of each crate that it tried the text's sum, if all was well. Names the others, and returns 1. Unless `again`,
        an entry of this version has to be what was printed now, and a text that has one of another version gets no more."""
        here, having, before = version(), self.having(), self.entries()
        unlike = [] if again else self.unlike(tried, here)
        known = () if again else {it[:2] for it in before} - {it[:2] for it in before if it.version == here}
        sums = {name: mine for name, mine, lines in tried if not (lines and (name, mine) in known)}
        kept = [it for it in before if it.crate not in sums or (it.text == sums[it.crate] and it.version != here)]
        made = [Entry(name, mine, told_by(mine, here, lines), here) for name, mine, lines in tried if lines and name in sums and name not in unlike]
        found = sorted({it for it in (*kept, *made) if it.crate in having}, key=lambda it: (having.index(it.crate), it.text, it.version))
        self.file.write_text("".join(f"{' '.join(filter(None, it))}\n" for it in found))
        lost = [name for name, _, lines in tried if not lines]
        wrong = [fault.format(", ".join(lost))] if lost else []
        wrong += [f".ci/{self.file.name} has an entry of {name} that this trial doesn't print" for name in unlike]
        return tree.verdict(wrong, "") if wrong else 0
