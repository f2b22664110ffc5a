"""wrong-definitions CRATE.. | --all | --missing | --due | --check: shows that laws refuse the wrong definitions of these crates, of all, of those
without an entry in .ci/refused-definitions, or of these and some others that the commit draws. The prover reads the law that an edit names with a copy
of the definition made wrong, and with one only written otherwise (its twin): the clause has to stay open, and then be proved. --check names crates
without an entry, and edits that fit no definition or law, or change nothing."""

import re
import runpy
import shutil
from pathlib import Path

from gate import record, tree

# How a text names a file of specs/ or proofs/: by its crate, its folder and its name.
NAMED = re.compile(r"\bRattle\.(\w+)\.(specs|proofs)\.(\w+)")
# The words of a text, and the names that a paragraph defines: of a definition or a lemma, and of the constructors of a type.
WORD = re.compile(r"[^\s(){}\[\],;.]+")
DEFINED = re.compile(r"^(?:(?:abbrev |unfoldable )?(?:pub )?(?:record |data )?|  )([^\s:(){}]+)(?= [:({])", re.M)


class Wrong:
    """A wrong definition: the law and the clause that refuse it, and the tags of two copies of the law, with a wrong text and with a right one."""

    def __init__(self, number, edit):
        pairs = [line.split(": ", 1) for line in edit.text.splitlines()]
        its = {key: [text for other, text in pairs if other == key] for key, _ in pairs}
        self.crate, self.name, self.place, (self.definition,), self.old = edit.crate, edit.name, edit.place, its["definition"], its["old"]
        self.law, self.clause = its["law"][0].split()
        self.home, *self.modules, self.function = self.law.split("::")
        self.wrong, self.twin = f"w{number}", f"t{number}"
        self.copies = {self.wrong: its["new"], self.twin: its["twin"]}

    def of_law(self, folder, *more):
        """A path in a folder of the law's crate, by its module."""
        return tree.folder(self.home).joinpath(folder, *self.modules, *more)


def edits(*names):
    """The wrong definitions of crates."""
    return [Wrong(*it) for it in enumerate(it for name in names for it in tree.edits(name, "wrong-definitions"))]


def sources():
    """The files of specs/ and proofs/ that a text may name, each by its crate, its folder and its name, with its text."""
    folders = [(name, folder) for name in tree.crates() for folder in ("specs", "proofs")]
    return {(*it, path.stem): tree.by_module(path.read_text()) for it in folders for path in tree.TOP.joinpath("crates", *it).glob("*.antt")}


def place_of(edit, texts):
    """The file of an edit's definition, and where its text begins and ends, or None if the old text isn't in it exactly once."""
    head = re.compile(rf"^(?:abbrev |unfoldable )?pub (?:record |data )?{re.escape(edit.definition)} .*?(?=^\n|\Z)", re.M | re.S)
    it, found = next(((it, its) for it in texts if it[:2] == (edit.crate, "specs") and (its := head.search(texts[it]))), (None, None))
    return (it, *found.span()) if found and all(found[0].count(old) == 1 for old in edit.old) else None


def law_of(edit):
    """The imports of a law's module, the law, and its answers; or None if there is no such law."""
    source = edit.of_law("src").with_suffix(".rt")
    text = source.read_text() if source.exists() else ""
    law = re.search(rf"^pub fn {edit.function}\(\)\n.*?^\{{\}}\n", text, re.M | re.S)
    if law is None or f"    ensures {edit.clause} {{" not in law[0]:
        return None
    answers = edit.of_law("proofs", edit.function, "Answers.antt")
    return "".join(re.findall(r"^ghost use .*\n", tree.by_module(text), re.M)), law[0], tree.by_module(answers.read_text()) if answers.exists() else ""


def misfits(all_edits, texts):
    """What is wrong with edits: an old text that isn't in the definition exactly once, or a law that has no such clause."""
    yield from (f"{it.place} changes a text that isn't in {it.definition} of {it.crate} exactly once" for it in all_edits if not place_of(it, texts))
    yield from (f"{it.place} changes nothing" for it in all_edits if it.old in it.copies.values())
    yield from (f"{it.place} names {it.law} {it.clause}, which is no clause of a law" for it in all_edits if not law_of(it))


def part_of(text, wanted):
    """The definitions of a file that these words name, directly or through others of the file, with the imports that they need."""
    head, *rest = text.rstrip("\n").split("\n\n")
    left, kept = dict(enumerate(rest)), {}
    while more := [it for it, told in left.items() if wanted & set(DEFINED.findall(told))]:
        kept |= {it: left.pop(it) for it in more}
        wanted = wanted.union(*(WORD.findall(kept[it]) for it in more))
    used = set(WORD.findall("\n".join(kept.values())))
    lines = [it for it in head.splitlines() if not it.startswith("use ") or "◌" in it or used & set(WORD.findall(it.split(".")[-1] + " " + it.split("{")[-1]))]
    return "\n\n".join(["\n".join(lines), *(kept[it] for it in sorted(kept))]) + "\n"


def copy_of(edit, tag, new, texts, below):
    """A copy of an edit's law under a tag, as it reads with these texts in place of the old ones: texts to add to files of the law's crate."""
    imports, law, answers = law_of(edit)
    target, begin, end = place_of(edit, texts)
    copied = {it for named in NAMED.findall(imports + law + answers) for it in below.get(named, ()) if target in below[it]}
    wanted = set(WORD.findall("\n".join([imports, law, answers, *(texts[it] for it in copied if it != target)])))
    changed = texts[target][begin:end]
    for old, its in zip(edit.old, new, strict=True):
        changed = changed.replace(old, its)
    changed = texts[target][:begin] + changed + texts[target][end:]

    def redirected(text):
        return NAMED.sub(lambda it: f"Rattle.{edit.home}.{it[2]}.{tag}_{it[1]}_{it[3]}" if it.groups() in copied else it[0], text)

    for it in copied:
        yield f"{it[1]}/{tag}_{it[0]}_{it[2]}.antt", redirected(part_of(changed, wanted) if it == target else texts[it])
        yield f"{it[1]}/Lib.antt", f"pub mod {tag}_{it[0]}_{it[2]}\n"
    yield f"src/wrong/{tag}.rt", redirected(f"//! A law.\n{imports}\n{law}")
    if answers:
        own = answers.replace(".".join(["proofs", *edit.modules, edit.function, ""]), f"proofs.wrong.{tag}.{edit.function}.")
        yield f"proofs/wrong/{tag}/{edit.function}/Answers.antt", redirected(own)


def said_by(all_edits):
    """What the prover prints of copies of the laws of these edits, which are in one crate."""
    texts = sources()
    names = {it: NAMED.findall(text) for it, text in texts.items()}
    below = {it: tree.reached([it], names) & texts.keys() for it in texts}
    return said_of(all_edits[0].home, [it for edit in all_edits for copy in edit.copies.items() for it in copy_of(edit, *copy, texts, below)])


def said_of(home, additions):
    """What the prover prints of the laws in src/wrong/ of a copy of a crate with these texts added to its files. The module behind the rt command
    knows how it is called with the crates below as sources."""
    tags = [Path(name).stem for name, _ in additions if name.startswith("src/wrong/")]
    with tree.copied([home]) as room:
        for name, text in [*additions, ("src/lib.rt", "mod wrong;\n"), *(("src/wrong.rt", f"mod {tag};\n") for tag in tags)]:
            path = room / "crates" / home / name
            path.parent.mkdir(parents=True, exist_ok=True)
            with path.open("a") as file:
                file.write(text)
        try:
            rtlib = runpy.run_path(str(Path(shutil.which("rt") or "rt").resolve().with_name("rtlib.py")))
            crate = next(it for it in rtlib["crates_below"](str(room)) if it.name == home)
            words = [*crate.words(["--jobs", "1"], keeps=False, as_source=True), "--only", f"{home}::wrong"]
        except (OSError, KeyError, AttributeError, TypeError) as error:
            raise SystemExit(f"wrong-definitions needs the toolchain's rt on the path, and a rtlib that gives crates as sources: {error}") from error
        return tree.said_by(crate.folder, rtlib["RATTLE"], "check", *words)[1]


def fault_of(edit, said):
    """What is wrong with an edit by what the prover printed, or nothing."""
    lines, well = said.splitlines(), set(re.findall(r"^fn \w+::wrong::(\w+)::\w+: proved$", said, re.M))
    refusals = [it for it in lines if re.search(rf"proofs/wrong/{edit.wrong}/|src/wrong/{edit.wrong}\.rt:|::wrong::{edit.wrong}::", it)]
    if unread := [it for it in lines if re.search(rf"(?:specs/|src/wrong/)(?:{edit.wrong}|{edit.twin})[_.].*: error", it)]:
        return f"can't be read: {unread[0]}"
    if edit.wrong in well or not any(re.search(rf"returns-clause-{edit.clause}\b", it) for it in refusals):
        return f"NOT REFUSED by {edit.law}" if edit.wrong in well else f"is refused, but not by the clause {edit.clause} of {edit.law}"
    twins = ["has a twin that is not proved", *(it for it in lines if f"proofs/wrong/{edit.twin}/" in it)]
    return "" if edit.twin in well else ": ".join(twins[:2])


def refused(names):
    """Of each of these crates the lines that say that its edits are refused as they have to be, or nothing. Prints each edit."""
    lost, every, lines = set(), edits(*names), []
    for home in sorted({it.home for it in every}):
        mine = [it for it in every if it.home == home]
        said = said_by(mine)
        for it in mine:
            fault = fault_of(it, said)
            lines.append((it.crate, f"wrong definition {it.crate}/{it.name}: {fault or f'refused, and its twin is proved ({it.clause})'}"))
            print(lines[-1][1], flush=True)
            lost |= {it.crate} if fault else set()
        if not re.search(r"^only=\d+ ", said, re.M):
            print(said[-2000:])
    return [[line for crate, line in lines if crate == name and name not in lost] for name in names]


class Refused(record.Record):
    """The record of the wrong definitions that laws refused."""

    def sum_of(self, name):
        """A sum of the text that the refusals of a crate depend on: its edits, the definitions that a law reads, and the laws."""
        named = {it.law: it for it in edits(name)}
        specs = sorted(tree.reached([name], self.used) | {it.home for it in named.values()})
        files = [path for it in specs for path in record.files_of(it, "specs")]
        for it in named.values():
            files += [it.of_law("src").with_suffix(".rt"), *sorted(tree.folder(it.home).glob("proofs/*.antt"))]
            files += it.of_law("proofs", it.function).glob("*.antt")
        return record.sum_of([*tree.edits(name, self.kind), *files])


def main(words):
    book = Refused("refused-definitions", "wrong-definitions")
    wrong = list(misfits(edits(*book.having()), sources()))
    if wrong or words == ["--check"]:
        return book.verdict(wrong, "wrong definitions were refused", "try: those of")
    return book.main(words, refused, "wrong definitions of {} were not refused")
