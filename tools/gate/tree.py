"""The repository as the checks read it: its crates, the functions, clauses and imports of a file, a crate's definitions and edits, and the pages."""

import difflib
import html
import re
import shutil
import subprocess
import sys
from collections import namedtuple
from contextlib import contextmanager
from functools import cache
from pathlib import Path
from tempfile import TemporaryDirectory

TOP = Path(__file__).resolve().parents[2]
# The parts of a file of Rattle that tell which functions it has: the end of an item, the type that methods are of, and a function.
PARTS = re.compile(
    r"^(?:(?P<end>\})|(?P<kind>impl|pub trait|trait)\b(?:<[^>\n]*>)? (?P<type>[^{\n]*)"
    r'|(?P<indent> *)(?P<public>pub )?(?:pub\(\w+\) )?(?:const |unsafe |extern "C" )*fn (?P<name>\w+))', re.M,
)  # fmt: skip
# An import, and how one of its items names the module that it is of.
IMPORT = re.compile(r"^((?:pub |ghost )?use )([^\s{}]+)\.\{([^{}]*)\}(;?)$", re.M)
WITHIN = re.compile(r"((?:\w+\.)*)(\S.*)")
# The same in a definition or in code: its head, the path before the braces, what is in them, and what is behind them.
IMPORTED = re.compile(r"^ *((?:pub(?:\(\w+\))? |ghost )*)use ([^;{}\n]*)(?:\{([^{}]*)\})?([^;{}\n]*);?(?:\n|\Z)", re.M)
WORD = re.compile(r"[^\s(){}\[\],;.]+(?:\.[^\s(){}\[\],;.]+)*")
# A public definition of specs/ and a type of src/, each with the comment above it.
DEFINITION = re.compile(
    r"(?P<comment>(?:^--.*\n)*)(?:^infix.*\n)*^(?P<head>(?!pub mod|pub use)(?:abbrev |unfoldable )?pub (?:record |data )?(?P<name>\S+) )", re.M
)
TYPE = re.compile(r"(?P<comment>(?:^///.*\n)*)(?:^#\[.*\n)*^pub (?:struct|enum|trait) (?P<name>\w+)", re.M)
# A clause with the comment above it, or a proof in the code.
CLAUSE = re.compile(r"(?P<comment>(?:^ *//(?!/).*\n)*)^\s*(?:pub )?(?P<kind>requires|ensures|ghost)\b(?! use )(?P<label>[^{;]*)\{|\bby \{", re.M)
# An edit with its twin: its name, and its lines.
EDIT = re.compile(r"edit: (\w+)\n((?:(?:(?:file|law|definition): .*\n)*old: .*\nnew:.*\ntwin:.*\n)+)\n*")
# Each kind of edits, with the file of a crate that has them, and a change of its lines that leaves those of the kind.
KINDS = {"must-fail": ("wrong-bodies", r"^twin:.*\n", ""), "twins": ("wrong-bodies", r"^new:.*\ntwin:", "new:")}
KINDS["wrong-definitions"] = ("wrong-definitions", "", "")
# A function of a file: the type that it is a method of, or "", its name after that of the type, and the places of its head, its body and its end.
Function = namedtuple("Function", "name type called of_trait public start body end")
# A clause of a file, or a proof in its code, which has no kind: its places, its label, the comment above it, and its text.
Clause = namedtuple("Clause", "start end kind label comment text")
Definition = namedtuple("Definition", "sentence text names")


class Edit(namedtuple("Edit", "crate kind name text")):
    """A wrong body of a crate, the twin of one, or a wrong definition."""

    @property
    def place(self):
        return f"crates/{self.crate}/{KINDS[self.kind][0]}.edits: {'the twin of ' if self.kind == 'twins' else ''}{self.name}"

    def changes(self):
        """Each change: the file, the old text and the new one."""
        its = {}
        for word, text in re.findall(r"^(file|old|new): ?(.*)", self.text, re.M):
            its[word] = text
            if word == "new":
                yield its["file"].strip(), its["old"], text


def relative(path):
    return path.relative_to(TOP).as_posix()


def crate_lines():
    """The lines of crates.txt, by the crate that each is of."""
    lines = [line for line in (TOP / "crates.txt").read_text().splitlines() if ":" in line and not line.startswith("#")]
    return {re.match(r"\w+", line)[0]: line for line in lines}


def crates():
    """The crates in the order of crates.txt, each with those that it uses."""
    lines = crate_lines()
    return {name: [it for it in line.split(":")[1].split() if it in lines] for name, line in lines.items()}


def folder(name):
    return TOP / "crates" / name


def sources(name):
    """The files of a crate's src/."""
    return sorted(folder(name).glob("src/**/*.rt"))


@cache
def functions(text):
    """The functions of a file, in their order."""
    found, of, of_trait = [], "", False
    parts = list(PARTS.finditer(text))
    for part, after in zip(parts, [*(it.start() for it in parts[1:]), len(text)]):
        if part["end"]:
            of, of_trait = "", False
        elif part["kind"]:
            of_trait = "trait" in part["kind"] or " for " in part["type"]
            of = re.sub(r"<.*", "", part["type"].split(" for ")[-1]).split("::")[-1].strip()
        else:
            # The body begins in the head's line, or in a line that is indented as that is: clauses are further to the right.
            opened = re.compile(rf"^{part['indent']}(?! ).*(?:\{{\}}|[{{;])$", re.M).search(text, part.start(), after)
            body = opened.end() if opened else after
            close = text.find(f"\n{part['indent']}}}", body - 1) if opened and opened[0][-1] == "{" else body
            name, end = part["name"], close if close >= 0 else len(text)
            found.append(Function(name, of, f"{of}::{name}" if of else name, of_trait, bool(part["public"]), part.start(), body, end))
    return found


def function_at(text, place):
    """The function that contains a place of a file, or None."""
    return next((it for it in functions(text) if it.start <= place <= it.end), None)


@cache
def clauses(text):
    """The clauses of a file and the proofs in its code, in their order."""
    found = []
    for it in CLAUSE.finditer(text):
        depth, end = 1, it.end()
        while depth and end < len(text):
            depth += {"{": 1, "}": -1}.get(text[end], 0)
            end += 1
        found.append(Clause(it.start(), end, it["kind"], (it["label"] or "").strip(), it["comment"] or "", text[it.end() : end - 1]))
    return found


def head_clauses(text, function):
    """The clauses of a function."""
    return [it for it in clauses(text) if it.kind in ("requires", "ensures") and function.start <= it.start < function.body]


def by_module(text):
    """A text in which each import names one module: `use A.B.{c}` in place of `use A.{B.c}`."""
    def each(it):
        head, path, items, end = it.groups()
        modules = {}
        for within, name in (WITHIN.fullmatch(item).groups() for item in items.split(", ")):
            modules.setdefault(f"{path}.{within}", []).append(name)
        return "\n".join(f"{head}{module}{{{', '.join(names)}}}{end}" for module, names in modules.items())
    return IMPORT.sub(each, text)


@cache
def imported(text):
    """What a file imports: of each thing the head of the import, its path, and the name that it has there."""
    its = ((head, first, it.strip(), rest) for head, first, group, rest in IMPORTED.findall(text) for it in (group.split(",") if group else [""]))
    paths = [(head, *f"{first}{it}{rest}".replace("::", ".").split(" as ")) for head, first, it, rest in its if it or first[-1] not in ".:"]
    return [(head, path.strip(), (here or [path.split(".")[-1]])[0].strip()) for head, path, *here in paths]


def imports(text):
    """The definitions that a file imports, by the name that each has there: its crate, module and name, or a whole module without a name."""
    its = ((here, re.fullmatch(r"Rattle\.(\w+)\.specs\.(\w+)(?:\.(.*))?", path)) for _, path, here in imported(text))
    return {here: tuple(filter(None, it.groups())) for here, it in its if it}


def cited(text, names):
    """The definitions that a text names, given what its file imports, in the order of their places."""
    found = {}
    for word in WORD.findall(text):
        head, _, rest = word.partition(".")
        if len(its := names.get(head, ())) == 3:
            found[its] = None
        elif its and rest:
            found[(*its, rest.split(".")[0])] = None
    return found


def sentence(comment):
    """A comment as sentences: with a capital and a full stop."""
    text = " ".join(filter(None, (line.strip().lstrip("/-").strip() for line in comment.splitlines())))
    return text and text[0].upper() + text[1:] + ("" if text.endswith((".", ":")) else ".")


def definitions(crate):
    """The definitions of a crate's specs/, each by its crate, module and name: its sentence, its text, and the definitions that it names."""
    found = {}
    for path in sorted(folder(crate).glob("specs/*.antt")):
        text = path.read_text()
        its = [*DEFINITION.finditer(text)]
        names = imports(text) | {it["name"]: (crate, path.stem, it["name"]) for it in its}
        for it, end in zip(its, [*(it.start("head") for it in its[1:]), len(text)]):
            its_text = text[it.start("head") : end]
            found[names[it["name"]]] = Definition(sentence(it["comment"]), its_text, cited(its_text, names))
    return found


def reached(found, names):
    """The things that are among these, or that these name directly or through others."""
    found, left = set(), list(found)
    while left:
        it = left.pop()
        if it not in found:
            found.add(it)
            left += names.get(it, ())
    return found


def edits(name, kind="must-fail"):
    """The edits of a crate by their names: its wrong bodies, their twins, or its wrong definitions."""
    stem, *change = KINDS[kind]
    file, its, end = folder(name) / f"{stem}.edits", {}, 0
    text = file.read_text() if file.exists() else ""
    while (found := EDIT.match(text, end)) and found[1] not in its:
        its[found[1]], end = re.sub(*change, found[2], flags=re.M), found.end()
    if end < len(text):
        raise SystemExit(f"{relative(file)}:{text.count(chr(10), 0, end) + 1}: not an edit with its twin, or one whose name an earlier one has")
    return [Edit(name, kind, *it) for it in sorted(its.items())]


def edited(texts, edit):
    """The texts of a crate's files with one more edit, or None if one of its old texts isn't there exactly once."""
    texts = dict(texts)
    for file, old, new in edit.changes():
        text = texts.get(file) or (folder(edit.crate) / file).read_text()
        if text.count(old) != 1:
            return None
        texts[file] = text.replace(old, new)
    return texts


def beginning(page):
    """What a page that is made has before its first list or part: this is written by hand, and stays."""
    path = TOP / page
    return re.split(r"^(?:- |## )", path.read_text() if path.exists() else "", maxsplit=1, flags=re.M)[0]


def shown(text):
    """Text as a cell of a table shows it."""
    parts = re.split(r"(`[^`]*`)", text.replace("|", "\\|"))
    return "".join(part if part[:1] == "`" else html.escape(part, quote=False) for part in parts)


def differing(words, command, **pages):
    """Writes these pages of docs/ if the word is --write. Returns what is wrong with those that differ from the sources, with the first lines."""
    for name, text in pages.items():
        path = TOP / f"docs/{name}.md"
        if words == ["--write"]:
            path.write_text(text)
        if (before := path.read_text() if path.exists() else "") != text:
            yield from (line.rstrip("\n") for line in list(difflib.unified_diff(before.splitlines(), text.splitlines(), path.name, "the sources"))[:40])
            yield f"docs/{path.name} differs from the sources: run .ci/{command} --write"


@contextmanager
def copied(names):
    """A folder with a copy of these crates and those below them, and with what earlier checks have proved."""
    with TemporaryDirectory(prefix="gate-") as room:
        needed = reached(names, crates())
        shutil.copy(TOP / "HANDLES", room)
        Path(room, "crates.txt").write_text("".join(f"{line}\n" for name, line in crate_lines().items() if name in needed))
        for name in needed:
            shutil.copytree(folder(name), Path(room, "crates", name), ignore=shutil.ignore_patterns("must-fail"))
        yield Path(room)


def said_by(folder, *command, shown=False):
    """The status of a command that runs in a folder, and what it prints. It is also printed here if it is to be shown."""
    said, errors = "", None if shown else subprocess.STDOUT
    with subprocess.Popen(command, cwd=folder, stdin=subprocess.DEVNULL, stdout=subprocess.PIPE, stderr=errors, text=True, errors="replace") as run:
        try:
            for line in run.stdout:
                print(line if shown else "", end="", flush=True)
                said += line
        except BaseException:
            run.terminate()
            raise
    return run.returncode, said


def verdict(wrong, well):
    """Prints what is wrong, or that all is well. Returns the status."""
    wrong = list(wrong)
    print("\n".join(wrong) or well, file=sys.stderr if wrong else sys.stdout)
    return 1 if wrong else 0
