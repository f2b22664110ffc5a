"""docs/CALLS.md: each public call with the sentence above it, each of its clauses with what it says, and each law."""

import re

from gate import laws, tree

HEAD = """# Public calls

For authors of programs in Rattle, and for proof engineers.

This page has each public call with the sentence above it in the sources, and each of its clauses by its label: what the call
requires of its caller, and then what it promises. A clause is shown by the comment above it, or by the definitions that it names, with
the sentence of each where a crate names it first; one that names no such definition stands as it is, unless it is long. Each definition
is in [DEFINITIONS.md](DEFINITIONS.md). [PROVED.md](PROVED.md) says what the promises rest on and what isn't proved, and the
[glossary](GLOSSARY.md) has words such as pass, pin, hold, broom and drain.

"""
LAWS = """## Laws of the definitions\n
A clause says no more than the definitions that it names. So each of these functions, which have no code, says where a definition holds
and where it doesn't.\n
| Law | What its clauses say | Definitions |\n|---|---|---|
"""
# A longer clause is left to the source.
LONGEST = 200
# The comment right above the head of a function, or above its attributes.
COMMENT = re.compile(r"((?:^ *///.*\n)*)(?:^ *#\[.*\n)*\Z", re.M)


def exported(crate):
    """The names that a crate's root file exports, and its public modules."""
    root = tree.folder(crate) / "src/lib.rt"
    text = root.read_text() if root.exists() else ""
    return set(re.findall(r"\w+", " ".join(re.findall(r"pub use ([^;]*);", text)))), re.findall(r"^pub mod (\w+);", text, re.M)


def public(crate):
    """The public functions of a crate, each with its file and the file's text."""
    names, modules = exported(crate)
    for path, text in ((path, path.read_text()) for path in tree.sources(crate)):
        is_open = path.stem in modules or path == tree.folder(crate) / "src/lib.rt"
        yield from ((it, path, text) for it in tree.functions(text) if it.public and (is_open or (it.type or it.name) in names))


def meaning(it, known, told, within=True):
    """A definition with its sentence, unless it was told before, and so those of its own crate that it names."""
    if it in told:
        return f"`{it[2]}`"
    told.add(it)
    parts = [other for other in known[it].names if within and other[0] == it[0] and other[2][0].isupper() and other in known and other not in told]
    inner = " ".join(meaning(other, known, told, False) for other in parts)
    return f"`{it[2]}`: {tree.shown(known[it].sentence)}" + (f" ({inner})" if inner else "")


def rows(function, path, text, known, told):
    """The rows of a call: the call, and each clause with what it says. The definitions that were told are added to `told`."""
    comment = "".join(line for line in COMMENT.search(text[: function.start])[1].splitlines(True) if "/// |" not in line)
    yield f"[`{function.called}`](../{tree.relative(path)})", "", tree.shown(tree.sentence(comment))
    for it in tree.head_clauses(text, function):
        named = [other for other in tree.cited(it.text, tree.imports(text)) if other in known and other[2][0].isupper()]
        says, clause = tree.shown(" ".join(line.strip().lstrip("/ ") for line in it.comment.splitlines())), " ".join(it.text.split())
        if not says and named:
            says = " ".join(meaning(it, known, told) for it in named)
        elif not says:
            says = tree.shown(f"`{clause}`") if len(clause) <= LONGEST else "In the source."
        yield "", ("requires " if it.kind == "requires" else "") + (f"`{it.label}`" if it.label else "unnamed"), says


def part(crate, known):
    told = set()
    text = "".join(f"| {' | '.join(cells)} |\n" for call in public(crate) for cells in rows(*call, known, told))
    return f"## `{crate}`\n\n| Call | Clause | What it says |\n|---|---|---|\n{text}\n" if text else ""


def page(known):
    """The page, and what is wrong with the sources."""
    used = [name for name in tree.crates() if name not in laws.CALLERS]
    known = {it: its for it, its in known.items() if its.sentence and it[0] in used}
    text = HEAD + "".join(part(name, known) for name in used if name != "laws") + LAWS
    files = [path for name in used if (path := tree.folder(name) / "src/laws.rt").exists()]
    its = [*public("laws"), *((it, path, path.read_text()) for path in files for it in tree.functions(path.read_text()))]
    for function, path, its_text in its:
        name, _, says = next(rows(function, path, its_text, known, set()))
        cited = tree.cited(" ".join(it.text for it in tree.head_clauses(its_text, function)), tree.imports(its_text))
        text += f"| {name} | {says} | {', '.join(dict.fromkeys(f'`{it[2]}`' for it in cited if it in known))} |\n"
    return text, [f"{name} has no sentence above it" for name in re.findall(r"^\| \[`([^`]*)`\]\(\S*\) \|(?:  \|)+$", text, re.M)]
