"""definitions [--write]: fails if a definition or a public call has no comment; if only functions need a definition that nobody calls; or if one of a
public clause has no law, no caller and no reason in laws.py, or no wrong definition that says less, by tried.py. --write then makes two pages, which git
doesn't keep: docs/DEFINITIONS.md, of the comments above the public definitions of specs/ and above the types that a crate exports, and docs/CALLS.md,
by calls.py."""

import re

from gate import calls, laws, tree, tried

HEAD = """# Definitions

For proof engineers.

This page lists each definition that a contract may cite, with the sentence above it in the sources. The crates are in the order of
`crates.txt`. The types of a crate come last, and its internal definitions are hidden until you open them. The
[glossary](GLOSSARY.md) has words such as pass, pin, hold, broom, drain and meet.

"""
SHOWN = """- Only premises name these, directly or through other definitions, so no promise shows what they say; each caller has to prove them:
{}.
- No clause names these, directly or through other definitions. They are used in proofs: {}.

{}
"""


def table(rows, kind="Definition"):
    return f"| {kind} | In one sentence |\n|---|---|\n" + "".join(f"| `{name}` | {tree.shown(says)} |\n" for name, says in rows) + "\n"


def modules(crate):
    """The files of specs/ in the order of Lib.antt, each with whether it is internal."""
    internal = False
    for line in (tree.folder(crate) / "specs/Lib.antt").read_text().splitlines():
        if line.startswith("--"):
            internal = "internal" in line.lower()
        elif line.startswith("pub mod "):
            yield tree.folder(crate) / f"specs/{line.split()[2]}.antt", internal


def exported_types(crate):
    """The types that a crate's root file exports, with their sentences."""
    names, _ = calls.exported(crate)
    types = (it for path in tree.sources(crate) for it in tree.TYPE.finditer(path.read_text()))
    return [(it["name"], tree.sentence(it["comment"])) for it in types if it["name"] in names]


def part(crate, known):
    """The page's text about a crate."""
    text = f"## `{crate}`\n\n"
    for path, internal in modules(crate):
        rows = [(name, its.sentence) for (home, module, name), its in known.items() if (home, module) == (crate, path.stem)]
        title = tree.sentence(re.match(r"(?:--.*\n)*", path.read_text())[0])
        if internal:
            text += f"<details><summary>Internal: {path.name}. {tree.shown(title)}</summary>\n\n{table(rows)}</details>\n\n"
        else:
            text += f"**[`{path.name}`](../{tree.relative(path)})** {title}\n\n{table(rows)}"
    types = exported_types(crate)
    return text + (f"**Types**\n\n{table(types, 'Type')}" if types else "")


def made(known):
    """The page, and what is wrong with the definitions."""
    names, clauses = {it: its.names for it, its in known.items()}, list(laws.named_by_clauses())
    shown_as = laws.shown_by_laws(known, clauses)
    # What promises name, and what any clause names, directly or through other definitions.
    promised, everywhere = (tree.reached(set().union(*(it.names for it in clauses if it.kind != kind)), names) for kind in ("requires", ""))
    premises = [it for it in names if it in everywhere - promised]
    crates = [name for name in tree.crates() if (tree.folder(name) / "specs/Lib.antt").exists()]
    lists = (", ".join(f"`{name}` of `{crate}`" for crate, _, name in its) or "none" for its in (premises, [it for it in names if it not in everywhere]))
    about = SHOWN.format(*lists, laws.counted(shown_as))
    page = HEAD + about + "".join(part(name, known) for name in crates).rstrip("\n") + "\n"
    bare = [f"crates/{crate}/specs/{module}.antt: {name}" for (crate, module, name), its in known.items() if not its.sentence]
    bare += [f"crates/{crate}: {name}" for crate in crates for name, sentence in exported_types(crate) if not sentence]
    wrong = [*(f"{it} has no sentence above it" for it in bare), *laws.idle(premises, names, clauses), *laws.without(shown_as)]
    return page, [*wrong, *tried.wrong(known, shown_as)]


def main(words):
    known = {it: its for crate in tree.crates() for it, its in tree.definitions(crate).items()}
    (page, wrong), (calls_page, bare) = made(known), calls.page(known)
    if words == ["--write"] and not (wrong or bare):
        for name, text in (("DEFINITIONS", page), ("CALLS", calls_page)):
            (tree.TOP / f"docs/{name}.md").write_text(text)
    return tree.verdict([*wrong, *bare], f"each of {len(known)} definitions and each public call has a sentence above it")
