"""How each definition that a public clause names is shown to say what its sentence says."""

import re
from collections import namedtuple

from gate import tree

# The clauses of these crates are laws and callers of the other crates' definitions, and so are those of a file src/laws.rt.
LAWS = ("laws", "uses")
# These crates only call the others, so their clauses are no public contracts either.
CALLERS = ("acceptance", "shared_acceptance", "run_acceptance", "session_acceptance", "durable_acceptance", "one_thread", "two_threads", "shared_nand_uses")
GROUPS = {
    "named": "are named by a law (a clause of `laws`, or of the module `laws` of another crate) or by a clause of a caller in `uses`",
    "reached": "are reached by a law only through another definition, so that a change may or may not make its clauses false",
    "facts": "are types of data, or facts with their proofs, which can't be true of one value and false of another",
}
# The definitions that have neither, each with the reason why none is wanted.
WITHOUT = {
    "counts_of of ftl_one": "a field",
    "items_of of rounds": "a field",
    "state_of of exports": "another name",
    "kept of handles": "a formula of what a value owns: what makes such a value refuses a stronger one, and what ends it a weaker one",
}
Named = namedtuple("Named", "crate file kind function names")


def named_by_clauses():
    """Each clause of the crates: its crate and file, its kind, the function that it is of, and the definitions that it names."""
    for crate in tree.crates():
        for path in tree.sources(crate):
            text = path.read_text()
            names = tree.imports(text)
            for it in tree.clauses(text):
                yield Named(crate, path.name, it.kind, tree.function_at(text, it.start), tree.cited(text[it.start : it.end], names))


def is_fact(text):
    """Whether this is the proof of a fact, a type of data, or the way it is stored: none can be true of one value and false of another."""
    if text.startswith("pub record "):
        return all(it.strip().startswith("Type") for it in re.findall(r"[({][^:(){}]+:\s*([^(){}]+)[)}]", text.split(" where")[0]))
    if text.startswith("pub data "):
        return "→" not in text.split(" where")[0]
    return text.startswith("pub ") or re.search(r"(?<!\S): (.*)", text)[1].startswith(("Coded ", "Type "))


def shown_by_laws(known, clauses):
    """How each definition that a public clause names is shown: its group, or "" if it has neither a law nor a caller."""
    names = {it: its.names for it, its in known.items()}
    others = [it for it in clauses if it.crate not in (*LAWS, *CALLERS) and it.file != "laws.rt"]
    public = set().union(*(it.names for it in others if not it.function or it.function.public or it.function.of_trait))
    laws = set().union(*(it.names for it in clauses if it.crate in LAWS or it.file == "laws.rt"))
    laws |= tree.reached((it for it in laws if it[0] in LAWS), {it: its for it, its in names.items() if it[0] in LAWS})
    through = tree.reached(laws, names)
    return {
        it: "named" if it in laws else "facts" if is_fact(its.text.strip()) else "reached" if it in through else ""
        for it, its in known.items() if it in public and it[0] not in (*LAWS, *CALLERS)
    }  # fmt: skip


def counted(shown):
    """The page's text about laws."""
    kinds = [f"- {list(shown.values()).count(group)} {words}." for group, words in GROUPS.items()]
    told = "; ".join(f"`{name.replace(' of ', '` of `')}` ({why})" for name, why in WITHOUT.items())
    return "\n".join([f"Public clauses name {len(shown)} definitions:", "", *kinds, f"- The others are {told}."]) + "\n"


def without(shown):
    """The definitions that should have a law and have none, and those that are listed in vain."""
    lacking = {f"{name} of {crate}" for (crate, _, name), group in shown.items() if not group}
    yield from (f"{it} is named in a public clause, and has neither a law nor a caller: write a law in crates/laws" for it in sorted(lacking - {*WITHOUT}))
    yield from (f"tools/gate/laws.py lists {it} in vain" for it in WITHOUT if it not in lacking)


def is_called(name, home, used):
    """Whether a crate that can call a function of a crate has a call of this name."""
    call = re.compile(rf"^(?! *(?://|ghost )).*(?<!fn )\b{name}(?:::<[^>]*>)?\(", re.M)
    return any(call.search(path.read_text()) for it in used if home in tree.reached([it], used) for path in tree.sources(it))


def idle(premises, names, clauses):
    """The definitions of these that only functions need that nobody calls."""
    used = tree.crates()
    needs = [(tree.reached(it.names, names), it) for it in clauses if it.kind == "requires"]
    found = {it for it in premises for needed, clause in needs if it in needed and is_called(clause.function.name, clause.crate, used)}
    yield from (f"only premises name {it[2]} of {it[0]}, and no function that needs it is called" for it in premises if it not in found)
