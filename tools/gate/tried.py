"""Whether each definition that a public clause names says something: a law refuses it if it is made to say less. A law that only uses a definition, such as
one that says of a number what holds for each number, refuses nothing."""

import re

from gate import tree

# The definitions without a wrong definition that says less, by their crates. It may only become shorter.
FILE, MOST = ".ci/untried-definitions", 604
# An equation of a text with itself, which is true of all.
NOTHING = re.compile(r"(?<![^\s(=,×:])([^\s≡]+(?: [^\s≡=]+)*?) ≡ \1(?![^\s),])")
# The body of a definition: what stands behind the first `=` that isn't in the line of its type.
BODY = re.compile(r"\A(?:abbrev |unfoldable )?pub [^\n]*\n(?:[ \t][^\n]*\n)*?[^\n=]* =\s(.*?)(?:\n\n|\Z)", re.S)


def says_nothing(text):
    """Whether the whole body of a definition consists of such equations."""
    body = BODY.match(text)
    return bool(body) and not re.sub(r"[\s()×]", "", NOTHING.sub("", body[1]))


def is_predicate(text):
    return bool(re.match(r"(?:abbrev |unfoldable )?pub (?:record|data) |[^=]*\bType 0\b", text))


def tried(crate):
    """The definitions of a crate that have a wrong definition, each with whether one of them says less."""
    found = {}
    for it in tree.edits(crate, "wrong-definitions"):
        name, new = re.search(r"^definition: (.*)", it.text, re.M)[1], re.findall(r"^new: (.*)", it.text, re.M)
        found[name] = found.get(name, False) or any(NOTHING.search(text) for text in new)
    return found


def wrong(known, shown):
    """The definitions that say nothing, those that have a law or a caller and lack such a wrong definition, and those that are listed in vain."""
    file = tree.TOP / FILE
    listed, edits = file.read_text().splitlines() if file.exists() else [], {name: tried(name) for name in tree.crates()}
    empty = (it for it, its in known.items() if says_nothing(its.text))
    yield from (f"{name} of {crate} says nothing: each of its equations is of a text with itself" for crate, _, name in empty)
    needing = {(it[0], it[2]): is_predicate(known[it].text.strip()) for it, group in shown.items() if group in ("named", "reached")}
    has = lambda crate, name, predicate: edits[crate].get(name) if predicate else name in edits[crate]
    lacking = {f"{crate} {name}" for (crate, name), predicate in needing.items() if not has(crate, name, predicate)}
    for it in sorted(lacking - {*listed}):
        yield f"{it.replace(' ', ': ')} has no wrong definition that says less and that a law refuses: crates/{it.split()[0]}/wrong-definitions.edits"
    yield from (f"{FILE} lists {it} in vain" for it in listed if it not in lacking)
    yield from [f"{FILE} has {len(listed)} lines, and {MOST} are expected: it may only become shorter"] if len(listed) != MOST else []
