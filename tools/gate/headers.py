"""headers [--write]: checks, or writes, what docs/LINKING.md has of the headers of C: the table of codes, by the names, numbers and comments of the
enumerations, and in the tables of calls the arguments of each. What a call does and returns stays there as it is written by hand."""

import re

from gate import tree

PAGE = "docs/LINKING.md"
ENUMS = (("mintlintel.h", "mintlintel_code"), ("mintlintel_durable.h", "mintlintel_durable_code"))
CODE = re.compile(r"^ *(MINTLINTEL_\w+) = (\d+),? */\* (.*?) \*/", re.M)
HEAD = "| Code | Name | Meaning |\n|---|---|---|\n"
CALL = re.compile(r"^(?:const )?\w+ \*?(mintlintel_\w+)\(([^;]*)\);", re.M)
# A call in a table, as the page writes it: `..` stands for some arguments, and `h` and `d` for a handle and a device.
ON_PAGE = re.compile(r"`(mintlintel_\w+)\(([^`)]*)\)`")
SHORT = {"handle": "h", "device": "d"}
# A word of a comment that is a name of the header or of an argument.
NAME = re.compile(r"(?<![\w`])(?:[A-Z]+_[A-Z_]+|mintlintel_\w+|drain_dead|host_word|\.\.open_despite_losses|errno|luns)(?!\w)")


def header(name):
    return (tree.TOP / "bindings/include" / name).read_text()


def codes():
    """The rows of the codes: each number once, with its names and what they mean."""
    found = {}
    for file, enum in ENUMS:
        body = re.search(rf"^enum {enum} \{{\n(.*?)^\}};", header(file), re.M | re.S)[1]
        for name, number, meaning in CODE.findall(body):
            names, meanings = found.setdefault(int(number), ([], []))
            names.append(f"`{name}`")
            meanings.append(NAME.sub(r"`\g<0>`", tree.shown(meaning)))
    return "".join(f"| {number} | {', '.join(names)} | {'; '.join(meanings)} |\n" for number, (names, meanings) in sorted(found.items()))


def arguments():
    """The names of the arguments of each call."""
    texts = [header(path.name) for path in sorted((tree.TOP / "bindings/include").glob("*.h"))]
    return {name: [re.search(r"(\w+)\W*$", it)[1] for it in its.split(",") if it.strip() != "void"] for text in texts for name, its in CALL.findall(text)}


def made(page):
    """The page with the codes and the arguments of the headers, and the calls that no header has."""
    known, unknown = arguments(), []
    page = re.sub(re.escape(HEAD) + r"(?:\|.*\n)*", lambda _: HEAD + codes(), page)

    def call(it):
        name, words = it[1], it[2].split(", ")
        its = known.get(name)
        unknown.extend([] if its is not None else [f"{PAGE}: no header has {name}"])
        return it[0] if its is None or ".." in words or words == [""] else f"`{name}({', '.join([SHORT.get(its[0], its[0]), *its[1:]])})`"

    lines = (ON_PAGE.sub(call, line) if line.startswith("| `mintlintel_") else line for line in page.splitlines(True))
    return "".join(lines), unknown


def main(words):
    text, unknown = made((tree.TOP / PAGE).read_text())
    wrong = unknown or list(tree.differing(words, "headers", LINKING=text))
    return tree.verdict(wrong, f"{PAGE} has the {codes().count(chr(10))} codes and the calls of the headers")
