"""What files say, as a set that stays the same if a declaration moves to another file of its crate: their items and their imports, without comments. An
import only says where a name lies, and counts with its crate and folder; with its file too if two files of the folder define the name. An item with a
name of two meanings in its folder counts with the one that it has. An answer counts for its function, and a file with settings for itself."""

import re
from collections import Counter, defaultdict
from functools import cache

from gate import tree

COMMENT = re.compile(r"^ *(?://|--).*\n", re.M)
MODULE = re.compile(r"^(?:(?:pub\(\w+\) )?mod \w+;|(?:pub )?mod \w+)\n", re.M)
# A line with a name that an item defines, by the suffix of the file.
DEFINED = {
    ".rt": re.compile(r".*?\b(?:fn|struct|enum|trait|type|static|const(?! fn)|macro_rules!) (\w+)"),
    ".antt": re.compile(r" *(?!unfolding |infix|module )(?:pub |abbrev |unfoldable |record |data )*([^\s(){}\[\].,;=|]+) .*?[:=]"),
}
# The part of a path that names the file of a definition or a lemma, or the modules of a type or a function: in an import, in code, and in a folder.
THROUGH = re.compile(
    r"^(Rattle\.\w+\.(?:specs|proofs)\.)(?:[A-Z]\w*(?:\.(?=[^.]+$)|$)|((?:declared|contracts)\.|)(?:[a-z]\w*\.)*?"
    r"(?=(?:[a-z]\w*\.)?(?:Goals|Given|Code|Answers|Invariants|Proof)\b|[A-Z]))"
)
IN_CODE = re.compile(r"\b(\w+)::(specs|proofs)::[A-Z]\w*::([^\s,:()]+)")
OF_FUNCTION = re.compile(r"^(?:[a-z]\w*/)*?(?=[a-z]\w*/\w+\.antt$|[A-Z])")
# A word that may be a name of the file: no part of a path behind another part, in definitions and lemmas, and in code.
WORDS = re.compile(r"(?<![^\s(){}\[\],;])[^\s(){}\[\],;.]+"), re.compile(r"(?<![\w:])\w+")


@cache
def read(text, suffix):
    """The imports of a file, its other items, and the names that it has for others, also those in a module and the constructors of a type."""
    text, items = COMMENT.sub("", text.rstrip("\n") + "\n"), []
    for it in re.split(r"\n\n+(?=\S)", MODULE.sub("", tree.IMPORTED.sub("", text)).strip("\n")):
        # Each method is an item with the head of its `impl`.
        head = it[: it.find("{") + 1] if it.startswith("impl") else ""
        parts = re.split(r"\n\n+(?=    [^\s{}])", it.removeprefix(head).removesuffix("\n}")) if head else [it]
        items += [[line for line in f"{head}\n{part}".splitlines() if line.strip()] for part in parts if part.strip()]
    lines = (line for it in items for line in it if re.match(r"(?:  )?\S" if re.match(r"module |(?:pub )?data ", it[0]) else r"\S", line))
    exported = {name for head, _, name in tree.imported(text) if "pub" in head and suffix == ".antt"}
    return tree.imported(text), ["\n".join(it) for it in items], exported | {its[1] for line in lines if (its := DEFINED[suffix].match(line))}


def defined_twice():
    """The names that two files of a folder of a crate have, each with its crate and the folder."""
    twice = set()
    for crate, folder in ((crate, folder) for crate in tree.crates() for folder in ("src", "specs", "proofs")):
        files = (tree.folder(crate) / folder).glob("**/*.rt" if folder == "src" else "*.antt")
        names = Counter(name for it in files for name in read(it.read_text(), it.suffix)[2])
        twice |= {(crate, folder, name) for name, count in names.items() if count > 1}
    return twice


def settled(path, crate, twice):
    """What a path in a crate means, without the file that it goes through."""
    head, *rest = path.split(".")
    if head == "Rattle" and tree.folder(rest[0]).is_dir():
        folder = "src" if {"declared", "contracts"} & {*rest} else rest[1]
        names = rest[2:] if len(rest) > 3 else [it[2] for it in twice if it[:2] == (rest[0], folder)]
        return path if any((rest[0], folder, it) in twice for it in names) else THROUGH.sub(r"\1\2", path)
    is_own = rest and (head in ("crate", "super", "self") or any(tree.folder(crate).glob(f"src/**/{head}.rt")))
    return f"{crate} {rest[-1]}" if is_own and (crate, "src", rest[-1]) not in twice else path


def of(paths):
    """What these files say."""
    its, files, meant, twice = {(tree.relative(it), it.read_text()) for it in paths if it.suffix not in DEFINED}, [], defaultdict(set), defined_twice()
    for path in (it for it in paths if it.suffix in DEFINED):
        text, (_, crate, folder, *rest) = path.read_text(), tree.relative(path).split("/")
        (imported, items, names), file, is_answer = read(text, path.suffix), "/".join(rest), folder == "proofs" and len(rest) > 1
        is_alone = any((crate, "src", it) in twice for it in rest) if is_answer else "#![" in text and file not in ("lib.rt", "main.rt")
        place = f"{crate}/{folder}/{file if is_alone else OF_FUNCTION.sub('', file) if is_answer else ''}"
        own = "crate" if folder == "src" else f"Rattle.{crate}.{folder}"
        named = [*imported, *(("", f"{own}.{path.stem}.{name}", name) for name in names if not is_answer)]
        scope = [(head, name, settled(target, crate, twice)) for head, target, name in named]
        its |= {(place, *it) for it in scope if is_answer or "pub" in it[0] or not it[2].startswith((f"{crate} ", f"{own}."))}
        for word, it in ((word, it) for _, *it in scope for word in it[0].split("◌")):
            meant[place, word].add(tuple(it))
        files.append((place, items, crate, {it[1:] for it in scope}))
    for place, item, crate, scope in ((place, item, *others) for place, items, *others in files for item in items):
        words = {word for its in WORDS for word in its.findall(item)}
        means = set().union(*(scope & meant[place, word] for word in words if len(meant[place, word]) > 1))
        is_twice = lambda it: (crate if it[1] == "crate" else it[1], it[2], it[3]) in twice
        its.add((place, IN_CODE.sub(lambda it: it[0] if is_twice(it) else "::".join(it.groups()), item), *sorted(means)))
    return its
