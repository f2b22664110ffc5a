"""promises: checks that what the pages name exists in the sources: calls with their clauses, steps of the rule, words of code, items, files, links,
versions, and files shown whole. A table of calls has each public one of its type or crate. A page names its reader in the first line, links the
glossary where it uses a word of it, and has no heading twice. No two files of specs/ define the same name, but those that the glossary lists."""

import re
from collections import defaultdict
from functools import cache

from gate import calls, laws, record, tree

MOST_WORDS = {"README.md": 700}
PAGES = ["README.md", "docs/PROVED.md", "docs/RULE.md", "docs/LIBRARY.md", "docs/LINKING.md", "docs/GLOSSARY.md", "docs/EXTENDING.md"]
VERSION = re.compile(r"rattle-kit-\w+|logic [0-9a-f]{16}")
CODE = re.compile(r"`([^`]+)`")
# Words of the glossary that a reader meets first; `pass`, `hold` and `stand` as nouns, or of a thread.
OF_GLOSSARY = re.compile(r"\b(?:brooms?|a pass|passes|pins?|pinned|a hold|holds a page|drain(?:s|ed)?|fold(?:s|ed)?|meets?|stand)\b")


def text_of(place):
    """The texts of all files in a place."""
    return "".join(path.read_text() for path in tree.TOP.glob(place))


def public_calls():
    """The public calls of each type, and the public functions of each crate: by their names, what each promises, as the labels of its clauses."""
    found = {}
    for crate in (name for name in tree.crates() if name not in (*laws.LAWS, *laws.CALLERS)):
        for it, _, text in calls.public(crate):
            labels = {clause.label or "unnamed" for clause in tree.head_clauses(text, it) if clause.kind == "ensures"}
            found.setdefault((crate, it.type), {})[it.called] = labels
    return list(found.values())


def rows(lines, *wanted):
    """Each row of the tables with these columns: its line's number, and the words of code in these columns."""
    columns = None
    for number, line in enumerate(lines, 1):
        cells = [cell.strip() for cell in re.split(r"(?<!\\)\|", line)[1:-1]]
        if not line.startswith("|"):
            columns = None
        elif set(wanted) <= set(cells):
            columns = [cells.index(name) for name in wanted]
        elif columns and not cells[0].startswith("---"):
            yield number, [CODE.findall(cells[column]) for column in columns]


def in_full(names):
    """The calls that a row names, with their type: `Room::open` and `close` are two of Room."""
    owner = ""
    for name in (re.match(r"[\w:]*", name)[0] for name in names):
        owner = name.rpartition("::")[0] or owner
        yield name if "::" in name or not owner else f"{owner}::{name}"


def wrong_rows(page, lines, groups):
    """What is wrong with the tables of calls of a page. A row without calls is of those of the row above. One of a clause and its definition has each
    call of the type that keeps the clause. A table without clauses has each public call of its types, or public function of its crates."""
    there, named = set(re.findall(r"\w+", text_of("bindings/include/*.h"))).union(*groups), []
    for number, (names, labels) in rows(lines, "Call", "Clause"):
        named = list(in_full(names)) or named
        yield from (f"{page}:{number}: no public call {it}" for it in named if it not in there)
        has = set().union(*(group.get(it, ()) for group in groups for it in named))
        yield from (f"{page}:{number}: no clause {label} at {', '.join(named)}" for label in labels if label not in has)
    for number, (names, labels, _) in rows(lines, "Call", "Clause", "Definition"):
        named = set(in_full(names))
        keeping = {it for group in groups for it in group if named & group.keys() and "::" in it and set(labels) & group[it]}
        yield from (f"{page}:{number}: {it} has the clause too" for it in sorted(keeping - named))
    for columns in (("Call", "Cost"), ("Call", "For"), ("Call", "Codes")):
        numbers = {it: number for number, (names, _) in rows(lines, *columns) for it in in_full(names)}
        yield from (f"{page}:{number}: no public call {it}" for it, number in numbers.items() if it not in there)
        wanted = set().union(*(group for group in groups if group.keys() & numbers.keys()))
        yield from (f"{page}: no row for {it}" for it in sorted(wanted - numbers.keys()))


def wrong_steps(page, lines):
    """What is wrong with the tables of steps of a page."""
    laws = text_of("crates/flash_rule/proofs/*.antt")
    tells = dict(re.findall(r"impl Play<[^>]*> for (\w+) \{\s*ghost then = \{ (\w+) \}", text_of("crates/flash_rule/src/*.rt")))
    bodies = re.split(r"\n    (?:pub(?:\(crate\))? )?fn ", text_of("crates/flash_table/src/*.rt"))[1:]
    makers = {(play, body.split("(")[0]) for body in bodies for play in re.findall(r"::<(\w+)>\(", body)}
    made, seen = {play for play, _ in makers}, set()
    for number, (plays, lemmas, calls) in rows(lines, "Play", "Lemma", "Call"):
        seen |= set(plays)
        yield from (f"{page}:{number}: no lemma {lemma}" for lemma in lemmas if not re.search(rf"^ *pub {lemma} :", laws, re.M))
        yield from (f"{page}:{number}: no call makes {play}" for play in plays if play not in made)
        makes = {call for call in calls for play in plays if (play, call.split("::")[-1]) in makers}
        yield from (f"{page}:{number}: {call} doesn't make it" for call in calls if call not in makes)
    for number, (plays, said) in rows(lines, "Play", "Tells"):
        yield from (f"{page}:{number}: {play} doesn't tell {said}" for play in plays if [tells.get(play)] != said)
    yield from (f"{page}: no row for the step {play}" for play in (sorted(made.union(tells) - seen) if seen else ()))


def words_of_sources():
    """Each word of the sources, of the names of their files, and of the record of refusals with its versions."""
    suffixes = {".rt", ".antt", ".txt", ".h", ".c", ".cpp", ".rs", ".py", ""}
    places = ("crates/*/*/**/*", "crates/*", "*", ".ci/*", "examples/**/*", "bench/*", "bindings/**/*", "packaging/*")
    files = [path for place in places for path in tree.TOP.glob(place) if "out" not in path.relative_to(tree.TOP).parts]
    text = "".join(path.read_text() for path in files if path.is_file() and path.suffix in suffixes)
    return set(re.findall(r"\w+", text + " ".join(str(path) for path in files)))


def twice_defined():
    """The names that two files of specs/ define and the glossary doesn't list, and those that it lists in vain."""
    files = defaultdict(list)
    for name, path in {(it["name"], path) for path in tree.TOP.glob("crates/*/specs/*.antt") for it in tree.DEFINITION.finditer(path.read_text())}:
        files[name].append(tree.relative(path))
    twice = {name: sorted(its) for name, its in files.items() if len(its) > 1}
    listed = {name for _, [names] in rows(text_of("docs/GLOSSARY.md").splitlines(), "Defined twice") for name in names}
    yield from (f"{twice[name][1]}: {name} is also defined in {twice[name][0]}" for name in sorted(set(twice) - listed))
    yield from (f"docs/GLOSSARY.md: {name} isn't defined twice" for name in sorted(listed - set(twice)))


def leads(page, link):
    """Whether a link of a page leads to a file, and to a heading in it if it names one."""
    file, _, heading = link.partition("#")
    target = page.parent / file if file else page
    titles = re.findall(r"^#+ (.*)", target.read_text(), re.M) if heading and target.is_file() else ()
    return heading in [re.sub(r"[^\w\- ]", "", title).strip().lower().replace(" ", "-") for title in titles] if heading else target.exists()


def differing_copies(page):
    """The files that a page says to show whole, and shows otherwise."""
    for link, shown in re.findall(r"\]\(([^)]+)\), whole:\n\n```\w*\n(.*?)```", page.read_text(), re.S):
        yield from [f"{tree.relative(page)}: {link} is different in its file"] if (page.parent / link).read_text() != shown else []
    crates = tree.crate_lines().values()
    for lines in re.findall(r"\n```\n(geometry:\n.*?)```", page.read_text(), re.S):
        yield from (f"{tree.relative(page)}: crates.txt has no line `{line}`" for line in lines.splitlines() if line not in crates)


def wrong_shape(page, text, prose):
    """The headings that a page has twice, and its words if it has too many."""
    titles = [line for line in prose if line.startswith("#")]
    yield from [] if re.match(r"# .*\n\n(?:For |.* for )", text) else [f"{page}: the first line doesn't name its reader"]
    yield from (f"{page}: there are two headings {title.lstrip('# ')}" for title in sorted(set(titles)) if titles.count(title) > 1)
    yield from [f"{page}: {words} words, and at most {most} are wanted"] if (words := len(text.split())) > (most := MOST_WORDS.get(page, words)) else []


def without_glossary(page, prose):
    """The first line with a word of the glossary, if neither it nor an earlier line links the glossary."""
    lines = (it for it in enumerate(prose, 1) if not it[1].startswith("#"))
    number, line = next((it for it in lines if "GLOSSARY.md" in it[1] or OF_GLOSSARY.search(it[1])), (0, "GLOSSARY.md"))
    if "GLOSSARY.md" not in line:
        yield f"{page}:{number}: {OF_GLOSSARY.search(line)[0]} is a word of the glossary, which isn't linked yet"


@cache
def words_in(place):
    """The words of the crate of this name, or of the modules of this name."""
    return set(re.findall(r"\w+", text_of(f"crates/{place}/src/**/*.rt" if tree.folder(place).is_dir() else f"crates/*/src/**/{place}.rt")))


def wrong_code(page, code, known):
    """What a page names in code quotes and isn't there: a file, an item of a crate or of a module, or on some pages any word."""
    places = [tree.TOP / code, tree.TOP / "crates" / code, tree.TOP / f"crates/{code}.antt", (tree.TOP / page).parent / code]
    is_path = re.fullmatch(r"[\w.]+(/[\w.-]+)+", code) and "NAME" not in code and "out" not in code.split("/")
    yield from [f"no file {code}"] if is_path and not any(place.exists() for place in places) else []
    its = re.findall(r"(?<![\w:])([a-z]\w*)::(\w+)", code)
    yield from (f"{place} has no {item}" for place, item in its if words_in(place) and item not in words_in(place))
    words = re.findall(r"_*[A-Za-z]\w+", code) if page in PAGES else ()
    yield from (f"{word} doesn't occur in the sources" for word in words if word not in known)


def main(_):
    recorded = set(VERSION.findall(str(record.Record("refused", "must-fail").versions().values())))
    groups, known_words, wrong = public_calls(), words_of_sources(), [*twice_defined()]
    for path in (path for place in ("*.md", "docs/*.md", "bench/*.md", "crates/*/README.md") for path in tree.TOP.glob(place)):
        page, text = tree.relative(path), path.read_text()
        prose = re.sub(r"```.*?```", lambda block: "\n" * block[0].count("\n"), text, flags=re.S).splitlines()
        wrong += [*differing_copies(path), *wrong_shape(page, text, prose)]
        if path.name not in ("GLOSSARY.md", "CHANGELOG.md"):
            wrong += without_glossary(page, prose)
        for number, line in enumerate(prose, 1):
            wrong += [f"{page}:{number}: {it}" for code in CODE.findall(line) for it in wrong_code(page, code, known_words)]
            wrong += [f"{page}:{number}: nothing at {link}" for link in re.findall(r"\]\(([^):]+)\)", line) if not leads(path, link)]
        if page in PAGES:
            wrong += [*wrong_rows(page, prose, groups), *wrong_steps(page, prose)]
        versions = sorted(recorded ^ set(VERSION.findall(text))) if page in ("README.md", "docs/PROVED.md") else ()
        wrong += [f"{page}: {it} is {'in the record, and not on the page' if it in recorded else 'on the page, and not in the record'}" for it in versions]
    return tree.verdict(wrong, "each link leads somewhere, and each call, clause, step and word of code on the pages exists in the sources")
