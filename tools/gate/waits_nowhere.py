"""waits-nowhere: checks the text of the crates that a call of the shared device runs through: each loop is one of LOOPS, each call is of a function of
these crates or one of CALLS, as crates.txt and the file's imports resolve its path, a range that is a value ends with a length, and no function calls
itself. docs/PROVED.md says what this is for, and what it doesn't see. The toolchain gives functions that call each other `#[cycle]`, and one
that calls itself a measure in a folder `+NAME`, unless it goes down a type that contains itself; none is here."""

import re
from collections import Counter
from functools import cache

from gate import tree

CRATES = ("geometry", "flash_rule", "flash_table", "host", "broom", "erase_queue", "volume", "handles", "exports", "version_map", "shared_nand",
          "reader_exports")
# The other crates that these may use. A call of one of them by its path is one of CALLS.
OTHERS = ("atomic_table", "core", "crossbeam_queue", "ftl_one", "std", "std_alloc", "std_heap", "thiserror")
# Each loop, as its head with what the names of its bound stand for, why it ends after a number of turns that no other thread can raise, and where it is.
LOOPS = """
for i in 0..counts.len() :: the blocks :: geometry/victim.rt greedy
for _ in 0..hosts where hosts = flash.geometry.hosts() as usize :: the hosts :: flash_table/open.rt Flash::open
for i in 0..count where count = flash.geometry.brooms() :: the brooms :: flash_table/open.rt Flash::open
loop :: the looks of a search: it looks again only after the page's block was collected, at most 2·blocks·endurance times :: host/searching.rt search
for i in 0..flash.geometry().words() :: the words of a page :: host/searching.rt read_page
for block in 0..flash.geometry().blocks() :: the blocks :: host/writing.rt take_lowest, broom/restocking.rt take_lowest
for block in 0..flash.geometry().blocks() :: the blocks :: broom/state.rt count_blocks, broom/survey.rt load_states
for i in 0..words where words = flash.geometry().words() :: the words of a page :: host/writing.rt fill, broom/relocation.rt copy_page
for sector in 0..flash.geometry().sectors() :: the sectors :: broom/dead.rt inspect, broom/survey.rt count_pages
for i in 0..geometry.pages() * (geometry.words() + 1) where geometry = flash.geometry() :: the words of a block :: broom/erasing.rt wipe_all
for block in 0..counts.len() :: the blocks :: broom/ranking.rt Ranking::make
while self.next < self.keys.len() :: the blocks that are ranked, each once for all calls :: broom/ranking.rt Ranking::first
for page in 0..victim.written :: the pages of a block :: broom/relocation.rt relocate
for _ in 0..limit :: the numbers of a queue :: erase_queue/queue.rt fix_limit
for _ in 0..brooms :: the brooms :: erase_queue/queue.rt EraseQueue::new
for other in others.iter_mut() :: the hosts :: volume/closing.rt meet_each
for sector in 0..count where count = flash.geometry().sectors() :: the sectors :: volume/closing.rt read_all
while let Some(pass) = passes.next() :: the hosts :: volume/closing.rt retire_all
while let Some(seat) = seats.next() :: the brooms :: volume/opening.rt fold_seats, volume/opening.rt make_brooms
while let Some(broom) = brooms.pop() :: the brooms :: volume/opening.rt fold_all, exports/shared/opening.rt retire_brooms, exports/shared/opening.rt seat_brooms
for handle in handles.iter_mut() :: the handles :: exports/shared/opening.rt close_all
while let Some(pass) = passes.pop() :: the hosts :: exports/shared/opening.rt retire_passes, exports/shared/opening.rt seat_hosts
for handle in handles.iter() :: the handles :: exports/shared/opening.rt are_closed
for i in 0..count :: the sectors of a trim :: version_map/calls.rt VersionMap::clear
for sector in 0..map.sectors() :: the sectors :: shared_nand/owning.rt Owner::load
for _ in 0..tries :: the looks that the caller gives :: shared_nand/reading.rt read
""".strip().splitlines()
# The calls of other crates and of closures, by the crate, with why they end. None of them takes a function or an iterator, or looks at a word without a step.
CALLS = """
atomic_table: one step on a word, or on what two seats know | load store swap compare_exchange fetch_add fetch_sub fetch_or join_seat split_seat
atomic_table: makes a table of these words | of_words
crossbeam_queue: makes a queue, or a pass of one | ruled another capacity
crossbeam_queue: may wait, and so takes the handle for that | push_as pop_as
ftl_one: the device for one thread, which no other thread has | new counts erases live retired
exports: the closure that an export passes on, called once; its code is read where it stands | call
std: memory and values of the calling thread | new with_capacity push_reserved resize destroy_empty clear from_raw into_raw null_mut cast clone replace
std: bytes and numbers of the calling thread | copy_from_slice fill len sort_unstable split_first_mut to_le_bytes from_le_bytes from wrapping_add saturating_sub
std: the next of a finite list | iter iter_mut into_iter next pop
std: reports | is_none is_some is_ok write_str
""".strip().splitlines()
MACROS = {"unreachable", "vec", "write"}
# How a path names a type of std that no import does, or the crate that it is in.
PRELUDE = set("Box Option Result String Vec bool char i8 i16 i32 i64 isize u8 u16 u32 u64 usize".split())
# Methods of std's iterators that take a function. No method of these crates is called by such a name.
ITERATORS = set("all any filter find fold for_each map position reduce scan skip_while take_while try_fold try_for_each".split())
# No code that runs: comments, strings, characters and the imports of definitions.
NO_CODE = re.compile(r"""//[^\n]*|b?"(?:[^"\\]|\\.)*"|b?'(?:[^'\\\n]|\\[^\n]+?)'|^[ \t]*(?:pub )?ghost use [^\n]*""", re.M | re.S)
SIGN = re.compile(r"[^\n]")
LOOP = re.compile(r"\b(?:for(?!<)|while|loop)\b[^\n{]*")
# A range with a beginning, which is an iterator if it is a value; and what only iterators that may have no end are made of.
RANGE = re.compile(r"[\w)\]]\s*(\.\.=?)\s*([\w.]*(?:\(\))?)")
ENDLESS = re.compile(r"\bRange\w*|\bimpl\b[^{;]*\b\w*Iterator\b[^{;]*\bfor\b")
LENGTH = re.compile(r"[\w.]+\.len\(\)")
# Names in the end of a loop's head that stand for a value, and the texts in which a pattern can bind a name or something else can change it.
ROOT = re.compile(r"(?<![\w:])(?<!(?<!\.)\.)[a-z_]\w*(?![\w(:])")
BINDING = re.compile(r"\blet\s+([^=;]*?)\s*(?::[^=;]*)?=(?!=)|\bfor\s+([^{}]*?)\s+in\b|\|([^|{};]*)\||(&mut \w+)")
ARM = re.compile(r"(?:^|(?<=[;{}]))((?:\{[^{}]*\}|[^;{}])+)=>")
# Texts in which a quote may begin or end something else than code_of takes it for, and imports that tree.imported doesn't read.
UNREADABLE = re.compile(r'/\*|\br#*"|^ *(?:pub(?:\(\w+\))? )?use [^;{]*\{[^;}]*[{*]|^ *(?:pub )?use [^;{]*\*', re.M)
TYPE = re.compile(r"\b(?:struct|enum) (\w+)\b([^;{(]*(?:\([^;]*;|\{.*?^\s*\}))", re.M | re.S)
IMPL = re.compile(r"^(?:unsafe )?impl\b[^{\n]* for\b", re.M)
CALL = re.compile(r"(?<!fn )(?<![\w.:#])((?:\w+::)+|)(\w+)(!?)(?:::<[^>()]*>)?(?:\(|(?<=!)[\[{ ])|\.(\w+)(?:::<[^>()]*>)?\(")
# Words before a parenthesis that call nothing: of the language, and of attributes.
NO_CALLS = set("if while match for in return fn pub let else move tactic using unfolding derive repr unsafe error allow".split())


@cache
def code_of(text):
    """The code of a file, with blanks in place of what doesn't run."""
    text = NO_CODE.sub(lambda found: SIGN.sub(" ", found[0]), text)
    for it in (it for it in tree.clauses(text) if not re.search(r"\bfn\b", it.label)):
        text = text[: it.start] + SIGN.sub(" ", text[it.start : it.end]) + text[it.end :]
    return text


@cache
def calls(code):
    """Each call, as the path before its name with "." for that of a method, the name, whether it is a macro, and its place."""
    found = [(*it.groups(), it.start()) for it in CALL.finditer(code)]
    named = [("." if method else path, name or method, bool(macro), place) for path, name, macro, method, place in found]
    return [it for it in named if it[1] not in NO_CALLS and not it[1][0].isupper()]


@cache
def bindings(code):
    """The patterns of a function that are more than the name of a `let`, and what it lends to be changed."""
    found = [*BINDING.finditer(code), *(ARM.finditer(code) if "=>" in code else ())]
    return [" ".join(next(filter(None, it.groups()), "").split()) for it in found if not re.match(r"let\s+(?:mut\s+)?\w+\s*[:=]", it[0])]


class Source:
    """A file, with its code and its functions."""

    def __init__(self, path):
        self.path, self.text, self.crate = path, path.read_text(), tree.relative(path).split("/")[1]
        self.name, self.code, self.functions = re.sub(r"^crates/|src/", "", tree.relative(path)), code_of(self.text), tree.functions(self.text)
        self.imported = {here: path for _, path, here in tree.imported(self.code)}

    def at(self, place):
        return f"{tree.relative(self.path)}:{self.code.count(chr(10), 0, place) + 1}"

    def values(self, name, place):
        """What a name stands for in the function of a place: each value that it is given by itself, and each other text that may bind or change it."""
        owner = tree.function_at(self.text, place)
        code = self.code[owner.start : owner.end] if owner else ""
        for value in re.findall(rf"(?<![\w.]){name}(?:\s*:[^=;{{}}\n]*)?\s*(?:[-+*/%&|^]|<<|>>)?=\s*([^;=]+);", code):
            yield "= " + " ".join(value.split())
        yield from (f"is in {its}" for its in bindings(code) if re.search(rf"\b{name}\b", its))

    def loops(self):
        """Each loop, as a line of the list without its reason, and its place."""
        for found in LOOP.finditer(IMPL.sub(lambda its: " " * len(its[0]), self.code)):
            owner, head = tree.function_at(self.text, found.start()), found[0].rstrip()
            roots = dict.fromkeys(ROOT.findall(head.partition(" in ")[2])) if head.startswith("for ") else ()
            values = [f" where {name} {value}" for name in roots if name != "self" for value in self.values(name, found.start())]
            yield f"{self.name} | {owner.called if owner else 'outside'} | {head}{''.join(values)}", found.start()

    def ranges(self):
        """The ends and places of the ranges that aren't of a loop's head, which is listed, or of a slice."""
        heads = [range(*it.span()) for it in LOOP.finditer(self.code)]
        for found in (it for it in RANGE.finditer(self.code) if not any(it.start(1) in head for head in heads)):
            depth, at = 0, found.start(1)
            while depth >= 0 and at:
                at -= 1
                depth += {")": 1, "]": 1, "}": 1, "(": -1, "[": -1, "{": -1}.get(self.code[at], 0)
            if not (self.code[at] == "[" and re.match(r"[\w)\]]", self.code[at - 1])):
                yield found[2], found.start(1)

    def home(self, path, name):
        """The first name of a call's path, as the imports resolve it, or "" for a method and for a function that this file names by itself."""
        its = f"{path}{name}".split("::")
        return "" if path == "." or not (path or name in self.imported) else self.imported.get(its[0], its[0]).split(".")[0]


def wrong_loops(files):
    """The loops that aren't listed, and those that are and aren't there."""
    wanted = Counter(f"{it.replace(' ', ' | ')} | {head}" for head, _, places in (line.split(" :: ") for line in LOOPS) for it in places.split(", "))
    for file in files:
        for line, place in file.loops():
            yield from [] if wanted[line] else [f"{file.at(place)}: a loop that isn't listed: {line}"]
            wanted[line] -= 1
    yield from (f"tools/gate/waits_nowhere.py: no loop {line}" for line, count in wanted.items() if count > 0)


def wrong_calls(files):
    """The calls of functions that are neither of these crates nor listed, and the crates that these use and this check doesn't read."""
    lines, used, listed = tree.crate_lines(), tree.crates(), {it: set() for it in OTHERS}
    for name in CRATES:
        its = set(re.findall(r"\w+", lines[name].partition(":")[2])) - {*CRATES, *OTHERS}
        yield from (f"crates.txt: {name} uses {it}, which this check doesn't read" for it in sorted(its))
    for crate, words in ((line.split(":")[0], line.partition(" | ")[2].split()) for line in CALLS):
        listed.setdefault(crate, set()).update(words)
    listed |= dict.fromkeys(PRELUDE, listed["std"])
    others, own = set().union(*listed.values()), {it: {its.name for file in files if file.crate == it for its in file.functions} for it in CRATES}
    below = {name: set().union(*(own[it] for it in tree.reached([name], used) if it in own)) for name in CRATES}
    for file in files:
        known = below[file.crate]
        for path, name, macro, place in calls(file.code):
            home = file.home(path, name)
            names = known if home in CRATES or not (home or path) else listed.get(home, known | others)
            names = MACROS if macro else names - ITERATORS if path == "." else names | listed["exports"]
            yield from [] if name in names else [f"{file.at(place)}: a call that isn't listed: {path}{name}{'!' if macro else ''}"]


def wrong_ranges(files):
    """The ranges that don't end with a length, since a call such as `count` goes through the whole range, and iterators of these crates."""
    for file in files:
        for end, place in file.ranges():
            values = list(file.values(end, place)) if re.fullmatch(r"\w+", end) else [f"= {end}"]
            if not values or not all(value.startswith("= ") and LENGTH.fullmatch(value[2:]) for value in values):
                yield f"{file.at(place)}: a range that doesn't end with a length"
        yield from (f"{file.at(it.start())}: an iterator that may have no end: {it[0]}" for it in ENDLESS.finditer(file.code))


def wrong_cycles(files):
    """The functions that call themselves by a path or on `self`, those that have a measure, and the types that contain themselves."""
    for file in files:
        recursive = (name for name, text in TYPE.findall(file.code) if re.search(rf"\b(?:Self|{name})\b", text))
        yield from (f"crates/{file.name}: {name} contains itself" for name in recursive)
        for path, name, macro, place in calls(file.code):
            owner = tree.function_at(file.text, place)
            if owner and owner.name == name and not macro:
                own = {"Self", owner.type} if owner.type else {"self", "crate", "super", file.path.stem}
                on_itself = {"": not owner.type, ".": re.search(r"\bself\s*\Z", file.code[max(0, place - 80) : place])}
                if on_itself.get(path, path.rstrip(":").split("::")[-1] in own):
                    yield f"crates/{file.name}: {owner.called} calls itself"
    yield from (f"{tree.relative(path)}: {path.name[1:]} calls itself" for crate in CRATES for path in tree.folder(crate).glob("proofs/**/+*"))


def main(_):
    files = [Source(path) for crate in CRATES for path in tree.sources(crate)]
    unreadable = (f"{tree.relative(it.path)}: this check can't read `{found[0]}`" for it in files if (found := UNREADABLE.search(it.text)))
    wrong = [*unreadable, *wrong_loops(files), *wrong_calls(files), *wrong_ranges(files), *wrong_cycles(files)]
    return tree.verdict(wrong, f"no call of the shared device has a loop but listed ones, an unlisted call, or one of itself")
