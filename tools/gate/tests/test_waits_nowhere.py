"""What `waits-nowhere` refuses, tried on the crates themselves: two bodies of each kind that spin (with for, while, loop, a chain of iterators,
recursion) and some of other kinds, each beside a twin of its place and shape that waits for nobody."""

import shutil
from pathlib import Path

from gate import tree, waits_nowhere
from gate.tests import Small

TABLE, HOST = "flash_table/src/steps.rt", "host/src/writing.rt"
# The place at which a body spins, by its file: the text behind it.
PLACES = {
    TABLE: "        let found = self\n            .table\n            .shared\n            .swap::<PlaceTrim>",
    HOST: "    flash.place_trim(pass, sector)\n",
    "host/src/searching.rt": "    let mut tries = 0;\n",
    "host/src/lib.rt": "mod holding;\n",
    "broom/src/lib.rt": "mod answer;\n",
}
EMPTY = "self.table.shared.load::<See>(&mut pass.seat, sector as usize) == UNMAPPED"
FOUND = "flash.look(pass, sector).is_some()"
LOOP, CALL, RANGE = "a loop that isn't listed", "a call that isn't listed: ", "a range that doesn't end with a length"
# Each body that spins: its file, its lines, what the check says of it, and the lines of its twin.
SPINS = (
    (TABLE, f"for _ in 0..4_000_000_000u64 {{ if {EMPTY} {{ break; }} }}", LOOP, f"if {EMPTY} {{ return Was::Empty; }}"),
    (HOST, "for i in 0..words {}", LOOP, "let words = flash.geometry().words();"),
    (TABLE, f"while !({EMPTY}) {{}}", LOOP, f"let while_empty = {EMPTY};"),
    (HOST, "let mut left = u64::MAX; while left > 0 { left -= 1; }", LOOP, "let mut left = u64::MAX; if left > 0 { left -= 1; }"),
    (TABLE, f"'spin: loop {{ if {EMPTY} {{ break 'spin; }} }}", LOOP, f"'once: {{ if {EMPTY} {{ break 'once; }} }}"),
    ("host/src/searching.rt", f"loop {{ if {FOUND} {{ break; }} }}", LOOP, f"if {FOUND} {{ gate.at(Point::AfterLook); }} // loop {{"),
    (TABLE, f"(0..4_000_000_000u64).find(|_| {EMPTY});", CALL + ".find", f"4_000_000_000u64.saturating_sub({EMPTY} as u64);"),
    (HOST, f"std::iter::repeat(0).all(|_| {FOUND});", CALL + "std::iter::repeat", f'let text = "std::iter::repeat(0).all(|_| {FOUND})";'),
    ("broom/src/lib.rt", "fn spins() {\n    iter.fold((), |_, _| ());\n}", CALL + ".fold", "fn spins() {\n    Broom::fold(iter, ());\n}"),
    (HOST, "let _n = (0..u64::MAX).count();", RANGE, "let _n = (0..page.len()).count();"),
    (HOST, "let n = u64::MAX; let _n = (0..n).count();", RANGE, "let n = page.len(); let _n = (0..n).count();"),
    (HOST, "let n = page.len(); let (n, _) = (u64::MAX, n); (0..n).count();", RANGE, "let n = page.len(); let (m, _) = (u64::MAX, 1); (0..n).count();"),
    (HOST, "let turns = 0..=u64::MAX; turns.count();", RANGE, "let turns = 0..page.len(); turns.count();"),
    (HOST, "let _n = page[(1..).count()];", RANGE, "let _n = page[1..].len();"),
    (HOST, "Range { start: 0, end: u64::MAX }.count();", "may have no end: Range", "Span { start: 0, end: u64::MAX }.count();"),
    ("host/src/lib.rt", "impl Iterator for Turns {}", "may have no end: impl Iterator", "impl Iterated for Turns {}"),
    (HOST, "std::thread::take(a);", CALL + "std::thread::take", "std::mem::replace(&mut a, b);"),
    ("host/src/lib.rt", "use std::thread::park as take;\nfn waits() {\n    take();\n}", CALL + "take",
     "use crate::writing::take_lowest as take;\nfn waits() {\n    take();\n}"),
    ("host/src/lib.rt", "use std::{thread::{take}};", "can't read `use std::{thread::{`", "use std::thread::{take};"),
    (HOST, "atomic_table::take(a);", CALL + "atomic_table::take", "flash_table::take(a);"),
    (HOST, f"if {FOUND} {{ trim(flash, pass, sector); }}", "crates/host/writing.rt: trim calls itself", f"if {FOUND} {{ close_if_full(flash, pass); }}"),
    (TABLE, f"if {EMPTY} {{ Self::place_trim(self, pass, sector); }}", "Flash::place_trim calls itself", f"if {EMPTY} {{ Self::take(self, pass, 0); }}"),
    (TABLE, "self.table.shared.peek(sector as usize);", CALL + ".peek", "self.table.shared.load(sector as usize);"),
    (HOST, 'let _ = std::fs::read("a pipe");', CALL + "std::fs::read", "let _ = std::mem::replace(&mut a, b);"),
    (HOST, "let _turn = turn.lock(rt);", CALL + ".lock", "let _turn = turn.clone();"),
    (HOST, f"for block in 0..flash.geometry().blocks() {{ loop {{ if {FOUND} {{ break; }} }} }}", LOOP, f"if {FOUND} {{ if {FOUND} {{ }} }}"),
    (HOST, 'let text = r#"a " text"#; loop {} let other = "";', "can't read `r#", 'let text = "a \\" text, loop {}"; let other = "";'),
    (HOST, 'let one = 1; /* " */ loop {} /* " */', "can't read `/*`", 'let one = 1; // " */ loop {} /x " x/'),
    (HOST, f"if {FOUND} {{ super::writing::trim(flash, pass, sector); }}", "trim calls itself", f"if {FOUND} {{ broom::trim(flash, pass, sector); }}"),
    (TABLE, f"if {EMPTY} {{ self\n    .place_trim(pass, sector); }}", "Flash::place_trim calls itself", f"if {EMPTY} {{ self.a.place_trim(pass, 0); }}"),
    ("host/src/lib.rt", "struct Node {\n    next: Option<Box<Node>>,\n}", "Node contains itself", "struct Node {\n    next: Option<Box<u8>>,\n}"),
    ("host/src/lib.rt", "enum Node {\n    Last,\n    More(Box<Self>),\n}", "Node contains itself", "enum Node {\n    Last,\n    More(Box<Last>),\n}"),
    ("host/src/lib.rt", "pub struct Node(u8, Box<Node>);", "Node contains itself", "pub struct Node(u8, Box<Nodes>);"),
    ("host/src/lib.rt", "#[cycle(spins)]", CALL + "cycle", "#[inline]"),
    ("host/src/lib.rt", "macro_rules! spin { () => { loop {} } }", LOOP, "// macro_rules! spin { () => { loop {} } }"),
)


class Waits(Small):
    def setUp(self):
        super().setUp()
        self.write("crates.txt", (Path(__file__).parents[3] / "crates.txt").read_text())
        for name in waits_nowhere.CRATES:
            shutil.copytree(Path(__file__).parents[3] / "crates" / name / "src", tree.folder(name) / "src")

    def test_the_crates_pass(self):
        self.run_main(waits_nowhere)

    def test_a_body_that_spins_is_refused_and_its_twin_is_not(self):
        for file, spins, said, twin in SPINS:
            path = self.top / "crates" / file
            before, place = path.read_text(), PLACES[file]
            self.assertEqual(before.count(place), 1, file)
            with self.subTest(spins):
                path.write_text(before.replace(place, f"{spins}\n{place}"))
                self.assertIn(said, self.run_main(waits_nowhere, status=1))
                path.write_text(before.replace(place, f"{twin}\n{place}"))
                self.run_main(waits_nowhere)
            path.write_text(before)

    def test_a_function_with_a_measure_is_refused(self):
        (tree.folder("host") / "proofs/writing/+trim").mkdir(parents=True)
        self.assertIn("crates/host/proofs/writing/+trim: trim calls itself", self.run_main(waits_nowhere, status=1))

    def test_a_listed_loop_with_another_bound_is_refused(self):
        path = self.top / "crates" / HOST
        before, words = path.read_text(), "    let words = flash.geometry().words();\n"
        self.assertEqual(before.count(words), 1)
        for changed, said in (
            ("let words = 4_000_000_000;", "= 4_000_000_000"), ("let words: u64 = 4_000_000_000;", "= 4_000_000_000"), ("words <<= 20;", "= 20"),
            ("let (words, _) = (4_000_000_000, 0);", "is in (words, _)"), ("if let Some(words) = most {}", "is in Some(words)"),
            ("let Most { words, .. } = most;", "is in Most { words, .. }"), ("match most { Most { words, .. } => {} }", "is in Most { words, .. }"),
            ("let turns = |words| close_if_full(words);", "is in words"), ("close_if_full(&mut words);", "is in &mut words"),
        ):  # fmt: skip
            with self.subTest(changed):
                path.write_text(before.replace(words, f"{words}    {changed}\n"))
                self.assertIn(f"where words = flash.geometry().words() where words {said}", self.run_main(waits_nowhere, status=1))
                path.write_text(before.replace(words, f"{words}    {changed.replace('words', 'words_too')}\n"))
                self.run_main(waits_nowhere)

    def test_a_crate_that_the_check_does_not_read_is_refused(self):
        path, text = self.top / "crates" / HOST, (self.top / "crates.txt").read_text()
        before = path.read_text()
        for crate, status in (("spin", 1), ("flash_table", 0)):
            path.write_text(before.replace(PLACES[HOST], f"{crate}::take(pass);\n{PLACES[HOST]}"))
            self.write("crates.txt", text.replace("\nhost:", f"\n{crate}:\nhost: {crate}") if status else text)
            said = self.run_main(waits_nowhere, status=status)
            self.assertEqual("crates.txt: host uses spin, which this check doesn't read" in said, bool(status))
        # Without its line in crates.txt it can't be built, and is no name that the check knows.
        path.write_text(before.replace(PLACES[HOST], f"spin::poll(pass);\n{PLACES[HOST]}"))
        self.assertIn(CALL + "spin::poll", self.run_main(waits_nowhere, status=1))

    def test_a_listed_loop_that_is_gone_is_named(self):
        path = tree.folder("host") / "src/searching.rt"
        path.write_text(path.read_text().replace("    loop {", "    for _ in 0..9 {"))
        said = self.run_main(waits_nowhere, status=1)
        self.assertIn("a loop that isn't listed: host/searching.rt | search | for _ in 0..9", said)
        self.assertIn("no loop host/searching.rt | search | loop", said)
