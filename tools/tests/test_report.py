import gzip
import io
import json
import pathlib
import random
import re
import tempfile
import unittest

from simulation import collected, model, over_time
from simulation.answers import read_answers
from tests.packages import needs
from tests.test_model import line_of
from tests.tools import TOP, Run

COLLECTION = TOP / "examples/collection.out"
LOG = b"line,victim,copied,copybacks,erases,outcome\n5,0,1,1,1,freed\n"
BROOMS = b"broom,drained,moved,programmed,erased,kept,retired,lost,pinned,stale,idle\n0,5,12,13,3,1,1,2,4,0,9\n1,1,2,2,1,0,0,0,0,1,8\n"
WEAR = b"block,erases,live,retired\n0,1,0,0\n1,0,1,0\n2,0,2,0\n"


def report(answers, *words):
    return Run("report", "-", *words, given=answers)


class InFolder(unittest.TestCase):
    def setUp(self):
        folder = tempfile.TemporaryDirectory()
        self.addCleanup(folder.cleanup)
        self.folder = pathlib.Path(folder.name)

    def file(self, name, data):
        (self.folder / name).write_bytes(data)
        return self.folder / name


class Reported(unittest.TestCase):
    def test_reports_example(self):
        done = Run("report", COLLECTION, "--json")
        reported = json.loads(done.text)
        wanted = {
            "lines": 9, "reads_empty": 1, "reads_data": 1, "writes_empty": 3, "writes_written": 2, "writes_worn": 0, "writes_full": 0,
            "writes_refused": 0, "first_refused_line": None, "trims_empty": 0, "trims_written": 1, "meets": 1,
            "programs": 5, "copies": 1, "erases": 1, "write_amplification": 1.2,
            "page_bytes": 8, "bytes_written": 40, "erases_per_gigabyte": 25_000_000, "blocks": None,
        }
        self.assertEqual({name: reported[name] for name in wanted}, wanted)
        self.assertIn("write amplification  1.200 (5 pages written, 1 copied)\n", Run("report", COLLECTION).text)

    def test_counts_refused_writes_and_names_first(self):
        text = report(b"1,write,0,empty\n2,write,1,worn\n3,write,0,worn\nend,1,0,0\n").text
        self.assertEqual(text.splitlines()[0], "run                  the whole run, 3 lines; REFUSED: 2 of 3 writes (2 worn), the first at line 2")

    def test_reports_run_without_totals(self):
        reported = json.loads(report(b"1,write,0,empty\n2,write,0,full\nend\n", "--json").text)
        self.assertEqual((reported["writes_full"], reported["first_refused_line"], reported["write_amplification"]), (1, 2, None))

    def test_page_bytes_option_sets_bytes_written(self):
        reported = json.loads(report(b"1,write,0,empty\nend,1,0,1\n", "--json", "--page-bytes", "4000").text)
        self.assertEqual((reported["bytes_written"], reported["erases_per_gigabyte"]), (4000, 250_000))

    def test_no_amplification_without_writes(self):
        done = report(b"1,read,0,empty\nend,0,0,0\n")
        self.assertIn("write amplification  nothing was written\n", done.text)

    def test_reports_spread_of_erases(self):
        with tempfile.NamedTemporaryFile() as wear:
            wear.write(b"block,erases,live,retired\n0,4,0,0\n1,1,1,0\n2,3,0,1\n3,2,2,0\n4,0,0,0\n")
            wear.flush()
            reported = json.loads(report(b"end,99,0,10\n", "--json", "--wear", wear.name).text)
        spread = [reported[f"erases_{name}"] for name in ("least", "quartile_1", "median", "quartile_3", "most")]
        self.assertEqual(spread, [0, 1, 2, 3, 4])
        self.assertEqual((reported["blocks"], reported["retired_blocks"], reported["live_pages"]), (5, 1, 3))


class Refused(unittest.TestCase):
    def test_reports_line_of_broken_answer(self):
        for text, message in [
            (b"", "the answers don't end with a line `end`"),
            (b"1,write,0,empty\n", "the answers don't end with a line `end`: they are cut short after line 1"),
            (b"1,write,0\nend,0,0,0\n", "line 1: an answer has 4 fields"),
            (b"2,write,0,empty\nend,1,0,0\n", "line 1: it is counted as line 2"),
            (b"1,write,0,met\nend,1,0,0\n", "line 1: 'met' isn't an answer of a write"),
            (b"1,read,0,0102030405\nend,0,0,0\n", "line 1: '0102030405' isn't an answer of a read"),
            (b"1,read,0,0102030405060708\n2,read,0," + b"00" * 16 + b"\nend,0,0,0\n", "line 2: a page of 16 bytes, but others have 8"),
            (b"1,write,0,empty\nend,2,0,0\n", "line 2: 2 programs, where 1 writes were accepted"),
            (b"end,0,0,0\n1,read,0,empty\n", "line 2: the run has ended"),
        ]:
            with self.subTest(text):
                done = report(text)
                self.assertEqual((done.status, done.text), (3, ""))
                self.assertIn(message, done.errors)

    def test_refuses_wear_of_another_run(self):
        with tempfile.NamedTemporaryFile() as wear:
            for text, message in [
                (WEAR.replace(b"0,1,", b"0,2,"), "the wear file has 2 erases and the answers 1"),
                (WEAR.replace(b"block,", b"blocks,"), "line 1: a wear file begins with"),
                (WEAR.replace(b"\n1,", b"\n2,"), "line 3: block 1 is expected here"),
                (WEAR[:-5], "line 4: a block has 4 fields"),
            ]:
                wear.seek(0)
                wear.truncate()
                wear.write(text)
                wear.flush()
                done = Run("report", COLLECTION, "--wear", wear.name)
                self.assertEqual((done.status, done.text), (3, ""), message)
                self.assertIn(message, done.errors)

    def test_reports_missing_file_and_folder(self):
        done = Run("report", "no_such_file")
        self.assertEqual((done.status, done.errors), (1, "report: no_such_file: No such file or directory\n"))
        self.assertEqual((Run("report", "/").status, Run("report", "/").errors), (1, "report: /: Is a directory\n"))


class Collections(InFolder):
    def reported(self, *words):
        return json.loads(Run("report", COLLECTION, "--json", *words).text)

    def test_reports_log_of_example(self):
        log = self.file("log", LOG)
        reported = self.reported("--collections", log)
        wanted = {
            "collections": 1, "first_collection_line": 5, "victim_live_pages_mean": 1, "copybacks": 1, "copyback_share": 1,
            "collections_retired": 0, "brooms": None,
        }
        self.assertEqual({name: reported[name] for name in wanted}, wanted)
        text = Run("report", COLLECTION, "--collections", log).text
        self.assertIn("collections          1, the first at line 5; 1.00 pages copied each, 100.0 % of them by copyback\n", text)

    @needs("numpy", "matplotlib")
    def test_reports_sums_over_brooms(self):
        log = self.file("log", BROOMS)
        reported = json.loads(report(b"1,write,0,empty\nend\n", "--json", "--collections", log).text)
        wanted = {"brooms": 2, "broom_drained": 6, "broom_moved": 14, "broom_programmed": 15, "broom_erased": 4, "broom_idle": 17, "collections": None}
        self.assertEqual({name: reported[name] for name in wanted}, wanted)
        for words in (("--victims-picture", "x.svg"), ("--part", TOP / "examples/parts/made_up_2020s.toml")):
            done = report(b"1,write,0,empty\nend\n", "--collections", log, *words)
            self.assertEqual((done.status, done.text), (2, ""))
            self.assertIn("the log is of brooms", done.errors)
        self.assertIn("6 blocks drained, 4 erased, 1 retired, 1 kept", report(b"1,write,0,empty\nend\n", "--collections", log).text)

    def test_reads_compressed_files(self):
        done = Run("report", self.file("a", gzip.compress(COLLECTION.read_bytes())), "--collections", self.file("log", gzip.compress(LOG)), "--json")
        self.assertEqual(json.loads(done.text), self.reported("--collections", self.file("plain", LOG)))

    def test_reports_last_line_alone(self):
        reported = json.loads(report(b"end,5,1,1\n", "--json", "--page-bytes", "8", "--collections", self.file("log", LOG)).text)
        names = ("lines", "write_amplification", "erases_per_gigabyte", "copybacks")
        self.assertEqual([reported[name] for name in names], [None, 1.2, 25_000_000, 1])

    @needs("matplotlib")
    def test_page_of_quiet_run_names_the_option(self):
        page = self.folder / "page.html"
        for answers, quiet in ((self.file("quiet", b"end,5,1,1\n"), True), (COLLECTION, False)):
            device = ("--blocks", "3", "--pages", "2", "--words", "1", "--sectors", "3")
            words = ("--collections", self.file("log", LOG), "--trace", "trace.csv", *device, "--page", page)
            self.assertEqual(Run("report", answers, *words).errors, "")
            self.assertEqual(" --quiet &lt; trace.csv &gt; " in page.read_text(), quiet)

    def test_reports_source_of_page_bytes(self):
        self.assertIn("(40 bytes in pages of 8, as the reads show)", Run("report", COLLECTION).text)
        self.assertIn("(20,480 bytes in pages of 4,096, as --page-bytes says)", Run("report", COLLECTION, "--page-bytes", "4096").text)
        self.assertEqual([self.reported(*words)["page_bytes_from"] for words in ((), ("--page-bytes", "4096"))], ["reads", "option"])

    def test_refuses_broken_log_and_log_of_another_run(self):
        head, row = LOG.splitlines(keepends=True)
        for text, message in [
            (head, "the log has 0 erases and 0 copies, and the answers 1 and 1: they are of two runs"),
            (LOG.replace(b"5,0,1,1", b"5,0,0,0"), "the log has 1 erases and 0 copies, and the answers 1 and 1"),
            (LOG.replace(b"5,0,1,1", b"6,0,1,1"), "line 2 of the log: line 6 of the answers isn't a write that was done"),
            (LOG.replace(b"line,", b"lines,"), "line 1: a log of collections begins with"),
            (head + b"5,0,1,1,1\n", "line 2: a collection has 6 fields, and this line has 5"),
            (head + b"5,0,1,2,1,freed\n", "line 2: more copybacks than copies"),
            (head + b"5,0,1,1,0,freed\n", "line 2: a victim that wasn't erased"),
            (head + b"5,0,1,1,1,lost\n", "line 2: 'lost' is neither freed nor retired"),
            (head + row + row, "line 3: a collection at line 5 of the trace after one at line 5"),
            (head + b"5,0,1,1,1,retired\n6,0,1,1,1,freed\n", "line 3: a collection after the one that retired its victim"),
            (BROOMS.replace(b"\n1,1,2", b"\n1,1,3"), "line 3: more pages moved than programmed"),
            (BROOMS.replace(b"\n1,", b"\n2,"), "line 3: this line should be that of broom 1"),
        ]:
            with self.subTest(message):
                done = Run("report", COLLECTION, "--collections", self.file("log", text))
                self.assertEqual((done.status, done.text), (3, ""))
                self.assertIn(message, done.errors)

    def test_refuses_device_that_contradicts_files(self):
        files = ("--collections", self.file("log", LOG), "--wear", self.file("wear", WEAR))
        device = (TOP / "examples/collection.args").read_text().split()
        self.assertEqual(Run("report", COLLECTION, *files, *device).status, 0)
        for words, message in [
            (("--blocks", "4"), "the wear file has 3 blocks, and the device of the options has 4"),
            (("--words", "2"), "the reads show pages of 8 bytes, and the device of the options has 16"),
            (("--pages", "1", "--sectors", "1"), "the log has a victim that the device of the options can't have"),
        ]:
            with self.subTest(words):
                done = Run("report", COLLECTION, *files, *device, *words)
                self.assertEqual(done.status, 3)
                self.assertIn(message, done.errors)
        self.assertEqual(Run("report", COLLECTION, *files, *device, "--pages", "1").status, 2)

    def test_refuses_invalid_arguments(self):
        for words in (("--victims-picture", "x.svg"), ("--collections", "log", "--victims-picture", "x.gif"), ("--pieces", "0")):
            with self.subTest(words):
                self.assertEqual(Run("report", COLLECTION, *words).status, 2)

    @needs("matplotlib")
    def test_erases_picture_needs_wear(self):
        self.assertEqual(Run("report", COLLECTION, "--erases-picture", "x.svg").status, 2)


class OverTime(unittest.TestCase):
    def pieces(self, answers, log, count):
        return over_time.in_pieces(read_answers(io.BytesIO(answers)), collected.read_log(io.BytesIO(log)), count)

    def test_pages_and_collections_of_each_piece(self):
        pieces = self.pieces(COLLECTION.read_bytes(), LOG, 3)
        found = [(piece.first, piece.line, piece.programs, piece.copies, piece.collections) for piece in pieces]
        self.assertEqual(found, [(1, 3, 3, 0, 0), (4, 6, 2, 1, 1), (7, 9, 0, 0, 0)])
        self.assertEqual([piece.write_amplification() for piece in pieces], [1, 1.5, None])
        self.assertEqual(over_time.so_far(pieces), [1, 1.2, 1.2])
        # The collection is of the piece that ends with its line.
        self.assertEqual([piece.collections for piece in self.pieces(COLLECTION.read_bytes(), LOG, 9)], [0, 0, 0, 0, 1, 0, 0, 0, 0])

    def test_pieces_are_differences_of_shorter_runs(self):
        """What a piece adds is what a run of the trace up to its end has more than one up to its begin."""
        seeded = random.Random(5)
        device = {"luns": 1, "blocks": 5, "pages": 4, "words": 1, "sectors": 13, "endurance": 1000}
        lines = [line_of(op, seeded, 13) for op in seeded.choices(("write", "read", "trim"), (8, 2, 1), k=400)]
        played = model.Model(**device)
        answers = "".join(played.play("".join(lines).encode())).encode()
        before = model.Model(**device)
        for piece in self.pieces(answers, played.log().encode(), 7):
            after = model.Model(**device)
            list(after.play("".join(lines[: piece.line]).encode()))
            grown = after.programs - before.programs, after.copies - before.copies, len(after.collections) - len(before.collections)
            self.assertEqual((piece.programs, piece.copies, piece.collections), grown)
            before = after
        self.assertGreater(played.copies, 0)

    def test_counts_victims_by_live_pages(self):
        head = LOG.splitlines(keepends=True)[0]
        log = collected.read_log(io.BytesIO(head + b"5,0,1,1,1,freed\n6,1,0,0,1,freed\n9,0,1,0,2,freed\n"))
        self.assertEqual(collected.live_pages(log), [(0, 1), (1, 2)])
        reported = collected.as_object(log)
        self.assertEqual((reported["collections"], reported["victim_live_pages_mean"], reported["copyback_share"]), (3, 2 / 3, 0.5))


@needs("matplotlib")
class Pictures(InFolder):
    kinds = ("erases", "amplification", "collections", "victims")

    def drawn(self, suffix, *words):
        log, wear = self.file("log", LOG), self.file("wear", WEAR)
        paths = [self.folder / f"{kind}{suffix}" for kind in self.kinds]
        pictures = [word for kind, path in zip(self.kinds, paths) for word in (f"--{kind}-picture", path)]
        done = Run("report", COLLECTION, "--wear", wear, "--collections", log, "--pieces", 3, *pictures, *words)
        self.assertEqual(done.status, 0, done.errors)
        return [path.read_bytes() for path in paths]

    def test_pictures_name_axes_device_and_trace(self):
        device = (TOP / "examples/collection.args").read_text().split()
        title = "3 blocks of 2 pages, 3 sectors (50 %) · collection.csv"
        axes = ("erases", "write amplification", "collections per 1,000 lines", "live pages of the victim (all are copied)")
        for picture, wanted in zip(self.drawn(".svg", "--trace", TOP / "examples/collection.csv", *device), axes):
            text = picture.decode()
            self.assertIn("<svg", text)
            self.assertIn(wanted, text)
            self.assertRegex(text, f"<dc:title>{re.escape(title)}</dc:title>")
            self.assertRegex(text, f"<text[^>]*>{re.escape(title)}</text>")

    def test_draws_png_by_name(self):
        for picture in self.drawn(".png"):
            self.assertTrue(picture.startswith(b"\x89PNG\r\n"))

    def test_draws_curve_for_more_than_200_blocks(self):
        paths = []
        for count in (200, 201):
            wear = b"block,erases,live,retired\n" + b"".join(b"%d,%d,0,%d\n" % (block, block % 7, block == 6) for block in range(count))
            erases = sum(block % 7 for block in range(count))
            paths.append(self.folder / f"{count}.svg")
            done = Run("report", self.file("answers", b"end,9999,0,%d\n" % erases), "--wear", self.file("wear", wear), "--erases-picture", paths[-1])
            self.assertEqual(done.status, 0, done.errors)
        bars, curve = (path.read_text() for path in paths)
        self.assertIn("in use", bars)
        self.assertIn("from the least erased to the most", curve)
        self.assertIn("retired", curve)
        self.assertLess(curve.count("<path"), bars.count("<path") / 3)
