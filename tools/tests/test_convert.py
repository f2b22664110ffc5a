import gzip
import os
import struct
import subprocess
import sys
import tempfile
import unittest

from tests.packages import needs
from tests.tools import LOGS, TOOLS, convert


class Formats(unittest.TestCase):
    def test_converts_fio_iolog_version_2(self):
        done = convert("fio", (LOGS / "fio_2.log").read_bytes())
        self.assertEqual(done.lines, ["0,write,0,00000001", "0,write,1,00000002", "0,read,1,", "0,trim,0,"])
        self.assertEqual(done.errors, "trace: 3 requests became 4 lines; passed over: 1 of datasync, 3 of file action, 1 of sync, 1 of wait\n")

    def test_converts_iolog_of_fio_3_33(self):
        log = (LOGS / "fio_3.log").read_bytes()
        done = convert("fio", log, sectors=16)
        ios = [line.split() for line in log.decode().splitlines()[1:]]
        wanted = [(op, int(offset) // 4096) for _, _, op, offset, _ in (io for io in ios if len(io) == 5)]
        found = [(line.split(",")[1], int(line.split(",")[2])) for line in done.lines]
        self.assertEqual(found, wanted)
        self.assertEqual(len(found), 40)

    def test_reports_folder_as_standard_input(self):
        for name, *words in (("trace", "convert", "fio", "--page-bytes", "4096", "--sectors", "16"), ("report", "-"), ("model",)):
            with self.subTest(name), tempfile.TemporaryDirectory() as folder:
                opened = os.open(folder, os.O_RDONLY)
                done = subprocess.run([TOOLS / name, *words], stdin=opened, capture_output=True, text=True)
                os.close(opened)
                self.assertEqual((done.returncode, done.stdout, done.stderr), (1, "", f"{name}: standard input: Is a directory\n"))

    @needs("fio")
    def test_converts_iolog_of_installed_fio(self):
        with tempfile.TemporaryDirectory() as folder:
            words = ["--name=job", "--ioengine=null", "--filename=disk", "--size=64k", "--rw=randrw", "--bs=4k", f"--write_iolog={folder}/log"]
            subprocess.run(["fio", *words], cwd=folder, check=True, capture_output=True)
            with open(f"{folder}/log", "rb") as log:
                done = convert("fio", log.read(), sectors=16)
        self.assertEqual((done.status, len(done.lines)), (0, 16), done.errors)

    def test_converts_msr_csv(self):
        done = convert("msr", (LOGS / "msr.csv").read_bytes())
        self.assertEqual(
            done.lines,
            ["0,write,0,00000001", "0,read,0,", "0,read,1,", *(f"0,write,{page},0000000{page + 1}" for page in (3, 4, 5, 6)), "0,read,1,"],
        )

    def test_skips_header_row_of_msr_csv(self):
        log = b"Timestamp,Hostname,DiskNumber,Type,Offset,Size,ResponseTime\r\n1,hm,0,Read,0,1,1\r\n"
        self.assertEqual(convert("msr", log).lines, ["0,read,0,"])

    def test_converts_blkparse_text_by_each_action(self):
        log = (LOGS / "blkparse.txt").read_bytes()
        begin = ["0,write,0,00000001", "0,write,1,00000002", "0,write,2,00000003", "0,write,3,00000004", "0,read,0,", "0,write,0,00000006"]
        # Of the discard of sectors 1 to 32 the pages that lie in it whole; then a read of half a page.
        rest = ["0,trim,1,", "0,trim,2,", "0,trim,3,", "0,read,2,", "0,write,3,0000000b"]
        self.assertEqual(convert("blkparse", log).lines, [*begin, *rest, "0,write,4,0000000c"])
        self.assertEqual(convert("blkparse", log, "--action", "Q").lines, [*begin, *rest, "0,write,4,0000000c"])
        # The last of the writes failed.
        self.assertEqual(convert("blkparse", log, "--action", "C").lines, [*begin, *rest])


def event(sequence, microseconds, sector, count, action, kind):
    """An event as the kernel writes it: `struct blk_io_trace` of linux/blktrace_api.h, version 7, on the device 8,0."""
    categories = {"read": 1 << 0, "write": 1 << 1, "discard": 1 << 1 | 1 << 13}[kind] | 1 << 8
    number, category = {"Q": (1, 1 << 4), "D": (7, 1 << 6), "C": (8, 1 << 7)}[action]
    action, device, magic = number | (categories | category) << 16, 8 << 20, 0x65617407
    return struct.pack("=IIQQIIIIIHH", magic, sequence, microseconds * 1000, sector, count * 512, action, 99, device, 0, 0, 0)


class KernelEvents(unittest.TestCase):
    @needs("blkparse")
    def test_converts_text_of_installed_blkparse(self):
        requests = [(0, 16, "write"), (8, 8, "read"), (16, 16, "discard")]
        events, sequence = [], 0
        for number, (sector, count, kind) in enumerate(requests):
            for action, later in (("Q", 0), ("D", 5), ("C", 60)):
                sequence += 1
                events.append(event(sequence, 1000 * number + later, sector, count, action, kind))
        with tempfile.TemporaryDirectory() as folder:
            with open(f"{folder}/disk.blktrace.0", "wb") as log:
                log.write(b"".join(events))
            text = subprocess.run(["blkparse", "-i", "disk"], cwd=folder, capture_output=True, check=True).stdout
            done = convert("blkparse", text, "--arrivals", f"{folder}/arrivals")
            with open(f"{folder}/arrivals") as arrivals:
                times = arrivals.read().split()
        self.assertEqual((done.status, done.lines), (0, ["0,write,0,00000001", "0,write,1,00000002", "0,read,1,", "0,trim,2,", "0,trim,3,"]), done.errors)
        self.assertEqual(times, ["0.000", "0.000", "1000.000", "2000.000", "2000.000"])


class SectorNumbers(unittest.TestCase):
    log = b"1,a,0,Write,40960,8192,1\n2,a,0,Write,8192,4096,1\n3,a,0,Read,40960,4096,1\n"

    def test_refuses_page_beyond_device(self):
        done = convert("msr", self.log, sectors=11)
        self.assertEqual((done.status, done.text), (3, ""))
        self.assertIn("line 1: page 11 is past the end of the device of 11 sectors", done.errors)

    def test_wrap_maps_pages_into_device(self):
        self.assertEqual(convert("msr", self.log, "--wrap", sectors=8).lines, ["0,write,2,00000001", "0,write,3,00000002", "0,write,2,00000003", "0,read,2,"])

    def test_dense_numbers_pages_in_order_of_first_use(self):
        self.assertEqual(convert("msr", self.log, "--dense", sectors=3).lines, ["0,write,0,00000001", "0,write,1,00000002", "0,write,2,00000003", "0,read,0,"])

    def test_dense_refuses_more_pages_than_sectors(self):
        done = convert("msr", self.log, "--dense", sectors=2)
        self.assertEqual(done.status, 3)
        self.assertIn("line 2: with this line the log touches more than the 2 pages", done.errors)

    def test_dense_leaves_out_trim_of_untouched_pages(self):
        log = b"fio version 2 iolog\nf trim 0 1099511627776\nf write 8192 4096\nf trim 0 1099511627776\nf trim 8192 4096\n"
        self.assertEqual(convert("fio", log, "--dense", sectors=1).lines, ["0,write,0,00000001", "0,trim,0,", "0,trim,0,"])

    def test_trims_only_whole_pages(self):
        log = b"fio version 2 iolog\nf trim 1 4096\nf trim 1 8191\nf trim 0 8191\n"
        self.assertEqual(convert("fio", log).lines, ["0,trim,1,", "0,trim,0,"])

    def test_refuses_selects_or_merges_second_device(self):
        log = b"1,a,0,Read,0,1,1\n2,a,1,Write,0,1,1\n"
        refused = convert("msr", log)
        self.assertEqual((refused.status, refused.lines), (3, ["0,read,0,"]))
        self.assertIn("line 2: the log names a second device, a_1 in addition to a_0", refused.errors)
        self.assertEqual(convert("msr", log, "--device", "a_1").lines, ["0,write,0,00000001"])
        self.assertEqual(convert("msr", log, "--dense").lines, ["0,read,0,", "0,write,1,00000002"])
        self.assertEqual(convert("msr", log, "--device", "b_0").errors, "trace: no request is of the device b_0\n")

    def test_options_data_and_lines(self):
        done = convert("msr", self.log, "--data", "zeros", "--lines", "2")
        self.assertEqual(done.lines, ["0,write,10,", "0,write,11,"])


class BrokenLines(unittest.TestCase):
    def refuses(self, name, rows):
        for text, line, message in rows:
            with self.subTest(text):
                done = convert(name, text)
                self.assertEqual(done.status, 3)
                self.assertIn(f"trace: line {line}: {message}", done.errors)

    def test_reports_broken_line_of_iolog(self):
        self.refuses("fio", [
            (b"", 1, "an iolog begins with"),
            (b"fio version 1 iolog\n", 1, "an iolog begins with"),
            (b"fio version 2 iolog\nf write 0 4096\nf write 0\n", 3, "a write has an offset and a length, and this one 1 numbers"),
            (b"fio version 2 iolog\nf write 0 -1\n", 2, "the length '-1' isn't a whole number"),
            (b"fio version 2 iolog\nf\n", 2, "a file and an action are expected"),
            (b"fio version 2 iolog\nf write 0 4096\nfio version 2 iolog\nf write 0 4096\n", 3, "a second iolog begins here"),
            (b"fio version 3 iolog\n1 f write 0 4096\nfio version 3 iolog\n", 3, "a second iolog begins here"),
            (b"fio version 3 iolog\n1 f add\nf write 0 4096\n", 3, "the timestamp 'f' isn't a whole number"),
            (b"fio version 3 iolog\n1 f write 0 1\n2 f erase 0 1\n", 3, "'erase' isn't an action of an iolog"),
        ])

    def test_reports_broken_line_of_msr_csv(self):
        self.refuses("msr", [
            (b"1,hm,0,Read,0,1\n", 1, "7 fields are expected, and these are 6"),
            (b"1,hm,0,Read,0,1,1\n1,hm,0,Trim,0,1,1\n", 2, "the type 'Trim' is neither Read nor Write"),
            (b"1,hm,0,Read,x,1,1\n", 1, "the offset 'x' isn't a whole number"),
            (b"1,hm,0,Read,0,\xff,1\n", 1, "the size '\\\\xff' isn't a whole number"),
            (b"1,hm,0,Read,0,1,1\n" + b"x" * 70_000, 2, "more than 65,536 bytes"),
        ])

    def test_reports_broken_line_of_blkparse_text(self):
        self.refuses("blkparse", [
            (b"no event\n", 1, "'no event' isn't an event of blkparse"),
            (b"8,0 0 1 0.1 5 D\n", 1, "the event is cut short"),
            (b"8,0 0 1 0.1 5 D W 0 + 8 [a]\n8,0 0 2 0.2 5 D W 8 + 8\n", 2, "the event is cut short"),
            (b"8,0 0 1 0.1 5 D W z + 8 [a]\n", 1, "the sector 'z' isn't a whole number"),
            (b"8,0 0 x 0.1 5 D W 0 + 8 [a]\n", 1, "the sequence number 'x' isn't a whole number"),
        ])

    def test_keeps_lines_before_broken_line(self):
        done = convert("msr", b"1,hm,0,Read,0,1,1\nbroken\n")
        self.assertEqual((done.status, done.lines), (3, ["0,read,0,"]))


class Compressed(unittest.TestCase):
    log = (LOGS / "msr.csv").read_bytes()

    def refuses(self, log, message):
        done = convert("msr", log)
        self.assertEqual(done.status, 3)
        self.assertIn(message, done.errors)

    def test_reads_gzip_and_refuses_incomplete_gzip(self):
        self.assertEqual(convert("msr", gzip.compress(self.log)).lines, convert("msr", self.log).lines)
        self.refuses(gzip.compress(self.log)[:40], "standard input isn't a complete gzip file")

    @needs("zstd")
    def test_reads_zstd_and_refuses_incomplete_zstd(self):
        packed = subprocess.run(["zstd", "-qc"], input=self.log, capture_output=True, check=True).stdout
        self.assertEqual(convert("msr", packed).lines, convert("msr", self.log).lines)
        self.assertEqual(convert("msr", packed, "--lines", "1").lines, ["0,write,0,00000001"])
        self.refuses(packed[:40], "standard input isn't a complete zstd file")

    def test_refuses_other_compression(self):
        self.refuses(b"BZh91AY&SY", "compressed by bzip2, which the tools don't read: decompress it first")


class Memory(unittest.TestCase):
    def test_memory_does_not_grow_with_log(self):
        line = b"1,hm,0,Write,4096,8192,1\n"
        self.assertLess(self.kilobytes(line * 200_000), self.kilobytes(line) + 2048)

    def kilobytes(self, log):
        """The most memory that the conversion of a log takes."""
        words = [sys.executable, TOOLS / "trace", "convert", "msr", "--page-bytes", "4096", "--sectors", "3", "--quiet"]
        with tempfile.TemporaryFile() as source:
            source.write(log)
            source.seek(0)
            process = subprocess.Popen(words, stdin=source, stdout=subprocess.DEVNULL)
            _, status, usage = os.wait4(process.pid, 0)
        process.returncode = os.waitstatus_to_exitcode(status)
        self.assertEqual(process.returncode, 0)
        return usage.ru_maxrss
