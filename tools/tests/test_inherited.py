"""What a tool inherits from whoever starts it changes nothing: the locale, the terminal, the umask, the niceness, signals that are ignored,
and streams that are closed."""

import os
import signal
import subprocess
import sys

from tests.packages import needs
from tests.test_report import LOG, WEAR, InFolder
from tests.tools import TOOLS, TOP

EXAMPLE = str(TOP / "examples/collection.out")
TIMES = ("--read-time", "25", "--program-time", "200", "--erase-time", "1500", "--transfer-time", "10")


class InheritedTest(InFolder):
    def started(self, name, *words, before=None, environment=None, closed=(), given=b""):
        """A tool in a process of its own: its status, output and errors. The descriptors in `closed` are closed."""

        def prepare():
            if before:
                before()
            for descriptor in closed:
                os.close(descriptor)

        call = [sys.executable, str(TOOLS / name), *map(str, words)]
        done = subprocess.run(call, input=given, capture_output=True, preexec_fn=prepare, env={**os.environ, **(environment or {})}, cwd=self.folder)
        return done.returncode, done.stdout, done.stderr.decode("utf-8", "replace")


@needs("numpy", "matplotlib")
class Environments(InheritedTest):
    def outputs(self, **inherited):
        """What the tools write: a report with a picture and a page, and a trace."""
        words = (EXAMPLE, "--collections", self.file("log", LOG), "--wear", self.file("wear", WEAR), *TIMES, "--trace", "µ·.csv")
        words += ("--blocks", 3, "--pages", 2, "--words", 1, "--sectors", 3, "--endurance", 10)
        files = ("erases.svg", "page.html")
        report = self.started("report", *words, "--erases-picture", files[0], "--page", files[1], **inherited)
        made = self.started("trace", "make", "uniform", "--sectors", 9, "--lines", 50, "--rate", 5, "--arrivals", "arrivals", **inherited)
        return report, made, *((self.folder / name).read_bytes() for name in (*files, "arrivals"))

    def test_outputs_are_the_same_under_each(self):
        plain = self.outputs()
        self.assertEqual((plain[0][0], plain[0][2], plain[1][0]), (0, "", 0))
        self.assertIn("µs".encode(), plain[0][1])
        # Without the cache of the home that is there, matplotlib makes one, and says so if that takes more than five seconds.
        cache = os.environ.get("XDG_CACHE_HOME", os.path.expanduser("~/.cache"))
        home = {"HOME": str(self.folder / "no_home"), "XDG_CACHE_HOME": cache}
        for inherited in (
            {"environment": {"LC_ALL": "C", "LANG": "C", "PYTHONCOERCECLOCALE": "0", "PYTHONUTF8": "0"}},
            {"environment": {"PYTHONIOENCODING": "ascii", "TERM": "", "COLUMNS": "3", "TZ": "Asia/Kathmandu"}},
            {"environment": {"PYTHONHASHSEED": "7", "SOURCE_DATE_EPOCH": "5", "MPLBACKEND": "agg", **home}},
            {"before": lambda: os.umask(0o077)},
            {"before": lambda: os.nice(19)},
            {"before": lambda: [signal.signal(number, signal.SIG_IGN) for number in (signal.SIGINT, signal.SIGHUP, signal.SIGCHLD)] and None},
            {"closed": (0,)},
        ):
            with self.subTest(inherited):
                self.assertEqual(self.outputs(**inherited), plain)


class ClosedStreams(InheritedTest):
    def test_closed_output_is_a_message(self):
        calls = (("report", EXAMPLE), ("trace", "make", "uniform", "--sectors", 9, "--lines", 5), ("model",))
        for name, *words in calls:
            with self.subTest(name):
                self.assertEqual(self.started(name, *words, closed=(1,)), (1, b"", f"{name}: standard output is closed\n"))

    def test_closed_input_is_a_message(self):
        for name, *words in (("report", "-"), ("trace", "convert", "fio", "--page-bytes", 8, "--sectors", 9), ("model",)):
            with self.subTest(name):
                self.assertEqual(self.started(name, *words, closed=(0,)), (1, b"", f"{name}: standard input is closed\n"))

    def test_closed_errors_are_no_output(self):
        status, output, _ = self.started("report", "no_such_file", closed=(2,))
        self.assertEqual((status, output), (1, b""))
        self.assertEqual(self.started("report", EXAMPLE, closed=(0, 2))[0], 0)

    def test_full_disk_is_a_message(self):
        with open("/dev/full", "wb") as full:
            call = [sys.executable, str(TOOLS / "trace"), "make", "uniform", "--sectors", "9", "--lines", "50000"]
            done = subprocess.run(call, stdout=full, stderr=subprocess.PIPE, text=True)
        self.assertEqual((done.returncode, done.stderr), (1, "trace: input or output: No space left on device\n"))
        for environment in ({}, {"LC_ALL": "C", "LANG": "C"}, {"PYTHONIOENCODING": "ascii"}):
            for words, message in (((EXAMPLE,), "input or output: No space left on device"), ((EXAMPLE, "--wear", "none"), "none: No such file or directory")):
                with self.subTest(words, environment=environment), open("/dev/full", "wb") as full:
                    call = [sys.executable, str(TOOLS / "report"), *words]
                    done = subprocess.run(call, stdout=full, stderr=subprocess.PIPE, text=True, env={**os.environ, **environment})
                    self.assertEqual((done.returncode, done.stderr), (1, f"report: {message}\n"))


class Interrupted(InheritedTest):
    def test_interrupt_ends_a_tool_by_its_status(self):
        """Where whoever started it doesn't ignore an interrupt."""
        call = [sys.executable, str(TOOLS / "trace"), "make", "uniform", "--sectors", "1000", "--lines", "20000000"]
        default = {"preexec_fn": lambda: signal.signal(signal.SIGINT, signal.SIG_DFL), "start_new_session": True}
        with subprocess.Popen(call, stdout=subprocess.PIPE, stderr=subprocess.PIPE, **default) as run:
            run.stdout.read(1000)
            os.killpg(run.pid, signal.SIGINT)
            _, errors = run.communicate(timeout=60)
        self.assertEqual((run.returncode, errors), (130, b""))

