"""Servers and clients of the checks: each has a time by which it has to end, and all of them are ended with the check."""

import concurrent.futures
import contextlib
import json
import os
import pathlib
import re
import shutil
import signal
import subprocess
import tempfile
import time

HERE = pathlib.Path(__file__).resolve().parents[1]
REPORTS = re.compile(r"(ERROR: AddressSanitizer|WARNING: ThreadSanitizer|runtime error:)")
LEAK = re.compile(r"leak of .*\n((?: +#.*\n)+)")


def is_clean(status, told):
    """Whether a server ended well. A leak in a module that is unknown is the plugin's, which was unloaded by then. Others are what nbdkit
    itself has not freed yet, as of a connection that is just ending."""
    leaks = LEAK.findall(told)
    if REPORTS.search(told) or any("nbdkit-mintlintel-plugin" in stack or "unknown module" in stack for stack in leaks):
        return False
    return status == 0 or bool(leaks)


def sanitized_by(kind):
    """The compiler's flags for a plugin under a sanitizer."""
    return f"-O1 -g -fno-omit-frame-pointer -fsanitize={kind}"


def slowness():
    """How many times longer everything may take: as many threads as are ready for each processor."""
    return max(1, os.getloadavg()[0] / os.cpu_count())


def failing(printed):
    """The lines that say that something failed."""
    return "".join(line for line in printed.splitlines(keepends=True) if re.search("fail|mismatch|error", line, re.I))[:1000]


class Failure(Exception):
    """A part failed; the text says how."""


def want(is_so, text):
    if not is_so:
        raise Failure(text)


class Shop:
    """The place of a run: its folder, the built plugins and clients, and what was started."""

    def __init__(self, folder, options):
        self.folder, self.options = folder, options
        self.started, self.mounted, self.kept = [], [], []
        self.aged = self.wrong = None
        self.changed = ""  # the file of a wrong plugin that isn't as it should be
        self.copies = 0
        self.is_over = False
        self.slow = 1

    def scaled(self, short, long):
        return long if self.options.long else short

    def plugin(self, kind=""):
        """The plugin of a kind of build, or the wrong one that is being tried."""
        return self.wrong or HERE / "out" / kind / "nbdkit-mintlintel-plugin.so"

    def source(self):
        """The folder of the plugin's source, or of the wrong one's."""
        return self.wrong.parents[1] if self.wrong else HERE

    def client(self, name):
        return HERE / "out" / "clients" / name

    def patience(self, seconds):
        """What takes this many seconds may take more on a machine that is busy, or was since the part began."""
        self.slow = max(self.slow, slowness())
        return seconds * self.slow

    def limit(self, seconds):
        """From now on this many seconds are left, and more on a busy machine."""
        self.slow, self.end = 1, lambda began=time.monotonic(): began + self.patience(seconds)
        signal.alarm(seconds)

    def start(self, words, log, **more):
        """Starts a program in a session of its own, with its output in a log."""
        want(not self.is_over, "the check was ended")
        with open(log, "wb") as sink:
            process = subprocess.Popen([str(word) for word in words], stdin=subprocess.DEVNULL, stdout=sink, stderr=sink,
                                       start_new_session=True, cwd=self.folder, **more)
        self.started.append(process)
        return process

    def run(self, words, seconds=60, given=None, status=0):
        """Runs a program to its end, and gives what it printed. On a busy machine it has more time."""
        want(not self.is_over, "the check was ended")
        words = [str(word) for word in words]
        process = subprocess.Popen(words, stdin=subprocess.PIPE, stdout=subprocess.PIPE, stderr=subprocess.STDOUT,
                                   start_new_session=True, cwd=self.folder)
        self.started.append(process)
        printed, began = None, time.monotonic()
        while printed is None:
            try:
                left = max(0.1, began + self.patience(seconds) - time.monotonic())
                printed = process.communicate((given or "").encode(), timeout=left)[0].decode(errors="replace")
            except subprocess.TimeoutExpired:
                if time.monotonic() < began + self.patience(seconds):
                    continue
                kill(process)
                raise Failure(f"{' '.join(words)[:300]}\ndidn't end within {seconds} s") from None
        self.started.remove(process)
        want(process.returncode == status, f"{' '.join(words)[:300]}\nended with status {process.returncode}:\n{failing(printed[:-3000])}{printed[-3000:]}")
        return printed

    def passes(self, name, part):
        began, self.copies, self.slow = time.monotonic(), 0, max(self.slow, slowness())
        try:
            told = part(self)
        except Failure as failure:
            print(f"nbdkit: {name}: FAILED: {failure}", flush=True)
            self.end_kept()
            told = None
        finally:
            self.end_all()
        if told is not None:
            print(f"nbdkit: {name}: {told}{', ' if told else ''}{self.copies:,} pages copied, {time.monotonic() - began:.1f} s", flush=True)
        return told is not None

    def end_all(self):
        for folder in reversed(self.mounted):
            subprocess.run(["fusermount3", "-u", "-z", folder], stdout=subprocess.DEVNULL, stderr=subprocess.DEVNULL, check=False)
        self.mounted.clear()
        for process in self.started:
            kill(process)
        self.started.clear()

    def close(self):
        """Ends all, and lets nothing begin any more."""
        self.is_over = True
        self.end_all()
        self.end_kept()

    def keep(self, server):
        """A server that outlives its part."""
        self.started.remove(server.process)
        self.kept.append(server.process)

    def end_kept(self):
        self.aged = None
        for process in self.kept:
            kill(process)
        self.kept.clear()


def side_by_side(shop, jobs, work):
    """What `work` gives for each job, with a shop of its own: one for each processor at a time."""
    shops = [Shop(pathlib.Path(tempfile.mkdtemp(dir=shop.folder)), shop.options) for _ in jobs]
    pool = concurrent.futures.ThreadPoolExecutor(os.cpu_count())
    try:
        return list(pool.map(work, shops, jobs))
    finally:
        for one in shops:
            one.close()
        pool.shutdown(cancel_futures=True)


def kill(process):
    """Kills a program with all that it started."""
    if process.poll() is None:
        with contextlib.suppress(ProcessLookupError):
            os.killpg(process.pid, signal.SIGKILL)
    process.wait()


def end_fio(shop, process, log):
    """Ends a fio by a signal; it then waits for the answers to what it has sent."""
    want(process.poll() is None, log.read_text()[-2000:])
    process.send_signal(signal.SIGINT)
    try:
        process.wait(shop.patience(60))
    except subprocess.TimeoutExpired:
        raise Failure("fio didn't end by a signal within 60 s") from None
    shop.started.remove(process)


def ended(*_):
    raise SystemExit("nbdkit: the check was ended: out of time, or by a signal")


@contextlib.contextmanager
def workshop(seconds, options):
    for number in (signal.SIGTERM, signal.SIGHUP):
        signal.signal(number, ended)
    folder = pathlib.Path(tempfile.mkdtemp(prefix="nbdkit-"))
    shop = Shop(folder, options)
    signal.signal(signal.SIGALRM, lambda *_: signal.alarm(5) if time.monotonic() < shop.end() else ended())
    shop.limit(seconds)
    try:
        yield shop
    finally:
        signal.alarm(0)
        shop.end_all()
        shop.end_kept()
        shutil.rmtree(folder, ignore_errors=True)


class Counts:
    """What the plugin's file of counts says."""

    def __init__(self, path):
        self.numbers, self.erases_of, self.retired_of = {}, [], []
        is_table = False
        for line in path.read_text().splitlines()[1:]:
            if line == "block,erases,retired":
                is_table = True
            elif is_table:
                block, erases, retired = map(int, line.split(","))
                want(block == len(self.erases_of), f"the counts have block {block} out of place")
                self.erases_of.append(erases)
                self.retired_of.append(retired)
            else:
                name, number = line.split(",")
                self.numbers[name] = int(number)

    def __getattr__(self, name):
        return self.numbers[name]

    def are_whole(self):
        """The blocks' erases are all erases, and the blocks retired are all that are."""
        want(sum(self.erases_of) == self.erases, "the blocks' erases aren't the erases")
        want(sum(self.retired_of) == self.retired_blocks, "the blocks that are marked aren't those that are retired")
        want(len(self.erases_of) == self.blocks, "not each block has a line")

    @property
    def amplification(self):
        return (self.programs + self.copies) / max(1, self.programs)


class Server:
    """An nbdkit with the plugin, on a unix socket. `kind` is that of the build: plain, or under a sanitizer. `threads` are those of a
    connection. With an image it has no file of counts. `before` are words before nbdkit, and `filters` are nbdkit's own."""

    def __init__(self, shop, *words, kind="", threads=16, image=None, before=(), filters=()):
        self.shop, self.seen, self.kind, self.image = shop, 0, kind, image
        folder = pathlib.Path(tempfile.mkdtemp(dir=shop.folder))
        self.socket, self.log, self.stats, pid = (folder / name for name in ("socket", "log", "stats", "pid"))
        self.uri = f"nbd+unix:///?socket={self.socket}"
        call = [*before, "nbdkit", "-f", "-t", threads, "-U", self.socket, "-P", pid, *(f"--filter={name}" for name in filters), shop.plugin(kind)]
        call += [f"image={image}" if image else f"stats={self.stats}", *words]
        environment = dict(os.environ)
        if kind:
            library = {"address": "libasan.so", "thread": "libtsan.so"}[kind]
            environment["LD_PRELOAD"] = subprocess.run(["gcc", f"-print-file-name={library}"], capture_output=True, text=True, check=True).stdout.strip()
            environment["TSAN_OPTIONS"] = "exitcode=66"
        if kind == "thread":
            call = ["setarch", "-R", *call]  # ThreadSanitizer wants the usual places of memory
        self.process = shop.start(call, self.log, env=environment)
        self.wait_until(lambda: pid.exists() and pid.stat().st_size, 60, "start")
        shop.run(["nbdinfo", "--size", self.uri], 20)

    def wait_until(self, is_so, seconds, what):
        began = time.monotonic()
        while not is_so():
            status = self.process.poll()  # before the log, so that this is whole if the server has ended
            told = self.log.read_text(errors="replace")[-3000:]
            want(status is None, f"the server ended with status {status} and didn't {what}:\n{told}")
            want(time.monotonic() < began + self.shop.patience(seconds), f"the server didn't {what} within {seconds} s:\n{told}")
            time.sleep(0.005)

    def settle(self):
        """Waits until no connection is left, so that all is done that a killed client had sent: each has a thread of its own, beside that of
        the server, of the counts, of each broom, and of ThreadSanitizer."""
        others = 2 + self.counts().brooms + (self.kind == "thread")
        self.wait_until(lambda: len(os.listdir(f"/proc/{self.process.pid}/task")) <= others, 60, "end its connections")

    def counts(self):
        """The counts of this moment, by SIGUSR1."""
        before = self.stats.stat().st_ino, self.stats.stat().st_mtime_ns
        os.kill(self.process.pid, signal.SIGUSR1)
        self.wait_until(lambda: (self.stats.stat().st_ino, self.stats.stat().st_mtime_ns) != before, 20, "write its counts")
        return self.take(Counts(self.stats))

    def take(self, counts):
        counts.are_whole()
        self.shop.copies += counts.copies - self.seen
        self.seen = counts.copies
        return counts

    def stop(self):
        """Ends the server, which has to end well, and gives its last counts."""
        self.process.terminate()
        with contextlib.suppress(subprocess.TimeoutExpired):
            self.process.wait(timeout=30)
        want(self.process.poll() is not None, f"the server didn't end:\n{self.log.read_text()[-3000:]}")
        told = self.log.read_text()
        want(is_clean(self.process.returncode, told), f"the server ended with status {self.process.returncode}:\n{told[-20000:]}")
        return None if self.image else self.take(Counts(self.stats))

    def report(self):
        """The export of statistics, of this moment."""
        return json.loads(self.shop.run(["nbdcopy", f"nbd+unix:///stats?socket={self.socket}", "-"]))


@contextlib.contextmanager
def copying(server, what):
    """Pages have to be copied while this is done, and no write may be refused."""
    before = server.counts()
    yield
    after = server.counts()
    want(after.copies > before.copies, f"{what}: nothing was copied under it")
    want(after.no_space == before.no_space, f"{what}: a write found no space")


@contextlib.contextmanager
def loaded(shop, server, offset="40m", size="8m"):
    """Random writes to a part of the device, so that brooms collect while a client does nothing."""
    log = shop.folder / "background"
    load = shop.start(["fio", "--name=load", "--thread", "--ioengine=nbd", f"--uri={server.uri}", "--rw=randwrite", "--bs=4k",
                       f"--offset={offset}", f"--size={size}",
                       "--iodepth=4", "--time_based", "--runtime=600", "--norandommap"], log)
    copies = server.counts().copies
    server.wait_until(lambda: server.counts().copies > copies, 30, "copy anything under it")
    yield
    end_fio(shop, load, log)
    server.settle()


def fio(shop, server, name, seconds=None, **options):
    """Runs fio's own check of what it wrote. The size is shared out between the jobs."""
    seconds = seconds or shop.scaled(60, 300)
    call = ["fio", f"--name={name}", "--thread", "--ioengine=nbd", f"--uri={server.uri}", "--group_reporting", "--verify_fatal=1",
            *(f"--{option}={value}" for option, value in options.items())]
    return shop.run(call, seconds)


def kibibytes(shop, server):
    return int(shop.run(["nbdinfo", "--size", server.uri], 20)) // 1024
