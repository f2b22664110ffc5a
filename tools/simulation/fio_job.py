"""The logs of a job file of fio, which fio itself makes: with the engine `null` nothing is read or written, and each job's requests go to its own log."""

import configparser
import hashlib
import pathlib
import re
import shutil
import subprocess

from . import inputs
from .faults import ARGUMENTS, BROKEN, Fault

LONGEST = 1 << 20
GLOBAL = "global"
# What ends such a job at a time and not at a number of requests: without a device its log would have no end.
TIMED = ("runtime", "time_based", "timeout")
# What one clock for all jobs does not have.
IN_TURN = ("stonewall", "wait_for_previous", "wait_for", "startdelay", "start_delay")
# What a log needs none of: where the data lies, how it is moved, programs to be run, and what else would be written.
LEFT_OUT = re.compile(r"ioengine|directory|direct|buffered|iomem.*|exec_\w+|write_\w+|read_iolog|log_.*|per_job_logs|output.*|numjobs|verify.*|thread")
SECONDS = 600


def is_job(path) -> bool:
    """Whether a file is a job file: its first line with text is the head of a section."""
    with inputs.opened(path) as source:
        text = source.read(LONGEST)
    lines = (line.strip() for line in text.splitlines())
    first = next((line for line in lines if line and line[:1] not in (b"#", b";")), b"")
    return first.startswith(b"[") and first.endswith(b"]")


def by_hand(path) -> str:
    """How the log is made on another machine, or of a job that runs by time."""
    return f"fio --write_iolog=job.log {path} makes a log of one job, where it runs; then simulate job.log"


def sections_of(path) -> configparser.ConfigParser:
    """The sections of a job file, as fio reads them: a key may have no value."""
    parser = configparser.RawConfigParser(None, allow_no_value=True, strict=False, delimiters=("=",), comment_prefixes=("#", ";"), default_section="")
    try:
        parser.read_string(pathlib.Path(path).read_text(encoding="utf-8"), str(path))
    except (configparser.Error, ValueError) as error:
        raise Fault(f"{path} isn't a job file of fio: {str(error).splitlines()[0]}", BROKEN) from None
    return parser


def jobs_of(path) -> list:
    """The jobs of a file, each with its section's name and options: as many of a section as its `numjobs` says."""
    parser, common, jobs = sections_of(path), {}, []
    for name in parser.sections():
        options = dict(parser[name])
        if name == GLOBAL:
            common |= options
            continue
        options = common | options
        _check(path, name, options)
        count = options.get("numjobs") or "1"
        if not count.isascii() or not count.isdigit() or not 1 <= int(count) <= 100:
            raise Fault(f"{path}: [{name}] has numjobs={count}, and 1 to 100 are simulated", BROKEN)
        jobs += [(name, options)] * int(count)
    if not jobs:
        raise Fault(f"{path} has no job", BROKEN)
    return jobs


def _check(path, name, options):
    """Refuses a job whose log depends on the device, or on the end of another."""
    for key in options:
        if key in TIMED:
            raise Fault(f"{path}: [{name}] runs by time ({key}), so its requests depend on a device: {by_hand(path)}; or size= and io_size= end it", ARGUMENTS)
        if key in IN_TURN:
            raise Fault(f"{path}: [{name}] waits for another job ({key}), and logs are merged from one beginning: simulate each job by itself", ARGUMENTS)


def names_of(jobs: list) -> list:
    """The names of the logs: of the sections, with numbers if there are several."""
    plain = [re.sub("[^A-Za-z0-9]", "_", name) for name, _ in jobs]
    return [f"{name}.log" if len(plain) == 1 else f"{name}.{number}.log" for number, name in enumerate(plain)]


def text_of(jobs: list) -> str:
    """The job file that makes the logs: `null` moves no data."""
    lines = []
    for log, (name, options) in zip(names_of(jobs), jobs):
        lines += [f"[{name}]", "ioengine=null", f"write_iolog={log}"]
        # The jobs of a section name the same file.
        lines += [f"filename={log.partition('.')[0]}"] if "filename" not in options and "numjobs" in options else []
        lines += [key if value is None else f"{key}={value}" for key, value in options.items() if not LEFT_OUT.fullmatch(key)]
    return "\n".join([*lines, ""])


def logs_of(path, folder: pathlib.Path) -> list:
    """The logs of the jobs, in a folder of this job file: they are made once, so that a second simulation is of the same requests."""
    jobs = jobs_of(path)
    if not shutil.which("fio"):
        raise Fault(f"{path} is a job file, and its log is simulated. fio makes it, which isn't installed: apt-get install fio; or {by_hand(path)}")
    text = text_of(jobs)
    place = folder / f"fio-{hashlib.sha256(text.encode()).hexdigest()[:8]}"
    logs = [place / name for name in names_of(jobs)]
    if not all(log.is_file() for log in logs):
        making = folder / f"{place.name}.new"
        shutil.rmtree(making, ignore_errors=True)
        making.mkdir(parents=True)
        (making / "job.fio").write_text(text, encoding="utf-8")
        _run(path, making)
        shutil.rmtree(place, ignore_errors=True)
        making.rename(place)
    return [str(log) for log in logs]


def _run(path, folder):
    """Runs fio in a folder; what it says is shown if it fails."""
    try:
        done = subprocess.run(["fio", "job.fio"], cwd=folder, stdin=subprocess.DEVNULL, capture_output=True, text=True, errors="replace", timeout=SECONDS)
    except subprocess.TimeoutExpired:
        shutil.rmtree(folder)
        raise Fault(f"{path}: fio has not ended after {SECONDS} seconds: size= and io_size= end a job") from None
    if done.returncode != 0:
        shutil.rmtree(folder)
        raise Fault(f"{path}: fio ended with status {done.returncode}: {done.stderr.strip() or done.stdout.strip()}")
