"""A run of flashplay as a report tells it: its files, all of one window of lines."""

from dataclasses import dataclass, replace

from . import arrivals, collected, device, inputs, join, latency, life, part, request_lines, response, summary, titles, wear
from .answers import Answers
from .faults import ARGUMENTS, BROKEN, Fault


@dataclass
class Run:
    """The answers, the wear, the log of collections and the response times of the window, each None where it isn't given, and what a
    report says of them. The life is that of the device at the end of the run."""

    answers: Answers
    blocks: list | None
    log: object
    response: response.Response | None
    summary: summary.Summary
    responses: dict
    life: life.Life | None
    title: str

    def headline(self) -> str:
        return summary.headline(self.answers)

    def as_object(self) -> dict:
        return {**summary.as_object(self.summary), **collected.as_object(self.log), **life.as_object(self.life), **self.responses}

    def as_rows(self) -> list:
        rows = summary.as_rows(self.summary, self.headline())
        if self.life:
            rows += life.as_rows(self.life, self.summary.retired_blocks)
        rows += [] if self.log is None else collected.as_rows(self.log)
        return rows + (latency.as_rows(self.responses, self.response.part.shown()) if self.response else [])


def first_line_of(options) -> int:
    """The first line of the window: the option says it, or the mark of a precondition."""
    if options.from_mark:
        return inputs.read(options.from_mark, join.read_mark) + 1
    return options.from_line


def read_run(options, answers: Answers) -> Run:
    """Reads the other files of the run, and keeps what is of the window."""
    blocks = whole = inputs.read(options.wear, wear.read_wear) if options.wear else None
    if options.wear_before:
        blocks = wear.since(whole, inputs.read(options.wear_before, wear.read_wear))
    log = inputs.read(options.collections, collected.read_log) if options.collections else None
    if isinstance(log, collected.Collections):
        collected.check(log, answers)
    elif log is not None:
        answers = collected.with_brooms(answers, log)
    titles.check_device(options, answers, blocks, log)
    first = first_line_of(options)
    _check_window(first, answers, log)
    timed = _respond(options, answers, log, first)
    told = summary.summarise(answers, options.page_bytes, blocks)
    lived = _life(options, whole, told, _in_window(answers, log, first))
    if first > 1:
        answers, log = _in_window(answers, log, first), log.from_line(first)
        blocks = wear.within(blocks, log) if blocks else None
        told = summary.summarise(answers, options.page_bytes, blocks)
    responses = latency.summarise(timed, told.page_bytes) if timed else {}
    return Run(answers, blocks, log, timed, told, responses, lived, titles.title_of(options, blocks))


def _check_window(first: int, answers: Answers, log):
    if first == 1:
        return
    if answers.quiet:
        raise Fault("the answers have only their last line, so nothing is known of a window of lines", ARGUMENTS)
    if not isinstance(log, collected.Collections):
        raise Fault("a window of lines needs --collections with the log of a run by one thread: copies and erases are by its lines", ARGUMENTS)
    if first > max(1, answers.lines):
        raise Fault(f"line {first:,} comes after the last of the answers' {answers.lines:,} lines", ARGUMENTS)


def _in_window(answers: Answers, log, first: int) -> Answers:
    """The answers from a line on, with the totals of these lines."""
    if first == 1:
        return answers
    kept, later = replace(answers, kinds=answers.kinds[first - 1 :], before=first - 1), log.from_line(first)
    kept.programs, kept.copies, kept.erases = kept.accepted_writes(), sum(later.copied), len(later)
    return kept


def _respond(options, answers: Answers, log, first: int):
    """The response times, or None if no part is named."""
    if not part.is_named(options):
        return None
    if not isinstance(log, collected.Collections):
        raise Fault("the log is of brooms, and has no single collections: response times need a run by one thread", ARGUMENTS)
    times = inputs.read(options.arrivals, arrivals.read_arrivals) if options.arrivals else None
    given = inputs.read(options.requests, lambda source: request_lines.read_requests(source, answers.lines)) if options.requests else None
    numbers = device.numbers_of(options) if device.is_named(options) else None
    return response.respond(answers, log, part.part_of(options), times, options.speed, first, given, options.clients, numbers)


def _life(options, blocks, told: summary.Summary, window: Answers):
    """The life of the device, if its wear and its numbers are known."""
    if blocks is None or not device.is_named(options):
        return None
    numbers = device.numbers_of(options)
    if max(block.erases for block in blocks) > numbers["endurance"]:
        raise Fault(f"a block of the wear file has more erases than the endurance of {numbers['endurance']:,} that the options say", BROKEN)
    erases, amplification = [block.erases for block in blocks], window.write_amplification()
    written, retired = told.bytes_written, told.retired_blocks
    return life.life_of(erases, numbers["endurance"], numbers["pages"], told.page_bytes, written, amplification, retired)
