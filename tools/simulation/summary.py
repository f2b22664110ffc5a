"""A report on a run, as text and as one flat object."""

from dataclasses import asdict, dataclass

from .faults import BROKEN, Fault
from .wear import spread

GIGABYTE = 10**9
SPREAD = ("least", "quartile_1", "median", "quartile_3", "most")


@dataclass
class Summary:
    """What the given files don't show is None."""

    first_line: int | None
    last_line: int | None
    lines: int | None
    reads_empty: int | None
    reads_data: int | None
    writes_empty: int | None
    writes_written: int | None
    writes_worn: int | None
    writes_full: int | None
    news_empty: int | None
    news_written: int | None
    writes_refused: int | None
    first_refused_line: int | None
    trims_empty: int | None
    trims_written: int | None
    meets: int | None
    programs: int | None
    copies: int | None
    erases: int | None
    write_amplification: float | None
    page_bytes: int | None
    page_bytes_from: str | None
    bytes_written: int | None
    erases_per_gigabyte: float | None
    blocks: int | None = None
    retired_blocks: int | None = None
    live_pages: int | None = None
    erases_least: float | None = None
    erases_quartile_1: float | None = None
    erases_median: float | None = None
    erases_quartile_3: float | None = None
    erases_most: float | None = None


def summarise(answers, page_bytes, blocks):
    """A summary of the answers. If the size of a page is None, it is that of the pages that reads returned. The wear may be None too."""
    size_from = "option" if page_bytes else "reads" if answers.page_bytes else None
    page_bytes = page_bytes or answers.page_bytes
    writes = answers.programs if answers.quiet else answers.accepted_writes()
    written = None if page_bytes is None else page_bytes * writes
    known = written and answers.erases is not None
    summary = Summary(
        **_counts(answers),
        programs=answers.programs,
        copies=answers.copies,
        erases=answers.erases,
        write_amplification=None if answers.copies is None else answers.write_amplification(),
        page_bytes=page_bytes,
        page_bytes_from=size_from,
        bytes_written=written,
        erases_per_gigabyte=answers.erases * GIGABYTE / written if known else None,
    )
    if blocks is not None:
        _add_wear(summary, blocks)
    return summary


def _counts(answers):
    """How many lines gave each answer; the last line alone doesn't show it."""
    count = answers.count
    counts = {
        "first_line": answers.before + 1,
        "last_line": answers.last,
        "lines": answers.lines,
        "reads_empty": count("read empty"),
        "reads_data": count("read data"),
        "writes_empty": count("write empty"),
        "writes_written": count("write written"),
        "writes_worn": count("write worn"),
        "writes_full": count("write full"),
        "news_empty": count("new empty"),
        "news_written": count("new written"),
        "writes_refused": answers.refused_writes(),
        "first_refused_line": answers.first_refused(),
        "trims_empty": count("trim empty"),
        "trims_written": count("trim written"),
        "meets": count("meet met"),
    }
    return dict.fromkeys(counts) if answers.quiet else counts


def _add_wear(summary, blocks):
    erases = [block.erases for block in blocks]
    if summary.erases not in (None, sum(erases)):
        raise Fault(f"the wear file has {sum(erases):,} erases and the answers {summary.erases:,}: they are of two runs", BROKEN)
    summary.blocks = len(blocks)
    summary.retired_blocks = sum(block.retired for block in blocks)
    summary.live_pages = sum(block.live for block in blocks)
    for name, number in zip(SPREAD, spread(erases)):
        setattr(summary, f"erases_{name}", number)


def as_object(summary):
    return asdict(summary)


def in_lines(rows):
    """Names and texts, a line each."""
    width = max(len(name) for name, _ in rows)
    return "\n".join(f"{name:{width}}  {text}" for name, text in rows)


def headline(answers) -> str:
    """Which lines a report is of, and whether the run refused writes."""
    if answers.quiet:
        return "the whole run; it was quiet, so refused writes aren't known"
    window = f"lines {answers.before + 1:,} to {answers.last:,}" if answers.before else f"the whole run, {answers.lines:,} lines"
    refused = answers.refused_writes()
    return f"{window}; REFUSED: {refusals(answers)}" if refused else f"{window}; no write was refused"


def refusals(answers) -> str:
    refused, writes = answers.refused_writes(), answers.refused_writes() + answers.accepted_writes() + answers.count("new written")
    kinds = {"worn": answers.count("write worn", "new worn"), "full": answers.count("write full", "new full")}
    causes = ", ".join(f"{count:,} {kind}" for kind, count in kinds.items() if count)
    return f"{refused:,} of {writes:,} writes ({causes}), the first at line {answers.first_refused():,}"


def as_rows(summary, head: str):
    s = summary
    rows = [("run", head)]
    if s.lines is not None:
        rows += _counted(s)
    if s.copies is not None:
        erases = "" if s.erases is None else f"{s.erases:,}{_per_gigabyte(s)}"
        rows += [("write amplification", _amplification(s)), *([("erases", erases)] if erases else [])]
    if s.blocks is not None:
        least, *quartiles, most = (getattr(s, f"erases_{name}") for name in SPREAD)
        rows += [
            ("erases of a block", f"least {least:,g}, quartiles {' '.join(f'{number:,g}' for number in quartiles)}, most {most:,g}"),
            ("blocks", f"{s.blocks:,}, {s.retired_blocks:,} of them retired; {s.live_pages:,} live pages"),
        ]
    return rows


def _counted(s):
    refused_news = s.writes_refused - s.writes_worn - s.writes_full
    writes, news = s.writes_empty + s.writes_written + s.writes_worn + s.writes_full, s.news_empty + s.news_written + refused_news
    of_new = [("writes of new sectors", f"{news:,}: {s.news_empty:,} to empty sectors, {s.news_written:,} found theirs written")] if news else []
    return [
        ("commands", f"{s.lines:,}"),
        ("reads", f"{s.reads_empty + s.reads_data:,}: {s.reads_data:,} of data, {s.reads_empty:,} empty"),
        ("writes", f"{writes:,}: {s.writes_empty:,} to empty sectors, {s.writes_written:,} to written ones"),
        *of_new,
        ("writes refused", f"{s.writes_refused:,}"),
        ("trims", f"{s.trims_empty + s.trims_written:,}: {s.trims_written:,} of written sectors, {s.trims_empty:,} of empty ones"),
        ("meets", f"{s.meets:,}"),
    ]


def _amplification(s):
    if s.write_amplification is None:
        return "nothing was written"
    return f"{s.write_amplification:.3f} ({s.programs:,} pages written, {s.copies:,} copied)" + (f"; {NEVER_FULL}" if was_never_full(s) else "")


# What is said of a run in which no block had to be collected.
NEVER_FULL = "the device was never full and nothing was collected, so this is no steady state: age it first by a precondition, or write more"


def was_never_full(s) -> bool:
    return bool(s.programs) and s.erases == 0 and s.copies == 0


def _per_gigabyte(s):
    if s.page_bytes is None:
        return "; no read shows the size of a page: --page-bytes gives it, for the erases per gigabyte written"
    if s.erases_per_gigabyte is None:
        return ""
    source = "as --page-bytes says" if s.page_bytes_from == "option" else "as the reads show"
    return f", {s.erases_per_gigabyte:,.1f} per gigabyte written ({s.bytes_written:,} bytes in pages of {s.page_bytes:,}, {source})"
