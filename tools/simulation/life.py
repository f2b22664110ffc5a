"""The life of a device: how much of its endurance is used, and how many bytes it will have taken at its end, by extrapolation."""

from dataclasses import dataclass


@dataclass(frozen=True)
class Life:
    """Shares of the endurance that the mean and the worst block have used, and the worst by the mean; the bytes that can still be
    written, and those that will have been written at the end, if the write amplification and the shares between the blocks stay as
    they are. What isn't known is None."""

    endurance: int
    used_mean: float
    used_worst: float
    worst_by_mean: float | None
    bytes_left: float | None
    bytes_at_end: float | None


def life_of(erases: list, endurance: int, pages: int, page_bytes, written, amplification, retired: int) -> Life:
    """Of a device with these erases of each block, of which `retired` blocks are retired; `written` are the bytes written so far.

    Its life is until its worst block has used its endurance. Until then each erase makes room for the pages of a block, of which one in
    `amplification` is of the host."""
    mean, worst = sum(erases) / len(erases), max(erases)
    left = at_end = None
    if not retired and worst and page_bytes and amplification and written is not None:
        erases_left = (endurance - worst) * sum(erases) / worst
        left = erases_left * pages * page_bytes / amplification
        at_end = written + left
    return Life(endurance, mean / endurance, worst / endurance, worst / mean if worst else None, left, at_end)


def as_object(life: Life | None) -> dict:
    """Flat keys, which are None where the life isn't known."""
    names = ("endurance", "used_mean", "used_worst", "worst_by_mean", "bytes_left", "bytes_at_end")
    return {name if name == "endurance" else f"life_{name}": getattr(life, name, None) for name in names}


ONE_THREAD = "a device for one thread ends soon after the first"
SHARED = "a shared device goes on without them, and how long isn't extrapolated"


def as_rows(life: Life, retired: int, then=ONE_THREAD) -> list:
    """Names and texts for a report."""
    ratio = f", {life.worst_by_mean:.2f} times the mean" if life.worst_by_mean else ""
    used = f"the mean block {percent(life.used_mean)}, the worst {percent(life.used_worst)}{ratio}"
    rows = [("endurance used", f"{used} (of {life.endurance:,} erases)")]
    if retired:
        rows.append(("life", f"blocks retired: {retired:,}; {then}"))
    elif life.bytes_left is None:
        rows.append(("life", "not known: no block was erased, or the bytes of a page aren't known (--page-bytes)"))
    else:
        rows.append(("life", f"{size(life.bytes_left)} can still be written; TBW {size(life.bytes_at_end)} at the end (extrapolated)"))
    return rows


def percent(share: float) -> str:
    return f"{100 * share:.3g} %"


def size(count: float) -> str:
    """Bytes in a unit that fits: a terabyte is 10^12 bytes."""
    for unit, name in ((1e12, "TB"), (1e9, "GB"), (1e6, "MB"), (1e3, "kB")):
        if count >= unit:
            return f"{count / unit:,.4g} {name}"
    return f"{count:,.0f} bytes"
