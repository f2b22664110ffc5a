"""A run over time, from its answers and its log of collections: its lines in pieces, and what was done in each."""

import bisect
from dataclasses import dataclass

from .faults import ARGUMENTS, Fault


@dataclass
class Piece:
    """Some lines of a run, up to `line`: the pages that they wrote, those that collection copied meanwhile, and the collections."""

    first: int
    line: int
    programs: int
    copies: int
    collections: int

    def write_amplification(self):
        return (self.programs + self.copies) / self.programs if self.programs else None


def in_pieces(answers, log, count: int) -> list:
    """The lines of the answers in `count` pieces, equally many in each, as far as possible."""
    if answers.quiet:
        raise Fault("the answers have only their last line, so it isn't known when pages were written", ARGUMENTS)
    ends = sorted({answers.before + answers.lines * piece // count for piece in range(1, count + 1)} - {answers.before})
    pieces, line, place = [], answers.before, 0
    for end in ends:
        behind = bisect.bisect_right(log.lines, end)
        pieces.append(Piece(line + 1, end, answers.programs_within(line, end), sum(log.copied[place:behind]), behind - place))
        line, place = end, behind
    return pieces


def so_far(pieces) -> list:
    """The write amplification of all up to the end of each piece."""
    programs = copies = 0
    amplifications = []
    for piece in pieces:
        programs, copies = programs + piece.programs, copies + piece.copies
        amplifications.append((programs + copies) / programs if programs else None)
    return amplifications
