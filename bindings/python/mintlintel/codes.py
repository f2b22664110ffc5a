"""What the calls of C return, by the names of mintlintel.h and mintlintel_durable.h."""

import enum


class Code(enum.IntEnum):
    """What a call of C returns. 0 also says that the sector was empty, and 1 that the page is held."""

    DONE = 0
    WRITTEN = 1
    CLOSED = 2
    NO_SECTOR = 3
    NOT_A_PAGE = 4
    WORN_OUT = 5
    NO_MEMORY = 6
    NO_BLOCK = 7
    ALREADY_OPEN = 8
    WRONG_KIND = 9
    NO_SUCH_BLOCK = 10
    NOTHING_TO_GAIN = 20
    NO_SPARE = 21
    LOST = 22
    RETIRED = 23
    PINNED = 24
    STALE = 25
    KEPT = 26
    EXHAUSTED = 27
    POWER_GONE = 28
    FAILED = 29
    OTHER_DEVICE = 30
    NO_NUMBER = 31
    OUT_OF_ORDER = 32
    UNREADABLE = 33
    NO_ROOM = 34
    PAGES_LOST = 35
    UNSETTLED = 36
    READ_PAGE = 37
    NO_FILE = 40
    IN_USE = 41
    NOT_AN_IMAGE = 42
    OTHER_VERSION = 43
    OTHER_NUMBERS = 44
    CUT_SHORT = 45
    FILE_FAILED = 46
    OTHER_PROCESS = 47
    BAD_MODE = 48
    BAD_BLOCKS_LISTED = 49
    BAD_LUNS = 101
    BAD_BLOCKS = 102
    BAD_PAGES = 103
    BAD_WORDS = 104
    BAD_SECTORS = 105
    BAD_ENDURANCE = 106
    BAD_SEATS = 107
    TOO_MANY_WORDS = 108
    TOO_FEW_BLOCKS = 109
