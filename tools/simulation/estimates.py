"""Two estimates of the write amplification of greedy collection under uniform random writes; docs/AMPLIFICATION.md derives both.

`a` is the physical pages in use by each sector, without those of the spare block, and W is Lambert's function:

- for blocks of P pages, P / (P - (x - 1)) where x = 1/2 - (P/a) W(-c a exp(-c a)) and c = 1 + 1/(2P);
- its limit for large blocks, a / (a + W(-a exp(-a))).
"""

import math


def minus_lambert(a):
    """-W(-a exp(-a)) for a above 1: the number y below 1 with y exp(-y) = a exp(-a)."""
    least, most = 0.0, 1.0
    for _ in range(100):
        y = (least + most) / 2
        if y * math.exp(-y) < a * math.exp(-a):
            least = y
        else:
            most = y
    return least


def for_blocks(a, pages):
    c = 1 + 1 / (2 * pages)
    x = 1 / 2 + pages / a * minus_lambert(c * a)
    return pages / (pages - (x - 1))


def in_the_limit(a):
    return a / (a - minus_lambert(a))
