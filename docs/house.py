#!/usr/bin/env python3
"""Prints the house curve's numbers as crates/house/src/entries.rt has them, by document 01's rule and whole numbers
alone. Entry i is the n nearest to 65535·(i/1023)^2.5, so 2n+1 is the first odd number whose square is above
4·65535²·i⁵/1023⁵.

Usage: docs/house.py. To see that the source has what the rule gives:
    docs/house.py | diff - <(sed -n '/^const/,/^];/p' crates/house/src/entries.rt)
"""
import textwrap
from math import isqrt


def entry(i):
    n = (isqrt(4 * 65535**2 * i**5 // 1023**5) + 1) // 2
    assert (2 * n + 1) ** 2 * 1023**5 > 4 * 65535**2 * i**5
    assert n == 0 or (2 * n - 1) ** 2 * 1023**5 <= 4 * 65535**2 * i**5
    return n


# As `rt fmt` lays them out, in 100 columns.
print("const HOUSE: [u16; 1024] = [")
entries = " ".join(f"{entry(i)}," for i in range(1024))
print(textwrap.fill(entries, 100, initial_indent="    ", subsequent_indent="    "))
print("];")
