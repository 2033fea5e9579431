#!/usr/bin/env python3
"""What rust/tests/stored.rs must print for lists of losses, worked out from documents 01 ("Repair") and 02 (§6, §7)
alone.

    python3 tests/layers_expected.py > tests/stored/layers.txt

Of the odd parts of all h + 1 the least common multiple is taken: no number of layers is tried. A line is n, a digest of the
answers for each k from 0 to 15 and each set of losses from 0 to n-k, rising and falling, and how many were accepted, 1, 2
and 11.
"""
from math import lcm

from code_expected import shape_bad


def odd_part(x):
    """s, where x = s * 2^m: x over its lowest binary digit that is 1."""
    return x // (x & -x)


def layers(n, k, losses):
    """256 + the smallest L, or a refusal's number."""
    if shape_bad(n, k, 1):
        return 1
    if not all(1 <= h <= n - k - 1 for h in losses):
        return 2
    least = lcm(*(odd_part(h + 1) for h in losses))
    return 256 + least if least <= 15 else 11


def main():
    for n in range(17):
        digest, counts = 0, {0: 0, 1: 0, 2: 0, 11: 0}
        for k in range(16):
            # where n or k is out of range, the sets of 0 and 1
            most = 1 if shape_bad(n, k, 1) else n - k
            for code in range(2 ** (most + 1)):
                rising = [h for h in range(most + 1) if code >> h & 1]
                for losses in (rising, rising[::-1]):
                    answer = layers(n, k, losses)
                    counts[0 if answer > 255 else answer] += 1
                    digest = (digest * 31 + answer + 1) % 1000003
        print(n, digest, *counts.values(), '')


main()
