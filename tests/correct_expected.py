#!/usr/bin/env python3
"""What rust/tests/stored.rs must print for corrections, worked out from documents 01 ("The code") and 02 (§7, §10) alone.

    python3 tests/correct_expected.py > tests/stored/correct.txt

No equations are solved: a check node's factor comes from the polynomial that is 0 at the other check nodes' points. Only the
symbols of the byte's place are made here, and all others are 65535 there. A line is n, a digest of the answers and of the
symbols that changed, for each k and each kind of case, and how many answers were 0, 1, 4, 5, 9 and 12.
"""
from math import prod

from code_expected import Q, mixed_all, next_, point, shape_bad

# The changes that a case's correction goes through, by the numbers in `spoiled`.
KINDS = [[], [1], [2], [3], [4], [5], [6], [7], [8], [9], [10], [3, 8], [3, 8, 5], [5, 7], [5, 9], [9, 10]]
ROUNDS = 4


# ---- the paper

def factor(n, k, own, check, a):
    """What `check` has where data node `own` has 1: both take part in a sum that is 0 for every polynomial of degree below
    r, and in this one's no other node does."""
    others = [point(j, a) for j in range(k, n) if j != check]
    at = lambda x: prod(x - p for p in others)
    return -at(point(own, a)) * pow(at(point(check, a)), -1, Q) % Q


def correct(n, k, layers, nodes_length, length, byte, change, symbols):
    """A number, and the symbols of the byte's place, which `symbols` were."""
    if shape_bad(n, k, layers):
        return 1, symbols
    size = layers << n
    if nodes_length != n * size or length > k * size:
        return 4, symbols
    if byte >= length:
        return 9, symbols
    if max(symbols) > 256:
        return 5, symbols
    own, place = divmod(byte, size)
    if abs(change) > 255 or not 0 <= symbols[own] + change <= 255:
        return 12, symbols
    after = list(symbols)
    after[own] += change
    for check in range(k, n):
        after[check] = (after[check] + change * factor(n, k, own, check, place % 2 ** n)) % Q
    return 0, after


# ---- the cases

class Case:
    """An accepted correction."""

    def __init__(self, n, k, seed):
        self.seed = seed
        self.shape = [n, k, 1 + self.drawn() % (15 if n < 10 else 2)]
        self.size = self.shape[2] << n
        self.own, self.place = self.drawn() % k, self.far_drawn() % self.size
        self.byte = self.own * self.size + self.place
        self.length = self.byte + 1 + self.far_drawn() % (k * self.size - self.byte)
        self.nodes_length = n * self.size
        self.symbols = [self.drawn() % 257 for _ in range(n)]
        self.change = max(self.drawn() % 256 - self.symbols[self.own], -255)

    def drawn(self):
        self.seed = next_(self.seed)
        return self.seed

    def far_drawn(self):
        return self.drawn() * 65521 + self.drawn()

    def spoiled(self, way):
        x, y = self.drawn(), self.drawn()
        n, k, layers = self.shape
        if way == 1:
            self.change = 0
        elif way == 2:
            self.change = x % 511 - 255
        elif way == 3:
            change = self.change
            self.change = [256, -256, 256 + x, -256 - x, change + 2 ** 32, change - 2 ** 32, 2 ** 63 - 1, -2 ** 63][y % 8]
        elif way == 4:
            self.symbols[self.own], self.change = 256, -(x % 257)
        elif way == 5:
            self.byte = [self.length, self.length + x, k * self.size, self.byte + 2 ** 32, 2 ** 64 - 1][y % 5]
        elif way == 6:
            self.length = [0, self.byte, x % (self.byte + 1)][y % 3]
        elif way == 7:
            self.length = [k * self.size + 1, k * self.size + 1 + x, self.length + 2 ** 32, 2 ** 64 - 1][y % 4]
        elif way == 8:
            self.symbols[x % n] = [257, 258, 512, 65535][y % 4]
        elif way == 9:
            self.nodes_length = [self.nodes_length - 1, self.nodes_length + 1, 0][y % 3]
        elif way == 10:
            self.shape = [[2, k, layers], [15, k, layers], [n, 0, layers], [n, n - 1, layers], [n, k, 0], [n, k, 16]][x % 6]

    def answer(self):
        """The number, and the index and the value of each symbol that changed."""
        number, after = correct(*self.shape, self.nodes_length, self.length, self.byte, self.change, self.symbols)
        changed = [(i * self.size + self.place, x) for i, x in enumerate(after) if x != self.symbols[i]]
        return [number, *(x for pair in changed for x in pair)]


def main():
    seed = 0
    for n in range(3, 15):
        digest, counts = 0, {0: 0, 1: 0, 4: 0, 5: 0, 9: 0, 12: 0}
        for k in range(1, n - 1):
            for ways in KINDS * ROUNDS:
                seed += 1
                case = Case(n, k, seed)
                for way in ways:
                    case.spoiled(way)
                told = case.answer()
                counts[told[0]] += 1
                digest = mixed_all(digest, told)
        print(n, digest, *counts.values(), '')


main()
