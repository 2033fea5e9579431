#!/usr/bin/env python3
"""What rust/tests/stored.rs must print for stretches, worked out from documents 01 ("The code") and 02 (§2, §7) alone.

    python3 tests/stretches_expected.py > tests/stored/stretches.txt

No equations are solved: a column's symbols, each times the differences of its node's point to all other points, are values
of one polynomial of degree below k, which is interpolated. Only the symbols of columns that are touched at first are made
here, and all others are 65535. A line is n, a digest of what is returned and of both buffers, for each k and each kind of
case, and how many calls were accepted and how many refused with 1, 2, 4, 5, 7 and 9.
"""
from itertools import groupby
from math import prod

from code_expected import Q, list_bad, mixed_all, next_, picked, point, shape_bad

# The changes that a case goes through, by the numbers in `spoiled`.
KINDS = [[], [], [], [], [1], [2], [3], [4], [5], [6], [7], [8], [9], [10], [11], [12], [13], [14], [15]]
KINDS += [[13, 12], [3, 12], [1, 13], [9, 3], [5, 3], [14, 7], [15, 14]]
ROUNDS = 3


# ---- the paper

def scale(n, node, a):
    """The product of the differences of a node's point to all others. The sum of f(point) / scale over all nodes is 0 for
    every polynomial f of degree n - 2 or less; so with f of degree below k, f(point) / scale meets all parity equations."""
    return prod(point(node, a) - point(j, a) for j in range(n) if j != node) % Q


def interpolated(xs, ys, at):
    terms = (y * prod((at - z) * pow(x - z, -1, Q) for z in xs if z != x) for x, y in zip(xs, ys))
    return sum(terms) % Q


def data_symbol(n, nodes, column, own, a):
    if own in nodes:
        return column[nodes.index(own)]
    xs = [point(j, a) for j in nodes]
    ys = [symbol * scale(n, j, a) % Q for j, symbol in zip(nodes, column)]
    return interpolated(xs, ys, point(own, a)) * pow(scale(n, own, a), -1, Q) % Q


def refusal(case):
    """1, 2, 4 or 9, for which no symbol is looked at."""
    n, k, layers = case.shape
    if shape_bad(n, k, layers):
        return 1
    if list_bad(n, k, case.nodes):
        return 2
    size, numbers = layers << n, case.numbers
    if case.symbols_length != k * size or case.length > k * size or case.columns_length != size:
        return 4
    if len(numbers) % 2 or len(numbers) > 2 * 64 or sum(numbers[1::2]) != case.bytes_length:
        return 4
    if any(start + count > case.length for start, count in zip(numbers[::2], numbers[1::2])):
        return 9
    return 0


def open_stretches(case):
    """What is returned, and the buffers, which are filled with 9."""
    before = [9] * case.bytes_length, [9] * case.columns_length
    number = refusal(case)
    if number:
        return number, *before
    n, k, layers = case.shape
    size, wanted = layers << n, case.wanted()
    touched = sorted({byte % size for byte in wanted})
    columns = {place: [case.held.get((rank, place), 65535) for rank in range(k)] for place in touched}
    if any(symbol > 256 for column in columns.values() for symbol in column):
        return 5, *before
    data = {byte: data_symbol(n, case.nodes, columns[byte % size], byte // size, byte % 2 ** n) for byte in set(wanted)}
    if 256 in data.values():
        return 7, *before
    return 256 + k * len(touched), [data[byte] for byte in wanted], touched + [0] * (size - len(touched))


# ---- the cases

class Case:
    """Accepted stretches, but for data symbols that come out as 256: from any nodes, few bytes of each stretch; or from the
    data nodes, which then hold bytes, more."""

    def __init__(self, n, k, seed):
        self.seed = seed
        self.shape = [n, k, 1 + self.drawn() % (15 if n < 8 else 2)]
        self.size = self.shape[2] << n
        self.length = self.far_drawn() % (k * self.size + 1)
        data_nodes = self.drawn() % 3 == 0
        self.nodes = list(range(k)) if data_nodes else picked(self.seed, n, k)
        self.numbers = []
        for _ in range([0, 1, 2, self.drawn() % 8, self.drawn() % 65, 64][self.drawn() % 6]):
            start = self.far_drawn() % (self.length + 1)
            self.numbers += [start, min(self.drawn() % (200 if data_nodes else 5), self.length - start)]
        self.touched = sorted({byte % self.size for byte in self.wanted()})
        self.held = {(rank, place): self.drawn() % (256 if data_nodes else 257) for place in self.touched for rank in range(k)}
        self.symbols_length, self.columns_length = k * self.size, self.size
        self.bytes_length = sum(self.numbers[1::2])

    def drawn(self):
        self.seed = next_(self.seed)
        return self.seed

    def far_drawn(self):
        return self.drawn() * 65521 + self.drawn()

    def wanted(self):
        """The numbers of the wanted bytes."""
        return [byte for start, count in zip(self.numbers[::2], self.numbers[1::2]) for byte in range(start, start + count)]

    def spoiled(self, way):
        x, y = self.drawn(), self.drawn()
        if way == 1:
            self.length = [0, self.length // 2, self.length * 9 // 10][y % 3]
        elif way == 2:
            capacity = self.shape[1] * self.size
            self.length = [capacity + 1, capacity + 1 + x, self.length + 2 ** 32, 2 ** 64 - 1][y % 4]
        elif way in (3, 4, 5, 6):
            self.spoiled_stretch(way, x, y)
        elif way == 7:
            self.numbers = [self.numbers[:-1] or [x], self.numbers + [x]][y % 2]
        elif way == 8:
            self.numbers += [0] * (2 * 65 + x % 2 * 2 - len(self.numbers))
        elif way == 9:
            self.bytes_length = [self.bytes_length + 1, max(self.bytes_length - 1, 0), 0][y % 3]
        elif way == 10:
            self.columns_length = [self.size - 1, self.size + 1, 0][y % 3]
        elif way == 11:
            self.symbols_length = [self.symbols_length - 1, self.symbols_length + 1, 0][y % 3]
        elif way in (12, 13) and self.touched:
            k, place = self.shape[1], self.touched[x % len(self.touched)]
            self.held[y % k, place] = 256 if way == 13 else [257, 258, 512, 65535][y // k % 4]
        elif way == 14:
            self.spoiled_list(y % 5)
        elif way == 15:
            n, k, layers = self.shape
            self.shape = [[2, k, layers], [15, k, layers], [n, 0, layers], [n, n - 1, layers], [n, k, 0], [n, k, 16]][x % 6]

    def spoiled_stretch(self, way, x, y):
        """One starts elsewhere or is longer; or two lengths change so that their sum, modulo 2^64, does not."""
        numbers = self.numbers
        if not numbers:
            numbers += [self.length + 1 + x, 0]
        at, other = x % (len(numbers) // 2) * 2, y % (len(numbers) // 2) * 2
        start, count = numbers[at], numbers[at + 1]
        if way == 3:
            numbers[at] = [self.length, self.length + 1, start + 2 ** 32, 2 ** 64 - count, 2 ** 64 - 1][y % 5] % 2 ** 64
        elif way == 4:
            numbers[at + 1] = [count + 1, count + 2 ** 32, 2 ** 64 - 1][y % 3]
        else:
            more = 2 ** 63 if way == 5 else [1, 3, 2 ** 32][y % 3]
            numbers[at + 1] = (numbers[at + 1] + more) % 2 ** 64
            numbers[other + 1] = (numbers[other + 1] - more) % 2 ** 64

    def spoiled_list(self, way):
        nodes, n = self.nodes, self.shape[0]
        front, last = nodes[:-1], nodes[-1]
        self.nodes = [front, nodes + [n - 1], front + [n], front + [last + 2 ** 32], [last] + nodes[1:-1] + nodes[:1]][way]

    def answer(self):
        """What is returned, and the runs of equal elements in both buffers, each as the element and how many."""
        number, *buffers = open_stretches(self)
        return [number, *(x for buffer in buffers for element, run in groupby(buffer) for x in (element, len(list(run))))]


def main():
    seed = 0
    for n in range(3, 15):
        digest, counts = 0, {0: 0, 1: 0, 2: 0, 4: 0, 5: 0, 7: 0, 9: 0}
        for k in range(1, n - 1):
            for ways in KINDS * ROUNDS:
                seed += 1
                case = Case(n, k, seed)
                for way in ways:
                    case.spoiled(way)
                told = case.answer()
                counts[0 if told[0] >= 256 else told[0]] += 1
                digest = mixed_all(digest, told)
        print(n, digest, *counts.values(), '')


main()
