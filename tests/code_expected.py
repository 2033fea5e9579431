#!/usr/bin/env python3
"""What rust/tests/stored.rs must print for archives, from documents 01 and 02 (§5, §7) alone; it shares no code with the
archive.

    python3 tests/code_expected.py > tests/stored/code.txt

Nodes are lists of lists here, solving is Gaussian elimination with pivoting on whole matrices, and the
parity equations are sums as document 01 writes them.
"""
from functools import lru_cache

Q = 257
# "The twelve points", and "the points for nodes 12 and 13 are 222 and 152" (document 02 §7).
P = [1, 3, 9, 27, 81, 243, 215, 131, 136, 151, 196, 74, 222, 152]
# n, k, L and the length of the transcript.
SHAPES = [
    (3, 1, 1, 0), (3, 1, 1, 2), (3, 1, 1, 8), (3, 1, 15, 100), (4, 1, 3, 48), (4, 2, 2, 37), (5, 1, 1, 32),
    (5, 3, 2, 191), (6, 1, 2, 64), (6, 4, 3, 700), (7, 2, 1, 256), (7, 5, 1, 1), (8, 5, 15, 19200), (9, 1, 1, 512),
    (9, 7, 1, 3584), (10, 4, 1, 3000), (11, 9, 2, 36864), (12, 1, 1, 4095), (12, 6, 1, 20000), (12, 10, 1, 40960), (12, 7, 15, 430000),
    (13, 1, 1, 8192), (13, 6, 1, 40001), (13, 11, 1, 90111), (14, 1, 1, 16383), (14, 2, 1, 30001), (14, 7, 2, 229376),
    (14, 12, 1, 196608), (14, 12, 15, 2949120),
]


# ---- the code

def point(i, a):
    return (Q - P[i]) % Q if (a >> i) & 1 else P[i]


def shape_bad(n, k, layers):
    # "n may be 3 to 14" (document 02 §7), "k is 1 to n−2", "L .. is 1 to 15".
    return not (3 <= n <= 14 and 1 <= k <= n - 2 and 1 <= layers <= 15)


@lru_cache(maxsize=None)
def recovery(n, known, a):
    """For each node that is not known, the factors of the known symbols of a column at a."""
    others = [i for i in range(n) if i not in known]
    r = len(others)
    rows = []
    for t in range(r):
        left = [pow(point(i, a), t, Q) for i in others]
        right = [(-pow(point(i, a), t, Q)) % Q for i in known]
        rows.append(left + right)
    for col in range(r):
        pivot = next(row for row in range(col, r) if rows[row][col])
        rows[col], rows[pivot] = rows[pivot], rows[col]
        scale = pow(rows[col][col], -1, Q)
        rows[col] = [x * scale % Q for x in rows[col]]
        for row in range(r):
            if row != col and rows[row][col]:
                f = rows[row][col]
                rows[row] = [(x - f * y) % Q for x, y in zip(rows[row], rows[col])]
    return [(i, rows[j][r:]) for j, i in enumerate(others)]


def complete(n, layers, known, held):
    """All n nodes from the known ones, whose symbols are the rows of held."""
    size = layers << n
    nodes = [[0] * size for _ in range(n)]
    for j, i in enumerate(known):
        nodes[i] = list(held[j])
    for place in range(size):
        column = [h[place] for h in held]
        for i, factors in recovery(n, known, place % (1 << n)):
            nodes[i][place] = sum(f * x for f, x in zip(factors, column)) % Q
    return nodes


def rows_of(flat, size):
    return [flat[i:i + size] for i in range(0, len(flat), size)]


def flat_of(rows):
    return [x for row in rows for x in row]


# ---- the four calls: an answer, and the buffer afterwards

def write(n, k, layers, data, before):
    if shape_bad(n, k, layers):
        return 1, before
    size = layers << n
    if len(data) > k * size or len(before) != n * size:
        return 4, before
    held = rows_of(list(data) + [0] * (k * size - len(data)), size)
    return 0, flat_of(complete(n, layers, tuple(range(k)), held))


def check(n, k, layers, nodes):
    if shape_bad(n, k, layers):
        return 1
    size = layers << n
    if len(nodes) != n * size:
        return 4
    if any(x > 256 for x in nodes):
        return 5
    rows = rows_of(nodes, size)
    for layer in range(layers):
        for a in range(1 << n):
            column = [row[(layer << n) + a] for row in rows]
            powers = [1] * n
            for t in range(n - k):
                if sum(p * x for p, x in zip(powers, column)) % Q:
                    return (layer, a, t)
                powers = [p * point(i, a) % Q for i, p in enumerate(powers)]
    # "otherwise the first such symbol by node then place is named" (document 02 §5)
    for i in range(k):
        for place in range(size):
            if rows[i][place] > 255:
                return (i, place)
    return 0


def list_bad(n, k, nodes):
    return len(nodes) != k or any(not 0 <= i < n for i in nodes) or any(x >= y for x, y in zip(nodes, nodes[1:]))


def restore(n, k, layers, nodes, symbols, before):
    if shape_bad(n, k, layers):
        return 1, before
    if list_bad(n, k, nodes):
        return 2, before
    size = layers << n
    if len(symbols) != k * size or len(before) != n * size:
        return 4, before
    if any(x > 256 for x in symbols):
        return 5, before
    return 0, flat_of(complete(n, layers, tuple(nodes), rows_of(symbols, size)))


def open_(n, k, layers, nodes, symbols, length, before):
    if shape_bad(n, k, layers):
        return 1, before
    if list_bad(n, k, nodes):
        return 2, before
    size = layers << n
    if len(symbols) != k * size or length > k * size or len(before) != length:
        return 4, before
    if any(x > 256 for x in symbols):
        return 5, before
    data = flat_of(complete(n, layers, tuple(nodes), rows_of(symbols, size))[:k])
    if any(x == 256 for x in data[:length]) or any(data[length:]):
        return 7, before
    return 0, data[:length]


# ---- numbers and digests, as the test makes them

def next_(seed):
    return (seed % 65521 * 17364 + 11) % 65521


def mixed(h, x):
    return (h % 1000003 * 31 + x % 1000003 + 1) % 1000003


def mixed_all(h, xs):
    for x in xs:
        h = mixed(h, x)
    return h


def mixed_check(h, answer):
    if isinstance(answer, tuple):
        return mixed_all(mixed(h, 9 if len(answer) == 3 else 10), answer)
    return mixed(h, answer)


def stream(seed, count, of):
    out = []
    for _ in range(count):
        seed = next_(seed)
        out.append(of(seed))
    return out


def byte(x):
    return 255 if x % 5 == 0 else x % 256


def symbol(x):
    return 256 if x % 7 == 0 else 255 if x % 7 == 1 else x % 257


def picked(seed, n, k):
    out = []
    for i in range(n):
        seed = next_(seed)
        if len(out) < k and seed % (n - i) < k - len(out):
            out.append(i)
    return out


# ---- the lines

class Archive:
    def __init__(self, shape, length, seed):
        self.shape, self.length, self.seed = shape, length, seed
        n, k, layers = shape
        self.size = layers << n
        self.nodes, self.back, self.text = [0] * (n * self.size), [0] * (n * self.size), stream(next_(seed), length, byte)

    def opened(self, nodes, symbols):
        answer, self.text = open_(*self.shape, nodes, symbols, self.length, self.text)
        return answer

    def subset(self, seed):
        n, k, _ = self.shape
        nodes = picked(seed, n, k)
        rows = rows_of(self.nodes, self.size)
        symbols = flat_of([rows[i] for i in nodes])
        answer, self.back = restore(*self.shape, nodes, symbols, self.back)
        h = mixed_all(answer, self.back)
        h = mixed(h, self.opened(nodes, symbols))
        return mixed_all(h, self.text)

    def anything(self, seed):
        n, k, _ = self.shape
        nodes = picked(seed, n, k)
        symbols = stream(seed, k * self.size, symbol)
        answer, self.back = restore(*self.shape, nodes, symbols, self.back)
        h = mixed_all(answer, self.back)
        opened = self.opened(nodes, symbols)
        h = mixed(mixed_check(h, check(*self.shape, self.back)), opened)
        return mixed_all(h, self.text)

    def damaged(self, seed):
        x = next_(seed)
        y = next_(x)
        at = (x * 65521 + y) % len(self.nodes)
        self.nodes[at] = (self.nodes[at] % 257 + 1 + y % 256) % 257
        return mixed_check(0, check(*self.shape, self.nodes))

    def line(self):
        seed = self.seed
        data = stream(seed, self.length, byte)
        answer, self.nodes = write(*self.shape, data, self.nodes)
        return [
            *self.shape, self.length,
            mixed_all(answer, self.nodes),
            mixed_check(0, check(*self.shape, self.nodes)),
            self.subset(next_(seed)),
            self.subset(next_(next_(seed))),
            self.damaged(seed),
            self.damaged(next_(seed)),
            self.subset(seed),
            self.anything(seed),
        ]


def say(numbers):
    print(''.join(f'{x} ' for x in numbers))


def main():
    for c, (n, k, layers, length) in enumerate(SHAPES):
        say(Archive((n, k, layers), length, c + 1).line())
        recovery.cache_clear()


if __name__ == '__main__':
    main()
