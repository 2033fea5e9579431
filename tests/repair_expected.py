#!/usr/bin/env python3
"""What rust/tests/stored.rs must print for whole repairs, from document 01's "Repair" and document 02 §7 alone; it
shares no code with the archive.

    python3 tests/repair_expected.py > tests/stored/repair.txt

Nodes are lists here, and solving is Gauss-Jordan elimination with pivoting of whole matrices, kept for each
set of points.
"""
from functools import lru_cache
from itertools import combinations

Q = 257
# "The powers of 3", 222 and 152 for nodes 12 and 13 too (document 02 §7).
P = [pow(3, i, Q) for i in range(14)]


def point(i, a):
    return Q - P[i] if (a >> i) & 1 else P[i]


@lru_cache(maxsize=None)
def inverse(points):
    """The inverse of the matrix with row t the powers t of the points."""
    r = len(points)
    rows = [[pow(p, t, Q) for p in points] + [int(t == j) for j in range(r)] for t in range(r)]
    for col in range(r):
        pivot = next(row for row in range(col, r) if rows[row][col])
        rows[col], rows[pivot] = rows[pivot], rows[col]
        scale = pow(rows[col][col], -1, Q)
        rows[col] = [x * scale % Q for x in rows[col]]
        for row in range(r):
            f = rows[row][col]
            if row != col and f:
                rows[row] = [(x - f * y) % Q for x, y in zip(rows[row], rows[col])]
    return [row[r:] for row in rows]


@lru_cache(maxsize=None)
def factors(unknown, known):
    """For unknown and known points: what each unknown symbol takes of each known one."""
    inv = inverse(unknown)
    r = len(unknown)
    powers = [[pow(p, t, Q) for t in range(r)] for p in known]
    return [[-sum(row[t] * w[t] for t in range(r)) % Q for w in powers] for row in inv]


def completed(n, k, layers, held):
    """All nodes of the codeword that has these symbols on nodes 0 to k-1."""
    size = layers << n
    nodes = [list(node) for node in held] + [[0] * size for _ in range(n - k)]
    for place in range(size):
        a = place % (1 << n)
        points = tuple(point(i, a) for i in range(n))
        for i, row in zip(range(k, n), factors(points[k:], points[:k])):
            nodes[i][place] = sum(f * nodes[j][place] for j, f in enumerate(row)) % Q
    return nodes


# ---- repair

class Plan:
    """What a list of dead nodes fixes: batches, classes and spots."""

    def __init__(self, n, k, layers, dead):
        self.n, self.k, self.dead = n, k, dead
        self.h = h = len(dead)
        self.s = h + 1
        while self.s % 2 == 0:
            self.s //= 2
        self.H = (h + 1) // self.s - 1
        self.batches = layers // self.s
        self.size = layers << n
        self.by_class = [[] for _ in range(self.H + 1)]
        for a in range(1 << n):
            c = 0
            for v in range(self.H):
                if (a >> dead[self.s * v]) & 1:
                    c ^= v + 1
            self.by_class[c].append(a)
        self.spots = [self.spots_of(u) for u in range(h)]

    def row(self, u):
        """The class and the partner layer of rank u."""
        u1, u2 = divmod(u, self.s)
        if u1 == self.H:
            return self.H, u2 + 1
        return (0, 0) if u2 == 0 else (u1, u2)

    def spots_of(self, u):
        """The sums of rank u: (a, first place, other place)."""
        c, partner = self.row(u)
        out = []
        for b in range(self.batches):
            for a in self.by_class[c]:
                other = a ^ (1 << self.dead[u])
                base = b * self.s
                out.append((a, (base << self.n) + a, ((base + partner) << self.n) + other))
        return out


def message(plan, u, symbols):
    return [(symbols[x] + symbols[y]) % Q for _, x, y in plan.spots[u]]


def first_step(plan, helpers, u, messages):
    """The own pairs of rank u, and its sums for each other dead node."""
    me = plan.dead[u]
    rest = [i for i in range(plan.n) if i not in helpers and i != me]
    pairs, sums = [], {i: [] for i in rest}
    for e, (a, _, _) in enumerate(plan.spots[u]):
        own = P[me]
        mine = (own, Q - own) if not (a >> me) & 1 else (Q - own, own)
        unknown = mine + tuple(point(i, a) for i in rest)
        known = tuple(point(i, a) for i in helpers)
        told = [m[e] for m in messages]
        values = [sum(f * x for f, x in zip(row, told)) % Q for row in factors(unknown, known)]
        pairs += values[:2]
        for i, x in zip(rest, values[2:]):
            sums[i].append(x)
    return pairs, {i: sums[i] for i in rest if i in plan.dead}


def second_step(plan, v, pairs, received):
    """All symbols of rank v, from its pairs and the messages of the other ranks."""
    out = [None] * plan.size
    for e, (_, x, y) in enumerate(plan.spots[v]):
        out[x], out[y] = pairs[2 * e], pairs[2 * e + 1]
    waiting = [u for u in range(plan.h) if u != v]
    # A sum whose first or second symbol is known gives the other one; what is left waits for another round.
    left = [(u, e) for u in waiting for e in range(len(plan.spots[u]))]
    c = plan.row(v)[0]
    if c:
        left.sort(key=lambda ue: ue[0] != plan.s * (c - 1))
    while left:
        again = []
        for u, e in left:
            _, x, y = plan.spots[u][e]
            total = received[u][e]
            if out[x] is None and out[y] is None:
                again.append((u, e))
            elif out[y] is None:
                out[y] = (total - out[x]) % Q
            elif out[x] is None:
                out[x] = (total - out[y]) % Q
            else:
                raise AssertionError("a symbol is given twice")
        if len(again) == len(left):
            raise AssertionError("no symbol is found")
        left = again
    assert all(x is not None for x in out)
    return out


def repair(plan, helpers, nodes):
    """The wire and the dead nodes."""
    told = [[message(plan, u, nodes[i]) for i in helpers] for u in range(plan.h)]
    steps = [first_step(plan, helpers, u, told[u]) for u in range(plan.h)]
    wire = [x for by in told for m in by for x in m]
    back = []
    for v, node in enumerate(plan.dead):
        received = {u: steps[u][1][node] for u in range(plan.h) if u != v}
        for u in sorted(received):
            wire += received[u]
        back.append(second_step(plan, v, steps[v][0], received))
    return wire, back


# ---- the lines

def mixed(h, x):
    return (h * 31 + x + 1) % 1000003


def mixed_symbols(h, xs):
    for x in xs:
        h = (h * 31 + x + 1) % 1000003
    return h


def random_symbols(seed, count):
    out = []
    for _ in range(count):
        seed = (seed % 65521 * 17364 + 11) % 65521
        out.append(256 if seed % 7 == 0 else seed % 257)
    return out


def odd_part(x):
    while x % 2 == 0:
        x //= 2
    return x


def sets_of(n, k, h):
    """Every dead set and helper set, in the order of the numbers whose digits to the base 3 are the roles."""
    out = []
    for dead in combinations(range(n), h):
        others = [i for i in range(n) if i not in dead]
        for helpers in combinations(others, k + 1):
            number = sum(3 ** i for i in dead) + 2 * sum(3 ** i for i in helpers)
            out.append((number, dead, helpers))
    return sorted(out)


def random_sets(seed, n, k, h):
    """Dead nodes and helpers: each node dies or helps with the chance that is left."""
    dead, helpers = [], []
    for i in range(n):
        seed = (seed % 65521 * 17364 + 11) % 65521
        x = seed % (n - i)
        if x < h - len(dead):
            dead.append(i)
        elif x < h - len(dead) + k + 1 - len(helpers):
            helpers.append(i)
    assert len(dead) == h and len(helpers) == k + 1
    return tuple(dead), tuple(helpers)


def garbage(number, e):
    return (e % 65536 * 40503 + number * 9973 + 300) % 65536


def archive(n, k, layers, sound, seed):
    """The nodes of a random codeword, or of any symbols."""
    size = layers << n
    flat = random_symbols(seed, (k if sound else n) * size)
    rows = [flat[i:i + size] for i in range(0, len(flat), size)]
    return completed(n, k, layers, rows) if sound else rows


def line(heading, n, k, h, layers, sound, seed, cases):
    """The line of some repairs, each a number, its dead nodes and its helpers."""
    size = layers << n
    word = archive(n, k, layers, sound, seed)
    plans = {}
    count = digest = 0
    for number, dead, helpers in cases:
        if dead not in plans:
            plans[dead] = Plan(n, k, layers, dead)
        wire, back = repair(plans[dead], helpers, word)
        assert len(wire) == h * (k + h) * size // (h + 1)
        digest = mixed_symbols(mixed(digest, 0), wire)
        restored = dict(zip(dead, back))
        count += all(restored[i] == word[i] for i in dead)
        if not sound:
            for i in range(n):
                lost = [garbage(number, i * size + e) for e in range(size)]
                digest = mixed_symbols(digest, restored.get(i, word[i] if i in helpers else lost))
    factors.cache_clear()
    inverse.cache_clear()
    print(*heading, 0, count, digest, "")


# Larger shapes: n, k, h, L, how many random repairs, and 1 for a codeword or 0 for any symbols.
LARGE = [
    (9, 5, 2, 3, 5, 1), (9, 4, 4, 5, 5, 1), (9, 3, 5, 3, 5, 1), (9, 2, 6, 7, 5, 1), (9, 1, 7, 1, 5, 1),
    (10, 7, 2, 3, 4, 1), (10, 5, 4, 5, 4, 1), (10, 4, 5, 3, 4, 1), (10, 1, 8, 9, 3, 1),
    (11, 9, 1, 1, 4, 1), (11, 4, 3, 1, 4, 1), (11, 3, 6, 7, 3, 1), (11, 1, 9, 5, 3, 1),
    (12, 10, 1, 1, 4, 1), (12, 8, 3, 1, 4, 1), (12, 6, 3, 1, 4, 1), (12, 4, 7, 1, 4, 1), (12, 3, 8, 9, 2, 1), (12, 1, 10, 11, 2, 1),
    (3, 1, 1, 15, 3, 1), (5, 2, 2, 15, 5, 1), (6, 1, 3, 15, 5, 1), (7, 2, 4, 15, 5, 1), (8, 2, 5, 15, 5, 1),
    (10, 2, 7, 15, 3, 1), (11, 1, 9, 15, 2, 1), (12, 10, 1, 15, 2, 1), (12, 2, 9, 15, 2, 1),
    (3, 1, 1, 1, 3, 0), (4, 1, 2, 3, 6, 0), (5, 1, 3, 2, 5, 0), (6, 2, 2, 6, 5, 0), (7, 1, 4, 15, 5, 0), (8, 2, 5, 6, 5, 0),
    (9, 1, 6, 14, 3, 0), (10, 2, 7, 4, 3, 0), (11, 2, 8, 9, 2, 0), (12, 1, 10, 11, 1, 0), (12, 5, 5, 15, 1, 0),
    # "Exact repair and its total cover the new sizes" (document 02 §7); h = 11 and h = 12 are new with them.
    (13, 1, 11, 3, 2, 1), (14, 1, 11, 3, 1, 1), (14, 2, 11, 3, 2, 1), (14, 1, 12, 13, 1, 1), (13, 5, 7, 1, 2, 1),
    (14, 10, 3, 1, 2, 1), (14, 12, 1, 1, 2, 1), (13, 1, 11, 6, 1, 0), (14, 2, 11, 3, 1, 0),
]


def main():
    for n in range(3, 9):
        for k in range(1, n - 1):
            for h in range(1, n - k):
                line((n, k, h), n, k, h, odd_part(h + 1), True, n * 100 + k * 10 + h, sets_of(n, k, h))
    for c, (n, k, h, layers, repairs, sound) in enumerate(LARGE):
        seed = (c + 1) * 100
        cases = [(i, *random_sets(seed + i, n, k, h)) for i in range(repairs)]
        line((n, k, h, layers), n, k, h, layers, sound, seed, cases)


if __name__ == '__main__':
    main()
