#!/usr/bin/env python3
"""What rust/tests/stored.rs must print for orders of transfers, worked out from documents 01 ("Repair", "The plan
program") and 02 (§7, §12) alone.

    python3 tests/order_expected.py > tests/stored/order.txt

A list is compared with the plan as a set of pairs, and its order by the place of each pair. A line is n, a digest of the
answers for each k and h and each kind of change, and how many of them were 0, 1, 2, 3, 4 and 13.
"""
from itertools import islice, permutations, product

from code_expected import shape_bad
from repair_expected import mixed, odd_part, random_sets

KINDS, ROUNDS = 13, 4


# ---- the paper

def list_bad(nodes, count, n):
    return len(nodes) != count or sorted(set(nodes)) != nodes or nodes[-1] >= n


def may_run(n, k, layers, dead, helpers, numbers):
    if shape_bad(n, k, layers):
        return 1
    h = len(dead)
    if not 1 <= h <= n - k - 1 or list_bad(dead, h, n) or list_bad(helpers, k + 1, n) or set(dead) & set(helpers):
        return 2
    if layers % odd_part(h + 1):
        return 3
    if len(numbers) % 2:
        return 4
    pairs = list(zip(numbers[::2], numbers[1::2]))
    told, exchanged = set(product(helpers, dead)), set(permutations(dead, 2))
    # as many as there are, and the same set: so each stands there once
    if len(pairs) != len(told) + len(exchanged) or set(pairs) != told | exchanged:
        return 13
    place = {pair: at for at, pair in enumerate(pairs)}
    ready = {new: max(place[helper, new] for helper in helpers) for new in dead}
    return 0 if all(place[sender, fellow] > ready[sender] for sender, fellow in exchanged) else 13


# ---- the cases

def draws(seed):
    while True:
        seed = (seed * 17364 + 11) % 65521
        yield seed


def ordered(dead, helpers, drawn, exchanges_wait):
    """The transfers by a number drawn for each, in the plan's order; an exchange that waits has at least its sender's."""
    told = {(helper, new): next(drawn) for new in dead for helper in helpers}
    key = dict(told)
    for new in dead:
        for fellow in dead:
            if fellow != new:
                waits = max(told[helper, fellow] for helper in helpers) if exchanges_wait else 0
                key[fellow, new] = max(waits, next(drawn))
    return sorted(key, key=key.get)


def case(n, k, h, kind, seed):
    s = odd_part(h + 1)
    layers = s * (1 + seed % (15 // s))
    dead, helpers = map(list, random_sets(seed, n, k, h))
    drawn = islice(draws(seed), n, None)
    pairs = ordered(dead, helpers, drawn, kind != 1)
    x, y, z = islice(drawn, 3)
    at, other = x % len(pairs), y % len(pairs)
    if kind == 2:
        pairs[at], pairs[other] = pairs[other], pairs[at]
    elif kind == 3:
        del pairs[at]
    elif kind == 4:
        pairs.insert(other, pairs[at])
    elif kind == 5:
        pairs[at] = pairs[other]
    numbers = [node for pair in pairs for node in pair]
    at = x % len(numbers)
    if kind == 6:
        was = numbers[at]
        numbers[at] = [y % (n + 2), was + 2 ** 8, was + 2 ** 32, was + 2 ** 63, 2 ** 64 - 1][z % 5]
    elif kind == 7:
        numbers.pop()
    elif kind == 8:
        numbers.insert(at, y % n)
    elif kind == 9:
        layers = 1 + x % 15
    elif kind == 10:
        dead[x % h] = y % (n + 1)
    elif kind == 11:
        helpers[x % (k + 1)] = y % (n + 1)
    elif kind == 12:
        shapes = [(2, k, layers), (15, k, layers), (n, 0, layers), (n, n - 1, layers), (n, k, 0), (n, k, 16)]
        n, k, layers = shapes[x % 6]
    return may_run(n, k, layers, dead, helpers, numbers)


def main():
    seed = 0
    for n in range(3, 15):
        digest, counts = 0, {0: 0, 1: 0, 2: 0, 3: 0, 4: 0, 13: 0}
        for k in range(1, n - 1):
            for h in range(1, n - k):
                for i in range(KINDS * ROUNDS):
                    seed += 1
                    answer = case(n, k, h, i % KINDS, seed)
                    counts[answer] += 1
                    digest = mixed(digest, answer)
        print(n, digest, *counts.values(), '')


main()
