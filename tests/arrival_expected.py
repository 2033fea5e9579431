#!/usr/bin/env python3
"""What rust/tests/stored.rs must print for messages in the order they arrive, worked out from documents 01 ("Repair") and 02
(§7, §8) alone.

    python3 tests/arrival_expected.py > tests/stored/arrival.txt

Kept sums are added up as whole numbers, and reduced only where they are shown. No equations are solved: times the coefficients
of the polynomial that is 1 at an unknown's point and 0 at the others', the kept sums add up to minus that unknown. To n = 9,
where they began as zeros, the end is held to `first_step` of repair_expected.py, which inverts whole matrices. A line is n and
k, a digest of each call's number and of all its buffers afterwards, and how many calls to hear, then to finish, were accepted
and how many refused with 1 to 5.
"""
from copy import copy
from functools import lru_cache, reduce
from operator import add, mul, xor

from code_expected import shape_bad
from repair_expected import (
    Plan, Q, archive, first_step, message, mixed, mixed_symbols, odd_part, point, random_sets, random_symbols)

POWERS = [[pow(p, t, Q) for t in range(14)] for p in range(Q)]
# The changes that a call goes through which is strewn between the others, by the numbers in `spoiled`: none, one, or two.
TWO = {1: [6, 10, 13], 2: [17], 3: [7], 5: [13], 6: [7, 9], 7: [9], 8: [7], 9: [17, 18, 19], 10: [11, 12], 11: [9, 13, 16]}
TWO |= {12: [6, 13], 13: [6, 9, 18], 14: [9], 15: [13]}
KINDS = [[], *([way] for way in range(1, 20)), *([first, second] for first in TWO for second in TWO[first])]


# ---- the paper

def lists_bad(n, k, dead, helpers):
    rising = all(nodes == sorted(set(nodes)) and max(nodes, default=n) < n for nodes in (dead, helpers))
    return not rising or len(dead) > n - k - 1 or len(helpers) != k + 1 or bool(set(dead) & set(helpers))


@lru_cache(maxsize=16)
def summed_at(n, layers, dead, new_node):
    """The a of each sum of a message to a new node: "for each batch, then each a of its class, rising"."""
    s = odd_part(len(dead) + 1)
    top = (len(dead) + 1) // s - 1
    u1, u2 = divmod(dead.index(new_node), s)
    its_class = u1 if u1 == top or u2 > 0 else 0
    class_of = lambda a: reduce(xor, (v + 1 for v in range(top) if a >> dead[s * v] & 1), 0)
    return [a for a in range(2 ** n) if class_of(a) == its_class] * (layers // s)


@lru_cache(maxsize=2 ** 13)
def polynomials(points):
    """For each point the coefficients, that of power 0 first, of the polynomial that is 1 there and 0 at the others."""
    whole = [1]
    for p in points:
        whole = [(lower - p * x) % Q for lower, x in zip([0] + whole, whole + [0])]
    out = []
    for p in points:
        # the one that is 0 at all points, divided by the one that is 0 at p
        part = [0]
        for x in whole[:0:-1]:
            part.append((x + p * part[-1]) % Q)
        part = part[:0:-1]
        scale = pow(sum(map(mul, part, POWERS[p])), -1, Q)
        out.append([x * scale % Q for x in part])
    return out


class Call:
    """What both calls are given, and the kept sums without the modulus."""

    def refusal(self, hears):
        n, k, layers = self.shape
        if shape_bad(n, k, layers):
            return 1
        h, record = len(self.dead), self.record
        if lists_bad(n, k, self.dead, self.helpers) or self.new_node not in self.dead:
            return 2
        counted = record[1:1 + record[0]] if record else []
        # "A helper heard a second time, or one not in the list, in the kept record too, is 2"
        if record and record[0] > k + 1 or len(set(counted)) < len(counted) or not set(counted) <= set(self.helpers):
            return 2
        if hears and (self.helper not in self.helpers or self.helper in counted):
            return 2
        if layers % odd_part(h + 1):
            return 3
        size = (layers << n) // (h + 1)
        if len(self.sums) != (n - k) * size or len(record) != k + 2:
            return 4
        if hears and len(self.message) != size:
            return 4
        # "Finishing before all k+1 are heard is 4."
        if not hears and (self.pairs != 2 * size or self.exchanges != (h - 1) * size or record[0] != k + 1):
            return 4
        # "A kept sum handed in above the largest symbol is 5."
        return 5 if max(self.sums) > 256 or hears and max(self.message) > 256 else 0

    def hear(self):
        number = self.refusal(True)
        if number == 0:
            n, k, layers = self.shape
            powers = [POWERS[point(self.helper, a)][:n - k] for a in summed_at(n, layers, tuple(self.dead), self.new_node)]
            added = (power * symbol for of_a, symbol in zip(powers, self.message) for power in of_a)
            self.totals = list(map(add, self.totals, added))
            self.sums = [total % Q for total in self.totals]
            count = self.record[0] + 1
            self.record = changed(changed(self.record, 0, count), count, self.helper)
        return [number]

    def finish(self):
        """The number, and the pairs and exchanges, which are filled with 9."""
        number = self.refusal(False)
        if number:
            return number, [9] * self.pairs, [9] * self.exchanges
        n, k, layers = self.shape
        r, new = n - k, self.new_node
        fellows = [i for i in self.dead if i != new]
        rest = fellows + [i for i in range(n) if i not in self.dead + self.helpers]
        found = []
        for x, a in enumerate(summed_at(n, layers, tuple(self.dead), new)):
            own = point(new, a)
            unknown = polynomials((own, Q - own, *[point(i, a) for i in rest]))
            sums = self.sums[x * r:x * r + r]
            found.append([-sum(map(mul, unknown[u], sums)) % Q for u in range(2 + len(fellows))])
        pairs = [symbol for symbols in found for symbol in symbols[:2]]
        return 0, pairs, [symbols[2 + u] for u in range(len(fellows)) for symbols in found]

    def told(self, hears):
        """The number of one of the calls, and what stands in its buffers afterwards."""
        own = self.hear() if hears else [mixed_symbols(0, x) if i else x for i, x in enumerate(self.finish())]
        return own + self.record + [mixed_symbols(0, self.sums)]

    def spoiled(self, way, x, y):
        """Another name, message, kept sum, record, count of layers, list, shape or buffer."""
        n, k, layers = self.shape
        dead, helpers, record = self.dead, self.helpers, self.record
        far, high = x * 65521 + y, [257, 258, 512, 65535][y % 4]
        a_dead, a_helper = dead[x % len(dead)], helpers[x % len(helpers)]
        if way == 1:
            self.helper = record[1 + x % record[0]] if record[0] else dead[0]
        elif way == 2:
            idle = next((i for i in range(n) if i not in dead + helpers), n)
            self.helper = [n, n + x, self.helper + 2 ** 32, 2 ** 64 - 1, idle][y % 5]
        elif way == 3:
            self.helper = a_dead
        elif way == 4:
            self.helper = a_helper
        elif way == 5:
            self.new_node = [a_dead, a_helper, n, self.new_node + 2 ** 32, 2 ** 64 - 1][y % 5]
        elif way == 6:
            self.message = resized(self.message, y)
        elif way == 7 and self.message:
            self.message = changed(self.message, x % len(self.message), high)
        elif way == 8:
            self.sums = resized(self.sums, y)
        elif way == 9:
            self.sums = changed(self.sums, far % len(self.sums), high)
        elif way == 10:
            self.record = (record + [0])[:[k + 1, k + 3, 0, 1 + x % (k + 1)][y % 4]]
        elif way == 11 and record:
            self.record = changed(record, 0, [k + 1, k + 2, k + 2 + x, record[0] + 2 ** 32, 2 ** 64 - 1][y % 5])
        elif way == 12 and 1 + x % (k + 1) < len(record):
            at = 1 + x % (k + 1)
            names = [helpers[y // 6 % len(helpers)], a_dead, n, (record[at] + 2 ** 32) % 2 ** 64, 2 ** 64 - 1, y % n]
            self.record = changed(record, at, names[y % 6])
        elif way == 13:
            self.shape = [n, k, 1 + x % 15]
        elif way == 14:
            self.dead = changed(dead, x % len(dead), y % (n + 1))
        elif way == 15:
            self.helpers = changed(helpers, x % len(helpers), y % (n + 1))
        elif way == 16:
            lists = [[dead[:-1], helpers], [dead + [n - 1], helpers], [[], helpers]]
            lists += [[dead, helpers[:-1]], [dead, helpers + [n - 1]], [dead, []]]
            self.dead, self.helpers = lists[y % 6]
        elif way == 17:
            shapes = [[2, k, layers], [15, k, layers], [n, 0, layers], [n, n - 1, layers], [n, k, 0], [n, k, 16]]
            shapes += [[n + 2 ** 32, k, layers], [n, k + 2 ** 32, layers], [n, k, layers + 2 ** 32], [2 ** 64 - 1] * 3]
            self.shape = shapes[x % 10]
        elif way == 18:
            self.pairs = [self.pairs - 1, self.pairs + 1, 0][y % 3]
        elif way == 19:
            self.exchanges = [max(self.exchanges - 1, 0), self.exchanges + 1, 0][y % 3]


def resized(elements, y):
    return [elements[:-1], elements + [0], []][y % 3]


def changed(elements, index, element):
    return elements[:index] + [element] + elements[index + 1:]


# ---- the cases

class Case:
    """The messages to a new node in any order, with spoiled calls strewn between. The case's number is the seed of all."""

    def __init__(self, n, k, h, most_batches, rank, number):
        self.number, self.seed = number, number * 16 + 14
        s = odd_part(h + 1)
        layers = s * (1 + self.drawn() % min(15 // s, most_batches))
        self.size = (layers << n) // (h + 1)
        self.call = call = Call()
        call.shape = [n, k, layers]
        call.dead, call.helpers = map(list, random_sets(number, n, k, h))
        self.rank = self.drawn() % h if rank is None else rank
        call.new_node = call.dead[self.rank]
        call.pairs, call.exchanges = 2 * self.size, (h - 1) * self.size
        # the messages of a codeword, or any
        self.nodes = archive(n, k, layers, True, number) if n < 8 and number % 3 == 0 else None
        self.order = list(call.helpers)
        for i in range(k, 0, -1):
            j = self.drawn() % (i + 1)
            self.order[i], self.order[j] = self.order[j], self.order[i]
        # 0, nobody is heard; 1, that, with anything behind the count; 2, some are, and the sums are any
        self.begun = self.drawn() % 3
        self.heard = self.drawn() % (k + 2) if self.begun == 2 else 0
        count = (n - k) * self.size
        call.sums = call.totals = random_symbols(number * 16 + 15, count) if self.begun == 2 else [0] * count
        call.record = [self.heard] + self.order[:self.heard]
        while len(call.record) < k + 2:
            call.record.append(self.anything() if self.begun else 0)

    def drawn(self):
        self.seed = (self.seed * 17364 + 11) % 65521
        return self.seed

    def anything(self):
        x, y = self.drawn(), self.drawn()
        return [0, self.order[x % len(self.order)], x, 2 ** 64 - 1][y % 4]

    def message(self, helper):
        if self.nodes is None:
            return random_symbols(self.number * 16 + helper, self.size)
        return message(Plan(*self.call.shape, self.call.dead), self.rank, self.nodes[helper])

    def calls(self):
        """What is told of each call."""
        for helper in self.order[self.heard:]:
            yield from self.strays(helper, 0)
            yield True, self.call.told(True)
        yield from self.strays(self.order[0], 1)
        yield False, self.call.told(False)
        if self.begun < 2 and self.call.shape[0] < 10:
            self.held_to_first_step()

    def strays(self, helper, least):
        """The message of a helper arrives. Before it is heard, so many spoiled calls or up to two more, whose buffers nothing
        else has."""
        self.call.helper, self.call.message = helper, self.message(helper)
        for _ in range(least + self.drawn() % 3):
            call = copy(self.call)
            for way in KINDS[self.drawn() % len(KINDS)]:
                call.spoiled(way, self.drawn(), self.drawn())
            hears = self.drawn() % 2 == 0
            yield hears, call.told(hears)

    def held_to_first_step(self):
        """Document 02 §8: "every order must end in the pairs and outgoing messages of document 01's first step"."""
        call = self.call
        plan, messages = Plan(*call.shape, call.dead), [self.message(helper) for helper in call.helpers]
        pairs, sums = first_step(plan, call.helpers, self.rank, messages)
        assert call.finish() == (0, pairs, [symbol for fellow in sorted(sums) for symbol in sums[fellow]])
        if self.nodes:
            assert pairs == [self.nodes[call.new_node][at] for _, *places in plan.spots[self.rank] for at in places]


def cases_of(n, k):
    """How many dead nodes, at most so many batches, and which rank is new, or any."""
    half, most = (n - k) // 2, n - k - 1
    if n < 9:
        return [(h, 15, rank) for h in range(1, most + 1) for rank in range(h)] * (1 + 2 ** (9 - n))
    if n < 13:
        return [(h, 2, None) for h in sorted({1, half, most})]
    eleven = [(11, 1, rank) for rank in range(11) if (n, k) == (14, 1)]
    return [(h, 1, None) for h in sorted({half, most})] + eleven


def main():
    number = 0
    for n in range(3, 15):
        for k in range(1, n - 1):
            digest, counts = 0, {True: [0] * 6, False: [0] * 6}
            for case in cases_of(n, k):
                number += 1
                for hears, told in Case(n, k, *case, number).calls():
                    counts[hears][told[0]] += 1
                    for x in told:
                        digest = mixed(digest, x)
            print(n, k, digest, *counts[True], *counts[False], '')


main()
