#!/usr/bin/env python3
"""What rust/tests/stored.rs must print for the plan, worked out from documents 01 ("The plan program", "Repair", "Cards",
"When a call turns back") and 02 (§7) alone.

    python3 tests/plan_expected.py > tests/stored/plan.txt

It shares nothing with the Rattle code or its definitions. ROOM is the size that the call asks of a text buffer, the one
number here that is not a document's.
"""
from card_expected import number
from code_expected import shape_bad

# At n = 14, k = 1, h = 12: line 1 and 12 * 13 transfers of at most 13 bytes, and a total of at most 8.
ROOM = 2049
SAMPLE = bytes([4, 1, 3, 2, 0, 1, 2, 3])
BYTES = [0, 1, 3, 128, 129, 255]
LAYERS = [0, 1, 2, 3, 13, 15, 16]


# ---- the paper

def numbers(data, at, count):
    found = []
    for _ in range(count):
        read = number(data, at)
        if read is None:
            return None
        found.append(read[0])
        at = read[1]
    return found, at


def text(data):
    """(number, what is printed)."""
    first = numbers(data, 0, 4)
    if first is None:
        return refused(6)
    (n, k, layers, h), at = first
    if shape_bad(n, k, layers):
        return refused(1)
    if not 1 <= h <= n - k - 1:
        return refused(2)
    lists = numbers(data, at, h + k + 1)
    if lists is None or lists[1] < len(data):
        return refused(6)
    dead, helpers = lists[0][:h], lists[0][h:]
    if any(sorted(set(x)) != x or x[-1] >= n for x in (dead, helpers)) or set(dead) & set(helpers):
        return refused(2)
    s = h + 1
    while s % 2 == 0:
        s //= 2
    if layers % s:
        return refused(3)
    size = layers * 2 ** n
    assert size % (h + 1) == 0
    symbols = size // (h + 1)
    lines = [(n, k, layers, h)]
    lines += [(sender, receiver, symbols) for receiver in dead for sender in helpers]
    lines += [(sender, receiver, symbols) for receiver in dead for sender in dead if sender != receiver]
    lines += [(sum(line[2] for line in lines[1:]),)]
    assert lines[-1][0] * (h + 1) == h * (k + h) * size
    return 0, ''.join(' '.join(map(str, line)) + '\n' for line in lines).encode()


def refused(cause):
    return cause, b'%d\n' % cause


# ---- the cases

class Tally:
    def __init__(self):
        self.digest, self.counts = 0, [0] * 9

    def mix(self, *xs):
        for x in xs:
            self.digest = (self.digest * 1000003 + x) % 4294967291

    def count(self, cause):
        self.counts[cause] += 1
        self.mix(cause)

    def plan(self, data, room):
        if room > ROOM + 4:
            return
        if room < ROOM:
            self.count(4)
            self.mix(*[170] * (ROOM + 4))
            return
        cause, out = text(data)
        assert len(out) <= ROOM
        self.count(cause)
        self.mix(len(out), *out, *[170] * 4)

    def line(self, name):
        print(name, self.digest, *self.counts)


def code(i, count):
    return bytes(BYTES[i // 6 ** j % 6] for j in range(count))


def cut(i):
    return (SAMPLE + b'\0')[:i]


def changed(i):
    place, byte = divmod(i, 256)
    return SAMPLE[:place] + bytes([byte]) + SAMPLE[place + 1:]


def spliced(i):
    at, count = i % 9, i // 9 % 5 + 1
    return SAMPLE[:at] + code(i // 45, count) + SAMPLE[at + 1:]


def fronts(i):
    n, k, layers, h = i % 17, i // 17 % 15, LAYERS[i // 255 % 7], i // 1785
    return bytes([n, k, layers, h, *range(h + k + 1)])


def lists(i):
    dead, helpers = ([b for b in range(6) if mask >> b & 1] for mask in (i % 64, i // 64 % 64))
    return bytes([6, 2, 1 + i // 4096, len(dead), *dead, *helpers])


def orders(i):
    return bytes([5, 1, 1 + i // 1296, 2, *(i // 6 ** j % 6 for j in range(4))])


def long(i):
    return (bytes([14, 1, 13, 12]) + bytes([129, 129, 129, 1]) * 20)[:i]


IN_FULL = [
    [5, 1, 4, 3, 1, 2, 4, 0, 3],
    [12, 10, 15, 1, 3, 0, 1, 2, 4, 5, 6, 7, 8, 9, 10, 11],
    [12, 1, 11, 10, *range(12)],
    [14, 1, 13, 12, *range(14)],
    [14, 2, 3, 11, 0, 1, 2, 4, 5, 6, 7, 9, 10, 11, 13, 3, 8, 12],
    [14, 12, 15, 1, 13, *range(13)],
]


def main():
    groups = [(cut, 10), (changed, 2048), (spliced, 349920), (fronts, 28560), (lists, 12288), (orders, 3888), (long, 80)]
    for group, cases in groups:
        t = Tally()
        for i in range(cases):
            t.plan(group(i), ROOM + i % 5)
        t.line(group.__name__)
    t = Tally()
    for i in range(ROOM + 5):
        t.plan(SAMPLE, i)
    t.line('rooms')
    for data in IN_FULL:
        print(text(bytes(data))[1].decode(), end='')


main()
