#!/usr/bin/env python3
"""What rust/tests/stored.rs must print for cards, and the program crates/numbers_test for the numbers in them, worked
out from documents 01 ("Cards", "Shape and symbols", "When a call turns back") and 02 (§7, §9) alone.

    python3 tests/card_expected.py > tests/stored/card.txt
    python3 tests/card_expected.py numbers > crates/numbers_test/stdout

It shares nothing with the Rattle code or its definitions: numbers are taken apart as whole strings of bytes, and cards by joining them.
"""
import sys

from code_expected import shape_bad

BIG = 2 ** 64 - 1
SAMPLE = bytes([3, 1, 1, 1, 2, 253, 1, 247, 1, 0, 0, 0, 0, 0, 0])
# the same card with hearing number 700 = 5 * 128 + 60 (document 02 §9), and its numbers
HEARING_SAMPLE = bytes([1, 3, 1, 1, 1, 2, 188, 5, 253, 1, 247, 1, 0, 0, 0, 0, 0, 0])
HEARING_NUMBERS = [1, 3, 1, 1, 1, 2, 700, 253, 247, 0, 0, 0, 0, 0, 0]
BYTES = [0, 1, 3, 128, 129, 255]
SYMBOLS = [0, 1, 127, 128, 255, 256, 257, 16383, 16384, 65535]
LAYERS = [0, 1, 2, 15, 16]
NODES = [0, 1, 2, 3, 13, 14, BIG]
LENGTHS = [0, 8, 9, 127, BIG]
PLACES = [0, 1, 2, 3, 4, 5, 14, 15]
# of a card's numbers with a hearing number: those of the header, the first and the last symbol, or behind them
HEARING_PLACES = [0, 1, 2, 3, 4, 5, 6, 7, 14, 15]
HEARINGS = [0, 1, 127, 128, 16383, 16384, 999999, 1000000, 2097151, 2097152, 268435455, 268435456, BIG]


# ---- the paper

def numeral(v):
    """Groups of seven bits, least first; every byte but the last has 128 added."""
    out = []
    while v > 127:
        out.append(v % 128 + 128)
        v //= 128
    return bytes(out + [v])


def number(data, at):
    """(value, place behind it), or None: only the shortest form is read, and "the card's number reading accepts up to
    four" groups (document 02 §7)."""
    for size in (1, 2, 3, 4):
        form = data[at:at + size]
        if len(form) == size and form[-1] < 128 and all(b > 127 for b in form[:-1]):
            value = sum((b & 127) << (7 * i) for i, b in enumerate(form))
            return (value, at + size) if numeral(value) == form else None
    return None


def header_cause(n, k, layers, node, length):
    if shape_bad(n, k, layers):
        return 1
    if not node < n:
        return 2
    return 6 if length > k * layers * 2 ** n else 0


def front(data):
    """(n, k, L, node, length, and behind a leading 1 the hearing number; place behind them), or None: "The form of all
    header numbers, the hearing number's too, is judged first" (document 02 §9)."""
    first = number(data, 0)
    leading = first is not None and first[0] == 1
    found, at = [], first[1] if leading else 0
    while len(found) < 5 + leading:
        read = number(data, at)
        if read is None:
            return None
        found.append(read[0])
        at = read[1]
    return found, at


def unpack(data, room):
    """The number; the five header numbers, and the hearing number where there is one; the symbols."""
    read = front(data)
    if read is None:
        return 6, None, None
    found, at = read
    cause = header_cause(*found[:5])
    # "A leading 1 followed later by hearing 0, or a value above 999,999 .., is 6, judged after the length"
    if not cause and not all(1 <= hearing <= 999999 for hearing in found[5:]):
        cause = 6
    if cause:
        return cause, None, None
    size = found[2] * 2 ** found[0]
    if room != size:
        return 4, None, None
    symbols = []
    for _ in range(size):
        read = number(data, at)
        if read is None:
            return 6, None, None
        if read[0] > 256:
            return 5, None, None
        symbols.append(read[0])
        at = read[1]
    return (6, None, None) if at < len(data) else (0, found, symbols)


def joined(numbers):
    return b''.join(map(numeral, numbers))


def pack(header, hearing, symbols, room):
    """The number and the card, of the five header numbers and the hearing number, 0 for none."""
    cause = header_cause(*header)
    if cause:
        return cause, None
    if hearing > 999999:
        return 6, None
    size = header[2] * 2 ** header[0]
    if len(symbols) != size or room != 15 + 2 * size:
        return 4, None
    if max(symbols) > 256:
        return 5, None
    # "With 0 a card is packed as today. Otherwise the card starts with the number 1, then n, k, L, node, length, hearing
    # number, symbols." (document 02 §9)
    front = [1, *header, hearing] if hearing else header
    return 0, joined([*front, *symbols])


# ---- the cases

class Tally:
    def __init__(self):
        self.digest, self.counts = 0, [0] * 9

    def mix(self, *xs):
        for x in xs:
            self.digest = (self.digest * 1000003 + x) % 4294967291

    def count(self, cause):
        self.counts[cause] += 1
        self.mix(cause)

    def unpacked(self, data, before):
        cause, header, symbols = unpack(data, len(before))
        self.count(cause)
        self.mix(*(header or []))
        return before if symbols is None else symbols

    def unpack(self, data, room):
        if room <= 24:
            self.mix(*self.unpacked(data, [7] * room), *[7] * (24 - room))

    def pack(self, header, hearing, symbols, room):
        cause, card = pack(header, hearing, symbols, room)
        self.count(cause)
        if card is not None:
            self.mix(len(card))
        card = card or b''
        self.mix(*card, *[170] * (48 - len(card)))

    def read(self, data, at):
        read = number(data, at)
        self.count(6 if read is None else 0)
        self.mix(*(read or []))

    def line(self, name):
        print(name, self.digest, *self.counts)


def cut(t, i, sample=SAMPLE):
    t.unpack(sample[:i], 8)


def changed(t, i, sample=SAMPLE):
    place, byte = divmod(i, 256)
    t.unpack(sample[:place] + bytes([byte]) + sample[place + 1:], 8)


def twice(t, i):
    card = bytearray(SAMPLE)
    card[9 + i % 6] = BYTES[i // 6 % 6]
    card[9 + i // 36 % 6] = BYTES[i // 216]
    t.unpack(bytes(card), 8)


def rooms(t, i, sample=SAMPLE):
    t.unpack(sample, i)


def with_form(t, at, form):
    t.unpack(SAMPLE[:at] + form + SAMPLE[at + 1:], 8)


def coded(code, count):
    return bytes(BYTES[code // 6 ** j % 6] for j in range(count))


def formed(t, i):
    with_form(t, PLACES[i % 8], coded(i // 40, i // 8 % 5 + 1))


def headed(t, i):
    header = [i % 17, i // 17 % 15, LAYERS[i // 255 % 5], NODES[i // 1275 % 7], LENGTHS[i // 8925]]
    t.unpack(bytes(x % 256 for x in header) + SAMPLE[5:], 8)


def lengthy(i):
    """A header of thirteen or fourteen nodes, its length at the limit or at the ends of the numbers of four groups:
    "Transcript lengths may now need four groups"."""
    n, k, layers = 13 + i % 2, 1 + i // 2 % 12, 1 + i // 24 % 15
    most = k * layers * 2 ** n
    return [n, k, layers, n - 1, [most - 1, most, most + 1, 2097151, 2097152, 268435455][i // 360]]


def lengths(t, i):
    t.unpack(joined(lengthy(i)) + SAMPLE[5:], 8)


def placed(t, i):
    t.read(coded(i, 5)[:i // 7776 % 6], [0, 1, 2, 3, 4, 5, 6, BIG][i // 46656])


def paired(t, i):
    t.read(i.to_bytes(2, 'big'), 0)


def pack_headed(t, i):
    n = [*range(16), BIG][i % 17]
    header = [n, i // 17 % 15, LAYERS[i // 255 % 5], NODES[i // 1275 % 7], LENGTHS[i // 8925 % 5]]
    symbols = [256] * 8
    symbols[5] += i // 44625 % 2
    t.pack(header, 0, symbols, 30 + i // 89250)


def pack_lengths(t, i):
    t.pack(lengthy(i), 0, [256] * 8, 31)


def pack_symbols(t, i, hearing=0):
    symbols = [256] * 8
    symbols[i % 8] = SYMBOLS[i // 8]
    t.pack([3, 1, 1, 1, 2], hearing, symbols, 31)


def pack_rooms(t, i, hearing=0, symbol=257):
    t.pack([3, 1, 1, 1, 2], hearing, [symbol] * (i % 11), i // 11)


def ends(name, places, put):
    """The smallest and the largest number of so many groups, in each place."""
    for groups in range(1, 6):
        t = Tally()
        for value in (128 ** (groups - 1) if groups > 1 else 0, 128 ** groups - 1):
            for at in places:
                put(t, at, numeral(value))
        t.line(f'{name}-{groups}')


# ---- the cases with a hearing number (document 02 §9)

def hearing_cut(t, i):
    cut(t, i, HEARING_SAMPLE)


def hearing_changed(t, i):
    changed(t, i, HEARING_SAMPLE)


def hearing_rooms(t, i):
    rooms(t, i, HEARING_SAMPLE)


def with_forms(t, forms):
    """The card with forms in place of some of its numbers."""
    numerals = dict(enumerate(map(numeral, HEARING_NUMBERS))) | forms
    t.unpack(b''.join(numerals[at] for at in sorted(numerals)), 8)


def with_number(t, at, form):
    with_forms(t, {at: form})


def form(i):
    """The forms of one byte, of two, and so on to five."""
    count = 1
    while i >= 6 ** count:
        i -= 6 ** count
        count += 1
    return coded(i, count)


def hearing_formed(t, i):
    with_number(t, HEARING_PLACES[i % 10], form(i // 10))


def hearing_twice(t, i):
    """Two of the header's numbers and the first symbol: which cause comes first."""
    forms = [numeral(0), numeral(3), numeral(9), numeral(257), numeral(1000000), numeral(268435455),
             bytes([129, 0]), bytes([188, 133, 128, 128, 1])]
    with_forms(t, {i % 8: forms[i // 64 % 8], i // 8 % 8: forms[i // 512]})


def judged(i):
    """A hearing number; n, node and length, each good or bad; what is missing in a buffer; what a symbol has too much."""
    header = [3 - i // 13 % 2, 1, 1, 1 + i // 26 % 2 * 2, 2 + i // 52 % 2 * 7]
    return HEARINGS[i % 13], header, i // 104 % 2, i // 208


def hearing_values(t, i):
    hearing, header, missing, more = judged(i)
    t.unpack(joined([1, *header, hearing, 256 + more, *HEARING_NUMBERS[8:]]), 8 - missing)


def pack_hearing_values(t, i):
    hearing, header, missing, more = judged(i)
    t.pack(header, hearing, [256 + more] + [256] * 7, 31 - missing)


def pack_hearing_symbols(t, i):
    pack_symbols(t, i, 700)


def pack_hearing_rooms(t, i):
    pack_rooms(t, i, 700, 256)


def largest(name, header, hearing=0):
    t = Tally()
    size = header[2] * 2 ** header[0]
    room = 15 + 2 * size
    cause, card = pack(header, hearing, [i % 257 for i in range(size)], room)
    assert cause == 0
    t.mix(len(card), *card, *[170] * (room - len(card)))
    back = t.unpacked(card, [7] * size)
    t.mix(*back)
    t.mix(*t.unpacked(card[:-1], back))
    t.line(name)


def run(groups):
    for group, cases in groups:
        t = Tally()
        for i in range(cases):
            group(t, i)
        t.line(group.__name__.replace('_', '-'))


def cards():
    run([(cut, 16), (changed, 3840), (twice, 1296), (rooms, 25), (formed, 311040)])
    ends('ends', PLACES, with_form)
    run([(headed, 44625), (lengths, 2160), (pack_headed, 178500), (pack_lengths, 2160), (pack_symbols, 80),
         (pack_rooms, 539)])
    # "Cards accepted until now read as before" (document 02 §7): the largest until now, and the largest
    largest('twelve', [12, 10, 15, 11, 614400])
    largest('fourteen', [14, 12, 15, 13, 2949120])
    run([(hearing_cut, 19), (hearing_changed, 4608), (hearing_rooms, 25), (hearing_formed, 93300), (hearing_twice, 4096)])
    ends('hearing-ends', HEARING_PLACES, with_number)
    run([(hearing_values, 416), (pack_hearing_values, 416), (pack_hearing_symbols, 80), (pack_hearing_rooms, 539)])
    largest('hearing-fourteen', [14, 12, 15, 13, 2949120], 999999)


def numbers():
    run([(placed, 373248), (paired, 65536)])


if __name__ == '__main__':
    if sys.argv[1:] == ['numbers']:
        numbers()
    else:
        cards()
