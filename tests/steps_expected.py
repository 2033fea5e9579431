#!/usr/bin/env python3
"""What rust/tests/stored.rs must print for the calls of a repair one by one, from document 01's "Repair" and document 02
§7 alone; it shares no code with the archive.

    python3 tests/steps_expected.py > tests/stored/steps.txt

The repair is that of repair_expected.py, whose wire and nodes are made of the messages and steps that are counted here: a line has n, k, h, L,
0 for the archive and 0 for the repair, digests of the wire and of the nodes, the messages of helpers, the sums between new nodes and the
new nodes (all of which are to be the same), and a digest of the own pairs.
"""
from repair_expected import Plan, archive, factors, first_step, inverse, message, mixed_symbols, random_sets, repair

# Shapes: n, k, h, L, and 1 for a codeword or 0 for any symbols.
SHAPES = [
    (3, 1, 1, 1, 1), (3, 1, 1, 15, 0), (4, 1, 2, 3, 0), (4, 1, 2, 6, 1), (5, 1, 3, 2, 0), (5, 2, 2, 15, 0), (6, 1, 4, 5, 1),
    (6, 2, 3, 7, 0), (7, 1, 5, 6, 0), (7, 3, 3, 4, 1), (8, 1, 6, 14, 0), (8, 2, 5, 15, 1), (8, 4, 2, 15, 0), (9, 1, 7, 3, 0),
    (9, 2, 6, 7, 1), (9, 4, 4, 15, 0), (10, 1, 8, 9, 0), (10, 3, 6, 14, 1), (11, 1, 9, 10, 0), (11, 6, 4, 5, 1),
    (12, 1, 10, 11, 0), (12, 2, 9, 15, 1), (12, 5, 5, 15, 0), (12, 10, 1, 15, 0),
    # h = 11 and h = 12 are new with document 02 §7.
    (13, 1, 11, 3, 0), (13, 1, 11, 6, 1), (14, 2, 11, 3, 0), (14, 1, 12, 13, 0),
]


def line(n, k, h, layers, sound, seed):
    nodes = archive(n, k, layers, sound, seed)
    dead, helpers = random_sets(seed, n, k, h)
    plan = Plan(n, k, layers, dead)
    wire, back = repair(plan, helpers, nodes)
    pairs = 0
    for u in range(h):
        told = [message(plan, u, nodes[i]) for i in helpers]
        pairs = mixed_symbols(pairs, first_step(plan, helpers, u, told)[0])
    for i, symbols in zip(dead, back):
        nodes[i] = symbols
    digests = mixed_symbols(0, wire), mixed_symbols(0, [x for node in nodes for x in node])
    factors.cache_clear()
    inverse.cache_clear()
    print(n, k, h, layers, 0, 0, *digests, h * (k + 1), h * (h - 1), h, pairs, "")


def main():
    for c, shape in enumerate(SHAPES):
        line(*shape, c + 1)


if __name__ == '__main__':
    main()
