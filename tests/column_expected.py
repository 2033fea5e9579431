#!/usr/bin/env python3
"""The expected output of the program crates/column_test, worked out by Gaussian elimination with pivoting.

Made by: python3 tests/column_expected.py > crates/column_test/stdout
"""


def following(seed):
    return (seed * 1103515245 + 12345) % 2**31


def solved(q, rows):
    """The solution of square equations modulo a prime; each row ends with its right side."""
    n = len(rows)
    for c in range(n):
        p = next(i for i in range(c, n) if rows[i][c] % q)
        rows[c], rows[p] = rows[p], rows[c]
        scale = pow(rows[c][c], -1, q)
        rows[c] = [x * scale % q for x in rows[c]]
        for i in range(n):
            if i != c:
                f = rows[i][c]
                rows[i] = [(x - f * y) % q for x, y in zip(rows[i], rows[c])]
    return [row[n] for row in rows]


def completed(q, points, known):
    """The column with the known entries whose sums of point^t times entry are 0, for each t below the number of other entries."""
    unknown = [i for i in range(len(points)) if i not in known]
    rows = [
        [points[i] ** t % q for i in unknown] + [-sum(points[i] ** t * v for i, v in known.items()) % q]
        for t in range(len(unknown))
    ]
    column = dict(known)
    column.update(zip(unknown, solved(q, rows)))
    return [column[i] for i in range(len(points))]


def size_digest(q, m):
    seed, digest = following(m), 0
    for _ in range(60):
        # Fifteen points, base to base + 14 * step, are below 257.
        step = 1 + seed // 16 % 18
        base = seed // 4096 % (q - 14 * step)
        points = [base + i * step for i in range(m)]
        chosen = [i for i in range(m) if (seed >> (8 + i)) % 2 == 0]
        known, draw = {}, seed
        for i in chosen:
            draw = following(draw)
            known[i] = draw // 16 % q
        for x in completed(q, points, known):
            digest = (digest * 65599 + x + 1) % 4294967291
        seed = following(following(seed))
    return digest


# "n may be 3 to 14" (document 02 §7), and the equations of a repair have one point more: a new node's own two symbols
# have one each.
for q in (257, 65537):
    for m in range(3, 16):
        print(q, m, size_digest(q, m))
