#!/usr/bin/env python3
"""What rust/tests/stored.rs must make of the samples of document 01 ("Samples on both edges"), its numbers written down,
of a card with a hearing number (document 02 §9), worked out by hand, of lists of losses (document 02 §6), by its
sentences and by hand, and of orders of document 01's plan (document 02 §12), and corrections (§10), stretches (§2) and messages
in the order they arrive (§8) of its first archive, by hand.

    python3 tests/samples_expected.py > tests/stored/samples.txt

Buffers that a call writes are lent filled with 9 (a dead node with 65535), so that a line shows what the call left alone.
"""

ZEROS = [0] * 6
FIRST = [3, 6] + ZEROS + [253, 247] + ZEROS + [1, 4] + ZEROS


def show(*numbers):
    print(''.join(f'{x} ' for x in numbers))


# bytes 3 6: node 1 is 253, 247, then six 0; node 2 is 1, 4, then six 0; it opens as 3 6
show(0, *FIRST)
show(0, 3, 6)
# data symbol 6 at a = 3: node 1 has 252, node 2 has 256
show(0, 0, 0, 0, 6, 0, 0, 0, 0, 0, 0, 0, 252, 0, 0, 0, 0, 0, 0, 0, 256, 0, 0, 0, 0)
show(0, 0, 0, 0, 6)
# an empty transcript writes all zeros and opens as empty
show(0, *[0] * 24)
show(0)
# the first archive, node 0 dead, helpers 1 and 2: messages 243 0 0 0 and 5 0 0 0; then the archive again
show(0, 243, 0, 0, 0, 5, 0, 0, 0)
show(*FIRST)
# its card for node 1: 15 bytes in a buffer of 31; bytes behind the card keep their values
show(15, 3, 1, 1, 1, 2, 253, 1, 247, 1, 0, 0, 0, 0, 0, 0, *[9] * 16)
# symbol bytes 129 2 (257) give 5, 128 0 gives 6, 128 2 is 256
show(5, *[9] * 8)
show(6, *[9] * 8)
show(2, 256, *[0] * 7)
# the same card with hearing number 700, which is 5 * 128 + 60: 1 in front, 188 5 behind the length, 18 bytes in all
show(18, 1, 3, 1, 1, 1, 2, 188, 5, 253, 1, 247, 1, 0, 0, 0, 0, 0, 0, *[9] * 13)
# it is unpacked again; with hearing number 999999 (191 132 61) it is read, with 1000000 (192 132 61) or 0 it gives 6
show(700, 253, 247, *ZEROS)
show(999999, 253, 247, *ZEROS)
show(6, *[9] * 8)
show(6, *[9] * 8)
# node 1 holding 87 then zeros, length 1: opening gives 7
show(7, 9)
# n=3, k=1, h=2 gives 2; n=4, k=1, h=2: L=1 gives 3, L=3 is accepted
show(2, 3, 0)
# losses (document 02 §6), 256 + L or a refusal: n=12, k=6, "2 and 4 give 15", as 4 2 4 4 2 too, "the empty list gives 1";
# n=12, k=5, "2 and 6 need 21" and give 11
show(271, 271, 257, 11)
# n=4, k=1 allows 1 and 2 dead nodes: 3 gives 2; n=12, k=5 allows 6: 2 6 7 gives 2, for 11 is "judged after 2"; n=2 gives 1
show(2, 2, 1)
# n=12, k=1: for 10 dead nodes h+1 is 11, and L too; 2 asks for a multiple of 3 besides, 33 at least: 11
show(267, 11)
# n=4, k=1, L=3, dead 0 1, helpers 2 3 (document 02 §12): the plan's order may run, and so may 3 1, 2 1, 1 0, 2 0, 3 0, 0 1, for an
# exchange waits for its sender alone; 2 1, 1 0, 3 1, 2 0, 3 0, 0 1 may not: node 1 sends before 3 1
show(0, 0, 13)
# the plan without its last pair, with 2 0 once more behind it, with 9 0 behind it, with one number behind it; the empty list
show(13, 13, 13, 4, 13)
# n=3, k=1, L=1 (document 02 §10). A data symbol 1 of node 0 at place 0, whose points are 1, 3 and 9, has 170 and 86 beside it:
# 1 + 170 + 86 = 257 and 1 + 3 * 170 + 9 * 86 = 5 * 257. So a byte 0 corrected by 1, of an archive of zeros, leaves the factors
show(0, 1, *[0] * 7, 170, *[0] * 7, 86, *[0] * 7)
# by 255, which is 2 below 257: 2 * 257 - 2 * 170 and 257 - 2 * 86; and back by -255
show(0, 255, *[0] * 7, 174, *[0] * 7, 85, *[0] * 7)
show(0, *[0] * 24)
# the archive of bytes 3 6, byte 1 corrected by -3: that of bytes 3 3. At place 1, where the points are 256, 3 and 9, 3 has 252 and 2
# beside it: 3 + 252 + 2 = 257 and 256 * 3 + 3 * 252 + 9 * 2 = 6 * 257
show(0, 3, 3, *ZEROS, 253, 252, *ZEROS, 1, 2, *ZEROS)
# refused: the first archive's byte 2 of 2; byte 1 by -7, by 250, by -256 and by 256; with 257 at its place, which comes before the
# change, and past the end, which comes before that
show(9, 12, 12, 12, 12, 5, 9)
# a data symbol 256 at place 0: by -1 it is 255, by 0 and by -256 it is refused
show(0, 12, 12)
# stretches of the archive of bytes 3 6 (document 02 §2): what the C call returns, the bytes, then the 8 columns. Node 1 is handed in as
# 253 247, node 2 as 1 4, each with 65535 in the six columns that neither byte stands in. From node 1, byte 1, then both, then none
# from the end on: 256 + 1 * 2
show(258, 6, 3, 6, 0, 1, *ZEROS)
# from node 2, byte 1 alone, and no stretch at all
show(257, 6, 1, *[0] * 7)
show(256, *[0] * 8)
# byte 0 of node 1 holding 87, which is a data symbol 256, gives 7; byte 1 beside it does not
show(7, 9, *[9] * 8)
show(257, 6, 1, *[0] * 7)
# 257 in node 1's first column gives 5 where byte 0 is wanted, and nothing where byte 1 is
show(5, 9, *[9] * 8)
show(257, 6, 1, *[0] * 7)
# the numbers alone: 64 empty stretches at the end, 65 of them; one number left over; bytes 0 and 1 into one byte's room; two lengths 2^63
# into none; a length of 9, above k * N, though the stretch ends past that too
show(256, 4, 4, 4, 4, 4)
# 9: bytes 1 and 2 of 2; an empty stretch from 3 on; one of 2 bytes from 2^64 - 1 on, whose end wraps to 1; and before 5, with 257 at
# byte 0
show(9, 9, 9, 9)
# 1 comes before 2, and that before 4: no layers, then node 3, then an odd count
show(1, 2, 4)
# node 0 of the first archive dead, helpers 1 and 2 (document 02 §8): the answer, the 8 kept sums and the record. The message's sums are
# at a = 0, 2, 4 and 6; at a = 0 node 1's point is 3 and node 2's is 9. Node 2's message, 5 0 0 0, alone: 5 and 9 * 5. Then node 1's,
# 243 0 0 0: 5 + 243, and 45 + 3 * 243 = 3 * 257 + 3
show(0, 5, 45, *ZEROS, 1, 2, 0)
show(0, 248, 3, *ZEROS, 2, 2, 1)
# finished: two symbols at the points 1 and 256. Their sum is -248, which is 9, and their difference is -3
show(0, 3, 6, *ZEROS)
# in the other order: 243 and 3 * 243 = 2 * 257 + 215; then 243 + 5, and 215 + 9 * 5 = 257 + 3
show(0, 243, 215, *ZEROS, 1, 1, 0)
show(0, 248, 3, *ZEROS, 2, 1, 2)
show(0, 3, 6, *ZEROS)
# node 2 alone heard, and heard a second time, which leaves all as it was; and finishing then
show(2, 5, 45, *ZEROS, 1, 2, 0)
show(4, *[9] * 8)
# hearing then: node 0, which is dead, and node 3, which is none; node 1 with a message of 3 symbols, with 257 in it, with 257 for a kept
# sum, and with both a message of 3 symbols and that sum
show(2, 2, 4, 5, 5, 4)
# hearing node 1 with other records: 1 2 1, in which it stands behind the count; counts of 3 and of 2^64 - 1; 1 0 0, which counts node 0;
# 2 2 2, which counts node 2 twice; 2 2 alone, which has one of the two that it counts; 2 1 alone, which has node 1; and none
show(0, 2, 2, 2, 2, 4, 2, 4)
# finishing with both heard: 257 for a kept sum; 7 sums, with that one; 7 symbols of pairs; one of exchanges; and node 1, which is not
# dead
show(5, 4, 4, 4, 2)
# n=4, k=1, dead 0 1, helpers 2 3, a message of no symbols, no sums and no record: L=0 gives 1, L=1 gives 3 and L=3 gives 4
show(1, 3, 4)
# L=3: at a = 0 the points are 1, 3, 9 and 27. Node 3's message of zeros, then node 2's, 1 and zeros: 1, 9 and 81 at a = 0
show(0, *[0] * 48, 1, 3, 0)
show(0, 1, 9, 81, *[0] * 45, 2, 3, 2)
# node 0 finishes: its own at the points 1 and 256 and node 1's at 3 have the sums -1, -9 and -81 with the powers 0, 1 and 2. The last
# less the first is 8 times node 1's, -80: it is -10, or 247. Its own have the sum 9 and the difference 21: 15 and -6, or 251
show(0, 15, 251, *[0] * 30, 247, *[0] * 15)
# with the same sums node 1: its own at 3 and 254, node 0's at 1. The last less the first is 8 times the sum of its own, -80: that is
# -10, and node 0's is 9. 3 times the difference of its own is -18: they are -8 and -2, or 249 and 255
show(0, 249, 255, *[0] * 30, 9, *[0] * 15)
