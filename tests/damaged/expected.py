#!/usr/bin/env python3
"""Writes what crates/damaged must print, from document 01 and request A2 alone:
python3 tests/damaged/expected.py > crates/damaged/stdout

Each case names the number that it must get, by reasoning; 01's rules (a) to (e) and 'Solving' are written out below as
well, in f64, each operation rounded once, and A2's: k right sides stand one after another in the buffer, 64 at most, and
each is solved as it is alone. The two must agree. Only 'every word' goes by the rules alone.
"""
import copy
import struct
import sys

BIG = 2**63
MAX = 2**64 - 1
FIRST = [1.5, 0.1, -3.0, 0.7, 5.25, 1000000.3, 7.0, 8.0]
BUFFER = [FIRST[i % 8] + float(i % 192 // 8) for i in range(400)]
BUFFER[200] = float("inf")
BUFFER[210] = float("nan")

# record counts (n, supernodes, rows, entries), then areas 1, 2, 3, 9, 11 with what stands past the needs
DISHES = {
    "six": ((6, 6, 11, 11), list(range(8)), list(range(9)), [0, 2, 4, 6, 8, 10, 11, 12, 13],
            [0, 5, 1, 5, 2, 5, 3, 5, 4, 5, 5, 6, 7],
            [1.0, 99999.0, 1.0, 447.0, 1.0, 13.0, 1.0, 4.0, 1.0, 1.0, 2.0, 3.0, 3.0]),
    "three": ((3, 1, 3, 6), list(range(8)), [0, 3, 0, 0, 4, 5, 6, 7, 8], [0, 3, 0, 0, 4, 5, 6, 7, 8],
              list(range(13)), [1.0, 1.0, 1.0, 1.0, -1.0, 1.0] + [3.0] * 7),
    "four": ((4, 4, 7, 7), [1, 0, 2, 3, 4, 5, 6, 7], list(range(9)), [0, 2, 4, 6, 7, 8, 9, 10, 11],
             [0, 3, 1, 2, 2, 3, 3, 4, 5, 6, 7, 8, 9], [2.0, 1.0, 3.0, 1.0, 2.0, 1.0, 1.0] + [3.0] * 6),
    "wide": ((3, 1, 2, 3), list(range(8)), [0, 3, 0, 0, 4, 5, 6, 7, 8], [0, 2, 0, 0, 3, 4, 5, 6, 7],
             list(range(13)), [1.0, 1.0, 1.0] + [3.0] * 10),
    "bare": ((0, 0, 0, 0), list(range(8)), list(range(9)), list(range(9)), list(range(13)), [1.0] * 3 + [3.0] * 10),
}
COUNTS = {"n": 0, "supernodes": 1, "rows": 2, "entries": 3}


def bits(x):
    return 0x7FF8000000000000 if x != x else struct.unpack("<Q", struct.pack("<d", x))[0]


def total(l):
    return sum(map(bits, l)) % 2**64


def div(x, y):
    """IEEE 754's division: Python's raises at 0."""
    if y != 0 or x != x:
        return x / y if y != 0 else x
    if x == 0:
        return float("nan")
    negative = (bits(x) ^ bits(y)) >> 63
    return float("-inf") if negative else float("inf")


def trapezoid(m, w):
    return sum(max(m - c, 0) for c in range(w))


def view_asks(full, counts, perm, firsts, starts, rows, values):
    """(a), (c), (d) and (e)."""
    n, ns, nr, entries = counts
    if not (full and n <= 32768 and len(perm) >= n and len(firsts) >= n + 1 and len(starts) >= n + 1):
        return False
    if not (len(rows) >= nr and len(values) >= entries):
        return False
    # first columns that rise strictly from 0 to n are at most n + 1
    if ns > n or firsts[0] != 0 or firsts[ns] != n or any(firsts[k] >= firsts[k + 1] for k in range(ns)):
        return False
    if starts[0] != 0 or starts[ns] != nr or any(starts[k] > starts[k + 1] for k in range(ns)):
        return False
    for k in range(ns):
        own = rows[starts[k]:starts[k + 1]]
        if any(a >= b for a, b in zip(own, own[1:])) or any(r >= n for r in own):
            return False
        if own[:firsts[k + 1] - firsts[k]] != list(range(firsts[k], firsts[k + 1])):
            return False
    return entries == sum(trapezoid(starts[k + 1] - starts[k], firsts[k + 1] - firsts[k]) for k in range(ns))


def solve_asks(full, counts, perm, *areas):
    return view_asks(full, counts, perm, *areas) and sorted(perm[:counts[0]]) == list(range(counts[0]))


def columns(counts, firsts, starts, rows, values):
    """Each column's rows and values, diagonal first."""
    out, at = [], 0
    for k in range(counts[1]):
        own = rows[starts[k]:starts[k + 1]]
        for c in range(firsts[k + 1] - firsts[k]):
            out.append((own[c:], values[at:at + len(own) - c]))
            at += len(own) - c
    return out


def solution(counts, perm, firsts, starts, rows, values, b):
    n = counts[0]
    cols = columns(counts, firsts, starts, rows, values)
    x = [b[perm[q]] for q in range(n)]
    for q in range(n):
        own, l = cols[q]
        x[q] = div(x[q], l[0])
        for r, v in zip(own[1:], l[1:]):
            x[r] = x[r] - v * x[q]
    for q in reversed(range(n)):
        own, l = cols[q]
        for r, v in zip(own[1:], l[1:]):
            x[q] = x[q] - v * x[r]
        x[q] = div(x[q], l[0])
    out = [0.0] * n
    for q in range(n):
        out[perm[q]] = x[q]
    return out


def parts(n, sides, b):
    """The right sides of a buffer."""
    return [b[n * j:n * (j + 1)] for j in range(sides)]


def made(dish, damage, lending):
    """The record and what is lent: state, counts, areas 1, 2, 3, 9, 11, the lengths of 7 and 8, and the buffer."""
    counts, *areas = copy.deepcopy(DISHES[dish])
    n, ns, nr, entries = counts
    need = {1: n, 2: n + 1, 3: n + 1, 9: nr, 11: entries, 7: n, 8: n, 12: n}
    full = damage[0] != "state"
    place = {1: 0, 2: 1, 3: 2, 9: 3}
    if damage[0] == "count" and damage[1] in COUNTS:
        counts = list(counts)
        counts[COUNTS[damage[1]]] = damage[2]
    if damage[0] == "word":
        areas[place[damage[1]]][damage[2]] = damage[3]
    if damage[0] == "swapped":
        l, i = areas[place[damage[1]]], damage[2]
        l[i], l[i + 1] = l[i + 1], l[i]
    if damage[0] == "cleared":
        areas = [[0] * len(l) for l in areas[:4]] + [[0.0] * 13]
    if damage[0] == "valueless":
        areas[4] = [0.0] * 13
    short = {"short 7 8 side": (7, 8, 12), "short 7 8": (7, 8)}.get(lending, ())
    if lending.startswith("short ") and not short:
        short = (int(lending[6:]),)
    for area in short:
        need[area] = max(need[area] - 1, 0)
    if lending == "long side":
        need[12] += 1
    if lending == "loose":
        need.update({1: 8, 2: 9, 3: 9, 9: 13, 11: 13, 7: 8, 8: 8})
    lent = [l[:need[area]] for area, l in zip((1, 2, 3, 9, 11), areas)]
    return full, tuple(counts), lent, need[7], need[8], BUFFER[:need[12]]


def named(damage):
    kind = damage[0]
    if kind == "state":
        return damage[1]
    if kind == "count":
        return "%s %d" % damage[1:]
    if kind == "word":
        return "area %d at %d is %d" % damage[1:]
    if kind == "swapped":
        return "area %d at %d swapped" % damage[1:]
    return kind


def answer(full, counts, lent, words, floats, b, sides=1):
    """11, 14, 10, 5."""
    if not solve_asks(full, counts, *lent):
        return 11, 0, 0
    if sides > 64:
        return 14, 0, 0
    if len(b) != counts[0] * sides:
        return 10, len(b), 0
    if words < counts[0]:
        return 5, 7, counts[0]
    if floats < counts[0]:
        return 5, 8, counts[0]
    return 0, 0, 0


def tried(case, full, counts, lent, words, floats, b, sides, expected):
    """Prints the case's line; returns the bits of each right side's solution."""
    got = answer(full, counts, lent, words, floats, b, sides)
    want = tuple(expected) + (0,) * (3 - len(expected))
    if got != want:
        sys.exit("%s: by reasoning %s, by the rules %s" % (case, want, got))
    alone = [] if want[0] else [solution(counts, *lent, side) for side in parts(counts[0], sides, b)]
    after = b if want[0] else sum(alone, [])
    end = "" if want[0] else " :" + "".join(" %016x" % bits(x) for x in after)
    print("%s: %d %d %d 1 %016x %016x%s" % (case, *want, total(b), total(after), end))
    return [list(map(bits, x)) for x in alone]


def solved(dish, damage, lending, *expected):
    return tried("%s %s, %s" % (dish, named(damage), lending), *made(dish, damage, lending), 1, expected)


def solved_many(dish, damage, lending, sides, length, *expected):
    *areas, _ = made(dish, damage, lending)
    case = "%s %s, %d sides in %d, %s" % (dish, named(damage), sides, length, lending)
    return tried(case, *areas, BUFFER[:length], sides, expected)


def sound(dish, lending, sides, length, *expected):
    return solved_many(dish, SOUND, lending, sides, length, *expected)


def viewed(dish, damage, lending, q, length):
    full, counts, lent, _, _, _ = made(dish, damage, lending)
    part = []
    if view_asks(full, counts, *lent) and q < counts[0]:
        part = columns(counts, *lent[1:])[q][1]
    if len(part) != length:
        sys.exit("%s column %d %s, %s: by reasoning %d, by the rules %d" % (dish, q, named(damage), lending, length, len(part)))
    print("%s column %d %s, %s: %d %016x" % (dish, q, named(damage), lending, length, total(part)))


def word(area, at, to, expected=11):
    solved("six", ("word", area, at, to), "exact", expected)


def swapped(dish, area, at, expected=11):
    solved(dish, ("swapped", area, at), "exact", expected)


def count(dish, which, to, expected=11):
    solved(dish, ("count", which, to), "exact", expected)
    solved(dish, ("count", which, to), "loose", expected)


SOUND = ("sound",)
REPEAT = ("word", 1, 1, 0)

# accepted
solved("six", SOUND, "exact", 0)
solved("six", SOUND, "loose", 0)
solved("three", SOUND, "exact", 0)
solved("three", SOUND, "loose", 0)
solved("four", SOUND, "exact", 0)
solved("bare", SOUND, "exact", 0)
solved("six", ("valueless",), "exact", 0)
# (a), the state
for state in ("empty", "analysed", "partial"):
    solved("six", ("state", state), "exact", 11)
solved("bare", ("state", "empty"), "exact", 11)
# (a), (c), (d), (e): the counts
for dish in ("six", "three"):
    for which, at in COUNTS.items():
        c = DISHES[dish][0][at]
        for to in (c + 1, c - 1, BIG, MAX):
            count(dish, which, to)
count("six", "n", 32768)
count("six", "n", 32769)
count("six", "others", MAX, 0)
solved("wide", SOUND, "exact", 11)
# (a), the areas
for dish in ("six", "three"):
    for area in (1, 2, 3, 9, 11):
        solved(dish, SOUND, "short %d" % area, 11)
solved("bare", SOUND, "short 2", 11)
solved("bare", SOUND, "short 3", 11)
# (b)
word(1, 1, 0)
word(1, 5, 6)
# (c)
word(2, 0, 1)
word(2, 2, 1)
word(2, 6, 7)
swapped("six", 2, 2)
# (d)
word(3, 0, 1)
word(3, 3, 3)
word(3, 6, 10)
swapped("six", 3, 3)
swapped("six", 9, 0)
swapped("three", 9, 1)
word(9, 1, 6)
word(9, 2, 0)
# accepted
swapped("six", 1, 0, 0)
swapped("four", 1, 0, 0)
word(9, 1, 4, 0)
# every word: by the rules alone
for dish, area, many, top in (("six", 1, 6, 8), ("six", 2, 7, 9), ("six", 3, 7, 14), ("six", 9, 11, 8), ("three", 1, 3, 5),
                              ("three", 2, 4, 6), ("three", 3, 4, 6), ("three", 9, 3, 5), ("four", 1, 4, 6), ("four", 9, 7, 6)):
    for at in range(many):
        numbers = [answer(*made(dish, ("word", area, at, to), "exact"))[0] for to in [*range(top), BIG, MAX]]
        print("%s area %d at %d is 0 and up: %s" % (dish, area, at, " ".join(map(str, numbers))))
# the strut
solved("six", ("cleared",), "exact", 11)
solved("six", ("cleared",), "loose", 11)
solved("three", ("cleared",), "exact", 11)
solved("four", ("cleared",), "exact", 11)
solved("bare", ("cleared",), "exact", 0)
# 10 and 5
solved("six", SOUND, "short 12", 10, 5)
solved("six", SOUND, "long side", 10, 7)
solved("bare", SOUND, "long side", 10, 1)
solved("six", SOUND, "short 7", 5, 7, 6)
solved("six", SOUND, "short 8", 5, 8, 6)
solved("three", SOUND, "short 7", 5, 7, 3)
solved("three", SOUND, "short 8", 5, 8, 3)
solved("six", SOUND, "short 7 8", 5, 7, 6)
# the order
solved("six", ("cleared",), "short 7 8 side", 11)
solved("six", ("state", "partial"), "short 7 8 side", 11)
solved("six", REPEAT, "short 7 8 side", 11)
solved("six", REPEAT, "short 7", 11)
solved("six", SOUND, "short 7 8 side", 10, 5)
solved("three", SOUND, "short 7 8 side", 10, 2)
# many right sides, which differ
sound("six", "exact", 2, 12, 0)
sound("six", "exact", 3, 18, 0)
sound("three", "exact", 2, 6, 0)
sound("three", "exact", 3, 9, 0)
sound("four", "exact", 2, 8, 0)
sound("four", "exact", 3, 12, 0)
sound("three", "exact", 64, 192, 0)
if any(len(set(map(tuple, parts(n, 192 // n, BUFFER)))) != 192 // n for n in (3, 4, 6)):
    sys.exit("two right sides are the same")
# half of them twice: the same bits twice, but for the infinity's and the NaN's
x = sound("six", "exact", 64, 384, 0)
if [j for j in range(32) if x[j] != x[32 + j]] != [1, 3]:
    sys.exit("by reasoning the same bits twice, by the rules not")
sound("bare", "exact", 64, 0, 0)
sound("bare", "exact", 0, 0, 0)
sound("six", "exact", 0, 0, 0)
# 14
sound("six", "exact", 65, 390, 14)
sound("six", "exact", 65, 6, 14)
sound("bare", "exact", 65, 0, 14)
sound("six", "exact", BIG, 0, 14)
sound("six", "exact", BIG + 1, 6, 14)
sound("six", "exact", MAX, 6, 14)
# 10
sound("six", "exact", 2, 6, 10, 6)
sound("six", "exact", 2, 11, 10, 11)
sound("six", "exact", 2, 13, 10, 13)
sound("six", "exact", 1, 12, 10, 12)
sound("six", "exact", 0, 6, 10, 6)
sound("three", "exact", 64, 191, 10, 191)
sound("bare", "exact", 64, 1, 10, 1)
# the order
solved_many("six", ("cleared",), "exact", 65, 390, 11)
solved_many("six", ("state", "partial"), "short 7 8", 65, 389, 11)
sound("six", "short 7 8", 65, 389, 14)
sound("six", "short 7 8", 2, 11, 10, 11)
sound("six", "short 7 8", 2, 12, 5, 7, 6)
sound("six", "short 8", 2, 12, 5, 8, 6)
sound("three", "short 7", 64, 192, 5, 7, 3)
sound("three", "short 8", 64, 192, 5, 8, 3)
sound("six", "short 7", 0, 0, 5, 7, 6)
# the view
for dish, lengths in (("six", [2, 2, 2, 2, 2, 1, 0]), ("three", [3, 2, 1, 0, 0, 0, 0])):
    for q, length in enumerate(lengths):
        viewed(dish, SOUND, "exact", q, length)
    viewed(dish, SOUND, "loose", MAX, 0)
viewed("bare", SOUND, "loose", 0, 0)
viewed("six", REPEAT, "exact", 0, 2)
viewed("six", SOUND, "short 1", 0, 0)
viewed("six", ("state", "partial"), "exact", 0, 0)
viewed("six", ("cleared",), "exact", 0, 0)
viewed("three", ("count", "entries", 5), "exact", 1, 0)
