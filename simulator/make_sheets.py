#!/usr/bin/env python3
"""Writes the sheets that the program `judge` is tested on, and what it must print for them.

    simulator/make_sheets.py            write the files
    simulator/make_sheets.py --names    only print the line number and a name for each line

Written are crates/judge/stdin (one sheet to a line, in hex digits, `-` for the empty sheet; and after
them lines that are spelled otherwise or spell no sheet), crates/judge/stdout (what the simulator prints
for them) and samples/strap.sheet (the sample sheet, as bytes). Everything is drawn from a fixed seed,
so a second run writes the same files. The simulator is compiled for the purpose; g++ must be there.
"""

import math
import random
import subprocess
import sys
import tempfile
from collections import Counter
from pathlib import Path

HERE = Path(__file__).resolve().parent
ROOT = HERE.parent
LONGEST_HYPERPERIOD = 10_000_000
MOST_SLOTS_IN_ALL = 60_000_000

rng = random.Random(20_240_229)


# ---- sheets as bytes

def CP(cpus):
    return b"CP" + bytes([cpus])


def TK(number, name, O, C, D, T, rank=0):
    if isinstance(name, str):
        name = name.encode().ljust(8)
    return (b"TK" + bytes([number]) + name + bytes([rank]) + O.to_bytes(4, "big")
            + C.to_bytes(2, "big") + D.to_bytes(2, "big") + T.to_bytes(2, "big"))


EN = b"EN"


def tasks_sheet(cpus, tasks, ranks=None):
    """A sheet of tasks (O, C, D, T), numbered from 0; the rank is the number unless given."""
    records = [TK(i, f"TASK{i}", *task, rank=ranks[i] if ranks else i) for i, task in enumerate(tasks)]
    return CP(cpus) + b"".join(records) + EN


SAMPLE = (CP(2) + TK(0, "PULSE", 0, 1, 4, 4, rank=0) + TK(1, "RADIO", 0, 1, 4, 4, rank=1)
          + TK(2, "FILTER", 0, 5, 5, 5, rank=2) + EN)
assert len(SAMPLE) == 71

sheets = []  # (name, bytes, the output that is known beforehand or None)


def add(name, sheet, expected=None):
    sheets.append((name, bytes(sheet), expected))


def four(*lines):
    return "".join(line + "\n" for line in lines)


# ---- worked examples

def add_examples():
    add("the sample sheet", SAMPLE, four("MISSED 2 5", "MISSED 2 5", "HOLDS 0 20", "HOLDS 0 20"))
    add("a full CPU", tasks_sheet(1, [(0, 1, 1, 1)]), four(*["HOLDS 0 1"] * 4))
    add("two full tasks on one CPU", tasks_sheet(1, [(0, 1, 1, 1)] * 2), four(*["MISSED 1 1"] * 4))
    add("three full tasks on one CPU", tasks_sheet(1, [(0, 1, 1, 1)] * 3), four(*["MISSED 1 1"] * 4))
    add("two full tasks on two CPUs", tasks_sheet(2, [(0, 1, 1, 1)] * 2), four(*["HOLDS 0 1"] * 4))
    add("a heavy task beside two light ones", tasks_sheet(2, [(0, 1, 4, 4)] * 2 + [(0, 5, 5, 5)]),
        four("MISSED 2 5", "MISSED 2 5", "HOLDS 0 20", "HOLDS 0 20"))
    late = tasks_sheet(2, [(0, 2, 3, 3), (4, 3, 4, 4), (1, 3, 6, 6)])
    add("a late steady state", late, four("HOLDS 28 40", "HOLDS 16 28", "HOLDS 16 28", "HOLDS 16 28"))
    add("a late steady state, two CPUs more", CP(4) + late[3:], four(*["HOLDS 4 16"] * 4))
    add("a short deadline after a long one", tasks_sheet(1, [(0, 2, 4, 4), (0, 1, 1, 2)]),
        four("HOLDS 0 4", "MISSED 1 1", "HOLDS 0 4", "MISSED 1 1"))
    add("the same, ranks turned", tasks_sheet(1, [(0, 2, 4, 4), (0, 1, 1, 2)], ranks=[1, 0]),
        four(*["HOLDS 0 4"] * 4))
    add("an older job due sooner", tasks_sheet(1, [(0, 2, 4, 4), (0, 3, 6, 6)]),
        four("HOLDS 0 12", "MISSED 1 6", "HOLDS 0 12", "MISSED 1 6"))
    add("two equal tasks in turn", tasks_sheet(1, [(0, 1, 2, 2)] * 2), four(*["HOLDS 0 2"] * 4))
    add("an offset before the first boundary", tasks_sheet(1, [(3, 1, 1, 1)]), four(*["HOLDS 3 4"] * 4))
    add("half a CPU is light", tasks_sheet(1, [(0, 1, 2, 2)]), four(*["HOLDS 0 2"] * 4))
    # The second task is due sooner. At 1581 of 3161 the first is heavy and goes first; at 1580 it is not.
    add("a long hyperperiod, 1581 of 3161",
        tasks_sheet(1, [(0, 1581, 3161, 3161), (0, 1000, 1100, 3162)]),
        four("HOLDS 0 9995082", "MISSED 1 1100", "MISSED 1 1100", "MISSED 1 1100"))
    add("a long hyperperiod, too much load",
        tasks_sheet(1, [(0, 1580, 3161, 3161), (0, 1700, 3162, 3162)], ranks=[0, 0]))
    add("a hyperperiod that is too long",
        tasks_sheet(1, [(0, 1581, 3162, 3162), (0, 1000, 1100, 3163)]), "REFUSED B 19\n")
    add("four tasks of period 161",
        tasks_sheet(2, [(225, 90, 161, 161), (115, 40, 161, 161), (0, 72, 161, 161), (129, 120, 161, 161)]),
        four("HOLDS 7148 7309", "MISSED 3 451", "HOLDS 386 547", "HOLDS 386 547"))
    add("four tasks of period 161, ranks turned",
        tasks_sheet(2, [(225, 90, 161, 161), (115, 40, 161, 161), (0, 72, 161, 161), (129, 120, 161, 161)],
                    ranks=[3, 2, 1, 0]))


# ---- small sheets at the edges of the rules

def add_edges_of_the_rules():
    add("finishes at its deadline instant", tasks_sheet(1, [(0, 3, 3, 5), (0, 2, 5, 5)]))
    add("late by one slot, deadline at the period", tasks_sheet(1, [(0, 3, 5, 5), (0, 3, 5, 5)]))
    add("late by one slot, deadline before the period", tasks_sheet(1, [(0, 3, 4, 9), (0, 2, 4, 9)]))
    add("two miss at one instant, the lower number counts",
        CP(1) + TK(9, "NINE", 0, 2, 3, 3, rank=1) + TK(4, "FOUR", 0, 2, 3, 3, rank=1)
        + TK(7, "SEVEN", 0, 2, 3, 3, rank=0) + EN)
    add("a miss at the boundary that would agree", tasks_sheet(1, [(0, 2, 3, 3), (0, 2, 3, 3)]))
    add("deadlines of different releases", tasks_sheet(1, [(0, 4, 9, 9), (2, 2, 5, 6), (3, 1, 6, 18)]))
    add("ties of ranks", tasks_sheet(2, [(0, 2, 4, 4), (0, 2, 4, 4), (0, 2, 4, 4), (1, 1, 2, 4)], ranks=[7] * 4))
    add("ties of deadlines", tasks_sheet(2, [(0, 3, 6, 6), (1, 3, 5, 6), (2, 3, 4, 6), (3, 2, 3, 6)], ranks=[3, 2, 1, 0]))
    add("one above half is heavy", tasks_sheet(1, [(0, 2, 4, 4), (0, 3, 5, 5)], ranks=[1, 0]))
    add("numbers falling in the sheet", CP(1) + TK(31, "LAST", 0, 1, 2, 2) + TK(0, "FIRST", 0, 1, 2, 2) + EN)
    add("ranks 0 and 255", tasks_sheet(1, [(0, 2, 4, 4), (0, 1, 1, 4)], ranks=[255, 0]))
    add("all 32 tasks on 8 CPUs, each a quarter", tasks_sheet(8, [(i % 4, 1, 4, 4) for i in range(32)]))
    add("all 32 tasks on 7 CPUs, each a quarter", tasks_sheet(7, [(i % 4, 1, 4, 4) for i in range(32)]))
    add("8 full tasks on 8 CPUs", tasks_sheet(8, [(i, 60000, 60000, 60000) for i in range(8)]))
    add("9 full tasks on 8 CPUs", tasks_sheet(8, [(i, 60000, 60000, 60000) for i in range(9)]))


# ---- damaged sheets

TWO = [dict(number=3, name=b"ALPHA   ", O=2, C=2, D=4, T=6, rank=5),
       dict(number=30, name=b"BETA    ", O=0, C=1, D=3, T=4, rank=5)]


def two(cpus=1, first=None, second=None):
    return CP(cpus) + TK(**{**TWO[0], **(first or {})}) + TK(**{**TWO[1], **(second or {})}) + EN


def add_damaged():
    whole = two()
    assert len(whole) == 49
    for length in range(len(whole)):
        add(f"two tasks cut to {length} bytes", whole[:length])
    add("two tasks", whole)

    # Every field at its edges, in the first and in the second task.
    for i, which in enumerate(("first", "second")):
        def field(label, **values):
            add(f"{which} task, {label}", two(**{which: values}))
        name = bytes(TWO[i]["name"])
        for value in (0, 31, 32, 128, 255):
            field(f"number {value}", number=value)
        for place in (0, 1, 4, 7):
            for value in (0x00, 0x1F, 0x20, 0x7E, 0x7F, 0xFF):
                field(f"name byte {place} is {value:02X}", name=name[:place] + bytes([value]) + name[place + 1:])
        for value in (0, 255):
            field(f"rank {value}", rank=value)
        for value in (0, 1, 60_000, 60_001, 65_535):
            field(f"period {value}", T=value)
            field(f"period, deadline and running time {value}", T=value, D=value, C=value)
        T, D = TWO[i]["T"], TWO[i]["D"]
        for value in (0, 1, T, T + 1, 65_535):
            field(f"deadline {value} of {T}", D=value)
            field(f"running time 1, deadline {value} of {T}", C=1, D=value)
        for value in (0, 1, D, D + 1, T, 65_535):
            field(f"running time {value} of {D}", C=value)
        for value in (1_000_001, 0x01_00_00_00, 0xFFFF_FFFF):
            field(f"offset {value}", O=value)
    add("the largest offset", tasks_sheet(1, [(1_000_000, 1, 1, 1)]), four(*["HOLDS 1000000 1000001"] * 4))
    add("the largest offset after a miss", tasks_sheet(1, [(0, 1, 1, 1), (0, 1, 1, 1), (1_000_000, 1, 1, 1)]),
        four(*["MISSED 1 1"] * 4))
    add("byte order of the offset", tasks_sheet(1, [(0x0102, 1, 1, 1)]), four(*["HOLDS 258 259"] * 4))
    add("byte order of the rest", tasks_sheet(1, [(0, 0x0102, 0x0304, 0x0506)]), four(*["HOLDS 0 1286"] * 4))

    # Numbers and names that are taken.
    add("a number twice", two(second=dict(number=3)))
    add("a name twice", two(second=dict(name=b"ALPHA   ")))
    add("number and name twice", two(second=dict(number=3, name=b"ALPHA   ")))
    add("names that differ in the last byte", two(first=dict(name=b"ABCDEFGH"), second=dict(name=b"ABCDEFGI")))
    add("names that differ in the first byte", two(first=dict(name=b"ABCDEFGH"), second=dict(name=b"BBCDEFGH")))
    add("names that differ in case", two(first=dict(name=b"ABCDEFGH"), second=dict(name=b"aBCDEFGH")))
    add("a third record takes the first number", whole[:-2] + TK(3, "GAMMA", 0, 1, 1, 1) + EN)
    add("a third record takes the second number", whole[:-2] + TK(30, "GAMMA", 0, 1, 1, 1) + EN)
    add("a third record takes the first name", whole[:-2] + TK(4, "ALPHA", 0, 1, 1, 1) + EN)
    add("a third record takes the second name", whole[:-2] + TK(4, "BETA", 0, 1, 1, 1) + EN)

    # CPU numbers.
    for cpus in (0, 1, 8, 9, 255):
        add(f"{cpus} CPUs", two(cpus=cpus))
        add(f"{cpus} CPUs and no tasks", CP(cpus) + EN)
        add(f"{cpus} CPUs and no end", CP(cpus))

    # Marks.
    add("the empty sheet", b"", "REFUSED S 3 0\n")
    for bad in (b"\0", b"C", b"E", b"T", b"X"):
        add(f"one byte {bad.hex()}", bad, "REFUSED S 3 0\n")
        add(f"CP, then one byte {bad.hex()}", CP(1) + bad, "REFUSED S 3 3\n")
        add(f"two tasks, then one byte {bad.hex()}", whole[:-2] + bad, "REFUSED S 3 47\n")
    for bad in (b"\0\0", b"cp", b"tk", b"en", b"PC", b"KT", b"NE", b"CK", b"CN", b"TP", b"TN", b"EP", b"EK", b"C\0",
                b"\0K", b"E\xff", b"\xff\xff", b"  "):
        add(f"the first mark is {bad.hex()}", bad + whole[2:])
        add(f"the second mark is {bad.hex()}", whole[:3] + bad + whole[5:])
        add(f"the last mark is {bad.hex()}", whole[:-2] + bad)
    add("CP twice", CP(1) + whole, "REFUSED S 5 3\n")
    add("CP after a task", whole[:25] + CP(1) + whole[25:], "REFUSED S 5 25\n")
    add("CP in place of EN", whole[:-2] + CP(1), "REFUSED S 5 47\n")
    add("a later CP cut short", CP(1) + b"CP", "REFUSED S 5 3\n")
    add("a later CP cut short, after tasks", whole[:-2] + b"CP", "REFUSED S 5 47\n")
    add("a later CP of 0 CPUs", CP(1) + CP(0) + EN, "REFUSED S 5 3\n")
    add("TK first", whole[3:], "REFUSED S 5 0\n")
    add("TK first, cut short", b"TK", "REFUSED S 5 0\n")
    add("TK first, with a number too large", TK(32, "X", 0, 1, 1, 1) + EN, "REFUSED S 5 0\n")
    add("EN first", EN, "REFUSED S 5 0\n")
    add("EN first, with bytes after it", EN + whole, "REFUSED S 5 0\n")
    add("CP cut short", b"CP", "REFUSED S 6 0\n")
    add("no tasks", CP(1) + EN, "REFUSED B 18\n")

    # Bytes after EN.
    for tail in (b"\0", b"E", b"EN", b"\n", whole, TK(4, "GAMMA", 0, 1, 1, 1) + EN, CP(1), b"TK"):
        add(f"{len(tail)} bytes after EN", whole + tail, "REFUSED S 7 49\n")
        add(f"{len(tail)} bytes after EN, no tasks", CP(1) + EN + tail, "REFUSED S 7 5\n")

    # Two faults in one sheet: the one that is looked for first is told, and an earlier record's before
    # a later one's.
    taken, bad = b"ALPHA   ", b"\x1f       "
    for label, values, expected in (
            ("number too large, bad name", dict(number=32, name=bad), 9),
            ("number too large, name taken", dict(number=32, name=taken), 9),
            ("number too large, period 0", dict(number=200, T=0), 9),
            ("number taken, bad name", dict(number=3, name=bad), 10),
            ("number taken, name taken", dict(number=3, name=taken), 10),
            ("number taken, offset too large", dict(number=3, O=1_000_001), 10),
            ("bad name, period 0", dict(name=bad, T=0), 12),
            ("bad name, offset too large", dict(name=bad, O=1_000_001), 12),
            ("name all spaces, deadline 0", dict(name=b" " * 8, D=0), 12),
            ("name taken, period too large", dict(name=taken, T=60_001), 13),
            ("name taken, deadline 0", dict(name=taken, D=0), 13),
            ("name taken, running time 0", dict(name=taken, C=0), 13),
            ("name taken, offset too large", dict(name=taken, O=1_000_001), 13),
            ("period 0, deadline above it", dict(T=0, D=1), 14),
            ("period 0, deadline 0, running time 0", dict(T=0, D=0, C=0), 14),
            ("period too large, deadline above it", dict(T=60_001, D=60_002), 14),
            ("period too large, running time 0", dict(T=60_001, C=0), 14),
            ("period too large, offset too large", dict(T=60_001, O=1_000_001), 14),
            ("deadline 0, running time above it", dict(D=0, C=1), 15),
            ("deadline 0, running time 0", dict(D=0, C=0), 15),
            ("deadline above the period, running time above both", dict(D=5, C=6), 15),
            ("deadline above the period, offset too large", dict(D=5, O=1_000_001), 15),
            ("running time 0, offset too large", dict(C=0, O=1_000_001), 16),
            ("running time above the deadline, offset too large", dict(C=4, O=1_000_001), 16)):
        add(f"two faults: {label}", two(second=values), f"REFUSED T {expected} 25\n")
    add("two faults: offset of the first, number of the second",
        two(first=dict(O=1_000_001), second=dict(number=32)), "REFUSED T 17 3\n")
    add("two faults: running time of the second, bytes after EN", two(second=dict(C=0)) + b"\0", "REFUSED T 16 25\n")
    add("two faults: number too large, record cut short", two(second=dict(number=32))[:46], "REFUSED S 6 25\n")
    add("two faults: number taken, record cut short", two(second=dict(number=3))[:40], "REFUSED S 6 25\n")
    add("two faults: 0 CPUs, unknown mark", CP(0) + b"XX", "REFUSED T 8 0\n")
    add("two faults: 9 CPUs, then CP", CP(9) + CP(1), "REFUSED T 8 0\n")
    add("two faults: period 0 of the first, second cut short", two(first=dict(T=0))[:30], "REFUSED T 14 3\n")
    add("two faults: offset too large, unknown mark after it", two(first=dict(O=1_000_001))[:25] + b"XX", "REFUSED T 17 3\n")
    add("two faults: bytes after EN, no tasks", CP(1) + EN + b"EN", "REFUSED S 7 5\n")
    add("two faults: bytes after EN, hyperperiod too long",
        tasks_sheet(1, [(0, 1, 59_999, 59_999), (0, 1, 60_000, 60_000)]) + b"\0", "REFUSED S 7 49\n")

    # Hyperperiods at and above the edge. 10,000,000 itself needs a period of 78,125 and cannot be had.
    add("hyperperiod 9999999", tasks_sheet(1, [(0, 4649, 4649, 4649), (0, 2151, 2151, 2151)]))
    above = next(p for p in range(LONGEST_HYPERPERIOD + 1, 10_100_000) if split(p))
    add(f"hyperperiod {above}", tasks_sheet(1, [(0, 1, t, t) for t in split(above)]), "REFUSED B 19\n")
    add("hyperperiod of two long periods", tasks_sheet(1, [(0, 1, 59_999, 59_999), (0, 1, 60_000, 60_000)]), "REFUSED B 19\n")
    while True:  # three periods whose least common multiple is small again in 32 bits
        wrapped = [rng.randint(50_000, 60_000) for _ in range(3)]
        if math.lcm(*wrapped) > 2 ** 32 and 0 < math.lcm(*wrapped) % 2 ** 32 <= LONGEST_HYPERPERIOD:
            break
    add("hyperperiod that wraps in 32 bits", tasks_sheet(1, [(0, 1, t, t) for t in wrapped]), "REFUSED B 19\n")
    primes = [p for p in range(59_000, 60_000) if all(p % q for q in range(2, 250))][:32]
    assert len(primes) == 32
    add("hyperperiod of 32 primes", tasks_sheet(8, [(0, 1, p, p) for p in primes]), "REFUSED B 19\n")
    add("many periods, small hyperperiod", tasks_sheet(8, [(0, 1, t, t) for t in
        (60_000, 30_000, 20_000, 15_000, 12_000, 10_000, 7_500, 6_000, 5_000, 4_000, 3_750, 3_000)]))

    # Long inputs.
    full = tasks_sheet(8, [(i, 1, 8, 8) for i in range(32)])
    assert len(full) == 709
    add("the longest sheet", full, four(*["HOLDS 31 39"] * 4))
    add("the longest sheet and one byte", full + b"\0", "REFUSED S 7 709\n")
    add("the longest sheet without EN", full[:-2], "REFUSED S 3 707\n")
    add("33 tasks, the last number too large", full[:-2] + TK(32, "MORE", 0, 1, 8, 8) + EN, "REFUSED T 9 707\n")
    add("33 tasks, the last number taken", full[:-2] + TK(31, "MORE", 0, 1, 8, 8) + EN, "REFUSED T 10 707\n")
    add("33 tasks, the last cut short", full[:-2] + TK(31, "MORE", 0, 1, 8, 8)[:-1], "REFUSED S 6 707\n")
    add("32 tasks, then CP", full[:-2] + CP(8), "REFUSED S 5 707\n")
    add("the longest sheet filled to 4096 bytes", full.ljust(4096, b"\0"), "REFUSED S 7 709\n")
    add("the longest sheet filled to 4097 bytes", full.ljust(4097, b"\0"), "REFUSED S 7 709\n")
    add("a sheet and 5000 bytes", whole + b"E" * 5000, "REFUSED S 7 49\n")
    add("200 tasks, numbers above 31 from the 33rd",
        CP(8) + b"".join(TK(i, f"N{i}", 0, 1, 8, 8) for i in range(200)) + EN, "REFUSED T 9 707\n")
    add("200 tasks, numbers again from the 33rd",
        CP(8) + b"".join(TK(i % 32, f"N{i}", 0, 1, 8, 8) for i in range(200)) + EN, "REFUSED T 10 707\n")
    add("5000 bytes of CP records", CP(1) * 1667, "REFUSED S 5 3\n")


def split(p):
    """Two coprime periods whose least common multiple is p, or None."""
    for a in range(2, 60_001):
        if p % a == 0 and p // a <= 60_000 and math.gcd(a, p // a) == 1:
            return a, p // a
    return None


# ---- random sheets

MULTIPLES = [12, 24, 24, 30, 36, 48, 60, 60, 72, 84, 120, 120, 180, 240, 360, 420, 720, 840, 1260, 2520, 5040, 7560,
             9240, 10_080, 15_120, 27_720]


def random_tasks(small=False):
    """CPUs and tasks (number, name, O, C, D, T, rank) at a load near what the CPUs can give."""
    cpus = rng.choice((1, 2, 3)) if small else rng.choice((1, 1, 2, 2, 2, 3, 3, 4, 5, 6, 7, 8))
    most = 6 if small else 32
    count = max(1, min(most, rng.choice((cpus, cpus + 1, cpus + 1, cpus + 2, 2 * cpus + 1, 3 * cpus, rng.randint(1, 32)))))
    multiple = rng.choice([p for p in MULTIPLES if p <= (60 if small else 27_720)])
    periods = [d for d in range(2, multiple + 1) if multiple % d == 0]
    if count > 4 * cpus:
        periods = [d for d in periods if d >= 6] or periods
    load = cpus * rng.choice((0.5, 0.75, 0.85, 0.9, 0.95, 0.97, 1.0, 1.0))
    shares = [rng.random() ** rng.choice((1, 2, 3)) + 0.02 for _ in range(count)]
    total = sum(shares)
    numbers = rng.sample(range(32), count)
    farthest = rng.choice((0, 0, 3, 10, 40, multiple))
    ranks = rng.choice(("same", "few", "many", "by period"))
    tight = rng.choice((0.0, 0.0, 0.2, 0.6))
    tasks = []
    for number, share in zip(numbers, shares):
        T = rng.choice(periods)
        C = max(1, min(T, round(share / total * load * T)))
        D = rng.randint(C, T) if rng.random() < tight else T
        O = rng.randint(0, farthest)
        rank = {"same": 9, "few": rng.randint(0, 2), "many": rng.randint(0, 255), "by period": min(T, 255)}[ranks]
        name = f"{rng.choice('ABCxyz~!')}{number}".encode().ljust(rng.choice((4, 8)), b" ").ljust(8, b"_")
        tasks.append((number, name, O, C, D, T, rank))
    return cpus, tasks


def random_sheet(small=False):
    while True:
        cpus, tasks = random_tasks(small)
        load = sum(C / T for _, _, _, C, _, T, _ in tasks)
        if load <= cpus * 1.1:
            records = [TK(number, name, O, C, D, T, rank) for number, name, O, C, D, T, rank in tasks]
            return CP(cpus) + b"".join(records) + EN, tasks


def late(line, tasks):
    """Whether a line says that boundaries agree, and not the first two."""
    words = line.split()
    return words[0] == "HOLDS" and int(words[1]) > max(O for _, _, O, *_ in tasks)


def add_random_valid(run):
    """Draws many sheets and keeps some of every kind of outcome."""
    drawn = [random_sheet(small=i % 4 == 0) for i in range(6000)]
    outputs = run([sheet for sheet, _ in drawn])
    wanted = Counter({"late by deadline and mixed": 30, "late by deadline": 30, "late by another policy": 40,
                      "mixed": 70, "holds": 35, "missed": 20})
    for (sheet, tasks), output in zip(drawn, outputs):
        lines = output.splitlines()
        kinds = {line.split()[0] for line in lines}
        if late(lines[0], tasks):
            kind = "late by deadline and mixed" if len(kinds) > 1 else "late by deadline"
        elif any(late(line, tasks) for line in lines):
            kind = "late by another policy"
        elif len(kinds) > 1:
            kind = "mixed"
        else:
            kind = "holds" if kinds == {"HOLDS"} else "missed"
        if wanted[kind] > 0:
            wanted[kind] -= 1
            add(f"random, {kind}, {len(tasks)} tasks", sheet)
    short = {kind: left for kind, left in wanted.items() if left > 0}
    assert not short, f"too few random sheets: {short}"


def add_random_damaged():
    """Valid sheets with one to three bytes changed, taken away or put in."""
    made = 0
    while made < 80:
        sheet, tasks = random_sheet(small=True)
        damaged = bytearray(sheet)
        change = rng.choice(("byte", "byte", "byte", "three bytes", "cut", "take", "put", "swap"))
        at = rng.randrange(len(damaged))
        if change == "byte":
            damaged[at] = rng.choice((0, 1, 0x1F, 0x20, 0x7F, 0xFF, rng.randrange(256)))
        elif change == "three bytes":
            for _ in range(3):
                damaged[rng.randrange(len(damaged))] = rng.randrange(256)
        elif change == "cut":
            del damaged[at:]
        elif change == "take":
            del damaged[at]
        elif change == "put":
            damaged.insert(at, rng.randrange(256))
        elif len(tasks) > 1:  # two whole records change places
            a, b = rng.sample(range(len(tasks)), 2)
            one, other = slice(3 + 22 * a, 25 + 22 * a), slice(3 + 22 * b, 25 + 22 * b)
            damaged[one], damaged[other] = damaged[other], damaged[one]
        if cheap(damaged) and bytes(damaged) != sheet:
            add(f"random, damaged: {change}", damaged)
            made += 1


def cheap(sheet):
    """Whether the sheet, if it can be judged at all, has small offsets and a small hyperperiod."""
    records = [sheet[i:i + 22] for i in range(3, len(sheet) - 22, 22)]
    offsets = [int.from_bytes(r[12:16], "big") for r in records]
    periods = [int.from_bytes(r[20:22], "big") for r in records]
    if any(50_000 < O <= 1_000_000 for O in offsets):
        return False
    if 0 in periods:
        return True
    return not 20_000 < math.lcm(1, *periods) <= LONGEST_HYPERPERIOD


# ---- lines that are spelled otherwise, or spell no sheet

lines = []  # (name, the line as bytes, the sheet that it spells or None)


def add_lines():
    def line(name, text, sheet=None):
        lines.append((name, text, sheet))

    def unreadable(name, *texts):
        for number, text in enumerate(texts, 1):
            line(f"no sheet: {name}" + (f", {number}" if len(texts) > 1 else ""), text)

    plain = CP(2) + TK(1, "JKLMNOJK", 0, 1, 4, 4, rank=0xAB) + TK(0x1F, "ZZ", 0xDE, 5, 5, 5, rank=0xCD) + EN
    upper = plain.hex().upper().encode()
    lower, half = upper.lower(), len(upper) // 2
    long = (SAMPLE + bytes(range(256)) * 40).hex().upper().encode()  # 10,311 bytes

    line("hex digits in lower case", lower, plain)
    line("hex digits in both cases", upper[:half] + lower[half:], plain)
    for name, one, other in (("upper before lower", upper, lower), ("lower before upper", lower, upper)):
        line(f"a digit of each case, {name}", bytes(b for two in zip(one[::2], other[1::2]) for b in two), plain)
    line("every digit", b"00112233445566778899AaBbCcDdEeFfaAbBcCdDeEfF",
         bytes.fromhex("00112233445566778899AABBCCDDEEFFAABBCCDDEEFF"))
    line("a blank line", b"", b"")
    line("two blank lines", b"", b"")
    line("a sheet after blank lines", upper, plain)
    line("a hyphen", b"-", b"")
    line("a carriage return alone", b"\r", b"")
    line("a hyphen and a carriage return", b"-\r", b"")
    line("a carriage return at the end", upper + b"\r", plain)
    line("a carriage return after lower case", lower + b"\r", plain)
    unreadable("two carriage returns", b"\r\r", b"-\r\r", upper + b"\r\r")
    unreadable("a carriage return elsewhere", b"\r" + upper, upper[:half] + b"\r" + upper[half:], b"\r-")
    unreadable("hyphens", b"--", b"---", b"-" + upper, upper + b"-", upper[:4] + b"-" + upper[4:], b"- -", b"-0", b"0-", b"-00")
    unreadable("an odd number of digits", b"4", b"435", upper[:-1], upper + b"0", upper[1:], lower[:-1], upper[:-1] + b"\r")
    unreadable("spaces", b" ", b"  ", b" " + upper, upper + b" ", b"  " + upper, upper + b"  ",
               upper[:4] + b" " + upper[4:], upper[:3] + b" " + upper[4:], b" -", b"- ", upper + b" \r", b" \r")
    unreadable("tabs", b"\t", upper + b"\t", b"\t" + upper, upper + b"\v", upper + b"\f")
    unreadable("remarks", b"# " + upper, b"#", upper + b" # a remark")
    unreadable("a sign before", b"0x" + upper, b"+" + upper, b"+4")
    unreadable("a bad character first", *(bytes([bad]) + upper[1:] for bad in b"Gg/:@`xO\0"))
    unreadable("a bad character second", *(upper[:1] + bytes([bad]) + upper[2:] for bad in b"Gg/:@`xO\0"))
    unreadable("a bad character in the middle", *(upper[:half] + bytes([bad]) + upper[half + 1:] for bad in b"Gg/:@`xO\0"))
    unreadable("a bad character last", *(upper[:-1] + bytes([bad]) for bad in b"Gg/:@`xO\0"))
    unreadable("two bad characters", upper + b"zz", b"zz" + upper, b"zz", upper[:half] + b"zz" + upper[half:])
    unreadable("no UTF-8", b"\xff", b"\xff" * 2, b"\xff" + upper, upper[:half] + b"\xff" + upper[half:], upper + b"\xff",
               upper + b"\xff\xff", upper[:-1] + b"\xff", b"\x80" + upper[1:], upper + b"\xc3", b"\xc3-",
               upper + b"\xb0\xb0")
    unreadable("UTF-8 beyond ASCII", "é".encode(), "é".encode() + upper, upper + "é".encode(),
               upper[:half] + "é".encode() + upper[half:], "\ufeff".encode() + upper, "４３５０".encode(), "–".encode())
    unreadable("a sheet and more words", upper + b" " + upper, upper + b"," + upper, b'"' + upper + b'"')
    line("a long line", long, SAMPLE + bytes(range(256)) * 40)
    line("a long line in lower case", long.lower() + b"\r", SAMPLE + bytes(range(256)) * 40)
    unreadable("a long line", long[:-1], long[:-1] + b"g", b"g" + long[1:], long[:9000] + b" " + long[9001:])
    line("the sample sheet once more", spell(SAMPLE).encode(), SAMPLE)
    line("the last line, without an end", upper, plain)


# ---- running the simulator

def spell(sheet):
    return sheet.hex().upper() or "-"


def main():
    with tempfile.TemporaryDirectory() as room:
        program = Path(room) / "simulator"
        subprocess.run(["g++", "-std=c++17", "-O3", "-Wall", "-Wextra", "-o", program, HERE / "simulator.cpp"], check=True)

        def simulate(text, *words):
            return subprocess.run([program, "--hex", *words], input=text, capture_output=True, check=True).stdout.decode()

        def run(some):
            """What the simulator prints for each sheet: a fault's line, or four lines."""
            told = iter(simulate(text_of(some)).splitlines(keepends=True))
            outputs = []
            for line in told:
                more = 0 if line.startswith("REFUSED") else 3
                outputs.append(line + "".join(next(told) for _ in range(more)))
            assert len(outputs) == len(some)
            return outputs

        def text_of(some):
            """The sheets, a line each."""
            return "".join(spell(sheet) + "\n" for sheet in some).encode()

        add_examples()
        add_edges_of_the_rules()
        add_damaged()
        add_random_valid(run)
        add_random_damaged()
        add_lines()

        if "--names" in sys.argv[1:]:
            for number, name in enumerate([name for name, *_ in sheets + lines], 1):
                print(number, name)
            return

        outputs = run([sheet for _, sheet, _ in sheets])
        for (name, _, expected), output in zip(sheets, outputs):
            assert expected is None or output == expected, f"{name}: {output!r} is not {expected!r}"
        reached = {int(output.split()[2]) for output in outputs if output.startswith("REFUSED")}
        due = {3, 4, 5, 6, 7, 8, 9, 10, 12, 13, 14, 15, 16, 17, 18, 19}
        assert reached == due, f"refusals reached: {sorted(reached)}"
        told = "".join(outputs)
        assert "RUNNING" not in told, "a sheet is not decided"

        # A line that spells a sheet is told what the sheet is, however it is spelled, and the others are told that.
        spelled = [sheet for *_, sheet in lines if sheet is not None]
        judged = dict(zip(spelled, run(spelled)))
        for name, line, sheet in lines:
            expected = "unreadable\n" if sheet is None else judged[sheet]
            output = simulate(line + b"\n")
            assert output == expected, f"{name}: {output!r} is not {expected!r}"
            told += expected

        text = text_of([sheet for _, sheet, _ in sheets]) + b"\n".join(line for _, line, _ in lines)
        assert simulate(text) == told
        slots = sum(map(int, simulate(text, "--slots").split()))
        assert slots <= MOST_SLOTS_IN_ALL, f"{slots} slots in all"

        folder = ROOT / "crates" / "judge"
        folder.mkdir(parents=True, exist_ok=True)
        (folder / "stdin").write_bytes(text)
        (folder / "stdout").write_text(told)
        (ROOT / "samples").mkdir(exist_ok=True)
        (ROOT / "samples" / "strap.sheet").write_bytes(SAMPLE)

        kinds = Counter(line.split()[0] for line in told.splitlines())
        faults = Counter(int(output.split()[2]) for output in outputs if output.startswith("REFUSED"))
        print(f"{len(sheets)} sheets and {len(lines)} other lines; {slots} slots; lines: {dict(kinds)}")
        print("sheets with each refusal:", " ".join(f"{n}:{faults[n]}" for n in sorted(faults)))


if __name__ == "__main__":
    main()
