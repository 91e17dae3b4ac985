#!/usr/bin/env python3
"""Writes a script of bench calls, and what each of them must be answered.

    simulator/make_logs.py SCRIPT ANSWERS          write the two files
    simulator/make_logs.py --check                 write nothing; print what the calls reach
    simulator/make_logs.py --check SCRIPT ANSWERS  both
    simulator/make_logs.py --seed N --logs N ...   draw other random logs, or another number of them

The script is a list of logs. A log makes a bench of its own, in a `bench` line, and then calls it. First
come logs of worked examples and then logs that reach every refusal by every call that can give it; what
these are answered is written here beside the calls. Then come random logs. What they are answered is
what the simulator prints for them (its head says how a script is written). The simulator is compiled for
the purpose; g++ must be there. Everything is drawn from a fixed seed, so a second run writes the same.

The status is 1 if some refusal is not reached by a call that can give it, or is given by another.
"""

import argparse
import random
import subprocess
import sys
import tempfile
import time
from collections import Counter
from pathlib import Path

sys.dont_write_bytecode = True
from make_sheets import CP, EN, SAMPLE, TK, spell, tasks_sheet  # noqa: E402

HERE = Path(__file__).resolve().parent
MOST_BYTES = 400_000  # of each file
FOR_EVER = 4_294_967_295  # the largest n of a run

# The refusals that each call can give.
DUE = {
    "bench": {20},
    "enter": {1, 9, 10, 12, 13, 14, 15, 16, 17},
    "withdraw": {1, 9, 11},
    "load": {1, 3, 4, 5, 6, 7, 8, 9, 10, 12, 13, 14, 15, 16, 17},
    "save": {1, 8, 21},
    "start": {1, 8, 18, 19},
    "run": {2},
    "halt": {2},
    "verdict": {2},
    "set": {2},
    "line": {2, 21},
}
assert set().union(*DUE.values()) == set(range(1, 22))


# ---- scripts

def hexname(name):
    """A name as hex digits; a text is filled up with spaces."""
    if isinstance(name, str):
        name = name.encode().ljust(8)
    assert len(name) == 8
    return name.hex().upper()


def enter(number, name, O, C, D, T, rank=0):
    return f"enter {number} {hexname(name)} {rank} {O} {C} {D} {T}"


class Script:
    """Lines, each with the answer that is known beforehand, or None. Lines without an answer have ""."""

    def __init__(self):
        self.lines = []

    def remark(self, text):
        self.lines.append((f"# {text}", ""))

    def blank(self):
        self.lines.append(("", ""))

    def call(self, line, answer=None):
        self.lines.append((line, answer))

    def calls(self, *pairs):
        for line, answer in pairs:
            self.call(line, answer)

    def log(self, title, policy="deadline"):
        """Begins a log."""
        self.blank()
        self.remark(title)
        self.call(f"bench {policy}", "ok")

    def tasks(self, tasks, ranks=None):
        """Enters tasks (O, C, D, T), numbered from 0; the rank is the number unless given."""
        for i, task in enumerate(tasks):
            self.call(enter(i, f"TASK{i}", *task, rank=ranks[i] if ranks else i), "ok")

    def tell(self, verdict):
        """Asks for the verdict, in both ways."""
        self.call("verdict", verdict)
        self.call("line 48", f"ok {len(verdict) + 1} {verdict}")


# ---- worked examples

HEAVY_AND_LIGHT = [(0, 1, 4, 4), (0, 1, 4, 4), (0, 5, 5, 5)]
LATE = [(0, 2, 3, 3), (4, 3, 4, 4), (1, 3, 6, 6)]
SHORT = [(0, 2, 4, 4), (0, 1, 1, 2)]
FOUR = [(225, 90, 161, 161), (115, 40, 161, 161), (0, 72, 161, 161), (129, 120, 161, 161)]


def add_worked(script):
    """The tables whose verdicts are known, each judged in one run, then slot by slot near the decision,
    and then from a sheet."""

    def example(title, cpus, tasks, verdict, policy="deadline", ranks=None):
        decided = int(verdict.split()[2])
        script.log(title, policy)
        script.tasks(tasks, ranks)
        script.call(f"start {cpus}", "ok")
        script.call(f"run {FOR_EVER}", verdict)
        script.tell(verdict)
        script.call("halt", "ok")
        script.call(f"start {cpus}", "ok")
        script.call(f"run {decided - 1}", f"RUNNING {decided - 1}")
        script.tell(f"RUNNING {decided - 1}")
        script.call("run 1", verdict)
        script.call("halt", "ok")
        script.call(f"load {spell(tasks_sheet(cpus, tasks, ranks))}", f"ok {cpus}")
        script.call(f"start {cpus}", "ok")
        script.call(f"run {decided}", verdict)

    full = (0, 1, 1, 1)
    example("a full CPU: a job that ends at its deadline instant is in time", 1, [full], "HOLDS 0 1")
    example("two full tasks on one CPU: misses are looked for before releases", 1, [full] * 2, "MISSED 1 1")
    example("three full tasks on one CPU: the lowest number that misses", 1, [full] * 3, "MISSED 1 1")
    example("two full tasks on two CPUs", 2, [full] * 2, "HOLDS 0 1")
    example("a heavy task beside two light ones", 2, HEAVY_AND_LIGHT, "MISSED 2 5")
    example("the heavy task first", 2, HEAVY_AND_LIGHT, "HOLDS 0 20", policy="heavy 1 2 deadline")
    example("the heavy task first, over rank", 2, HEAVY_AND_LIGHT, "HOLDS 0 20", policy="heavy 1 2 rank")
    example("at 0/1 every task is heavy, so nothing changes", 2, HEAVY_AND_LIGHT, "MISSED 2 5",
            policy="heavy 0 1 deadline")
    example("at 1/1 no task is heavy, so nothing changes", 2, HEAVY_AND_LIGHT, "MISSED 2 5",
            policy="heavy 1 1 deadline")
    example("a late steady state: it is not reached by Omax + 2P", 2, LATE, "HOLDS 28 40")
    example("a short deadline beside a long one", 1, SHORT, "HOLDS 0 4")
    example("policies differ: the same under rank", 1, SHORT, "MISSED 1 1", policy="rank", ranks=[0, 1])
    example("the same under rank, ranks turned", 1, SHORT, "HOLDS 0 4", policy="rank", ranks=[1, 0])
    example("level ranks: the lower number stands before", 1, SHORT, "MISSED 1 1", policy="rank", ranks=[7, 7])
    example("an older job due sooner: keys change with the age", 1, [(0, 2, 4, 4), (0, 3, 6, 6)], "HOLDS 0 12")
    example("two equal tasks in turn", 1, [(0, 1, 2, 2)] * 2, "HOLDS 0 2")
    example("an offset before the first boundary", 1, [(3, 1, 1, 1)], "HOLDS 3 4")
    half = [(0, 1, 2, 2), (0, 1, 1, 4)]
    example("half a CPU is light at 1/2: the other task, due sooner, goes first", 1, half, "HOLDS 0 4",
            policy="heavy 1 2 deadline")
    example("half a CPU is heavy at 499/1000: the other task misses", 1, half, "MISSED 1 1",
            policy="heavy 499 1000 deadline")
    example("a miss at the instant of a boundary comes before an agreement", 1, [(0, 2, 3, 3)] * 2, "MISSED 1 3")
    example("a job that never runs misses at a boundary, where all remaining times are as at the one before", 1,
            [(0, 2, 2, 2), (1, 1, 2, 2)], "MISSED 1 3", policy="rank")
    example("four tasks of period 161, deadline", 2, FOUR, "HOLDS 7148 7309")
    example("four tasks of period 161, rank", 2, FOUR, "MISSED 3 451", policy="rank")
    example("four tasks of period 161, heavy-first 1/2 over deadline", 2, FOUR, "HOLDS 386 547",
            policy="heavy 1 2 deadline")
    example("four tasks of period 161, heavy-first 1/2 over rank", 2, FOUR, "HOLDS 386 547", policy="heavy 1 2 rank")


def add_runs(script):
    script.log("an offset before the first boundary, in two runs; the sets of the slots")
    script.tasks([(3, 1, 1, 1)])
    script.calls(("start 1", "ok"), ("verdict", "RUNNING 0"), ("set", "ok 00000000 0"), ("run 3", "RUNNING 3"),
                 ("set", "ok 00000000 0"), ("run 1", "HOLDS 3 4"), ("set", "ok 00000001 1"))
    script.tell("HOLDS 3 4")

    script.log("two equal tasks in turn: the sets of slots 0 and 1 are 1 and 2")
    script.tasks([(0, 1, 2, 2)] * 2)
    script.calls(("start 1", "ok"), ("set", "ok 00000000 0"), ("run 1", "RUNNING 1"), ("set", "ok 00000001 1"),
                 ("run 1", "HOLDS 0 2"), ("set", "ok 00000002 1"), ("run 1", "HOLDS 0 2"), ("set", "ok 00000002 1"))

    script.log("a late steady state, from boundary to boundary")
    script.tasks(LATE)
    script.calls(("start 2", "ok"), ("run 4", "RUNNING 4"), ("set", "ok 00000005 2"), ("run 12", "RUNNING 16"),
                 ("run 12", "RUNNING 28"), ("run 11", "RUNNING 39"), ("run 1", "HOLDS 28 40"))

    script.log("four tasks of period 161: undecided at the instants 6987 and 7148")
    script.tasks(FOUR)
    script.calls(("start 2", "ok"), ("run 6987", "RUNNING 6987"), ("run 161", "RUNNING 7148"),
                 ("run 160", "RUNNING 7308"), ("run 1", "HOLDS 7148 7309"))

    script.log("a run of 0 slots: on a bench just started, on a running one and on a decided one")
    script.tasks(HEAVY_AND_LIGHT)
    script.calls(("start 2", "ok"), ("run 0", "RUNNING 0"), ("set", "ok 00000000 0"), ("run 1", "RUNNING 1"),
                 ("set", "ok 00000003 2"), ("run 0", "RUNNING 1"), ("set", "ok 00000003 2"), ("run 9", "MISSED 2 5"),
                 ("run 0", "MISSED 2 5"), ("set", "ok 00000005 2"))
    script.tell("MISSED 2 5")

    script.log("runs on a decided bench make no slot, and the set stays that of the last slot made")
    script.tasks([(0, 1, 1, 1)] * 2)
    script.calls(("start 1", "ok"), ("run 1", "MISSED 1 1"), ("set", "ok 00000001 1"), ("run 1", "MISSED 1 1"),
                 (f"run {FOR_EVER}", "MISSED 1 1"), ("set", "ok 00000001 1"))
    script.tell("MISSED 1 1")

    script.log("runs whose sum passes the decision: as one run of the sum")
    script.tasks(LATE)
    script.calls(("start 2", "ok"), ("run 15", "RUNNING 15"), ("run 15", "RUNNING 30"), ("run 15", "HOLDS 28 40"),
                 ("run 15", "HOLDS 28 40"), ("halt", "ok"), ("start 2", "ok"), ("run 60", "HOLDS 28 40"),
                 ("halt", "ok"), ("start 2", "ok"), (f"run {FOR_EVER}", "HOLDS 28 40"),
                 (f"run {FOR_EVER}", "HOLDS 28 40"))

    script.log("halt, and start again on other CPUs: from instant 0, with the same table")
    script.tasks(HEAVY_AND_LIGHT)
    script.calls(("start 2", "ok"), ("run 3", "RUNNING 3"), ("halt", "ok"), ("verdict", "refused 2"),
                 ("start 3", "ok"), ("verdict", "RUNNING 0"), ("set", "ok 00000000 0"), ("run 1", "RUNNING 1"),
                 ("set", "ok 00000007 3"), ("run 20", "HOLDS 0 20"), ("halt", "ok"), ("start 1", "ok"),
                 ("run 20", "MISSED 2 5"), ("set", "ok 00000004 1"), ("halt", "ok"), ("start 8", "ok"),
                 ("run 20", "HOLDS 0 20"), ("set", "ok 00000004 1"))

    script.log("two layers: heavy at 1/2, then heavy at 1/5, then the rest, against the ranks",
               "heavy 1 2 heavy 1 5 rank")
    three = [(0, 1, 9, 9), (0, 2, 9, 9), (0, 5, 9, 9)]
    script.tasks(three)
    slots = ["00000004"] * 5 + ["00000002"] * 2 + ["00000001"]
    for turn, policy in enumerate((None, "heavy 1 5 heavy 1 2 rank", "heavy 1 5 heavy 1 2 deadline")):
        if turn:
            script.log("the same tasks under other layers", policy)
            script.tasks(three)
        script.call("start 1", "ok")
        for made, word in enumerate(slots, 1):
            script.calls(("run 1", f"RUNNING {made}"), ("set", f"ok {word} 1"))
        script.calls(("run 1", "HOLDS 0 9"), ("set", "ok 00000000 0"))

    script.log("one layer of the two is not enough", "heavy 1 2 rank")
    script.tasks(three)
    script.call("start 1", "ok")
    script.calls(("run 6", "RUNNING 6"), ("set", "ok 00000001 1"), ("run 1", "RUNNING 7"), ("set", "ok 00000002 1"))

    script.log("the largest offset")
    script.tasks([(1_000_000, 1, 1, 1)])
    script.calls(("start 1", "ok"), ("run 1000000", "RUNNING 1000000"), ("set", "ok 00000000 0"),
                 ("run 1", "HOLDS 1000000 1000001"), ("line 48", "ok 22 HOLDS 1000000 1000001"))

    script.log("the longest hyperperiods: 9,995,082 starts and 10,001,406 is refused", "heavy 1 2 deadline")
    script.tasks([(0, 1581, 3161, 3161), (0, 1000, 1100, 3162)])
    script.calls(("start 1", "ok"), ("run 1099", "RUNNING 1099"), ("run 1", "MISSED 1 1100"), ("halt", "ok"),
                 ("withdraw 0", "ok"), (enter(0, "TASK0", 0, 1580, 3163, 3163), "ok"), ("start 1", "refused 19"),
                 ("verdict", "refused 2"), ("withdraw 1", "ok"), ("start 1", "ok"), ("run 3162", "RUNNING 3162"),
                 ("run 1", "HOLDS 0 3163"))

    script.log("a hyperperiod of 9,999,999 starts; far above the limit, and above 32 and 64 bits, it is refused")
    script.tasks([(0, 1, 4649, 4649), (0, 1, 2151, 2151)])
    primes = [p for p in range(59_000, 60_000) if all(p % q for q in range(2, 250))][:10]
    script.calls(("start 1", "ok"), ("run 1", "RUNNING 1"), ("run 1", "RUNNING 2"), ("halt", "ok"))
    for i, p in enumerate(primes):
        script.calls((enter(10 + i, f"P{p}", 0, 1, p, p), "ok"), ("start 1", "refused 19"))

    script.log("all 32 tasks on 8 CPUs, and task 31's bit")
    full = tasks_sheet(8, [(0, 1, 4, 4)] * 32)
    script.calls((f"load {spell(full)}", "ok 8"), ("start 8", "ok"), ("run 1", "RUNNING 1"), ("set", "ok 000000FF 8"),
                 ("run 1", "RUNNING 2"), ("set", "ok 0000FF00 8"), ("run 2", "HOLDS 0 4"), ("set", "ok FF000000 8"),
                 ("halt", "ok"), ("start 7", "ok"), ("run 4", "MISSED 28 4"), ("set", "ok 0FE00000 7"))


def add_tables(script):
    script.log("a withdrawn number and name may be entered again")
    script.calls((enter(5, "ALPHA", 0, 1, 2, 2), "ok"), (enter(6, "BETA", 0, 1, 2, 2), "ok"),
                 (enter(5, "GAMMA", 0, 1, 2, 2), "refused 10"), (enter(7, "ALPHA", 0, 1, 2, 2), "refused 13"),
                 ("withdraw 5", "ok"), ("withdraw 5", "refused 11"), (enter(7, "ALPHA", 0, 1, 2, 2), "ok"),
                 (enter(5, "GAMMA", 0, 1, 2, 2), "ok"), (enter(8, "ALPHA", 0, 1, 2, 2), "refused 13"),
                 ("withdraw 7", "ok"), ("withdraw 6", "ok"), (enter(6, "BETA", 3, 1, 2, 2), "ok"),
                 ("start 1", "ok"), ("run 5", "HOLDS 3 5"))

    script.log("the sample sheet, loaded, saved and loaded back")
    script.calls((f"load {spell(SAMPLE)}", "ok 2"), ("save 2 709", f"ok 71 {spell(SAMPLE)}"), ("withdraw 0", "ok"),
                 ("withdraw 1", "ok"), ("withdraw 2", "ok"), ("save 2 709", f"ok 5 {spell(CP(2) + EN)}"),
                 ("start 2", "refused 18"), (f"load {spell(SAMPLE)}", "ok 2"), ("start 2", "ok"),
                 ("run 100", "MISSED 2 5"), ("halt", "ok"), ("save 2 4096", f"ok 71 {spell(SAMPLE)}"))
    script.calls(("bench heavy 1 2 deadline", "ok"), ("save 1 709", f"ok 5 {spell(CP(1) + EN)}"),
                 (f"load {spell(SAMPLE).lower()}", "ok 2"), ("start 2", "ok"), ("run 100", "HOLDS 0 20"))

    script.log("tasks entered in any order are saved in rising numbers, and the CPU number is the one given")
    records = [TK(i, f"N{i}", i, 1 + i, 300 + i, 60_000 - i, rank=8 * i) for i in range(32)]
    order = [(11 * i + 5) % 32 for i in range(32)]
    for i in order[:8]:
        script.call(enter(i, f"N{i}", i, 1 + i, 300 + i, 60_000 - i, rank=8 * i), "ok")
    saved = CP(7) + b"".join(records[i] for i in sorted(order[:8])) + EN
    script.call("save 7 709", f"ok {len(saved)} {spell(saved)}")
    script.calls((f"load {spell(CP(3) + b''.join(records[i] for i in order) + EN)}", "ok 3"),
                 ("save 8 709", f"ok 709 {spell(CP(8) + b''.join(records) + EN)}"), ("save 8 708", "refused 21"))
    edge = (CP(1) + TK(0, b"!~~~~~~~", 1_000_000, 60_000, 60_000, 60_000, rank=255) + TK(31, b"~       ", 0, 1, 1, 1)
            + EN)
    script.calls((f"load {spell(edge)}", "ok 1"), ("save 1 709", f"ok 49 {spell(edge)}"))

    script.log("a loaded table replaces the one before, whatever numbers and names that one has")
    script.tasks([(0, 1, 4, 4)] * 3)
    other = tasks_sheet(3, [(0, 2, 5, 5), (1, 1, 5, 5)])
    script.calls((f"load {spell(other)}", "ok 3"), ("withdraw 2", "refused 11"),
                 ("save 3 709", f"ok 49 {spell(other)}"), (f"load {spell(CP(8) + EN)}", "ok 8"),
                 ("start 8", "refused 18"),
                 (enter(0, "TASK0", 0, 1, 1, 1), "ok"), ("start 8", "ok"), ("run 1", "HOLDS 0 1"))

    script.log("a refused load keeps the table, even if only its last record is bad")
    script.tasks([(0, 1, 4, 4)] * 2)
    kept = f"ok 49 {spell(tasks_sheet(1, [(0, 1, 4, 4)] * 2))}"
    for damaged, answer in ((other[:-2] + b"XX", "refused S 4 47"), (other[:-2], "refused S 3 47"),
                            (other + b"\0", "refused S 7 49"), (b"", "refused S 3 0"),
                            (other[:-2] + TK(1, "MORE", 0, 1, 1, 1) + EN, "refused T 10 47")):
        script.calls((f"load {spell(damaged)}", answer), ("save 1 709", kept))

    script.log("a load on a started bench is refused with 1, whatever its sheet, and changes nothing")
    script.tasks(HEAVY_AND_LIGHT)
    script.calls(("start 2", "ok"), (f"load {spell(SAMPLE)}", "refused T 1 0"), ("load -", "refused T 1 0"),
                 ("run 4", "RUNNING 4"), (f"load {spell(SAMPLE[:30])}", "refused T 1 0"), ("run 1", "MISSED 2 5"),
                 (f"load {spell(SAMPLE)}", "refused T 1 0"), ("halt", "ok"),
                 ("save 2 709", f"ok 71 {spell(tasks_sheet(2, HEAVY_AND_LIGHT))}"))

    script.log("a refused bench line keeps the bench before it, with its table, mode and instant", "rank")
    script.tasks(SHORT, ranks=[1, 0])
    script.calls(("bench heavy 1 0 deadline", "refused 20"),
                 ("save 1 709", f"ok 49 {spell(tasks_sheet(1, SHORT, [1, 0]))}"),
                 ("start 1", "ok"), ("run 3", "RUNNING 3"), ("bench heavy 3 2 rank", "refused 20"),
                 ("verdict", "RUNNING 3"), ("set", "ok 00000002 1"),
                 ("bench heavy 1 2 heavy 1 1001 rank", "refused 20"),
                 ("run 1", "HOLDS 0 4"), ("bench heavy 1 2 heavy 1 2 heavy 1 2 rank", "unreadable"),
                 ("verdict", "HOLDS 0 4"), ("bench heavy 1 2 rank", "ok"), ("verdict", "refused 2"),
                 ("start 1", "refused 18"))


def add_reading(script):
    script.log("words may stand several spaces apart, and a line may end in a carriage return")
    script.calls(("enter  0   4142434445464748  0 0    1 1  1", "ok"), ("start     1", "ok"), ("run 1\r", "HOLDS 0 1"),
                 ("verdict\r", "HOLDS 0 1"), ("\r", ""), ("# a remark\r", ""), ("line    48\r", "ok 10 HOLDS 0 1"))

    script.log("zeros may stand before a number; hex digits may be of either case")
    script.calls(("enter 00 4a4B4c4D4e4F4a4B 007 000 0001 01 1", "ok"), ("save 01 0000000709",
                 f"ok 27 {spell(CP(1) + TK(0, b'JKLMNOJK', 0, 1, 1, 1, rank=7) + EN)}"),
                 ("load 4350014b", "refused S 3 3"),
                 ("load 43500845 4E", "unreadable"), ("load 435008454e", "ok 8"))

    script.log("numbers of any length are read, and judged by what they are")
    large = [2 ** 8, 2 ** 16, 2 ** 32, 2 ** 64, 10 ** 40]
    script.call(enter(1, "ONE", 0, 2, 4, 4), "ok")
    for more in large:
        if more > 255:
            script.calls((enter(more + 2, "TWO", 0, 2, 4, 4), "refused 9"), (f"withdraw {more + 1}", "refused 9"),
                         (f"start {more + 1}", "refused 8"), (f"save {more + 1} 709", "refused 8"),
                         (f"save 1 {more * 1000}", f"ok 27 {spell(CP(1) + TK(1, 'ONE', 0, 2, 4, 4) + EN)}"))
        if more > 60_000:
            script.calls((enter(2, "TWO", 0, 2, 4, more + 4), "refused 14"),
                         (enter(2, "TWO", 0, 2, more + 4, 4), "refused 15"),
                         (enter(2, "TWO", 0, more + 2, 4, 4), "refused 16"),
                         (enter(2, "TWO", more * 20, 2, 4, 4), "refused 17"))
        script.calls((f"bench heavy {more + 1} 2 rank", "refused 20"),
                     (f"bench heavy 1 {more * 20 + 2} rank", "refused 20"),
                     (f"bench heavy {more * 20} {more * 20} rank", "refused 20"))
    script.call("start 1", "ok")
    for more in large[2:]:
        script.calls((f"line {more + 40}", "ok 10 RUNNING 0"), (f"run {more}", "unreadable"), ("verdict", "RUNNING 0"),
                     (enter(2, "TWO", 0, 2, 4, 4, rank=more), "unreadable"))
    script.calls((f"run {FOR_EVER + 1}", "unreadable"), ("set", "ok 00000000 0"), (f"run {FOR_EVER}", "HOLDS 0 4"))

    script.log("lines that are no call")
    script.call(enter(1, "ONE", 0, 2, 4, 4), "ok")
    good = enter(2, "TWO", 0, 2, 4, 4)
    name = hexname("TWO")
    no_call = ["call", "new deadline", "fault_line 48", "0", "-", "runs 1", "ru 1", "Run 1", "RUN 1", "start",
               "start 1 1",
               "start +1", "start -1", "start 1.", "start 0x1", "start one", "start 1,", "run", "run 1 1", "run -0",
               "run 1e3", "halt 1", "halt halt", "Halt", "verdict 1", "set 1", "Set", "line", "line 48 48", "line -48",
               "line 4 8", "line x", "save 1", "save 709", "save 1 709 1", "save 1 x", "withdraw", "withdraw 1 1",
               "withdraw x", "load", "load 4", "load 435", "load - -", "load --", "load 4G", "load 43 50",
               "load 0x4350",
               "load 435001454E -", "enter", good + " 4", good.rsplit(" ", 1)[0], good.replace(name, name[:-1]),
               good.replace(name, name + "0"), good.replace(name, name[:-2]), good.replace(name, name[:-1] + "G"),
               good.replace(name, "TWO"), good.replace(name, "-"), good.replace("enter", "Enter"),
               "enter 2 " + name + " 256 0 2 4 4", "enter 2 " + name + " -1 0 2 4 4", "enter x " + name + " 0 0 2 4 4",
               "enter 2 " + name + " 0 0 2 4 T", "bench", "bench Deadline", "bench deadline rank", "bench heavy",
               "bench heavy 1 2", "bench heavy 1 deadline", "bench heavy 1 2 3 deadline", "bench heavy 1 2 heavy",
               "bench heavy 1 2 heavy 1 2", "bench heavy 1 2 heavy 1 deadline", "bench heavy 2 1 heavy 1 deadline",
               "bench heavy 2 1 deadline rank", "bench heavy 2 1 edf", "bench heavy 1/2 deadline",
               "bench heavy -1 2 rank",
               "bench heavy 1 2 heavy 1 2 heavy 1 2 deadline", "bench heavy 1 0 heavy 1 0 heavy 1 0 rank",
               "bench edf", "run\t1", "start\t1", "halt#", "verdict # a remark"]
    for line in no_call:
        script.call(line, "unreadable")
    script.call("save 1 709", f"ok 27 {spell(CP(1) + TK(1, 'ONE', 0, 2, 4, 4) + EN)}")
    script.calls(("start 1", "ok"), ("run 1", "RUNNING 1"))
    for line in no_call:
        script.call(line, "unreadable")
    script.calls(("verdict", "RUNNING 1"), ("set", "ok 00000002 1"))


def add_odd_lines(script):
    """Lines that are read or passed over by a hair. A byte that is no UTF-8 stands as a lone surrogate."""
    script.log("lines that begin with # are remarks, whatever follows; others are not")
    script.calls(("#", ""), ("##", ""), ("#x", ""), ("#verdict", ""), ("# verdict", ""), ("#\r", ""), ("#\r\r", ""),
                 ("#é", ""), ("#\udcff", ""), ("# \udcff\udc80 start 1", ""))
    script.calls((" #", "unreadable"), ("  #", "unreadable"), (" # a remark", "unreadable"), (" #x", "unreadable"),
                 ("verdict #", "unreadable"), ("\t# a remark", "unreadable"), ("\r#", "unreadable"),
                 ("// a remark", "unreadable"), ("; a remark", "unreadable"), ("\ufeff# a remark", "unreadable"))

    script.log("blank lines, and spaces about words")
    script.call(enter(1, "ONE", 0, 2, 4, 4), "ok")
    script.calls(("", ""), (" ", ""), ("     ", ""), ("\r", ""), ("   \r", ""), ("start 1", "ok"), ("run 1", "RUNNING 1"),
                 (" verdict", "RUNNING 1"), ("verdict ", "RUNNING 1"), ("   verdict   ", "RUNNING 1"),
                 ("verdict \r", "RUNNING 1"), (" set  \r", "ok 00000002 1"), ("verdict" + " " * 9_000, "RUNNING 1"),
                 (" " * 9_000 + "verdict", "RUNNING 1"), (" " * 9_000, ""), ("run " + "0" * 9_000, "RUNNING 1"))

    script.log("a carriage return counts but for one at the end")
    script.call(enter(1, "ONE", 0, 2, 4, 4), "ok")
    script.calls(("\r\r", "unreadable"), ("\r\r\r", "unreadable"), (" \r\r", "unreadable"), ("\r ", "unreadable"),
                 ("start 1\r\r", "unreadable"), ("start 1 \r\r", "unreadable"), ("start 1\r ", "unreadable"),
                 ("start\r1", "unreadable"), ("start \r1", "unreadable"), ("\rstart 1", "unreadable"),
                 ("start 1\r\r\r", "unreadable"), ("verdict", "refused 2"), ("start 1\r", "ok"))

    script.log("only a space separates words")
    script.call(enter(1, "ONE", 0, 2, 4, 4), "ok")
    for other in "\t\v\f\0\x1f\x7f\x85\xa0\u2003\u2028\u3000":
        script.calls((f"start{other}1", "unreadable"), (f"{other}start 1", "unreadable"), (f"start 1{other}", "unreadable"),
                     (other, "unreadable"), (f" {other} ", "unreadable"))
    script.call("start 1", "ok")

    script.log("lines that are no UTF-8, and characters beyond ASCII")
    script.call(enter(1, "ONE", 0, 2, 4, 4), "ok")
    good = enter(2, "TWO", 0, 2, 4, 4)
    for other in ("\udcff", "\udc80", "\udcc3", "\udcc3(", "\udced\udca0\udc80", "\udcf4\udc90\udc80\udc80", "é", "１",
                  "\U0001f600"):
        script.calls((other, "unreadable"), (f" {other}", "unreadable"), (f"{other}start 1", "unreadable"),
                     (f"start 1{other}", "unreadable"), (f"start 1 {other}", "unreadable"), (f"start {other}", "unreadable"),
                     (f"sta{other}rt 1", "unreadable"), (f"load {other}", "unreadable"), (f"load 4350{other}", "unreadable"),
                     (f"{other} # a remark", "unreadable"), (good.replace("TWO", other), None),
                     (good.replace(hexname("TWO"), other), "unreadable"), (f"bench {other}", "unreadable"),
                     (f"bench deadline{other}", "unreadable"), (f"{other}\r", "unreadable"))
    script.calls(("verdict", "refused 2"), ("start 1", "ok"), ("run 1", "RUNNING 1"))

    script.log("long lines")
    more = spell(SAMPLE + bytes(4_500))
    script.calls((f"load {more}", "refused S 7 71"), (f"load {more}0", "unreadable"), (f"load {more[:-1]}", "unreadable"),
                 (f"load {spell(SAMPLE)}", "ok 2"), ("x" * 9_000, "unreadable"), ("#" + "x" * 9_000, ""),
                 ("start 2" + " " * 9_000 + "2", "unreadable"), ("start 2", "ok"), (f"run {FOR_EVER}", "MISSED 2 5"))


def add_last(script):
    """A last log, of which the last line has no end."""
    script.log("the last line has no end")
    script.calls((enter(1, "ONE", 0, 2, 4, 4), "ok"), ("start 1", "ok"), ("run 1", "RUNNING 1"), ("set", "ok 00000002 1"))


# ---- every refusal

def add_refusals(script):
    one = enter(1, "ONE", 0, 1, 2, 2)
    for mode, tasks, run, verdict in (("running", [(0, 1, 2, 2)], 1, "RUNNING 1"),
                                      ("held", [(0, 1, 2, 2)], 2, "HOLDS 0 2"),
                                      ("missed", [(0, 1, 1, 1)] * 2, 5, "MISSED 1 1")):
        script.log(f"refusal 1: calls that want an open bench, on a {mode} one, even if there is more to refuse")
        script.tasks(tasks)
        script.calls(("start 1", "ok"), (f"run {run}", verdict))
        for line in (one, enter(0, "TASK0", 0, 1, 2, 2), enter(32, " ", 2_000_000, 0, 0, 0), "withdraw 0", "withdraw 5",
                     "withdraw 32", "save 1 709", "save 0 709", "save 1 0", "start 1", "start 0", "start 9"):
            script.call(line, "refused 1")
        for sheet in (SAMPLE, b"", b"XX", CP(0) + EN, SAMPLE + b"\0"):
            script.call(f"load {spell(sheet)}", "refused T 1 0")
        script.tell(verdict)
        saved = tasks_sheet(1, tasks)
        script.calls(("halt", "ok"), ("save 1 709", f"ok {len(saved)} {spell(saved)}"))

    script.log("refusal 2: calls that want a started bench, on a new one, on one with tasks and on a halted one")
    def not_started():
        for line in ("run 0", "run 1", f"run {FOR_EVER}", "halt", "verdict", "set", "line 48", "line 47", "line 0"):
            script.call(line, "refused 2")
    not_started()
    script.call(one, "ok")
    not_started()
    script.calls(("start 1", "ok"), ("run 1", "RUNNING 1"), ("halt", "ok"))
    not_started()
    script.calls(("start 9", "refused 8"), ("verdict", "refused 2"), ("start 1", "ok"), ("run 2", "HOLDS 0 2"))

    script.log("refusals 3 to 7, of a sheet's layout, with their places")
    for sheet, answer in ((b"", "S 3 0"), (b"C", "S 3 0"), (CP(1), "S 3 3"), (CP(1) + b"E", "S 3 3"), (b"XX", "S 4 0"),
                          (b"cp\1EN", "S 4 0"), (CP(1) + b"NE", "S 4 3"), (EN, "S 5 0"), (b"TK", "S 5 0"),
                          (CP(1) + b"CP", "S 5 3"), (CP(1) + CP(0) + EN, "S 5 3"), (b"CP", "S 6 0"),
                          (CP(1) + b"TK", "S 6 3"),
                          (CP(1) + TK(32, "X", 0, 1, 1, 1)[:-1], "S 6 3"),
                          (CP(1) + TK(3, "X", 0, 1, 1, 1) + b"TK\3", "S 6 25"),
                          (CP(1) + EN + b"\0", "S 7 5"), (SAMPLE + EN, "S 7 71"), (CP(9) + EN + b"\0", "T 8 0")):
        script.call(f"load {spell(sheet)}", f"refused {answer}")

    script.log("refusal 8: a CPU number of 0 or above 8, in start, save and a sheet, before 18, 19 and 21")
    for cpus in (0, 9, 10, 255):
        script.calls((f"start {cpus}", "refused 8"), (f"save {cpus} 709", "refused 8"), (f"save {cpus} 0", "refused 8"),
                     (f"load {spell(CP(cpus) + EN)}", "refused T 8 0"),
                     (f"load {spell(CP(cpus) + b'XX')}", "refused T 8 0"))
    long = [(0, 1, 59_999, 59_999), (0, 1, 60_000, 60_000)]
    script.tasks(long)
    script.calls(("start 0", "refused 8"), ("start 9", "refused 8"), ("start 1", "refused 19"),
                 ("start 8", "refused 19"))
    for cpus in range(1, 9):
        script.call(f"save {cpus} 709", f"ok 49 {spell(tasks_sheet(cpus, long))}")

    # Each fault of a task, as the fields that make it. The table has task 3, ALPHA.
    faults = {
        9: [dict(number=32), dict(number=255)],
        10: [dict(number=3)],
        12: [dict(name=b"\x1fETA    "), dict(name=b" ETA    "), dict(name=b"BETA   \x7f"), dict(name=b"BE\0A    "),
             dict(name=b"BETA\xff   "), dict(name=b" " * 8)],
        13: [dict(name=b"ALPHA   ")],
        14: [dict(T=60_001), dict(T=65_535), dict(T=0)],
        15: [dict(D=7), dict(D=0), dict(D=65_535)],
        16: [dict(C=5), dict(C=0), dict(C=65_535)],
        17: [dict(O=1_000_001), dict(O=2 ** 32 - 1)],
    }
    alpha = dict(number=3, name=b"ALPHA   ", O=0, C=1, D=2, T=3, rank=1)
    beta = dict(number=4, name=b"BETA    ", O=0, C=2, D=4, T=6, rank=2)
    saved = spell(CP(1) + TK(**alpha) + EN)
    script.log("refusals 9 to 17 of enter and of load, each by itself")
    script.call(enter(**alpha), "ok")
    for number, ways in faults.items():
        for way in ways:
            bad = {**beta, **way}
            script.call(enter(**bad), f"refused {number}")
            script.call(f"load {spell(CP(1) + TK(**alpha) + TK(**bad) + EN)}", f"refused T {number} 25")
    script.call("save 1 709", f"ok 27 {saved}")
    script.log("two faults of one task: the smaller number is told")
    script.call(enter(**alpha), "ok")
    for first in faults:
        for second in faults:
            if first < second and (first, second) not in ((9, 10), (12, 13)):
                bad = {**beta, **faults[first][0], **faults[second][0]}
                script.call(enter(**bad), f"refused {first}")
                script.call(f"load {spell(CP(1) + TK(**alpha) + TK(**bad) + EN)}", f"refused T {first} 25")
    script.call("save 1 709", f"ok 27 {saved}")
    script.log("all faults at once, and then one fewer each time")
    script.call(enter(**alpha), "ok")
    bad = {**alpha, "number": 32, "T": 0, "D": 0, "C": 0, "O": 1_000_001}
    for number, better in ((9, dict(number=3)), (10, dict(number=4, name=b" LPHA   ")), (12, dict(name=b"ALPHA   ")),
                           (13, dict(name=b"BETA    ")), (14, dict(T=60_000)), (15, dict(D=60_000)),
                           (16, dict(C=60_000)),
                           (17, dict(O=1_000_000))):
        script.call(enter(**bad), f"refused {number}")
        bad.update(better)
    script.calls((enter(**bad), "ok"), ("save 1 709", f"ok 49 {spell(CP(1) + TK(**alpha) + TK(**bad) + EN)}"))
    script.log("in a sheet, the first bad record decides")
    for records, answer in ((TK(**{**alpha, "O": 1_000_001}) + TK(**{**beta, "number": 32}) + EN, "refused T 17 3"),
                            (TK(**{**alpha, "C": 0}) + b"XX", "refused T 16 3"),
                            (TK(**{**alpha, "D": 0}) + TK(**beta)[:9], "refused T 15 3"),
                            (TK(**alpha) + TK(**{**beta, "T": 0}) + EN + b" ", "refused T 14 25")):
        script.call(f"load {spell(CP(1) + records)}", answer)

    script.log("refusals 9 and 11 of withdraw")
    script.calls(("withdraw 0", "refused 11"), ("withdraw 31", "refused 11"), ("withdraw 32", "refused 9"),
                 ("withdraw 255", "refused 9"), (one, "ok"), ("withdraw 0", "refused 11"), ("withdraw 2", "refused 11"),
                 ("withdraw 33", "refused 9"), ("withdraw 1", "ok"), ("withdraw 1", "refused 11"))

    script.log("refusals 18 and 19 of start")
    script.calls(("start 1", "refused 18"), (enter(0, "A", 0, 1, 60_000, 60_000), "ok"), ("start 1", "ok"),
                 ("halt", "ok"),
                 (enter(1, "B", 0, 1, 59_999, 59_999), "ok"), ("start 1", "refused 19"), ("run 1", "refused 2"),
                 ("withdraw 0", "ok"), ("start 8", "ok"), ("halt", "ok"), ("withdraw 1", "ok"),
                 ("start 1", "refused 18"))

    script.log("refusal 20: thresholds at both edges; a refused one keeps the bench")
    script.call(one, "ok")
    for policy in ("heavy 0 0 rank", "heavy 1 0 deadline", "heavy 0 1001 rank", "heavy 1001 1001 rank",
                   "heavy 2 1 deadline",
                   "heavy 1000 999 rank", "heavy 1001 1000 deadline", "heavy 1 2 heavy 0 0 rank",
                   "heavy 0 0 heavy 1 2 rank",
                   "heavy 1 2 heavy 3 2 deadline", "heavy 3 2 heavy 1 2 deadline", "heavy 3 2 heavy 1 0 deadline"):
        script.calls((f"bench {policy}", "refused 20"), (one, "refused 10"))
    for policy in ("heavy 0 1 rank", "heavy 1 1 rank", "heavy 0 1000 deadline", "heavy 1000 1000 deadline",
                   "heavy 999 1000 rank", "heavy 0 1 heavy 1000 1000 rank"):
        script.calls((f"bench {policy}", "ok"), (one, "ok"))

    script.log("refusal 21: buffers for save and line")
    for length in (0, 1, 48, 708, 709, 710, 4096):
        script.call(f"save 1 {length}", "refused 21" if length < 709 else f"ok 5 {spell(CP(1) + EN)}")
    script.calls((one, "ok"), ("start 1", "ok"))
    for run, verdict in ((0, "RUNNING 0"), (1, "RUNNING 1"), (1, "HOLDS 0 2")):
        script.call(f"run {run}", verdict)
        for length in (0, 1, 9, 10, 46, 47, 48, 49, 709):
            script.call(f"line {length}", "refused 21" if length < 48 else f"ok {len(verdict) + 1} {verdict}")
    script.calls(("halt", "ok"), (enter(2, "TWO", 0, 2, 2, 2), "ok"), ("start 1", "ok"), ("run 9", "MISSED 2 2"),
                 ("line 47", "refused 21"), ("line 48", "ok 11 MISSED 2 2"))


# ---- random logs

def may_enter(task):
    """Whether the fields of a task keep their bounds; names are not looked at."""
    return (task["number"] <= 31 and 1 <= task["C"] <= task["D"] <= task["T"] <= 60_000 and task["O"] <= 1_000_000)


def may_load(sheet):
    """Whether a sheet has the layout of a good one; what is in its records is not looked at."""
    marks = [bytes(sheet[i:i + 2]) for i in range(3, len(sheet) - 2, 22)]
    return sheet[:2] == b"CP" and len(sheet) % 22 == 5 and sheet[-2:] == EN and all(mark == b"TK" for mark in marks)


class RandomLog:
    """A bench line and random calls. The drawing keeps rough account of the bench (`table`, `started`),
    so that most calls fit; it need not be right about it. Runs are long only while the log is `tame`:
    every table then has a small hyperperiod and small offsets."""

    POLICIES = ("deadline", "rank")
    EDGES = (2 ** 8, 2 ** 16, 2 ** 32, 2 ** 64)

    def __init__(self, rng):
        self.rng = rng
        self.lines = []
        self.multiple = rng.choice((1, 4, 6, 8, 12, 12, 12, 18, 20, 24, 24, 30, 36, 60))
        self.periods = [d for d in range(1, self.multiple + 1) if self.multiple % d == 0]
        if rng.random() < 0.8:
            self.periods = [d for d in self.periods if d > 2] or self.periods
        self.farthest = rng.choice((0, 2, 5, 9, 20, self.multiple))
        self.cpus = rng.choice((1, 1, 2, 2, 2, 3, 3, 4, 8))
        many = rng.random() < 0.04
        self.count = rng.randint(12, 32) if many else rng.choice((1, 2, 3, 3, 4, 4, 5, 6))
        self.load = self.cpus * rng.choice((0.6, 0.8, 0.9, 0.95, 1.0, 1.0)) / self.count
        self.ranks = rng.choice(((9,), (0, 1, 2), (0, 255), tuple(range(256))))
        self.tight = rng.choice((0.0, 0.0, 0.3, 0.7))
        self.table = {}  # names by numbers
        self.started = False
        self.tame = True
        self.latest = 0  # the largest offset used

        self.lines.append(f"bench {self.policy()}")
        calls = rng.randint(10, 40)
        if many:
            self.load_good()
        while len(self.lines) <= calls:
            if self.started:
                self.while_started()
            else:
                self.while_open()
        ended = rng.random()
        self.lines = [line + "\r" if ended < 0.02 else line for line in self.lines]

    def put(self, line):
        self.lines.append(line)

    # What calls are handed.

    def threshold(self, good=True):
        rng = self.rng
        if good:
            b = rng.choice((1, 2, 2, 3, 4, 5, 7, 12, 999, 1000))
            return rng.choice((0, b, b // 2, rng.randint(0, b), rng.randint(0, b))), b
        return rng.choice(((1, 0), (0, 0), (0, 1001), (2, 1), (1001, 1000), (1001, 1001), (3, 2), (1, 2 ** 32 + 2),
                           (2 ** 32, 1), (2 ** 64 + 1, 2), (rng.randint(0, 9), 1000 + rng.randint(1, 9))))

    def policy(self, good=True):
        layers = self.rng.choice((0, 0, 1, 1, 2)) if good else self.rng.choice((1, 1, 2))
        bad = None if good else self.rng.randrange(layers)
        words = [f"heavy {a} {b}" for a, b in (self.threshold(i != bad) for i in range(layers))]
        return " ".join(words + [self.rng.choice(self.POLICIES)])

    def fresh_number(self):
        free = [i for i in range(32) if i not in self.table]
        return self.rng.choice(free) if free else self.rng.randrange(32)

    def fresh_name(self):
        while True:
            name = f"{self.rng.choice('ABCxyz~!')}{self.rng.randrange(1000)}".encode()
            name = name.ljust(self.rng.choice((4, 8)), b" ").ljust(8, b"_")
            if name not in self.table.values():
                return name

    def task(self, number=None, name=None):
        rng = self.rng
        T = rng.choice(self.periods)
        C = max(1, min(T, round(self.load * T * rng.uniform(0.5, 1.5))))
        D = rng.randint(C, T) if rng.random() < self.tight else T
        return dict(number=self.fresh_number() if number is None else number, name=name or self.fresh_name(),
                    O=rng.randint(0, self.farthest), C=C, D=D, T=T, rank=rng.choice(self.ranks))

    def sheet(self):
        """CPUs, and tasks with different numbers and names, as what TK is given."""
        rng = self.rng
        count = self.count if rng.random() < 0.7 else rng.randint(0, 3)
        numbers = rng.sample(range(32), min(count, 32))
        tasks = [self.task(number, b"%c%-3d%04d" % (rng.choice(b"PQR"), number, rng.randrange(10_000)))
                 for number in numbers]
        return self.cpus if rng.random() < 0.8 else rng.choice((1, 8)), tasks

    def any_cpus(self):
        rng = self.rng
        if rng.random() < 0.8:
            return self.cpus if rng.random() < 0.6 else rng.randint(1, 8)
        return rng.choice((0, 9, 0, 9, 8, 255, 256, rng.choice(self.EDGES) + self.cpus))

    def any_length(self, least):
        rng = self.rng
        return rng.choice((least, least, least, least, least + 1, least - 1, 0, 48, 709, 4096, rng.randrange(2 * least),
                           rng.choice(self.EDGES)))

    # Calls on an open bench.

    def while_open(self):
        rng = self.rng
        if len(self.table) < self.count and rng.random() < 0.5:
            return self.enter_good()
        if self.table and rng.random() < 0.35:
            return self.start()
        rng.choices((self.enter_good, self.enter_bad, self.withdraw, self.load_good, self.load_bad, self.save,
                     self.start,
                     self.question, self.unreadable, self.bench),
                    (4, 8, 5, 4, 7, 5, 2, 4, 2, 1.5))[0]()

    def enter_good(self):
        task = self.task()
        if len(self.table) < 32:
            self.table[task["number"]] = task["name"]
            self.latest = max(self.latest, task["O"])
        self.put(enter(**task))

    def enter_bad(self):
        """One or two fields at an edge or beyond it; sometimes the task is good all the same."""
        rng = self.rng
        task = self.task()
        fields = ("number", "taken", "name", "borne", "T", "D", "C", "O", "rank")
        for field in rng.choices(fields, k=rng.choice((1, 1, 2))):
            wrapped = rng.choice(self.EDGES)
            if field == "number":
                task[field] = rng.choice((0, 31, 32, 33, 255, wrapped + task["number"]))
            elif field == "taken" and self.table:
                task["number"] = rng.choice(list(self.table))
            elif field == "name":
                name = bytearray(task["name"])
                name[rng.choice((0, 0, 1, 4, 7))] = rng.choice((0x00, 0x1F, 0x20, 0x7E, 0x7F, 0x80, 0xFF))
                task[field] = bytes(name)
            elif field == "borne" and self.table:
                task["name"] = rng.choice(list(self.table.values()))
            elif field == "T":
                T = task["T"]
                task[field] = rng.choice((0, 1, T - 1, 60_000, 60_001, 65_535, 2 ** 16 + T, wrapped + T))
            elif field == "D":
                D = task["D"]
                task[field] = rng.choice((0, 1, D - 1, task["T"], task["T"] + 1, 60_000, 2 ** 16 + D, wrapped + D))
            elif field == "C":
                C = task["C"]
                task[field] = rng.choice((0, 1, task["D"], task["D"] + 1, 60_000, 2 ** 16 + C, wrapped + C))
            elif field == "O":
                task[field] = rng.choice((1_000_000, 1_000_001, 2 ** 32 - 1, 2 ** 32 + task["O"], 2 ** 64 + task["O"]))
            elif field == "rank":
                task[field] = rng.choice((0, 254, 255))
        if may_enter(task) and task["number"] not in self.table:
            self.table[task["number"]] = task["name"]
            self.latest = max(self.latest, task["O"])
            self.tame = self.tame and task["T"] in self.periods and task["O"] <= self.farthest
        self.put(enter(**task))

    def withdraw(self):
        rng = self.rng
        if self.table and rng.random() < 0.6:
            number = rng.choice(list(self.table))
            del self.table[number]
            self.put(f"withdraw {number}")
            if rng.random() < 0.3:
                self.put(enter(**self.task(number=number)))
        else:
            some = rng.randrange(32)
            self.put(f"withdraw {rng.choice((0, 31, 32, 255, some, rng.choice(self.EDGES) + some))}")

    def load_good(self):
        cpus, tasks = self.sheet()
        if not self.started:
            self.table = {task["number"]: task["name"] for task in tasks}
        self.latest = max([self.latest] + [task["O"] for task in tasks])
        self.put(f"load {spell(CP(cpus) + b''.join(TK(**task) for task in tasks) + EN)}")

    def load_bad(self):
        """A sheet with a field at an edge, or bytes changed; sometimes it is good all the same."""
        rng = self.rng
        cpus, tasks = self.sheet()
        tasks = tasks[:4]
        if tasks and rng.random() < 0.6:
            task = rng.choice(tasks)
            for field in rng.choices(("number", "name", "T", "D", "C", "O", "twice", "borne"), k=rng.choice((1, 1, 2))):
                if field == "number":
                    task[field] = rng.choice((31, 32, 128, 255))
                elif field == "name":
                    name = bytearray(task["name"])
                    name[rng.choice((0, 0, 3, 7))] = rng.choice((0x00, 0x1F, 0x20, 0x7E, 0x7F, 0xFF))
                    task[field] = bytes(name)
                elif field == "T":
                    task[field] = rng.choice((0, 60_000, 60_001, 65_535))
                elif field == "D":
                    task[field] = rng.choice((0, min(task["T"] + 1, 65_535), 65_535))
                elif field == "C":
                    task[field] = rng.choice((0, min(task["D"] + 1, 65_535), 65_535))
                elif field == "O":
                    task[field] = rng.choice((1_000_000, 1_000_001, 2 ** 24, 2 ** 32 - 1))
                elif field == "twice":
                    task["number"] = rng.choice(tasks)["number"]
                else:
                    task["name"] = rng.choice(tasks)["name"]
            sheet = CP(cpus) + b"".join(TK(**task) for task in tasks) + EN
        else:
            sheet = bytearray(CP(rng.choice((0, 9, cpus, cpus))) + b"".join(TK(**task) for task in tasks) + EN)
            at = rng.randrange(len(sheet))
            change = rng.choice(("byte", "mark", "cut", "cut", "take", "put", "more", "record"))
            if change == "byte":
                sheet[at] = rng.choice((0, 0x20, 0x7F, 0xFF, rng.randrange(256)))
            elif change == "mark":
                at = rng.choice([0, len(sheet) - 2] + [3 + 22 * i for i in range(len(tasks))])
                sheet[at:at + 2] = rng.choice((b"CP", b"TK", b"EN", b"XX", b"cp", b"TP"))
            elif change == "cut":
                del sheet[at:]
            elif change == "take":
                del sheet[at]
            elif change == "put":
                sheet.insert(at, rng.randrange(256))
            elif change == "more":
                sheet += rng.choice((b"\0", b"EN", b"\n", b"TK"))
            else:
                sheet[-2:-2] = rng.choice((CP(1), EN, b"TK"))
        if may_load(sheet):
            self.tame = False
            offsets = [int.from_bytes(sheet[i + 12:i + 16], "big") for i in range(3, len(sheet) - 2, 22)]
            self.latest = max([self.latest] + offsets)
        self.put(f"load {spell(bytes(sheet))}")

    def save(self):
        self.put(f"save {self.any_cpus()} {self.any_length(709)}")

    def start(self):
        cpus = self.any_cpus()
        self.put(f"start {cpus}")
        if self.table and 1 <= cpus <= 8:
            self.started = True

    def bench(self):
        good = self.rng.random() < 0.3
        self.put(f"bench {self.policy(good)}")
        if good:
            self.table, self.started = {}, False

    # Calls on a started bench.

    def while_started(self):
        rng = self.rng
        if rng.random() < 0.07:
            return rng.choice((self.enter_bad_now, self.withdraw_now, self.load_now, self.save, self.start_now))()
        rng.choices((self.run, self.question, self.halt, self.unreadable, self.bench), (10, 12, 2.5, 0.6, 0.6))[0]()

    def run(self):
        rng = self.rng
        longest = rng.choice((1000, 65_536, 1_000_000, FOR_EVER, FOR_EVER)) if self.tame else rng.randint(100, 300)
        n = rng.choice((0, 1, 1, 1, 2, 3, 5, self.multiple, rng.randint(1, 2 * self.multiple), rng.randint(1, 300),
                        longest))
        self.put(f"run {n}")

    def question(self):
        rng = self.rng
        kinds = ["verdict", "set", "set", "set", f"line {self.any_length(48)}"]
        if not self.started:
            kinds += ["halt", f"run {rng.choice((0, 1, 5))}"]
        self.put(rng.choice(kinds))

    def halt(self):
        self.put("halt")
        self.started = False

    def enter_bad_now(self):
        self.put(enter(**self.task()))

    def withdraw_now(self):
        self.put(f"withdraw {self.rng.choice([0, 32] + list(self.table))}")

    def load_now(self):
        cpus, tasks = self.sheet()
        self.put(f"load {spell(CP(cpus) + b''.join(TK(**task) for task in tasks[:2]) + EN)}")

    def start_now(self):
        self.put(f"start {self.any_cpus()}")

    # Lines that are no call.

    def unreadable(self):
        rng = self.rng
        good = rng.choice((enter(**self.task()), f"start {self.cpus}", "run 1", "halt", "verdict", "set", "line 48",
                           "save 1 709", f"withdraw {rng.randrange(32)}", "load 435001454E"))
        words = good.split(" ")
        way = rng.choice(("more", "fewer", "capital", "sign", "tab", "longer", "too large", "layers"))
        if way == "fewer" and len(words) > 1:
            words.pop()
        elif way == "capital":
            words[0] = words[0].capitalize()
        elif way == "sign" and len(words) > 1:
            words[-1] = rng.choice("+-") + words[-1]
        elif way == "tab" and len(words) > 1:
            words[:2] = ["\t".join(words[:2])]
        elif way == "longer":
            words[0] += rng.choice("s_0")
        elif way == "too large":
            words = rng.choice((["run", str(2 ** 32)], ["run", str(2 ** 64)],
                                enter(**{**self.task(), "rank": rng.choice((256, 2 ** 32))}).split(" ")))
        elif way == "layers":
            words = ["bench", "heavy", "1", "2", "heavy", "1", "3", "heavy", str(rng.randint(1, 9)), "4", "rank"]
        else:
            words.append(rng.choice(("0", "x", "1")))
        self.put(" ".join(words))


def draw_logs(rng, wanted, run):
    """Random logs. More are drawn than wanted: those stay in which two boundaries agree that are not the
    first two (up to a third of all), and then the first ones."""
    drawn = [RandomLog(rng) for _ in range(16 * wanted)]
    answers = iter(run([line for log in drawn for line in log.lines]))
    late = []
    for i, log in enumerate(drawn):
        for words in [next(answers).split() for _ in log.lines]:
            if words[0] == "HOLDS" and int(words[1]) > log.latest:
                late.append(i)
                break
    chosen = late[:wanted // 3]
    rest = [i for i in range(len(drawn)) if i not in set(chosen)]
    return [drawn[i] for i in sorted(chosen + rest[:wanted - len(chosen)])], len(chosen)


# ---- what is reached

def reached(pairs):
    """Counts, over pairs of a line and its answer: refusals by call, verdicts by call, other answers."""
    refusals, verdicts, others = Counter(), Counter(), Counter()
    for line, answer in pairs:
        call, words = (line.split() or [""])[0], answer.split()
        if words[0] == "refused":
            refusals[call, int(words[2] if call == "load" else words[1])] += 1
        elif words[0] in ("HOLDS", "MISSED", "RUNNING"):
            verdicts[call, words[0]] += 1
        elif words[0] == "ok" and call == "line":
            verdicts[call, words[2]] += 1
        else:
            others[call if words[0] == "ok" else "a line that is no call", words[0]] += 1
    return refusals, verdicts, others


def report(refusals, verdicts, others):
    calls = list(DUE)
    print("refusals, by number and call")
    print("   " + "".join(f"{call:>9}" for call in calls))
    for number in range(1, 22):
        cells = [str(refusals[call, number]) if number in DUE[call] or refusals[call, number] else "" for call in calls]
        print(f"{number:3}" + "".join(f"{cell:>9}" for cell in cells))
    print("answers")
    for (call, kind), count in sorted((verdicts + others).items()):
        print(f"  {call} {kind}: {count}")


def unfit(refusals, verdicts):
    """What is not reached, or is reached that cannot be, in words."""
    found = []
    for call, due in DUE.items():
        given = {number for name, number in refusals if name == call}
        found += [f"{call} is never refused with {number}" for number in sorted(due - given)]
        found += [f"{call} is refused with {number}" for number in sorted(given - due)]
    found += [f"{call} never tells {kind}" for call in ("run", "verdict", "line")
              for kind in ("HOLDS", "MISSED", "RUNNING") if not verdicts[call, kind]]
    return found


def text_of(lines):
    """The lines as bytes, the last without an end."""
    return "\n".join(lines).encode(errors="surrogateescape")


def main():
    parser = argparse.ArgumentParser(description=__doc__, formatter_class=argparse.RawDescriptionHelpFormatter)
    parser.add_argument("files", nargs="*", type=Path, metavar="FILE", help="the script and the answers to write")
    parser.add_argument("--check", action="store_true", help="print what the calls reach")
    parser.add_argument("--seed", type=int, default=20_240_301)
    parser.add_argument("--logs", type=int, default=320, help="how many random logs")
    words = parser.parse_args()
    if len(words.files) != 2 and not (words.check and not words.files):
        parser.error("two files are wanted, or --check")

    with tempfile.TemporaryDirectory() as room:
        program = Path(room) / "simulator"
        subprocess.run(["g++", "-std=c++17", "-O3", "-Wall", "-Wextra", "-o", program, HERE / "simulator.cpp"],
                       check=True)

        def run(lines):
            done = subprocess.run([program, "--script"], input=text_of(lines), stdout=subprocess.PIPE, check=True)
            return done.stdout.decode().splitlines()

        script = Script()
        script.remark("calls before there is a bench")
        script.calls(("verdict", "unreadable"), ("start 1", "unreadable"), ("bench heavy 1 0 rank", "refused 20"),
                     (enter(0, "ZERO", 0, 1, 1, 1), "unreadable"))
        for add in (add_worked, add_runs, add_tables, add_reading, add_refusals):
            add(script)
        logs, late = draw_logs(random.Random(words.seed), words.logs, run)
        for number, log in enumerate(logs, 1):
            script.blank()
            script.remark(f"random log {number}")
            for line in log.lines:
                script.call(line)
        add_odd_lines(script)
        add_last(script)

        began = time.perf_counter()
        answers = run([line for line, _ in script.lines])
        took = time.perf_counter() - began
        asked = [(line, known) for line, known in script.lines if known != ""]
        assert len(asked) == len(answers), f"{len(asked)} calls and {len(answers)} answers"
        for (line, known), answer in zip(asked, answers):
            assert known is None or known == answer, f"{line}: {answer!r} is not {known!r}"

    refusals, verdicts, others = reached([(line, answer) for (line, _), answer in zip(asked, answers)])
    texts = [text_of([line for line, _ in script.lines]), "".join(answer + "\n" for answer in answers).encode()]
    if words.check:
        report(refusals, verdicts, others)
    known = sum(known is not None for _, known in asked)
    print(f"{len(asked)} calls, of which {known} have an answer known beforehand")
    print(f"{len(logs)} random logs, of which {late} have been kept for a late steady state")
    print(f"{len(texts[0])} bytes of script and {len(texts[1])} of answers; the simulator took {took:.2f} seconds")
    wrong = unfit(refusals, verdicts)
    if max(map(len, texts)) > MOST_BYTES:
        wrong.append("a file is too long")
    if wrong:
        sys.exit("make_logs.py: " + "; ".join(wrong))
    for file, text in zip(words.files, texts):
        file.write_bytes(text)


if __name__ == "__main__":
    main()
