#!/usr/bin/env python3
"""A second reading of document 01, plain and slow, held against the recorded answers.

usage: oracle/reading.py [--list] [FILE ..]

Without files it reads crates/replay/stdin and data/differences.txt. It says how many cases agree and
how many differ in each of the known ways; anything else is printed in full and the exit status
is 1. With --list every known difference is printed too: file, line, question, the Rust's answer,
01's answer. Nothing here was taken from the Rust.
"""

import itertools
import math
import struct
import sys
from collections import Counter
from functools import lru_cache
from pathlib import Path

TOP = Path(__file__).resolve().parent.parent
FILES = [TOP / "crates" / "replay" / "stdin", TOP / "data" / "differences.txt"]
MAX_FOLDS = 64
MAX_ROWS = 1_048_576


# Folds, overlap, blocks

def folds_of(n, count):
    """The rows of each fold, as ranges."""
    ranges, first = [], 0
    for f in range(count):
        size = n // count + (1 if f < n % count else 0)
        ranges.append(range(first, first + size))
        first += size
    return ranges


def overlap(a, b):
    return a[0] <= b[1] and b[0] <= a[1]


def blocks_of(test, n):
    """Maximal runs of consecutive test rows."""
    runs = []
    for row in range(n):
        if row in test:
            if row - 1 in test:
                runs[-1].append(row)
            else:
                runs.append([row])
    return runs


def latest_end(table, block):
    return max(table[row][1] for row in block)


# Embargo

def double(bits):
    return struct.unpack(">d", bytes.fromhex(bits))[0]


def width_of(bits, n):
    return math.ceil(double(bits) * n)


def embargoed(table, test, width):
    n, rows = len(table), set()
    for block in blocks_of(test, n):
        end, row = latest_end(table, block), block[-1] + 1
        while row < n and table[row][0] <= end:
            row += 1
        rows.update(range(row, min(row + width, n)))
    return rows - test


# Marks

def purged_by_window(table, test, row):
    windows = ((table[b[0]][0], latest_end(table, b)) for b in blocks_of(test, len(table)))
    return any(overlap(table[row], window) for window in windows)


def purged_by_pair(table, test, row):
    return any(overlap(table[row], table[other]) for other in test)


@lru_cache(maxsize=200_000)
def marks_of(table, test, purged, width, forward):
    """One digit a row; `forward` leaves the rows after the test rows unused."""
    n = len(table)
    under_embargo = embargoed(table, test, width)
    digits = ""
    for row in range(n):
        if row in test:
            digits += "1"
        elif forward and row > max(test):
            digits += "5"
        else:
            digits += "0234"[purged(table, test, row) + 2 * (row in under_embargo)]
    return digits


def counts_of(marks):
    return [
        marks.count("0"),
        marks.count("1"),
        marks.count("2") + marks.count("4"),
        marks.count("3") + marks.count("4"),
    ]


def overlap_count(table, train, test):
    return sum(any(overlap(table[i], table[j]) for j in test) for i in train)


# Sets of folds and paths

@lru_cache(maxsize=None)
def sets_of(count, k):
    return list(itertools.combinations(range(count), k))


@lru_cache(maxsize=None)
def testing(count, k, fold):
    """The splits that test a fold, in their order."""
    return [number for number, folds in enumerate(sets_of(count, k)) if fold in folds]


def rows_of(n, count, folds):
    ranges = folds_of(n, count)
    return frozenset(row for fold in folds for row in ranges[fold])


def too_many(count, k):
    j = min(k, count - k)
    return math.comb(count, j) * j > 2**64 - 1


def splits_of(count, k):
    return math.comb(count, k)


def paths_of(count, k):
    return math.comb(count - 1, k - 1)


# Refusals. Each check gives the answer's fields or None; a call tries its own in 01's order.

def check_1(n):
    return ["1"] if n == 0 else None


def check_10(n):
    return ["10"] if n > MAX_ROWS else None


def check_2(n, count):
    return ["2", str(count), str(n)] if count < 2 or count > n else None


def check_2_alone(count):
    return ["2", str(count), "0"] if count < 2 else None


def check_3(bits):
    return None if 0 <= double(bits) < 1 else ["3", bits]


def check_4(table):
    bad = [row for row, (start, end) in enumerate(table) if end < start]
    return ["4", str(bad[0])] if bad else None


def check_6(count, k):
    return ["6"] if k == 0 or k >= count else None


def check_7(count, m):
    return ["7"] if m == 0 or m >= count else None


def check_11(count):
    return ["11"] if count > MAX_FOLDS else None


def check_8(count, k):
    return ["8"] if too_many(count, k) else None


def check_13(number, end):
    return ["13"] if number >= end else None


def check_15(sizes):
    return ["15"] if 0 in sizes else None


def check_16(first, n):
    return ["16"] if first >= n else None


def first_of(*checks):
    """The first refusal; later checks are not looked at, so they come as functions."""
    for check in checks:
        refusal = check()
        if refusal:
            return ["X", *refusal]
    return None


def table_checks(table, count, bits):
    n = len(table)
    return [
        lambda: check_1(n),
        lambda: check_10(n),
        lambda: check_2(n, count),
        lambda: check_3(bits),
        lambda: check_4(table),
    ]


def set_checks(count, k):
    return [lambda: check_6(count, k), lambda: check_11(count), lambda: check_8(count, k)]


# The window rule's calls

def window_answer(table, test, bits, forward=False):
    width = 0 if forward else width_of(bits, len(table))
    marks = marks_of(table, test, purged_by_window, width, forward)
    train = [row for row, mark in enumerate(marks) if mark == "0"]
    return ["M", marks, *map(str, counts_of(marks)), str(overlap_count(table, train, test))]


def ask_KW(table, count, bits, split):
    checks = [*table_checks(table, count, bits), lambda: check_13(split, count)]
    return first_of(*checks) or window_answer(table, rows_of(len(table), count, [split]), bits)


def ask_CW(table, count, k, bits, split):
    checks = [*table_checks(table, count, bits), *set_checks(count, k)]
    refusal = first_of(*checks, lambda: check_13(split, splits_of(count, k)))
    if refusal:
        return refusal
    return window_answer(table, rows_of(len(table), count, sets_of(count, k)[split]), bits)


def ask_WF(table, count, m, bits, split):
    checks = [*table_checks(table, count, bits), lambda: check_7(count, m)]
    refusal = first_of(*checks, lambda: check_13(split, count - m))
    if refusal:
        return refusal
    return window_answer(table, rows_of(len(table), count, [m + split]), bits, forward=True)


# The pair rule's calls. An answer with no row marked 0 is refusal 17.

def pair_marks(table, test, bits, forward=False):
    width = 0 if forward else width_of(bits, len(table))
    return marks_of(table, test, purged_by_pair, width, forward)


def pair_answer(marks):
    if "0" not in marks:
        return ["X", "17"]
    train, test, purged, _ = counts_of(marks)
    letters = "".join(mark if mark in "015" else "-" for mark in marks)
    return ["P", letters, *map(str, [train, test, purged, marks.count("3")])]


def ask_KP(table, count, bits, split):
    checks = [*table_checks(table, count, bits), lambda: check_13(split, count)]
    refusal = first_of(*checks)
    return refusal or pair_answer(pair_marks(table, rows_of(len(table), count, [split]), bits))


def ask_CP(table, count, k, bits, split):
    checks = [*table_checks(table, count, bits), *set_checks(count, k)]
    refusal = first_of(*checks, lambda: check_13(split, splits_of(count, k)))
    if refusal:
        return refusal
    test = rows_of(len(table), count, sets_of(count, k)[split])
    return pair_answer(pair_marks(table, test, bits))


def rolling_rows(n, first, size, step, split):
    start = first + split * step
    return frozenset(range(start, min(start + size, n)))


def ask_RP(table, first, size, step, bits, split):
    n = len(table)
    refusal = first_of(
        lambda: check_1(n),
        lambda: check_10(n),
        lambda: check_3(bits),
        lambda: check_4(table),
        lambda: check_15([first, size, step]),
        lambda: check_16(first, n),
        lambda: ["13"] if first + split * step >= n else None,
    )
    test = None if refusal else rolling_rows(n, first, size, step, split)
    return refusal or pair_answer(pair_marks(table, test, bits, forward=True))


# Calls on numbers, on lists, and joining

def number_checks(count, k):
    return [lambda: check_2_alone(count), *set_checks(count, k)]


def ask_CF(_, count, k, split):
    refusal = first_of(*number_checks(count, k), lambda: check_13(split, splits_of(count, k)))
    return refusal or ["F", str(k), *map(str, sets_of(count, k)[split])]


def path_of(count, k, path):
    return [testing(count, k, fold)[path] for fold in range(count)]


def ask_PA(_, count, k, path):
    refusal = first_of(*number_checks(count, k), lambda: check_13(path, paths_of(count, k)))
    return refusal or ["W", str(count), *map(str, path_of(count, k, path))]


def ask_PC(_, count, k):
    return first_of(*number_checks(count, k)) or ["V", str(paths_of(count, k))]


def ask_NK(_, n, count, split):
    refusal = first_of(lambda: check_2(n, count), lambda: check_13(split, count))
    if refusal:
        return refusal
    test = folds_of(n, count)[split]
    return ["M", "".join("1" if row in test else "0" for row in range(n))]


def ask_OC(table, train, test):
    past = [row for row in train + test if row >= len(table)]
    if past:
        return ["X", "9", str(past[0])]
    return ["V", str(overlap_count(table, train, test))]


def dropped(span, test):
    start_in = test[0] <= span[0] <= test[1]
    end_in = test[0] <= span[1] <= test[1]
    return start_in or end_in or (span[0] <= test[0] and span[1] >= test[1])


def ask_TT(table, tests):
    kept = ("0" if any(dropped(span, test) for test in tests) else "1" for span in table)
    return ["M", "".join(kept)]


def ask_JN(_, n, count, k, path, _seed):
    checks = [lambda: check_1(n), lambda: check_10(n), lambda: check_2(n, count)]
    refusal = first_of(
        *checks, *set_checks(count, k), lambda: check_13(path, paths_of(count, k))
    )
    if refusal:
        return refusal
    flat = [
        (split, row)
        for split, folds in enumerate(sets_of(count, k))
        for row in sorted(rows_of(n, count, folds))
    ]
    place = {entry: i for i, entry in enumerate(flat)}
    splits = path_of(count, k, path)
    ranges = folds_of(n, count)
    return ["J", *(str(place[splits[f], row]) for f in range(count) for row in ranges[f])]


# Known differences

def some_split_empty(call, table, args):
    """Whether refusal 17 belongs to some split of the run."""
    n = len(table)
    if call == "KP":
        tests = (rows_of(n, args[0], [fold]) for fold in range(args[0]))
    elif call == "CP":
        tests = (rows_of(n, args[0], folds) for folds in sets_of(args[0], args[1]))
    else:
        first, size, step = args[:3]
        ends = range(first, n, step)
        tests = (rolling_rows(n, first, size, step, s) for s in range(len(ends)))
    bits = args[-2]
    return any("0" not in pair_marks(table, test, bits, call == "RP") for test in tests)


def engine_refusal(call, table, args):
    """The refusal that the engine's own check order gives."""
    if call == "JN":
        n, count, k = args[:3]
        bits = "0" * 16
    else:
        n, count, k, bits = len(table), args[0], args[1], args[-2]

    def small():
        return check_2(n, count) if count < 2 else None

    def large():
        return check_2(n, count)

    def spans():
        return ["4", "-"] if call != "JN" and check_4(table) else None

    def fraction():
        return check_3(bits)

    def tested():
        return check_6(count, k)

    orders = {
        "KP": [spans, fraction, small, large],
        "CP": [spans, small, tested, fraction, large],
        "JN": [spans, small, tested, fraction, large],
        "RP": [spans, fraction],
    }
    return first_of(lambda: check_1(n), *orders[call])


def difference(call, table, args, said, ours):
    """The known way in which the Rust's answer differs, or None."""
    if said == ["E"] and ours[0] in "PX" and (ours[0] == "P" or ours[1] in ("13", "17")):
        if not some_split_empty(call, table, args):
            return None
        if ours == ["X", "17"]:
            return "E where 01 gives this split 17"
        return "E where 01 refuses another split only"
    if call == "PC" and ours == ["X", "8"] and said == ["V", str(paths_of(*args))]:
        return "the engine counts paths that 01 refuses with 8"
    if call in ("KP", "CP", "RP", "JN") and ours[0] == "X" and said[1:2] != ours[1:2]:
        if said == engine_refusal(call, table, args):
            return f"engine's check order: {said[1]} where 01 gives {ours[1]}"
    return None


def agree(call, said, ours):
    """The engine names no row for refusal 4."""
    if call in ("KP", "CP", "RP") and said == ["X", "4", "-"]:
        return ours[:2] == ["X", "4"]
    return said == ours


# Reading the cases

def spans_of(words):
    times = [int(word) for word in words[1:]]
    assert len(times) == 2 * int(words[0]), "a table of another length"
    return tuple(zip(times[::2], times[1::2]))


def arguments(call, words):
    if call == "OC":
        t = int(words[0])
        train, rest = words[1 : t + 1], words[t + 1 :]
        assert len(rest) == int(rest[0]) + 1, "a list of another length"
        return [[int(w) for w in train], [int(w) for w in rest[1:]]]
    if call == "TT":
        return [spans_of(words)]
    bits_at = {"KW": 1, "KP": 1, "CW": 2, "CP": 2, "WF": 2, "RP": 3}.get(call)
    return [word if i == bits_at else int(word) for i, word in enumerate(words)]


CALLS = {name[4:]: value for name, value in list(globals().items()) if name.startswith("ask_")}


def read(path, listing):
    """Counts of agreeing cases by call and of differences by kind; the number unexplained."""
    table, agreed, known, unexplained = (), Counter(), Counter(), 0
    text = path.read_text()
    assert text.endswith("\n"), "the last line has no end"
    for number, line in enumerate(text[:-1].split("\n"), 1):
        fields = line.split("\t")
        if fields[0] == "T":
            table = spans_of(fields[1:])
            continue
        cut = fields.index("=")
        call, said = fields[0], fields[cut + 1 :]
        args = arguments(call, fields[1:cut])
        ours = CALLS[call](table, *args)
        if agree(call, said, ours):
            agreed[call] += 1
            continue
        kind = difference(call, table, args, said, ours)
        if kind:
            known[kind] += 1
        else:
            unexplained += 1
        if listing or not kind:
            show = "\t".join(fields[:cut])
            print(f"{path.name}:{number}: {show}\n  Rust {said}\n  01   {ours}")
    return agreed, known, unexplained


def main(words):
    listing = "--list" in words
    files = [Path(word) for word in words if word != "--list"] or FILES
    bad = 0
    for path in files:
        agreed, known, unexplained = read(path, listing)
        by_call = ", ".join(f"{call} {count}" for call, count in sorted(agreed.items()))
        print(f"{path.name}: {sum(agreed.values())} cases agree ({by_call or 'none'})")
        for kind, count in sorted(known.items()):
            print(f"  {count} differ in a known way: {kind}")
        print(f"  {unexplained} differ otherwise")
        bad += unexplained
    return 1 if bad else 0


if __name__ == "__main__":
    sys.exit(main(sys.argv[1:]))
