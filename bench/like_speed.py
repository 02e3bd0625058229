#!/usr/bin/env python3
"""The processor time of LIKE beside SQLite, in one run: shapes that users write over many rows, and hostile patterns over a long text.

Usage: bench/like_speed.py [--program FILE] [ROUNDS [ROWS]]: the least of so many rounds (default 5) over so many rows (default 100000).
The program is that of `bench/sqlite_speed.py`, which builds it where none is given, and both sides are measured as there: whole queries,
in turns. The long text has a million bytes; each side makes it in the query, by `replace`. SQLite refuses a pattern of more than 50000
bytes, and is asked for a hostile one once. Skipped where there is no `rt`.
"""

import math
import pathlib
import sys
import tempfile

import sqlite_speed

# Conditions of the rows, and the goal for ours over SQLite's.
SHAPES = [
    ("%.conf", "directory LIKE '%.conf'"),
    ("%shell7", "shell LIKE '%shell7'"),
    ("/etc/%", "directory LIKE '/etc/%'"),
    ("/home/name9%", "directory LIKE '/home/name9%'"),
    ("%name%", "directory LIKE '%NAME%'"),
    ("%ssh%", "directory LIKE '%ssh%'"),
    ("a_c%", "username LIKE 'a_c%'"),
    ("%9 user%", "username LIKE '%9 user%'"),
    ("%9 user", "username LIKE '%9 user'"),
    ("name9%", "username LIKE 'name9%'"),
    ("%e%9%r%", "username LIKE '%e%9%r%'"),
]
GOAL = 0.6

# Patterns for a million letters `a`, and the goal in milliseconds. Those of more than 50000 bytes are ours alone.
HUNDRED = "a" * 100
MILLION = f"replace(replace('{HUNDRED}', 'a', '{HUNDRED}'), 'a', '{HUNDRED}')"
HOSTILE = [
    ("nothing, to make the text", None, None),
    ("2000 bytes, found nowhere", "%" + "a" * 1997 + "b%", 20),
    ("2000 bytes, found at once", "%" + "a" * 1998 + "%", 20),
    ("a thousand pieces", "%" + "ab%" * 999, 20),
    ("an end that differs", "%" + "a" * 1998 + "b", 20),
    ("%_%_%_", "%_%_%_", 20),
    ("50 bytes with a _", "%" + "a" * 47 + "_b%", None),
    ("60000 bytes, found nowhere", "%" + "a" * 59997 + "b%", 20),
]
MOST_OF_SQLITE = 50_000


def shape_text(condition: str) -> str:
    return f"SELECT COUNT(*) AS n FROM users WHERE {condition}"


def hostile_text(pattern: str | None) -> str:
    return shape_text(f"length({MILLION}) = 0" if pattern is None else f"{MILLION} LIKE '{pattern}'")


def told_shapes(program: str, rounds: int, rows: int) -> None:
    texts = [shape_text(condition) for _, condition in SHAPES]
    base = sqlite_speed.held(sqlite_speed.tables_of(rows))
    best = [(math.inf, math.inf)] * len(texts)
    for _ in range(sqlite_speed.TURNS):
        times, _ = sqlite_speed.ours(program, rows, rounds, texts)
        for at, (text, (mine, _)) in enumerate(zip(texts, times)):
            theirs, _ = sqlite_speed.least_theirs(base, text, rounds)
            best[at] = (min(best[at][0], mine), min(best[at][1], theirs))
    print(f"{'pattern over ' + str(rows) + ' rows':34} {'ours':>11} {'SQLite':>11} {'ratio':>6} {'goal':>6}")
    for (name, _), (mine, theirs) in zip(SHAPES, best):
        print(f"{name:34} {mine * 1e3:8.3f} ms {theirs * 1e3:8.3f} ms {mine / theirs:6.2f} {GOAL:6.2f}")


def told_hostile(program: str, rounds: int) -> None:
    texts = [hostile_text(pattern) for _, pattern, _ in HOSTILE]
    base = sqlite_speed.held(sqlite_speed.tables_of(1))
    times, _ = sqlite_speed.ours(program, 1, rounds, texts)
    print(f"{'pattern over a million bytes':34} {'ours':>11} {'SQLite':>11} {'goal':>6}")
    for (name, pattern, goal), text, (mine, _) in zip(HOSTILE, texts, times):
        if pattern is None or len(pattern) <= MOST_OF_SQLITE:
            theirs = f"{sqlite_speed.least_theirs(base, text, 1)[0] * 1e3:8.1f} ms"
        else:
            theirs = "refused"
        print(f"{name:34} {mine * 1e3:8.2f} ms {theirs:>11} {goal or '':>6}")


def main() -> None:
    words, given = sqlite_speed.words_and_program()
    rounds = int(words[0]) if words else 5
    rows = int(words[1]) if words[1:] else 100_000
    with tempfile.TemporaryDirectory() as folder:
        program = given or sqlite_speed.built(pathlib.Path(folder))
        told_shapes(program, rounds, rows)
        told_hostile(program, rounds)


if __name__ == "__main__":
    sys.exit(main())
