#!/usr/bin/env python3
"""The processor time of joins, GROUP BY and DISTINCT over numbers that somebody chose by their hashes.

Usage: bench/crafted_keys.py [--program FILE] [ROWS ..]: tables of so many rows (default 10000 and 100000). The program is that of
bench/sqlite_speed.py, which is built by `rt run` where none is given. Beside each time stands that over as many numbers that nobody chose, of
which as many differ, and the exponent by which the time over chosen ones grew from the size before: 1.0 is in step with the rows, 2.0 is their
square. What by the square of its time before would take more than a minute isn't run. Skipped where there is no `rt`.

The hash of the kit begins with a fixed state and multiplies it for each 8 bytes with a fixed number, folding the upper half of the product
onto the lower, so nobody has to try: numbers whose product with it has nothing in the bits that make the slot form a lattice of two dimensions.
Of two numbers the second can undo what the first made of the state, so that whole hashes are equal. Three more choices are found by trying:

- a quarter: the hashes fall to one quarter of the groups of the kit's map, evenly, so that each group has few; the map goes on to the next group
  where one is full;
- few: a thousand numbers of which no more than 64 share the lowest bits of their hashes. They begin at sixteen groups of the map, with the same tag,
  which are the highest bits, and nearly all rows have the last of them, which is looked up behind all others;
- most: as many numbers as a set holds without a key, so that none is drawn. As many of them as its watch lets pass have one tag, and all others
  begin at sixteen groups of the map. Nearly all rows have the last of them, behind all others, whose tag it has.
"""

import functools
import itertools
import math
import pathlib
import subprocess
import tempfile
from collections.abc import Callable

import sqlite_speed

WORD = 1 << 64
FIRST = 0x243F6A8885A308D3
MULTIPLIER = 0x9E3779B97F4A7C15 ^ 16
SLOT_BITS = 17  # slots that the numbers share, as a power of two
INT = 1  # what is hashed before a value that is a number
GROUP_LOAD = 9  # values that a group of the kit's map has at most on an average
GROUP_ROOM = 12  # values that a group has room for
FEW = 1000  # numbers whose highest bits nothing watches
MOST = 8192  # values that a set holds without a key
SLOTS = 64  # of the watch over such a set, for either end of a hash
LEAST, TIMES = 64, 4  # values of a slot that it lets pass: so many, or so many times the average
BEGUN = 16  # groups at which chosen numbers begin
LONGEST = 60.0  # seconds that one measure may take by the square of the one before


def folded(state: int, number: int) -> int:
    product = ((state ^ number) % WORD) * MULTIPLIER
    return (product >> 64) ^ (product % WORD)


def signed(number: int) -> int:
    return number if number < WORD // 2 else number - WORD


def short_basis() -> tuple[tuple[int, int], tuple[int, int]]:
    """Two short vectors of the lattice of all (k, k * MULTIPLIER mod 2^64)."""
    one, other = (1, MULTIPLIER), (0, WORD)
    while True:
        if math.hypot(*one) > math.hypot(*other):
            one, other = other, one
        times = round((one[0] * other[0] + one[1] * other[1]) / (one[0] ** 2 + one[1] ** 2))
        if times == 0:
            return one, other
        other = (other[0] - times * one[0], other[1] - times * one[1])


def sharing(count: int, state: int) -> list[int]:
    """So many numbers that a hasher in this state takes to hashes with zeros in the bits of a slot."""
    one, other = short_basis()
    found: list[int] = []
    for first in range(-2000, 2000):
        for second in range(-2000, 2000):
            k = first * one[0] + second * other[0]
            rest = first * one[1] + second * other[1]
            if 0 < k < 1 << (62 - SLOT_BITS) and 0 <= rest < 1 << (64 - SLOT_BITS):
                found.append(signed((k << SLOT_BITS) ^ state))
                if len(found) == count:
                    return found
    raise SystemExit("the lattice has too few such numbers")


def pairs(count: int, first: int, second: int) -> list[tuple[int, int]]:
    """So many pairs of one hash: the state before the first number, and what is hashed before the second, where there is something."""
    made = []
    for number in range(1, count + 1):
        state = folded(first, number)
        made.append((number, signed((state if second < 0 else folded(state, second)) ^ 7)))
    return made


def slice_state(length: int) -> int:
    """A hasher behind the length of a slice and what stands before its first value."""
    return folded(folded(FIRST, length), INT)


def hash_of_one(number: int) -> int:
    """What the kit's map goes by for a value."""
    made = folded(folded(FIRST, INT), number)
    return (made ^ (made >> 32)) % (1 << 32)


def hash_of_two(number: int) -> int:
    """What it goes by for the same value in two columns."""
    made = folded(folded(folded(slice_state(2), number), INT), number)
    return (made ^ (made >> 32)) % (1 << 32)


def groups_of(count: int) -> int:
    """How many groups the kit's map has for so many values."""
    return 1 << math.ceil(math.log2(count / GROUP_LOAD))


def in_quarter(count: int, hash_of: Callable[[int], int]) -> list[tuple[int, int]]:
    """So many numbers that begin in the first quarter of the groups of a map of so many, each twice."""
    bits = max(2, groups_of(count).bit_length() - 1)
    chosen = (it for it in itertools.count(1) if (hash_of(it) >> (bits - 2)) % 4 == 0)
    return [(it, it) for it in itertools.islice(chosen, count)]


@functools.cache
def few(hash_of: Callable[[int], int]) -> list[int]:
    """Numbers that begin at few groups and have one tag."""
    groups = groups_of(FEW)
    slots = [0] * SLOTS
    found: list[int] = []
    for number in itertools.count(1):
        made = hash_of(number)
        if made >> 25 == 0 and made % groups < BEGUN and slots[made % SLOTS] < LEAST:
            slots[made % SLOTS] += 1
            found.append(number)
            if len(found) == FEW:
                break
    return found


@functools.cache
def most(hash_of: Callable[[int], int]) -> list[int]:
    """As many numbers as a set holds without a key, which begin at few groups or have one tag, and of which the watch lets each pass."""
    groups, reached = groups_of(MOST), MOST // GROUP_ROOM
    counts = [0] * (2 * SLOTS)
    found: list[int] = []
    for number in itertools.count(1):
        made, total = hash_of(number), len(found) + 1
        begun, high = made % groups, made >> 26
        is_tagged = made >> 25 == 0 and begun < (BEGUN if total == MOST else reached)
        is_other = high > 0 and begun < BEGUN and total < MOST
        slots = (made % SLOTS, SLOTS + high)
        if (is_tagged or is_other) and all(counts[slot] < LEAST or (counts[slot] + 1) // TIMES <= total // SLOTS for slot in slots):
            for slot in slots:
                counts[slot] += 1
            found.append(number)
            if total == MOST:
                break
    return found


def with_last(count: int, numbers: list[int]) -> list[tuple[int, int]]:
    """So many rows: each number, twice, and then the last of them again and again."""
    held = [numbers[min(at, len(numbers) - 1)] for at in range(count)]
    return [(it, it) for it in held]


BY_ONE = "SELECT uid, COUNT(*) AS n FROM users GROUP BY uid LIMIT 1"
BY_TWO = "SELECT uid, gid, COUNT(*) AS n FROM users GROUP BY uid, gid LIMIT 1"
ONE = "SELECT DISTINCT uid FROM users ORDER BY uid LIMIT 1"
TWO = "SELECT DISTINCT uid, gid FROM users ORDER BY uid LIMIT 1"

# What is measured: its text, and the pairs of uid and gid for so many rows.
CASES = [
    ("join by one key", "SELECT COUNT(*) AS n FROM users u JOIN user_groups k ON k.uid = u.uid", lambda n: [(it, it) for it in sharing(n, FIRST)]),
    ("join by two keys", "SELECT COUNT(*) AS n FROM users u JOIN user_groups k ON k.uid = u.uid AND k.gid = u.gid", lambda n: pairs(n, FIRST, -1)),
    ("GROUP BY one key", BY_ONE, lambda n: [(it, it) for it in sharing(n, folded(FIRST, INT))]),
    ("GROUP BY two keys", BY_TWO, lambda n: pairs(n, slice_state(2), INT)),
    ("DISTINCT of one column", ONE, lambda n: [(it, it) for it in sharing(n, folded(FIRST, INT))]),
    ("DISTINCT of two columns", TWO, lambda n: pairs(n, slice_state(2), INT)),
    ("GROUP BY one key, a quarter", BY_ONE, lambda n: in_quarter(n, hash_of_one)),
    ("GROUP BY two keys, a quarter", BY_TWO, lambda n: in_quarter(n, hash_of_two)),
    ("DISTINCT of one column, a quarter", ONE, lambda n: in_quarter(n, hash_of_one)),
    ("DISTINCT of two columns, a quarter", TWO, lambda n: in_quarter(n, hash_of_two)),
    ("GROUP BY one key, few", BY_ONE, lambda n: with_last(n, few(hash_of_one))),
    ("GROUP BY two keys, few", BY_TWO, lambda n: with_last(n, few(hash_of_two))),
    ("DISTINCT of one column, few", ONE, lambda n: with_last(n, few(hash_of_one))),
    ("DISTINCT of two columns, few", TWO, lambda n: with_last(n, few(hash_of_two))),
    ("GROUP BY one key, most", BY_ONE, lambda n: with_last(n, most(hash_of_one))),
    ("GROUP BY two keys, most", BY_TWO, lambda n: with_last(n, most(hash_of_two))),
    ("DISTINCT of one column, most", ONE, lambda n: with_last(n, most(hash_of_one))),
    ("DISTINCT of two columns, most", TWO, lambda n: with_last(n, most(hash_of_two))),
]


def seconds(program: str, text: str, keys: list[tuple[int, int]]) -> tuple[float, int]:
    """The time of a text over these pairs, and how many rows it gave."""
    lines = "".join(f"{uid} {gid}\n" for uid, gid in keys)
    told = subprocess.run([program, "0", "1", text], input=lines, capture_output=True, text=True, check=True).stdout.split()
    return int(told[0]) / 1e9, int(told[1])


def honest(chosen: list[tuple[int, int]]) -> list[tuple[int, int]]:
    """As many rows by numbers that nobody chose; where these have one pair, those have one."""
    count = len(chosen)
    at_of: dict[tuple[int, int], int] = {}
    places = [at_of.setdefault(pair, len(at_of)) for pair in chosen]
    return [((at * 7919) % (count * 13) - count, at) for at in places]


def main() -> None:
    words, given = sqlite_speed.words_and_program()
    sizes = [int(word) for word in words] or [10_000, 100_000]
    with tempfile.TemporaryDirectory() as folder:
        program = given or sqlite_speed.built(pathlib.Path(folder))
        before: dict[str, tuple[int, float]] = {}
        for rows in sizes:
            print(f"{f'{rows} rows':34} {'chosen':>13} {'not chosen':>13} {'exponent':>9}")
            for name, text, made in CASES:
                size, time = before.get(name, (rows, 0.0))
                expected = time * (rows / size) ** 2
                if expected > LONGEST:
                    print(f"{name:34} not run: {expected:.0f} s by the square", flush=True)
                    continue
                keys = made(rows)
                chosen, _ = seconds(program, text, keys)
                other, _ = seconds(program, text, honest(keys))
                exponent = f"{math.log(chosen / time, rows / size):9.2f}" if size != rows else ""
                print(f"{name:34} {chosen * 1e3:10.2f} ms {other * 1e3:10.2f} ms {exponent}", flush=True)
                before[name] = (rows, chosen)


if __name__ == "__main__":
    main()
