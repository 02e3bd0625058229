#!/usr/bin/env python3
"""What `osqd fleet` costs: one host's frames out of a ledger of many hosts beside `osqd collect`, which opens the same ledger, and texts over a query's
table beside SQLite, in one run.

Usage: bench/fleet.py [ROUNDS [PROGRAM]]: the least processor time of so many runs (default 3) of the built program (default crates/osqd/out/osqd), since
other work on the machine only takes time away; memory is the greatest resident size. The first ledger has 100000 frames of ten rows of ten values, of 1000
hosts whose frames alternate, in some 130 MB. The second has 10000 such frames of one host and one query: a table of 100000 rows. The time of reading,
which is that of counting its batches, is taken away from all. What making the table takes beside that is that of counting its rows, and is put beside
the inserts of the same rows into a table of SQLite without affinities, in memory and without an index of its own making. Then each text is told by
itself, the making of the table aside on both sides, and with it. SQLite's time of a text is that of the query and of fetching its rows. What both give
is compared. Skipped where the program isn't built.
"""

import hashlib
import json
import os
import pathlib
import sqlite3
import subprocess
import sys
import tempfile
import time

TOP = pathlib.Path(__file__).resolve().parent.parent
NAMES = ["target_path", "category", "action", "inode", "uid", "gid", "mode", "size", "mtime", "time"]
ROWS = 10  # of a frame
FRAMES = 100_000
HOSTS = 1000
OWN = 10_000  # frames of the one host
ACTIONS = ["CREATED", "UPDATED", "DELETED"]

# Texts over the table of the query, with what both read them as.
TEXTS = [
    ("a filter", "SELECT target_path, inode FROM files WHERE action = 'DELETED' AND uid = 7"),
    ("groups of three", "SELECT action, COUNT(*) AS n, SUM(size) AS bytes FROM files GROUP BY action ORDER BY action"),
    ("groups of many", "SELECT target_path, COUNT(*) AS n FROM files GROUP BY target_path ORDER BY n DESC, target_path LIMIT 5"),
    ("a sort", "SELECT inode, target_path FROM files ORDER BY size, inode LIMIT 10"),
]


def row_of(number: int) -> list:
    """The row of that number, of some thousand paths."""
    mixed = number * 7919 % 100_003
    return [f"/etc/f{mixed % 1009}", "etc", ACTIONS[mixed % 3], number, mixed % 11, None, "0100644", mixed % 65536, 1_700_000_000, 1_700_000_000 + number]


def line_of(host: str, number: int, rows: list) -> bytes:
    shown = {"frame": 1, "host": host, "number": number, "name": "files", "text": "SELECT * FROM file_events", "mode": "evented"}
    shown |= {"lo": 0, "hi": 10, "cut": 4, "moment": 1000, "names": NAMES, "rows": rows}
    body = json.dumps(shown, separators=(",", ":"))[:-1].encode()
    return body + b',"sha256":"' + hashlib.sha256(body).hexdigest().encode() + b'"}\n'


def rows_from(frame: int) -> list:
    return [row_of(frame * ROWS + at) for at in range(ROWS)]


def write_ledgers(folder: pathlib.Path) -> tuple[pathlib.Path, pathlib.Path]:
    many, one = folder / "many", folder / "one"
    with many.open("wb") as file:
        file.writelines(line_of(f"h{at % HOSTS}", at // HOSTS + 1, rows_from(at)) for at in range(FRAMES))
    with one.open("wb") as file:
        file.writelines(line_of("h1", at + 1, rows_from(at)) for at in range(OWN))
    return many, one


def spent(folder: pathlib.Path, command: list[str], rounds: int) -> tuple[float, int, bytes]:
    """The least processor time of some runs, the greatest resident size in bytes, and what the last one wrote."""
    least, most, out = float("inf"), 0, folder / "out"
    for _ in range(rounds):
        with out.open("wb") as file:
            run = subprocess.Popen(command, stdout=file)
        _, status, used = os.wait4(run.pid, 0)
        if status != 0:
            sys.exit(f"{command} ended with {status}")
        least, most = min(least, used.ru_utime + used.ru_stime), max(most, used.ru_maxrss * 1024)
    return least, most, out.read_bytes()


def by_sqlite(text: str, base: sqlite3.Connection, rounds: int) -> tuple[float, list]:
    """The least processor time of the text in SQLite, and its rows as objects of texts."""
    least, rows = float("inf"), []
    for _ in range(rounds):
        start = time.process_time()
        found = base.execute(text)
        rows = found.fetchall()
        least = min(least, time.process_time() - start)
    names = [it[0] for it in found.description]
    return least, [{name: "" if value is None else str(value) for name, value in zip(names, row)} for row in rows]


def table_of_rows(rounds: int) -> tuple[float, sqlite3.Connection]:
    """The least processor time of making the table in SQLite, and the table."""
    rows = [(at // ROWS + 1, 1000, *row_of(at)) for at in range(OWN * ROWS)]
    least, base = float("inf"), sqlite3.connect(":memory:")
    for _ in range(rounds):
        base = sqlite3.connect(":memory:")
        base.execute(f"CREATE TABLE files (batch_number INTEGER, moment INTEGER, {', '.join(NAMES)})")
        start = time.process_time()
        base.executemany(f"INSERT INTO files VALUES ({', '.join('?' * (len(NAMES) + 2))})", rows)
        least = min(least, time.process_time() - start)
    return least, base


def measure_ledger(folder: pathlib.Path, program: str, ledger: pathlib.Path, rounds: int) -> None:
    """One host's frames out of those of many, beside a run of the collector that is sent nothing."""
    empty = folder / "empty"
    empty.touch()
    size = ledger.stat().st_size
    opened, held, _ = spent(folder, [program, "collect", "--frames", str(empty), "--ledger", str(ledger)], rounds)
    words = [program, "fleet", "--ledger", str(ledger), "--host", "h1", "--text"]
    asked, most, told = spent(folder, [*words, "SELECT COUNT(*) AS n FROM batches"], rounds)
    if told != b'{"n":"%d"}\n' % (FRAMES // HOSTS):
        sys.exit(f"other batches: {told!r}")
    print(f"a host of {HOSTS} in {FRAMES} frames  {asked:6.2f} s, collect opens it in {opened:.2f}: {asked / opened:.2f} (goal: at most 1.2)")
    print(f"memory                        {most / 1e6:6.0f} MB, collect {held / 1e6:.0f}, of a ledger of {size / 1e6:.0f} MB")


def measure_texts(folder: pathlib.Path, program: str, ledger: pathlib.Path, rounds: int) -> None:
    """Texts over one query's table, by themselves and with the making of the table, beside SQLite."""
    words = [program, "fleet", "--ledger", str(ledger), "--host", "h1", "--text"]
    reading, _, _ = spent(folder, [*words, "SELECT COUNT(*) AS n FROM batches"], rounds)
    counting, _, _ = spent(folder, [*words, "SELECT COUNT(*) AS n FROM files"], rounds)
    made, (inserted, base) = counting - reading, table_of_rows(rounds)
    print(f"{OWN} frames of a host are read in {reading:.2f} s")
    print(f"{'the table of 100000 rows':28} {made * 1e3:7.1f} ms, SQLite {inserted * 1e3:7.1f}: {made / inserted:.2f}")
    for what, text in TEXTS:
        ours, most, told = spent(folder, [*words, text], rounds)
        theirs, rows = by_sqlite(text, base, rounds)
        if [json.loads(line) for line in told.splitlines()] != rows:
            sys.exit(f"other rows: {text}")
        alone, whole = max(ours - counting, 0), ours - reading
        print(f"{what:28} {alone * 1e3:7.1f} ms, SQLite {theirs * 1e3:7.1f}: {alone / theirs:.2f} (goal: at most 0.6); with the table "
              f"{whole / (inserted + theirs):.2f}; {most / 1e6:.0f} MB", flush=True)


def main() -> None:
    rounds = int(sys.argv[1]) if len(sys.argv) > 1 else 3
    program = sys.argv[2] if len(sys.argv) > 2 else str(TOP / "crates" / "osqd" / "out" / "osqd")
    if not pathlib.Path(program).exists():
        print(f"skipped: {program} isn't built")
        return
    with tempfile.TemporaryDirectory() as made:
        folder = pathlib.Path(made)
        many, one = write_ledgers(folder)
        measure_ledger(folder, program, many, rounds)
        measure_texts(folder, program, one, rounds)


if __name__ == "__main__":
    main()
