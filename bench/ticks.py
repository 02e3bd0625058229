#!/usr/bin/env python3
"""What a tick costs: beside how many scheduled queries, how many rows of recorded tables and how many live events; and what memory they hold.

Usage: bench/ticks.py [PROGRAM [OTHER]]: by the built program (default crates/osqd/out/osqd), and beside another build of it where one is given. Times
are those of the processor, of a whole session less one that differs by what is asked for alone; each pair is run five times in turn, and the middle
one of the differences is told.

- schedule: one tick of N queries `SELECT 1 AS one`, less a session of one such query; and the exponent from 100 to 10000 (goals 3 s and 1.1).
- tables: 1000 ticks more of one such query beside 300000 recorded rows, by tick (goal 1 ms).
- slices: 1000 ticks more of an evented query that has read all of the live events, by tick (goal 0.1 ms beside 1000000).
- cuts: 1000 ticks more of a snapshot query, whose cut holds all of 50000 live events and reads none of them, by tick, less the same beside no event.
  Beside it a copy of 50000 rows of ten values in Python, whose values are shared as a cut's are (goal 0.02 of it).
- readers: 1000 ticks more of 10000 evented queries that are due in the first tick alone and for which the old of 100000 events wait, by tick, less the
  same with snapshot queries, which hold nothing back (goal 5 ms).
- events: the peak of a session of 1000000 events of ten columns, less that of one of 500000, by event (goal 500 bytes).
- steady: the peak of sessions of 50000, 100000 and 150000 ticks, in each of which an event comes and one expires: bytes a tick between them. The
  keeper in memory holds the kept list, which gains four entries and an event a tick; what a tick takes is in step with it where both figures are one.
"""

import json
import math
import os
import pathlib
import statistics
import subprocess
import sys
import tempfile
import time

from whole_sessions import STEP_BYTES, TOP

RUNS = 5
MANY = 1000


def run(words: list[str]):
    begun = subprocess.Popen(words, stdout=subprocess.DEVNULL, stderr=subprocess.DEVNULL)
    _, status, used = os.wait4(begun.pid, 0)
    if os.waitstatus_to_exitcode(status):
        raise SystemExit(f"{words[0]} ended with {os.waitstatus_to_exitcode(status)}")
    return used


def spent(words: list[str]) -> float:
    used = run(words)
    return used.ru_utime + used.ru_stime


def peak(words: list[str]) -> int:
    return run(words).ru_maxrss * 1024


def apart(more: list[str], less: list[str]) -> float:
    return statistics.median(spent(more) - spent(less) for _ in range(RUNS))


def replay(program: str, config: pathlib.Path, ticks: int, *sources: str, records: int = 1000000) -> list[str]:
    start = ["--host", "h1", "--start", "1700000000", "--step", "60", "--ticks", str(ticks), "--records", str(records)]
    return [program, "replay", "--config", str(config), *start, *sources]


def configured(folder: pathlib.Path, name: str, queries: dict, expiry: int = 4000000000) -> pathlib.Path:
    path = folder / name
    path.write_text(json.dumps({"options": {"events_max": 1000000, "events_expiry": expiry}, "schedule": queries, "file_paths": {"etc": ["/etc/%%"]}}))
    return path


def changes(folder: pathlib.Path, events: int) -> pathlib.Path:
    path = folder / f"changes{events}"
    with path.open("w") as file:
        for at in range(events):
            file.write(f'{{"path":"/etc/file{at % 5000}","action":"UPDATED","time":1700000000}}\n')
    return path


def schedule(program: str, folder: pathlib.Path) -> None:
    one = {"query": "SELECT 1 AS one", "interval": 60, "snapshot": True}
    alone = configured(folder, "alone", {"q0": one})
    took = {}
    for count in (100, 1000, 10000):
        many = configured(folder, "many", {f"q{at:05}": one for at in range(count)})
        took[count] = apart(replay(program, many, 1), replay(program, alone, 1))
        print(f"  schedule of {count}: {took[count]:.3f} s")
    print(f"  exponent from 100 to 10000: {math.log(took[10000] / max(took[100], 1e-4)) / math.log(100):.2f}")


def tables(program: str, folder: pathlib.Path, rows: int) -> None:
    path = folder / "tables"
    users = [{"uid": str(at)} for at in range(rows)]
    with path.open("w") as file:
        file.write(json.dumps({"table": "users", "rows": users}) + "\n")
    config = configured(folder, "one", {"q0": {"query": "SELECT 1 AS one", "interval": 60, "snapshot": True}})
    sources = ("--tables", str(path))
    first = path.stat().st_size // STEP_BYTES + 3
    by_tick = apart(replay(program, config, first + MANY, *sources), replay(program, config, first, *sources)) / MANY
    print(f"  a tick beside {rows} recorded rows: {by_tick * 1e6:.0f} microseconds")


def slices(program: str, folder: pathlib.Path, events: int) -> None:
    path = changes(folder, events)
    config = configured(folder, "evented", {"q0": {"query": "SELECT target_path FROM file_events WHERE action = 'DELETED'", "interval": 60}})
    sources = ("--changes", str(path))
    first = path.stat().st_size // STEP_BYTES + 3
    by_tick = apart(replay(program, config, first + MANY, *sources), replay(program, config, first, *sources)) / MANY
    print(f"  a tick whose slice is empty beside {events} live events: {by_tick * 1e6:.0f} microseconds")


def cuts(program: str, folder: pathlib.Path, events: int) -> None:
    config = configured(folder, "snapshot", {"q0": {"query": "SELECT 1 AS one", "interval": 60, "snapshot": True}})
    sources = ("--changes", str(changes(folder, events)))
    beside = apart(replay(program, config, 3 + MANY, *sources), replay(program, config, 3, *sources)) / MANY
    alone = apart(replay(program, config, 3 + MANY), replay(program, config, 3)) / MANY
    rows = [[f"/etc/file{at % 5000}", "UPDATED", *[None] * 7, 1700000000] for at in range(events)]
    begun = time.process_time()
    for _ in range(20):
        copied = [row[:] for row in rows]
    copying = (time.process_time() - begun) / 20
    del copied
    print(f"  a cut of {events} live events: {(beside - alone) * 1e6:.0f} microseconds, {(beside - alone) / copying:.4f} of a copy")


def readers(program: str, folder: pathlib.Path, queries: int, events: int) -> None:
    sources = ("--changes", str(changes(folder, events)))
    took = []
    for kind in ({}, {"snapshot": True}):
        asked = {"query": "SELECT target_path FROM file_events WHERE action = 'DELETED'", "interval": 604800, **kind}
        config = configured(folder, "readers", {f"q{at:05}": asked for at in range(queries)})
        # a hundred events a tick, so that the first one's batches see few
        first = events // 100 + 3
        took.append(apart(replay(program, config, first + MANY, *sources, records=100), replay(program, config, first, *sources, records=100)) / MANY)
    print(f"  a tick of {queries} readers beside {events} live events: {(took[0] - took[1]) * 1e3:.2f} ms more than of as many snapshots")


def events(program: str, folder: pathlib.Path, count: int) -> None:
    config = configured(folder, "bare", {})
    many = peak(replay(program, config, 3 + count // 80000, "--changes", str(changes(folder, count))))
    few = peak(replay(program, config, 3 + count // 80000, "--changes", str(changes(folder, count // 2))))
    print(f"  a live event of ten columns: {(many - few) / (count - count // 2):.0f} bytes at the peak")


def steady(program: str, folder: pathlib.Path, ticks: int) -> None:
    config = configured(folder, "expiring", {"q0": {"query": "SELECT 1 AS one", "interval": 60, "snapshot": True}}, expiry=30)
    counts = [times * ticks for times in (1, 2, 3)]
    peaks = [peak(replay(program, config, count + 2, "--changes", str(changes(folder, count)), records=1)) for count in counts]
    print(f"  a tick with an event and an expiry: {(peaks[1] - peaks[0]) / ticks:.0f} bytes, then {(peaks[2] - peaks[1]) / ticks:.0f}")


def main() -> None:
    programs = sys.argv[1:] or [str(TOP / "crates" / "osqd" / "out" / "osqd")]
    for program in programs:
        if not pathlib.Path(program).exists():
            print(f"skipped: {program} isn't built")
            continue
        print(program if len(programs) > 1 else "osqd")
        with tempfile.TemporaryDirectory() as name:
            folder = pathlib.Path(name)
            # the peaks first, since a process begins with that of the script
            steady(program, folder, 50000)
            events(program, folder, 1000000)
            schedule(program, folder)
            tables(program, folder, 300000)
            slices(program, folder, 1000000)
            cuts(program, folder, 50000)
            readers(program, folder, 10000, 100000)


if __name__ == "__main__":
    main()
