#!/usr/bin/env python3
"""`osqd daemon` beside `osqd replay`, in one run.

Usage: bench/daemon.py [CHANGES [GROUPS [PROGRAM]]]: a file of so many change lines (default 200000) and an audit log of so many groups (default 20000),
by the built program (default crates/osqd/out/osqd). Each pair is run five times in turn, and the middle times are told, processor and wall:

- one worker: a whole session of both files with ten scheduled queries (those of whole_sessions.py), by `replay` and by `daemon --workers 1`: the ratio of
  processor times (goal 1.2);
- heavy queries: one tick in which eight queries are due, each a product of a table of 900 rows with itself that no equality narrows, by `replay` and by
  `daemon` with 1, 2 and 4 workers: the ratio of wall times with four workers (goal 0.45, on four processors that do nothing else);
- publishers: the same change lines in one file and in four, one query, by `daemon --workers 1`: events a second of wall time (goal: by four at least as
  many as by one).

A session's results are thrown away; its last status line must tell of as many events by both.
"""

import json
import os
import pathlib
import statistics
import subprocess
import sys
import tempfile
import time

from whole_sessions import STEP_BYTES, TOP, configuration, write_changes, write_groups

ROUNDS = 5
HEAVY = "SELECT COUNT(*) AS n FROM processes p, processes q WHERE p.pid + q.pid > {}"


def timed(words: list[str]) -> tuple[float, float, str]:
    """Processor time, wall time, and the last line of the status stream."""
    with tempfile.TemporaryFile() as errors:
        start = time.monotonic()
        begun = subprocess.Popen(words, stdout=subprocess.DEVNULL, stderr=errors)
        _, status, used = os.wait4(begun.pid, 0)
        wall = time.monotonic() - start
        errors.seek(0)
        last = errors.read().decode().splitlines()[-1:]
        if os.waitstatus_to_exitcode(status) not in (0, 11):
            raise SystemExit(f"{' '.join(words)}: {last}")
        return used.ru_utime + used.ru_stime, wall, last[0] if last else ""


def in_turn(runs: dict[str, list[str]]) -> dict[str, tuple[float, float, str]]:
    """Runs each of these words in turn, some times over, and gives the middle times of each."""
    found = {name: [] for name in runs}
    for _ in range(ROUNDS):
        for name, words in runs.items():
            found[name].append(timed(words))
    return {name: (statistics.median(t[0] for t in times), statistics.median(t[1] for t in times), times[0][2]) for name, times in found.items()}


def events_of(line: str) -> str:
    return next((word for word in line.split() if word.startswith("events=")), "")


def one_worker(program: str, folder: pathlib.Path, changes: int, groups: int) -> None:
    write_changes(folder / "changes", changes)
    write_groups(folder / "audit", folder / "processes", groups)
    (folder / "config").write_text(configuration())
    ticks = max((folder / "changes").stat().st_size, (folder / "audit").stat().st_size) // STEP_BYTES + 3
    tail = ["--config", str(folder / "config"), "--host", "h1", "--start", "1700000000", "--step", "60", "--ticks", str(ticks)]
    tail += ["--records", "1000000", "--changes", str(folder / "changes"), "--audit", str(folder / "audit")]
    times = in_turn({"replay": [program, "replay", *tail], "daemon": [program, "daemon", *tail, "--workers", "1"]})
    (one, one_wall, told), (other, other_wall, also) = times["replay"], times["daemon"]
    print(f"one worker: replay {one:.2f} s of processor, {one_wall:.2f} s; daemon {other:.2f} s, {other_wall:.2f} s; {other / one:.2f} of its processor time (goal 1.2)")
    if events_of(told) != events_of(also):
        print(f"  NOT the same events: {told} | {also}")


def heavy_queries(program: str, folder: pathlib.Path) -> None:
    schedule = {f"heavy{at}": {"query": HEAVY.format(at), "interval": 60, "snapshot": True} for at in range(8)}
    (folder / "heavy").write_text(json.dumps({"schedule": schedule}))
    rows = [{"pid": at, "name": f"tool{at}"} for at in range(900)]
    (folder / "tables").write_text(json.dumps({"table": "processes", "rows": rows}) + "\n")
    tail = ["--config", str(folder / "heavy"), "--host", "h1", "--start", "1700000000", "--ticks", "1", "--tables", str(folder / "tables")]
    runs = {"replay": [program, "replay", *tail]}
    runs |= {f"daemon {count}": [program, "daemon", *tail, "--workers", str(count)] for count in (1, 2, 4)}
    times = in_turn(runs)
    wall = times["replay"][1]
    print("heavy queries: " + "; ".join(f"{name} {it[1]:.2f} s ({it[1] / wall:.2f})" for name, it in times.items()) + " of wall time (goal with 4 workers 0.45)")


def publishers(program: str, folder: pathlib.Path, changes: int) -> None:
    (folder / "count").write_text(json.dumps({"schedule": {"n": {"query": "SELECT COUNT(*) AS n FROM file_events", "interval": 60}}, "file_paths": {"etc": ["/etc/%%"]}}))
    write_changes(folder / "whole", changes)
    lines = (folder / "whole").read_text().splitlines(keepends=True)
    parts = [folder / f"part{at}" for at in range(4)]
    for at, part in enumerate(parts):
        part.write_text("".join(lines[at * len(lines) // 4 : (at + 1) * len(lines) // 4]))
    ticks = (folder / "whole").stat().st_size // STEP_BYTES + 3
    head = [program, "daemon", "--config", str(folder / "count"), "--host", "h1", "--start", "1700000000", "--ticks", str(ticks), "--records", "1000000", "--workers", "1"]
    by_four = [word for part in parts for word in ("--changes", str(part))]
    times = in_turn({"one": [*head, "--changes", str(folder / "whole")], "four": [*head, *by_four]})
    one, four = (changes / times[name][1] for name in ("one", "four"))
    print(f"publishers: {one:.0f} events a second by one, {four:.0f} by four (goal: at least as many)")


def main() -> None:
    changes = int(sys.argv[1]) if len(sys.argv) > 1 else 200_000
    groups = int(sys.argv[2]) if len(sys.argv) > 2 else 20_000
    program = sys.argv[3] if len(sys.argv) > 3 else str(TOP / "crates" / "osqd" / "out" / "osqd")
    if not pathlib.Path(program).exists():
        print(f"skipped: {program} isn't built")
        return
    with tempfile.TemporaryDirectory() as name:
        folder = pathlib.Path(name)
        one_worker(program, folder, changes, groups)
        heavy_queries(program, folder)
        publishers(program, folder, changes)


if __name__ == "__main__":
    main()
