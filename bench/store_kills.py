#!/usr/bin/env python3
"""Kills runs over one store by SIGKILL at random moments, and judges what each leaves.

Usage: bench/store_kills.py [KILLS [TICKS [PROGRAM [SEED]]]]: so many kills (default 200) of runs of at most so many ticks (default 150), by the built
program (default crates/osqd/out/osqd). Behind each kill

- SQLite's integrity check of a copy of the store's files says ok;
- `report`, but for its sessions, says what it says behind the first ticks of a run over a fresh store that nobody kills, and of no fewer ticks than
  behind the kill before;
- the store has the events, tables and batches with all their rows of that same store.

The next run goes on from there with the clock's next reading. A store that has come to its last tick is begun anew. The unbroken run of all ticks is
compared with one in memory by its result lines. Prints how many kills left how much; status 1 at the first that doesn't hold.
"""

import collections
import json
import pathlib
import random
import shutil
import sqlite3
import subprocess
import sys
import tempfile
import time

TOP = pathlib.Path(__file__).resolve().parent.parent
START, STEP, RECORDS = 1000, 60, 400
# A run lives at most so much of the time that all ticks take.
LONGEST = 0.25
CONFIG = {
    "options": {"events_expiry": 1800, "events_max": 20000},
    "schedule": {
        "all": {"query": "SELECT target_path, action, time FROM file_events", "interval": STEP},
        "counts": {"query": "SELECT action, COUNT(*) AS n FROM file_events GROUP BY action", "interval": 2 * STEP, "snapshot": True},
        "people": {"query": "SELECT username, uid FROM users", "interval": 5 * STEP},
    },
    "file_paths": {"etc": ["/etc/%%"]},
}
EMPTY = {"live": [], "taken": [], "tables": {}, "batches": [], "rows": {}}
Left = collections.namedtuple("Left", "report contents")


def parts(rows: list[tuple]) -> dict:
    """The rows of texts that belong together, one behind another."""
    joined = collections.defaultdict(list)
    for key, text in rows:
        joined[key] += json.loads(text)
    return dict(joined)


def contents(store: pathlib.Path, room: pathlib.Path) -> dict:
    """What a copy of the store has, which SQLite finds sound."""
    for end in ("", "-wal"):
        copy = room / f"copy{end}"
        copy.unlink(missing_ok=True)
        if (whole := pathlib.Path(f"{store}{end}")).exists():
            shutil.copy(whole, copy)
    if not (room / "copy").exists():
        return EMPTY
    db = sqlite3.connect(room / "copy")
    sound = db.execute("PRAGMA integrity_check").fetchall()
    if sound != [("ok",)]:
        raise AssertionError(f"the integrity check says {sound}")
    if not db.execute("SELECT 1 FROM sqlite_schema WHERE name = 'kept'").fetchone():
        return EMPTY
    floors = db.execute("SELECT floor0, floor1, floor2 FROM kept").fetchone()
    live = [
        (number, table, moment, row)
        for table, moment, numbers, rows in db.execute("SELECT tbl, moment, numbers, rows FROM live")
        for number, row in zip(json.loads(numbers), json.loads(rows), strict=True)
        if number > floors[table]
    ]
    rows = parts(db.execute("SELECT number, rows FROM batch_part ORDER BY place").fetchall())
    batches = db.execute("SELECT b.number, name, mode, lo, b.hi, b.moment FROM batch b JOIN run ON run = place").fetchall()
    return {
        "live": sorted(live),
        "taken": sorted(db.execute("SELECT source, taken FROM taken").fetchall()),
        "tables": parts(db.execute("SELECT tbl, rows FROM set_part ORDER BY place").fetchall()),
        "batches": sorted(batches),
        "rows": rows,
    }


class Bench:
    def __init__(self, room: pathlib.Path, program: pathlib.Path, ticks: int):
        self.room, self.program, self.ticks = room, program, ticks
        (room / "config").write_text(json.dumps(CONFIG))
        lines = subprocess.run([program, "generate", "--from", "7", "--count", str(ticks * RECORDS)], check=True, capture_output=True).stdout
        (room / "changes").write_bytes(lines)
        people = [{"username": f"user{at}", "uid": at} for at in range(50)]
        (room / "tables").write_text(json.dumps({"table": "users", "rows": people}) + "\n")

    def words(self, ticks: int, done: int) -> list:
        clock = ["--start", str(START + STEP * done), "--step", str(STEP), "--ticks", str(ticks), "--records", str(RECORDS)]
        return [self.program, "replay", "--config", "config", "--host", "h", "--changes", "changes", "--tables", "tables", *clock]

    def left(self, store: pathlib.Path) -> Left:
        """What the store has, and what is told of it without its sessions."""
        told = contents(store, self.room)
        report = subprocess.run([self.program, "report", "--store", store], capture_output=True, text=True)
        if report.returncode != 0:
            raise AssertionError(f"report ends with {report.returncode}: {report.stderr}")
        return Left([line for line in report.stdout.splitlines() if not line.startswith("sessions")], told)

    def unbroken(self, ticks: int) -> Left:
        """What a run of so many ticks leaves that nobody kills."""
        store = self.room / "unbroken.db"
        remove(store)
        if ticks > 0:
            run = subprocess.run([*self.words(ticks, 0), "--store", store], cwd=self.room, capture_output=True)
            if run.returncode not in (0, 11):
                raise AssertionError(f"an unbroken run ends with {run.returncode}: {run.stderr.decode()}")
        return self.left(store)

    def in_memory(self) -> collections.Counter:
        """How many rows the lines of each batch have, of a run in memory."""
        run = subprocess.run(self.words(self.ticks, 0), cwd=self.room, capture_output=True)
        found = collections.Counter()
        for line in run.stdout.splitlines():
            said = json.loads(line)
            found[said["batch"]] += len(said["snapshot"]) if said["action"] == "snapshot" else 1
        return +found

    def killed(self, store: pathlib.Path, done: int, seconds: float) -> bool:
        """Runs on over the store, and kills the run after so many seconds. False where it ended before."""
        run = subprocess.Popen([*self.words(self.ticks - done, done), "--store", store], cwd=self.room, stdout=subprocess.DEVNULL, stderr=subprocess.DEVNULL)
        time.sleep(seconds)
        run.kill()
        return run.wait() < 0


def remove(store: pathlib.Path) -> None:
    for end in ("", "-wal", "-shm"):
        pathlib.Path(f"{store}{end}").unlink(missing_ok=True)


def main() -> None:
    kills = int(sys.argv[1]) if len(sys.argv) > 1 else 200
    ticks = int(sys.argv[2]) if len(sys.argv) > 2 else 150
    program = pathlib.Path(sys.argv[3] if len(sys.argv) > 3 else TOP / "crates" / "osqd" / "out" / "osqd").resolve()
    seed = int(sys.argv[4]) if len(sys.argv) > 4 else 31
    if not program.exists():
        print(f"skipped: there is no {program}")
        return
    chance = random.Random(seed)
    with tempfile.TemporaryDirectory() as made:
        bench = Bench(pathlib.Path(made), program, ticks)
        wanted = [bench.unbroken(done) for done in range(ticks)]
        began = time.monotonic()
        wanted.append(bench.unbroken(ticks))
        longest = LONGEST * (time.monotonic() - began)
        in_memory, sealed = bench.in_memory(), wanted[ticks].contents["rows"]
        if in_memory != collections.Counter({number: len(rows) for number, rows in sealed.items()}):
            sys.exit("the batches of the unbroken run aren't those of the run in memory")
        store, done, count, moved, rounds = bench.room / "store.db", 0, 0, 0, 1
        while count < kills:
            if done == ticks:
                remove(store)
                done, rounds = 0, rounds + 1
            count += bench.killed(store, done, chance.uniform(0, longest))
            left = bench.left(store)
            now = next((at for at in range(done, ticks + 1) if wanted[at].report == left.report), None)
            if now is None or left.contents != wanted[now].contents:
                sys.exit(f"kill {count} behind {done} ticks leaves what no run does: {left.report}")
            moved += now > done
            done = now
    print(f"{count} kills over {rounds} stores of {ticks} ticks, {moved} of them behind new ticks: each left the first ticks of the unbroken run")


if __name__ == "__main__":
    main()
