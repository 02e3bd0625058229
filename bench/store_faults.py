#!/usr/bin/env python3
"""Runs over stores that can't be opened, read or written or that another hand has changed, and over one store twice at once.

Usage: bench/store_faults.py [PROGRAM], by the built program (default crates/osqd/out/osqd). It asks for the right to mount and to be another user. For each
case it prints what it is and what came of it; status 1 where something else comes than stands here.
"""

import os
import pathlib
import sqlite3
import subprocess
import sys
import tempfile

TOP = pathlib.Path(__file__).resolve().parent.parent
CONFIG = '{"schedule":{"all":{"query":"SELECT target_path FROM file_events","interval":60}},"file_paths":{"etc":["/etc/%%"]}}'
KEEPER_FAULT = 4
KEEPER_REFUSED = 5
NOBODY = 65534


class Bench:
    def __init__(self, room: pathlib.Path, program: pathlib.Path):
        self.room, self.program = room, program
        (room / "config").write_text(CONFIG)
        lines = subprocess.run([program, "generate", "--from", "7", "--count", "100000"], check=True, capture_output=True).stdout
        (room / "changes").write_bytes(lines)

    def words(self, store: pathlib.Path, start: int, ticks: int) -> list:
        clock = ["--start", str(start), "--ticks", str(ticks), "--records", "100"]
        return [self.program, "replay", "--config", "config", "--host", "h", "--changes", "changes", "--store", store, *clock]

    def replay(self, store: pathlib.Path, start: int = 1000, ticks: int = 10, user: int | None = None) -> int:
        return subprocess.run(self.words(store, start, ticks), cwd=self.room, capture_output=True, user=user).returncode

    def report(self, store: pathlib.Path, user: int | None = None) -> tuple[int, str]:
        run = subprocess.run([self.program, "report", "--store", store], cwd=self.room, capture_output=True, text=True, user=user)
        return run.returncode, run.stdout

    def refused(self, what: str, store: pathlib.Path, user: int | None = None, status: int = KEEPER_FAULT) -> None:
        """Both commands end with this status, and the file is as before."""
        before = store.read_bytes() if store.is_file() else None
        statuses = (self.replay(store, user=user), self.report(store, user)[0])
        after = store.read_bytes() if store.is_file() else None
        tell(what, statuses == (status, status) and after == before, f"replay and report end with {statuses}")


def tell(what: str, holds: bool, how: str) -> None:
    print(f"{what}: {how}", flush=True)
    if not holds:
        sys.exit(1)


def numbers(report: str) -> dict:
    return {line.rsplit(" ", 1)[0]: int(line.rsplit(" ", 1)[1]) for line in report.splitlines() if not line.startswith("query")}


def unopened(bench: Bench) -> None:
    room = bench.room
    bench.refused("a folder", room)
    bench.refused("a path below no folder", room / "none" / "store.db")
    (room / "text").write_text("no database\n" * 1000)
    bench.refused("a file that is no database", room / "text")
    whole = room / "whole.db"
    bench.replay(whole)
    with sqlite3.connect(whole) as db:
        db.execute("PRAGMA wal_checkpoint(TRUNCATE)")
    db.close()
    cut = room / "cut.db"
    cut.write_bytes(whole.read_bytes()[:5000])
    bench.refused("the front of a database", cut)
    foreign = room / "foreign.db"
    with sqlite3.connect(foreign) as db:
        db.execute("CREATE TABLE notes (text)")
    db.close()
    bench.refused("a database of another program", foreign)
    with sqlite3.connect(whole) as db:
        db.execute("UPDATE kept SET layout = 3")
    db.close()
    bench.refused("a store of another layout", whole)


def changed(bench: Bench) -> None:
    """A store that another hand has changed: what can't be read is a fault, and what no session may go on from is refused."""
    for what, statement, status in (
        ("its one row is gone", "DELETE FROM kept", KEEPER_FAULT),
        ("a list that is cut off", "UPDATE live SET rows = substr(rows, 2)", KEEPER_FAULT),
        ("an event above the last number", "UPDATE kept SET last = 1", KEEPER_REFUSED),
        ("fewer batches than a query's last", "UPDATE kept SET batches = 0", KEEPER_REFUSED),
    ):
        store = bench.room / "changed.db"
        for end in ("", "-wal"):
            pathlib.Path(f"{store}{end}").unlink(missing_ok=True)
        bench.replay(store)
        with sqlite3.connect(store) as db:
            db.execute(statement)
        db.close()
        bench.refused(f"changed by another hand: {what}", store, status=status)


def without_rights(bench: Bench) -> None:
    os.chmod(bench.room, 0o755)
    store = bench.room / "rights.db"
    bench.replay(store)
    told = bench.report(store)
    for name, rights in (("none", 0), ("to read it alone", 0o444)):
        os.chmod(store, rights)
        bench.refused(f"a file with rights: {name}", store, user=NOBODY)
    tell("the same file with its owner's rights", bench.report(store) == told, "report says what it said before")


def full_disk(bench: Bench) -> None:
    """On a disk that gets full a run ends with KeeperFault, and the store has the ticks whose seals came before."""
    disk = bench.room / "disk"
    disk.mkdir()
    for size in (64, 300, 1000, 3000):
        subprocess.run(["mount", "-t", "tmpfs", "-o", f"size={size}k", "none", disk], check=True)
        try:
            store = disk / "store.db"
            status = bench.replay(store, ticks=1000)
            told = bench.report(store)
            again = bench.replay(store, start=100000)
            found = numbers(told[1]) if told[0] == 0 else {}
            is_whole = not found or found["events"] == found["batches"] * 100
            later = bench.report(store)
            tell(f"a disk of {size} kB", status == KEEPER_FAULT and is_whole and told[0] in (0, KEEPER_FAULT), f"replay ends with {status}, report with {told[0]}, {found.get('events', 0)} events; another replay with {again}, report with {later[0]}")
            if found:
                copy = bench.room / f"from-{size}.db"
                for end in ("", "-wal"):
                    if (file := pathlib.Path(f"{store}{end}")).exists():
                        pathlib.Path(f"{copy}{end}").write_bytes(file.read_bytes())
                status = bench.replay(copy, start=200000, ticks=1000)
                tell("  a copy of it on another disk", status in (0, 11) and numbers(bench.report(copy)[1])["events"] == 100000, f"replay ends with {status}, all events are there")
        finally:
            subprocess.run(["umount", disk], check=True)


def two_runs(bench: Bench) -> None:
    store, alone = bench.room / "two.db", bench.room / "alone.db"
    bench.replay(alone, ticks=1000)
    first = subprocess.Popen(bench.words(store, 1000, 1000), cwd=bench.room, stdout=subprocess.PIPE, stderr=subprocess.DEVNULL)
    first.stdout.read(1)
    statuses = [bench.replay(store, start=5000) for _ in range(5)] + [bench.report(store)[0]]
    is_running = first.poll() is None
    first.stdout.read()
    status = first.wait()
    same = bench.report(store) == bench.report(alone)
    tell("two runs at once", is_running and same and set(statuses) == {KEEPER_FAULT} and status in (0, 11), f"the second ends with {sorted(set(statuses))}, the first with {status}, and the store says what it says behind the first alone")


def main() -> None:
    program = pathlib.Path(sys.argv[1] if len(sys.argv) > 1 else TOP / "crates" / "osqd" / "out" / "osqd").resolve()
    if not program.exists():
        print(f"skipped: there is no {program}")
        return
    with tempfile.TemporaryDirectory() as made:
        bench = Bench(pathlib.Path(made), program)
        unopened(bench)
        changed(bench)
        without_rights(bench)
        two_runs(bench)
        full_disk(bench)


if __name__ == "__main__":
    main()
