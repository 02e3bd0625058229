#!/usr/bin/env python3
"""Lets each call of the C library fail once, in runs of each command over small files, and judges what each run leaves.

Usage: bench/failures.py [--every N] [--only CASE] [PROGRAM], by the built program (default crates/osqd/out/osqd); with N only each Nth want of memory.
It builds bench/failing_calls.c with `cc`. Kinds are want of memory (malloc, realloc), open, read, write, sync, size (ftruncate), stat and lock, and reads
and writes of one byte; and of `daemon` threads that can't be started. A case is a command over a state of files; its unbroken run says what is to come. For each case and kind it prints how many calls
there are and which statuses came how often; for each run of which something doesn't hold, what. Status 1 where there is one.

What holds of each run: it ends by itself with a status of docs/COMMANDS.md, at want of memory that of the unbroken run or 20, at a short read or write
that of the unbroken run, and at one of a store's files maybe 4; at the status of the unbroken run it writes what that one wrote, at every other a front part of it; a status other than that of
the unbroken run stands in the last lines of standard error, where they could be written. Of a store: it has what the unbroken run's first ticks left in
it, as `report` says, the results have the lines of all these ticks but the last one's, at least, and no others; and another run takes the rest. Of
a ledger: it is a front part of that of the unbroken run, each answer stands behind its line, and the same stream given again leaves that run's ledger.
Of `daemon`, whose order is another one in each run: no row is told twice by it and by a later session that reads all, nor one that `replay` doesn't tell;
none is missing but where the run ended with 4 or 8, of which isn't judged which lines may be; and that session leaves as many events.
"""

import argparse
import collections
import dataclasses
import json
import os
import pathlib
import shutil
import subprocess
import sys
import tempfile

TOP = pathlib.Path(__file__).resolve().parent.parent
KINDS = ("alloc", "open", "read", "write", "sync", "size", "stat", "lock", "thread", "short_read", "short_write")
NO_SPACE, NO_MEMORY = 28, 12
OUT_OF_MEMORY, KEEPER_FAULT = 20, 4
SINK_FAULT = 8
FAULTS = {3, KEEPER_FAULT, 7, SINK_FAULT}
HOST = ["--config", "host.conf", "--host", "web1"]
SOURCES = ["--audit", "audit.log", "--changes", "changes.jsonl", "--tables", "tables.jsonl"]
TICKS = 4
REPLAY = ["replay", *HOST, *SOURCES, "--records", "1"]
DAEMON = ["daemon", *HOST, *SOURCES, "--records", "1", "--workers", "2"]
STORE = ["--store", "store"]


def clock(start: int, ticks: int) -> list:
    return ["--start", str(1700000060 + 600 * start), "--ticks", str(ticks)]


@dataclasses.dataclass
class Ran:
    status: int
    out: bytes
    err: str


class Bench:
    def __init__(self, room: pathlib.Path, program: pathlib.Path):
        self.room, self.program, self.shim = room / "files", program, room / "failing_calls.so"
        shutil.copytree(TOP / "examples", self.room)
        subprocess.run(["cc", "-shared", "-fPIC", "-O2", "-o", self.shim, TOP / "bench" / "failing_calls.c", "-ldl"], check=True)

    def run(self, words: list, **fails) -> Ran:
        given = {**os.environ, **({"LD_PRELOAD": str(self.shim)} if fails else {}), **{f"FAIL_{it.upper()}": str(value) for it, value in fails.items()}}
        ran = subprocess.run([self.program, *words], cwd=self.room, env=given, capture_output=True, timeout=60)
        return Ran(ran.returncode, ran.stdout, ran.stderr.decode())

    def counts(self, words: list) -> dict:
        told = self.room / "counts"
        self.run(words, counts=told)
        found = dict(line.split() for line in told.read_text().splitlines())
        told.unlink()
        return {kind: int(found[kind]) for kind in KINDS}

    def kept(self) -> dict:
        """The files that a run may change."""
        return {it.name: it.read_bytes() for it in self.room.iterdir() if it.name.startswith(("store", "ledger"))}

    def keep(self, files: dict) -> None:
        for name in self.kept():
            (self.room / name).unlink()
        for name, held in files.items():
            (self.room / name).write_bytes(held)

    def report(self) -> Ran:
        return self.run(["report", *STORE])


class Case:
    """A command over some files: what it has for each further tick, or for the whole, and how a run that was broken is judged."""

    def __init__(self, bench: Bench, name: str, words: list, before: list = ()):
        self.bench, self.name, self.words = bench, name, words
        bench.keep({})
        for earlier in before:
            bench.run(earlier)
        self.start = bench.kept()
        self.whole = bench.run(words)
        self.after = bench.kept()

    def judge(self, ran: Ran) -> str:
        return ""


class StoreCase(Case):
    """Sessions over a store; `ticks` are the words for so many ticks."""

    def __init__(self, bench: Bench, name: str, ticks, before: list = ()):
        super().__init__(bench, name, ticks(TICKS), before)
        self.steps = []
        for count in range(TICKS + 1):
            bench.keep(self.start)
            ran = bench.run(ticks(count)) if count else Ran(0, b"", "")
            self.steps.append((ran.out, bench.report().out))
        self.events = self.rest()

    def rest(self) -> str:
        """The events that a store has behind a later session that reads all."""
        ended = self.bench.run([*REPLAY, *STORE, *clock(50, 20)])
        return next((word for line in ended.err.splitlines() for word in line.split() if word.startswith("events=")), f"none: {ended}")

    def judge(self, ran: Ran) -> str:
        told = self.bench.report()
        if told.status not in (0, KEEPER_FAULT):
            return f"report ends with {told.status}"
        fitting = [count for count, (_, report) in enumerate(self.steps) if told.out == report]
        if not any(self.steps[count][0].startswith(ran.out) and ran.out.startswith(self.steps[max(count - 1, 0)][0]) for count in fitting):
            return f"the store has {fitting} ticks, and the results fit none of them"
        events = self.rest()
        return "" if events == self.events else f"a later run leaves {events}, and not {self.events}"


def told_rows(lines: bytes) -> collections.Counter:
    """The rows of evented queries, each with its query, whatever batch they stand in."""
    read = [json.loads(line) for line in lines.splitlines()]
    return collections.Counter(json.dumps([it["name"], it["columns"]], sort_keys=True) for it in read if it["action"] == "added")


class DaemonCase(Case):
    """Sessions by threads over a store."""

    def __init__(self, bench: Bench, name: str, words: list):
        super().__init__(bench, name, words)
        bench.keep({})
        self.wanted = told_rows(bench.run([*REPLAY, *STORE, *clock(0, TICKS)]).out + self.later().out)
        self.events = self.told(self.later())

    def later(self) -> Ran:
        """A session of more than an hour, in which all queries that discovery finds are due."""
        return self.bench.run([*REPLAY, *STORE, *clock(50, 80)])

    def told(self, ran: Ran) -> str:
        return next((word for line in ran.err.splitlines() for word in line.split() if word.startswith("events=")), f"none: {ran}")

    def judge(self, ran: Ran) -> str:
        later = self.later()
        both = told_rows(ran.out[: ran.out.rfind(b"\n") + 1] + later.out)
        if both - self.wanted:
            return f"told twice, or out of nothing: {both - self.wanted}"
        if self.wanted - both and ran.status not in (SINK_FAULT, KEEPER_FAULT):
            return f"not told: {self.wanted - both}"
        return "" if self.told(later) == self.events else f"a later run leaves {self.told(later)}, and not {self.events}"


class LedgerCase(Case):
    def judge(self, ran: Ran) -> str:
        ledger, whole = (self.bench.room / "ledger").read_bytes() if "ledger" in self.bench.kept() else b"", self.after["ledger"]
        if not whole.startswith(ledger):
            return "the ledger is no front part of the unbroken run's"
        recorded = ran.out.count(b'"answer":"recorded"')
        if ledger.count(b"\n") < self.start.get("ledger", b"").count(b"\n") + recorded:
            return f"{recorded} lines are answered as recorded, and the ledger lacks some"
        self.bench.run(self.words)
        again, want = (self.bench.room / "ledger").read_bytes(), {*whole.splitlines()}
        return "" if want <= {*again.splitlines()} else "the same stream given again leaves another ledger"


def cases(bench: Bench):
    yield Case(bench, "check", ["check", *HOST])
    yield Case(bench, "generate", ["generate", "--from", "7", "--count", "20"])
    yield Case(bench, "selftest", ["selftest", "--from", "7", "--count", "20"])
    yield Case(bench, "explain", ["query", "--explain", "--text", "SELECT username FROM users JOIN user_groups USING (uid)"])
    yield Case(bench, "query", ["query", "--text", "SELECT username, groupname FROM users JOIN groups USING (gid)", *SOURCES, *clock(0, 9)])
    yield Case(bench, "replay", [*REPLAY, *clock(0, TICKS)])
    yield StoreCase(bench, "replay, a new store", lambda ticks: [*REPLAY, *STORE, *clock(0, ticks)])
    yield StoreCase(bench, "replay, an old store", lambda ticks: [*REPLAY, *STORE, *clock(10, ticks)], [[*REPLAY, *STORE, *clock(0, 2)]])
    yield DaemonCase(bench, "daemon, a new store", [*DAEMON, *STORE, *clock(0, TICKS)])
    filled = [[*REPLAY, *STORE, *clock(0, 20)]]
    yield Case(bench, "report", ["report", *STORE], filled)
    yield Case(bench, "query of a store", ["query", "--text", "SELECT target_path FROM file_events", *STORE, *clock(50, 9)], filled)
    collect = ["collect", "--frames", "frames.jsonl", "--ledger", "ledger"]
    yield LedgerCase(bench, "collect, no ledger", collect)
    yield LedgerCase(bench, "collect, a ledger", collect, [collect])


def wrong(case: Case, kind: str, ran: Ran) -> str:
    """What doesn't hold of this run, where a call of this kind failed."""
    own = case.whole.status
    shortened = {own, KEEPER_FAULT} if kind == "short_read" and "--store" in case.words else {own}
    allowed = shortened if kind.startswith("short") else {own, OUT_OF_MEMORY} if kind == "alloc" else {own, *FAULTS}
    if ran.status not in allowed:
        return f"status {ran.status}: {ran.err[-300:]}"
    is_front = case.whole.out.startswith(ran.out) and (ran.status != own or ran.out == case.whole.out)
    if not is_front and not isinstance(case, DaemonCase):
        return f"status {ran.status}, and other results"
    if ran.status != own and kind != "write" and f"osqd: status {ran.status} " not in ran.err:
        return f"status {ran.status}, and standard error doesn't say so: {ran.err[-300:]}"
    if case.start != case.after or isinstance(case, (StoreCase, DaemonCase, LedgerCase)):
        return case.judge(ran)
    return "" if {it: case.bench.kept().get(it) for it in case.start} == case.start else "its files have changed"


def tried(case: Case, kind: str, count: int, every: int) -> int:
    statuses, faults = collections.Counter(), 0
    for at in range(1, count + 1, every if kind == "alloc" else 1):
        case.bench.keep(case.start)
        number = NO_MEMORY if kind == "alloc" else NO_SPACE if kind in ("write", "size") else 5
        ran = case.bench.run(case.words, kind=kind, at=at, errno=number)
        statuses[ran.status] += 1
        what = wrong(case, kind, ran)
        if what:
            faults += 1
            print(f"  {case.name}, {kind} {at}: {what}", flush=True)
    shown = ", ".join(f"{status}: {times}" for status, times in sorted(statuses.items()))
    print(f"{case.name}, {kind}: {count} calls; {shown}", flush=True)
    return faults


def main() -> int:
    words = argparse.ArgumentParser(description=__doc__, formatter_class=argparse.RawDescriptionHelpFormatter)
    words.add_argument("program", nargs="?", default=TOP / "crates" / "osqd" / "out" / "osqd", type=pathlib.Path)
    words.add_argument("--every", type=int, default=1)
    words.add_argument("--only", default="")
    given = words.parse_args()
    if not given.program.exists():
        print(f"skipped: there is no {given.program}")
        return 0
    with tempfile.TemporaryDirectory() as made:
        bench, faults = Bench(pathlib.Path(made), given.program.resolve()), 0
        for case in cases(bench):
            if given.only not in case.name:
                continue
            bench.keep(case.start)
            for kind, count in bench.counts(case.words).items():
                if count:
                    faults += tried(case, kind, count, given.every)
    return 1 if faults else 0


if __name__ == "__main__":
    sys.exit(main())
