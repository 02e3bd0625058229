#!/usr/bin/env python3
"""The longest turns of `daemon` beside the whole of its run, and whether they grow with rows, events or queries, in one run.

Usage: bench/turn_times.py --write FOLDER, and then bench/turn_times.py --program FILE. The program is `osqd` with a gate that notes the time at its points: from the point before a
commit to the point behind the next cut of the same worker lie a turn of `commit` and one of `claim_cut` (or of `release` and `claim_cut`), and nothing
else but the wait for them; from the point before an append to the one behind it lies a turn of `append`. It is no part of the proved program: --write writes
a checkout with it into a folder that isn't there yet, beside copies of all crates, and --program takes the program that was built from its crate `osqd`.
One worker and at most one source with readings, so that no turn waits for another: what is told are the turns themselves. Each session is run five times,
and the least of the longest turns is told, since other work on the machine makes a turn longer at will.
"""

import json
import pathlib
import shutil
import subprocess
import sys
import tempfile

from whole_sessions import TOP, write_changes

ROUNDS = 5

GATE = """\
/// A gate that notes how long the turns between its points took, in nanoseconds.
#[derive(Drop)]
struct Timed<'a, R> {
    rt: &'a R,
    /// When each worker stood before a commit, and each publisher before an append; 0 where it didn't.
    since: [AtomicU64; 32],
    longest_answer: AtomicU64,
    all_answers: AtomicU64,
    answers: AtomicU64,
    longest_append: AtomicU64,
}

impl<'a, R: Times> Timed<'a, R> {
    fn new(rt: &'a R) -> Timed<'a, R> {
        Timed {
            rt,
            since: [@ZEROS@],
            longest_answer: AtomicU64::new(0),
            all_answers: AtomicU64::new(0),
            answers: AtomicU64::new(0),
            longest_append: AtomicU64::new(0),
        }
    }

    fn now(&self) -> u64 {
        match self.rt.monotonic() {
            Ok(time) => (time.as_nanos() % 18_446_744_073_709_551_616) as u64,
            Err(_) => 0,
        }
    }

    /// The nanoseconds since this thread's last note.
    fn span(&self, who: u32, now: u64) -> u64 {
        match self.since.get(who as usize) {
            Some(since) => {
                let before = since.load(Ordering::SeqCst);
                if before == 0 { 0 } else { now.saturating_sub(before) }
            }
            None => 0,
        }
    }

    fn note(&self, who: u32, now: u64) {
        if let Some(since) = self.since.get(who as usize) {
            since.store(now, Ordering::SeqCst);
        }
    }
}

/// Writes a line with a number.
fn tell(alloc: Global, status: &mut FileSink<Output>, number: u64) {
    if let Ok(text) = number.to_string(alloc) {
        let _written = write_all(status, b"turns ");
        let _written = write_all(status, text.as_bytes());
        let _written = write_all(status, b"\\n");
    }
}

impl<R: Times + Sync> Gate for Timed<'_, R> {
    fn at(&self, who: u32, point: Point) {
        let now = self.now();
        match point {
            Point::AfterCut => {
                let span = self.span(who, now);
                let _before = self.longest_answer.fetch_max(span, Ordering::SeqCst);
                let _before = self.all_answers.fetch_add(span, Ordering::SeqCst);
                let _before = self.answers.fetch_add(1, Ordering::SeqCst);
            }
            Point::AfterAppend => {
                let _before = self.longest_append.fetch_max(self.span(who, now), Ordering::SeqCst);
            }
            Point::BeforeCommit => self.note(who, self.now()),
            Point::BeforeAppend => self.note(who, self.now()),
        }
    }
}
"""

TOLD = """\
        let gate = Timed::new(rt);
        let start = gate.now();
        let status = run_daemon(rt, alloc, words, &mut outside, &gate);
        let whole = gate.now().saturating_sub(start);
        let longest = gate.longest_answer.load(Ordering::SeqCst);
        let all = gate.all_answers.load(Ordering::SeqCst);
        let answers = gate.answers.load(Ordering::SeqCst);
        let append = gate.longest_append.load(Ordering::SeqCst);
        for number in [answers, longest, all, append, whole] {
            tell(alloc, &mut outside.status, number);
        }
        status
"""


def write_checkout(folder: pathlib.Path) -> None:
    """Writes the checkout of the program."""
    shutil.copytree(TOP / "crates", folder / "crates", ignore=shutil.ignore_patterns("out", "must-fail", "wrong-bodies"))
    for name in ("crates.txt", "HANDLES"):
        shutil.copy(TOP / name, folder / name)
    main = folder / "crates" / "osqd" / "src" / "main.rt"
    text = main.read_text()
    changes = [
        ("    Clock, FailList, FileSink, FileSource, Files, HostClock, HostFiles, OpenGate, StepClock,\n", "    Clock, FailList, FileSink, FileSource, Files, Gate, HostClock, HostFiles, Point, StepClock,\n"),
        ("use std::sync::Wait;\n", "use std::sync::Wait;\nuse std::sync::atomic::{AtomicU64, Ordering};\n"),
        ("use std::thread::Threads;\n", "use std::thread::Threads;\nuse std::time::Clock as Times;\n"),
        ("/// The command of the words, by this clock and over this keeper.", GATE.replace("@ZEROS@", ", ".join(["AtomicU64::new(0)"] * 32)) + "\n/// The command of the words, by this clock and over this keeper."),
        ("fn run<R: Threads + Wait + Sync, F:", "fn run<R: Threads + Wait + Sync + Times, F:"),
        ("        run_daemon(rt, alloc, words, &mut outside, &OpenGate)\n", TOLD),
    ]
    for old, new in changes:
        if text.count(old) != 1:
            sys.exit(f"main.rt has changed: {old!r}")
        text = text.replace(old, new)
    main.write_text(text)


def turns(program: str, words: list[str]) -> tuple[int, int, int, int, int]:
    """Of the session: how many cuts, the longest commit and cut, all of them together, the longest append, and the whole run; in nanoseconds."""
    found = []
    for _ in range(ROUNDS):
        run = subprocess.run([program, *words], capture_output=True, text=True)
        numbers = [int(line.split()[1]) for line in run.stderr.splitlines() if line.startswith("turns ")]
        if len(numbers) != 5:
            sys.exit(run.stderr[-400:])
        found.append(tuple(numbers))
    return min(found, key=lambda it: it[1])


def configuration(folder: pathlib.Path, name: str, queries: list[str]) -> str:
    schedule = {f"q{at:05}": {"query": query, "interval": 60, "snapshot": "file_events" not in query} for at, query in enumerate(queries)}
    path = folder / name
    path.write_text(json.dumps({"schedule": schedule, "options": {"events_max": 1000000}, "file_paths": {"etc": ["/etc/%%"]}}))
    return str(path)


def tables(folder: pathlib.Path, name: str, count: int) -> str:
    rows = [{"pid": at, "name": f"tool{at}"} for at in range(count)]
    path = folder / name
    path.write_text(json.dumps({"table": "processes", "rows": rows}) + "\n")
    return str(path)


def tell(what: str, found: tuple[int, int, int, int, int]) -> None:
    answers, longest, together, append, whole = found
    print(f"{what}: {answers} cuts; the longest commit with the cut behind it {longest / 1000:.1f} us, {longest / whole:.6f} of the run; "
          f"the mean {together / max(answers - 1, 1) / 1000:.2f} us; the longest append {append / 1000:.1f} us; the run {whole / 1e9:.3f} s")


def measure(program: str, folder: pathlib.Path) -> None:
    tail = ["--host", "h1", "--start", "1700000000", "--ticks", "1", "--workers", "1", "--records", "1000000"]
    heavy = ["SELECT COUNT(*) AS n FROM processes p, processes q WHERE p.pid + q.pid > %d" % at for at in range(8)]
    words = ["daemon", "--config", configuration(folder, "heavy", heavy), "--tables", tables(folder, "rows900", 900), *tail]
    tell("eight heavy queries", turns(program, words))
    for count in (1000, 10000, 100000):
        texts = [f"SELECT name FROM processes WHERE pid = {at}" for at in range(8)]
        words = ["daemon", "--config", configuration(folder, "rows", texts), "--tables", tables(folder, f"rows{count}", count), *tail]
        tell(f"eight queries over {count} rows", turns(program, words))
    for count in (1000, 10000, 100000):
        write_changes(folder / f"changes{count}", count)
        texts = [f"SELECT COUNT(*) AS n FROM file_events WHERE action = 'a{at}'" for at in range(8)]
        words = ["daemon", "--config", configuration(folder, "events", texts), "--changes", str(folder / f"changes{count}"), *tail]
        tell(f"eight queries over {count} events", turns(program, words))
    for count in (10, 100, 1000, 10000):
        texts = [f"SELECT {at} AS one" for at in range(count)]
        words = ["daemon", "--config", configuration(folder, "queries", texts), *tail]
        tell(f"{count} queries", turns(program, words))


def main() -> None:
    if len(sys.argv) != 3 or sys.argv[1] not in ("--write", "--program"):
        print("skipped: " + __doc__.splitlines()[2])
    elif sys.argv[1] == "--write":
        write_checkout(pathlib.Path(sys.argv[2]))
    else:
        with tempfile.TemporaryDirectory() as name:
            measure(sys.argv[2], pathlib.Path(name))


if __name__ == "__main__":
    main()
