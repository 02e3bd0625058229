#!/usr/bin/env python3
"""Events per second and peak memory of the readers of audit logs and of change lines, beside other readers, in one run.

The program is written into a folder beside copies of the crates that it needs, proved and built by `rt run`, and run
there. Usage: bench/readers.py [MEGABYTES [ROUNDS [FOLDER [PROGRAM]]]]. Each of the two files has MEGABYTES (default
200); each figure is the best of ROUNDS (default 3), since other work on the machine only takes time away. The folder is
a temporary one unless FOLDER names one: that one stays, so that a second run need not prove again. PROGRAM is a reader
that was built otherwise, as without proofs to try a form; nothing is proved then.

The audit log is read by the publisher, by `ausearch --format csv`, and by a loop over libauparse that takes the name
and the text of each field of each record. The change lines become rows of ten columns by the publisher, by Python's
json module, and by the sqlite3 command line, which imports the lines and makes a table of them by json_extract. The
peers test no path against a pattern. A reader that is not installed is left out: those of audit logs are in Debian's
auditd and libauparse-dev.
Times are those of the processor, by /usr/bin/time, since the time by the clock tells how busy the machine is; that one
is printed too.
"""

import pathlib
import shutil
import subprocess
import sys
import tempfile
import typing

TOP = pathlib.Path(__file__).resolve().parent.parent
CRATES = {
    "osq_value": "arrayvec thiserror",
    "osq_outside": "thiserror osq_value",
    "record_lines": "memchr osq_value",
    "audit_records": "hex memchr simdutf8 thiserror osq_value",
    "change_records": "fast_float json memchr serde_json simdutf8 thiserror osq_value",
    "publisher_core": "json memchr serde_json thiserror osq_value osq_outside record_lines audit_records change_records",
}
AUPARSE = pathlib.Path("/usr/include/auparse.h")
MOST_PEAK = 32.0

PROGRAM = """\
//! Reads a source by a publisher, `reader_bench audit PATH` or `reader_bench changes PATH`, and prints how many events it gave and how many
//! lines it skipped: `EVENTS SKIPPED`.
#![tactic(auto)]

use osq_outside::{FileSource, Source};
use osq_value::{Category, CategoryList, NoMemory, Reading, ReadingList, SourceKind, Str, TextList};
use publisher_core::error::StepError;
use publisher_core::publisher::Publisher;
use publisher_core::subscription::{Recorded, Subscription};
use std::alloc::Global;
use std::fs::File;
use std::io::ErrorKind;
use std::{env, io};

/// A step takes at most so many records.
const STEP_RECORDS: u64 = 10_000;

/// No file needs more steps.
const MOST_STEPS: u64 = 1_000_000_000;

#[derive(Clone, Copy)]
struct Tally {
    events: u64,
    skipped: u64,
}

/// The paths whose changes are events.
fn categories(alloc: Global) -> Result<CategoryList, NoMemory> {
    let mut patterns = TextList::new(alloc);
    patterns.push(Str::of(alloc, "/etc/%%")?)?;
    let mut categories = CategoryList::new(alloc);
    categories.push(Category {
        name: Str::of(alloc, "etc")?,
        patterns,
        excluded: TextList::new(alloc),
    })?;
    Ok(categories)
}

/// Adds what a step's readings have. They are dropped.
fn add(tally: Tally, readings: ReadingList) -> Tally {
    let mut tally = tally;
    for reading in readings.into_vec() {
        match reading {
            Reading::Events {
                taken: _,
                events,
                skipped,
            } => {
                tally.events = tally.events.wrapping_add(events.len() as u64);
                tally.skipped = tally.skipped.wrapping_add(skipped);
            }
            Reading::Table {
                taken: _,
                table: _,
                rows: _rows,
            } => {}
        }
    }
    tally
}

/// Reads a source up to its end.
fn read_all<S: Source>(
    alloc: Global,
    kind: SourceKind,
    source: &mut S,
) -> Result<Tally, StepError> {
    let paths = categories(alloc)?;
    let subscription = Subscription::new(Recorded, paths);
    let name = Str::of(alloc, "measured")?;
    let mut publisher = match Publisher::new(alloc, name, kind, 0, subscription) {
        Ok(publisher) => publisher,
        Err(NoMemory) => return Err(StepError::NoMemory),
    };
    if let Err(error) = publisher.start(source) {
        return Err(error);
    }
    let mut tally = Tally {
        events: 0,
        skipped: 0,
    };
    for _ in 0..MOST_STEPS {
        if publisher.at_end() {
            return Ok(tally);
        }
        match publisher.step(source, STEP_RECORDS) {
            Ok(readings) => tally = add(tally, readings),
            Err(error) => return Err(error),
        }
    }
    Ok(tally)
}

fn main(rt: HostRuntime) -> io::Result<()> {
    let alloc = rt.alloc();
    let mut words = env::args(&rt)?.skip(1);
    let (Some(kind), Some(path)) = (words.next(), words.next()) else {
        return Err(io::Error::from(ErrorKind::InvalidInput));
    };
    let kind = if kind.as_str() == "audit" {
        SourceKind::Audit
    } else {
        SourceKind::Changes
    };
    let mut source = FileSource::new(File::open(&rt, path.as_str())?);
    let Ok(tally) = read_all(alloc, kind, &mut source) else {
        return Err(io::Error::from(ErrorKind::Other));
    };
    println!(&rt; "{} {}", tally.events, tally.skipped)
}
"""

INVARIANT = """\
use Rattle.std.proofs.Common.{◌≡◌, true, false}
use Rattle.reader_bench.proofs.read_all.Given as goal

abbrev pub invariant-loop : goal.invariant-loop
invariant-loop g l = (l.publisher.is_begun ≡ true) × (l.publisher.is_spent ≡ false)
"""

AUPARSE_LOOP = """\
/* Takes the name and the text of each field of each record of an audit log; prints how many events it has. */
#include <auparse.h>
#include <stdio.h>
#include <string.h>

int main(int argc, char **argv)
{
    unsigned long events = 0, bytes = 0;
    auparse_state_t *state = argc == 2 ? auparse_init(AUSOURCE_FILE, argv[1]) : NULL;

    if (state == NULL)
        return 1;
    while (auparse_next_event(state) > 0) {
        events++;
        do {
            do {
                const char *name = auparse_get_field_name(state);
                const char *text = auparse_get_field_str(state);

                bytes += name != NULL ? strlen(name) : 0;
                bytes += text != NULL ? strlen(text) : 0;
            } while (auparse_next_field(state) > 0);
        } while (auparse_next_record(state) > 0);
    }
    auparse_destroy(state);
    printf("%lu %lu\\n", events, bytes);
    return 0;
}
"""

KEYS = ("path", "action", "inode", "uid", "gid", "mode", "size", "mtime", "time")

JSON_LOOP = """\
import json, sys
count = 0
rows = []
with open(sys.argv[1], "rb") as lines:
    for line in lines:
        it = json.loads(line)
        get = it.get
        rows.append((get("path"), "etc", get("action"), get("inode"), get("uid"), get("gid"), get("mode"), get("size"), get("mtime"), get("time")))
        if len(rows) == 10000:
            count += len(rows)
            rows = []
print(count + len(rows))
"""

GROUP = """\
type=SYSCALL msg=audit({id}): arch=c000003e syscall=59 success=yes exit=0 a0=55d0 a1=55e0 a2=55f0 a3=8 items=2 ppid=1200 pid={pid} auid=1000 uid=1000 gid=1000 euid=1000 suid=1000 fsuid=1000 egid=1000 sgid=1000 fsgid=1000 tty=pts0 ses=3 comm="ls" exe="/usr/bin/ls" key=(null)
type=EXECVE msg=audit({id}): argc=2 a0="ls" a1="-l"
type=CWD msg=audit({id}): cwd="/home/ann"
type=PATH msg=audit({id}): item=0 name="/usr/bin/ls" inode=100 dev=08:01 mode=0100755 ouid=0 ogid=0 rdev=00:00 nametype=NORMAL
type=PROCTITLE msg=audit({id}): proctitle=6C73002D6C
"""


class Figure(typing.NamedTuple):
    """What one run took: seconds of the processor and by the clock, and megabytes of memory at its peak."""

    processor: float
    clock: float
    peak: float


def audit_group(number: int) -> str:
    id = f"{1_700_000_000 + number // 1000}.{number % 1000:03}:{number}"
    return GROUP.format(id=id, pid=1000 + number % 30_000)


def change_line(number: int) -> str:
    action = ("CREATED", "UPDATED", "DELETED")[number % 3]
    moment = 1_700_000_000 + number // 100
    return (
        f'{{"path":"/etc/f{number * 7 % 100}","action":"{action}","inode":{100 + number % 50_000},"uid":0,"gid":0,'
        f'"size":{number * 37 % 100_000},"mtime":{moment},"mode":"0100644","time":{moment}}}\n'
    )


def generate(path: pathlib.Path, record: typing.Callable[[int], str], size: int) -> int:
    """Writes records into a file, until it has this size, and answers how many."""
    written = 0
    count = 0
    with path.open("w") as file:
        while written < size:
            count += 1
            written += file.write(record(count))
    return count


def write_program(folder: pathlib.Path) -> pathlib.Path:
    """Writes a repository of the program and of the crates below it, and answers the program's folder."""
    lines = []
    for crate, below in CRATES.items():
        shutil.copytree(
            TOP / "crates" / crate,
            folder / "crates" / crate,
            ignore=shutil.ignore_patterns("out", "must-fail"),
            dirs_exist_ok=True,
        )
        lines.append(f"{crate}: {below}")
    lines.append(f"reader_bench: {' '.join(CRATES)}")
    (folder / "crates.txt").write_text("\n".join(lines) + "\n")
    shutil.copy(TOP / "HANDLES", folder / "HANDLES")
    program = folder / "crates" / "reader_bench"
    (program / "src").mkdir(parents=True, exist_ok=True)
    (program / "src" / "main.rt").write_text(PROGRAM)
    loop = program / "proofs" / "read_all"
    loop.mkdir(parents=True, exist_ok=True)
    (loop / "Invariants.antt").write_text(INVARIANT)
    return program


def build_reader(folder: pathlib.Path, log: pathlib.Path) -> str:
    """Proves and builds the program, which runs once over this log."""
    program = write_program(folder)
    built = subprocess.run(
        ["rt", "run", "--jobs", "1", "--", "audit", str(log)],
        cwd=program,
        capture_output=True,
        text=True,
    )
    if built.returncode != 0:
        sys.exit(built.stdout + built.stderr)
    return str(program / "out" / "reader_bench")


def build_loop(folder: pathlib.Path) -> str:
    """Builds the loop over libauparse."""
    source = folder / "auparse_loop.c"
    source.write_text(AUPARSE_LOOP)
    loop = str(folder / "auparse_loop")
    subprocess.run(["gcc", "-O2", "-o", loop, str(source), "-lauparse"], check=True)
    return loop


def run_once(folder: pathlib.Path, command: list[str], wanted: str | None) -> Figure:
    """Runs a command, whose output begins with `wanted` where that is given."""
    told = folder / "time"
    output = folder / "output"
    with output.open("w") as file:
        subprocess.run(
            ["/usr/bin/time", "-o", str(told), "-f", "%U %S %e %M", *command],
            check=True,
            stdout=file,
        )
    if wanted is not None and not output.read_text().startswith(wanted):
        sys.exit(f"not {wanted!r} but {output.read_text()!r}")
    user, system, clock, peak = (float(word) for word in told.read_text().split())
    return Figure(user + system, clock, peak / 1024)


class Reader(typing.NamedTuple):
    """A reader's name, its command, how its output begins where that is known, and the most that ours may take of its time."""

    name: str
    command: list[str]
    wanted: str | None
    goal: float = 1.0


def measure(folder: pathlib.Path, readers: list[Reader], count: int, rounds: int) -> Figure:
    """Runs readers in turn over so many events, prints the best figures of each and how the first one's time is to the others'."""
    runs: list[list[Figure]] = [[] for _ in readers]
    for _ in range(rounds):
        for reader, figures in zip(readers, runs):
            figures.append(run_once(folder, reader.command, reader.wanted))
    bests = [Figure(*(min(run[at] for run in figures) for at in range(3))) for figures in runs]
    print(f"{'reader':26} {'events/s':>10} {'processor s':>11} {'clock s':>9} {'peak MB':>8}")
    for reader, best in zip(readers, bests):
        rate = count / best.processor
        print(f"{reader.name:26} {rate:10.0f} {best.processor:11.2f} {best.clock:9.2f} {best.peak:8.1f}")
    for reader, best in zip(readers[1:], bests[1:]):
        ratio = bests[0].processor / best.processor
        print(f"time of the publisher / {reader.name}: {ratio:.2f} (goal: at most {reader.goal})", flush=True)
    return bests[0]


def measure_audit(folder: pathlib.Path, built: str | None, size: int, rounds: int) -> tuple[str, Figure]:
    """Measures the readers of audit logs, and answers our program and its figures."""
    log = folder / "audit.log"
    count = generate(log, audit_group, size)
    reader = built or build_reader(folder, log)
    print(f"{count} audit groups, the best of {rounds} runs")
    readers = [Reader("publisher", [reader, "audit", str(log)], f"{count} 0\n")]
    if shutil.which("ausearch"):
        command = ["ausearch", "--format", "csv", "--input", str(log)]
        readers.append(Reader("ausearch --format csv", command, None, 0.4))
    else:
        print("ausearch is left out: auditd is not installed")
    if AUPARSE.exists() and shutil.which("gcc"):
        command = [build_loop(folder), str(log)]
        readers.append(Reader("loop over libauparse", command, f"{count} "))
    else:
        print("the loop over libauparse is left out: libauparse-dev or gcc is not installed")
    return reader, measure(folder, readers, count, rounds)


def sqlite_script(lines: pathlib.Path) -> str:
    """Makes a table of the rows of these lines, and tells how many it has."""
    columns = ", ".join(f"json_extract(line, '$.{key}') AS {key}" for key in KEYS)
    return (
        '.mode list\n.separator "\\t" "\\n"\nCREATE TABLE changes (line TEXT);\n'
        f".import {lines} changes\nCREATE TABLE found AS SELECT 'etc' AS category, {columns} FROM changes;\n"
        "SELECT COUNT(*) FROM found;\n"
    )


def measure_changes(folder: pathlib.Path, reader: str, size: int, rounds: int) -> Figure:
    """Measures the readers of change lines, and answers the figures of our program."""
    lines = folder / "changes.jsonl"
    count = generate(lines, change_line, size)
    print(f"{count} change lines, the best of {rounds} runs")
    readers = [
        Reader("publisher", [reader, "changes", str(lines)], f"{count} 0\n"),
        Reader("Python's json", [sys.executable, "-c", JSON_LOOP, str(lines)], f"{count}\n", 0.35),
    ]
    if shutil.which("sqlite3"):
        script = folder / "script"
        script.write_text(sqlite_script(lines))
        command = ["sqlite3", ":memory:", f".read {script}"]
        readers.append(Reader("sqlite3's json_extract", command, f"{count}\n", 0.7))
    else:
        print("json_extract is left out: sqlite3 is not installed")
    return measure(folder, readers, count, rounds)


def measure_all(folder: pathlib.Path, built: str | None, size: int, rounds: int) -> None:
    reader, audit = measure_audit(folder, built, size, rounds)
    changes = measure_changes(folder, reader, size, rounds)
    peak = max(audit.peak, changes.peak)
    print(f"peak memory of the publisher: {peak:.1f} MB (goal: below {MOST_PEAK:.0f})")


def main() -> None:
    size = (int(sys.argv[1]) if len(sys.argv) > 1 else 200) * 1_000_000
    rounds = int(sys.argv[2]) if len(sys.argv) > 2 else 3
    if len(sys.argv) > 3:
        folder = pathlib.Path(sys.argv[3])
        folder.mkdir(parents=True, exist_ok=True)
        measure_all(folder.resolve(), sys.argv[4] if len(sys.argv) > 4 else None, size, rounds)
    else:
        with tempfile.TemporaryDirectory() as folder:
            measure_all(pathlib.Path(folder), None, size, rounds)


if __name__ == "__main__":
    main()
