#!/usr/bin/env python3
"""Result lines per second beside Python's json.dumps and jq, in one run.

The program is written into a folder beside copies of the crates that it needs, proved and built by `rt run`, and run
there. Usage: bench/result_lines.py [THOUSANDS [ROUNDS [FOLDER]]]. Each writer makes THOUSANDS (default 1000) thousand
lines of rows of `file_events`; each figure is the best of ROUNDS (default 3), since other work on the machine only takes
time away. The folder is a temporary one unless FOLDER names one: that one stays, so that a second run need not prove
again. jq, which has to read its objects first, is left out where it is not installed.
"""

import pathlib
import shutil
import subprocess
import sys
import tempfile

TOP = pathlib.Path(__file__).resolve().parent.parent
BELOW = [
    "osq_value",
    "sql_tree",
    "sql_tokens",
    "sql_faults",
    "sql_parser",
    "sql_query",
    "sql_scope",
    "sql_names",
    "sql_scalar",
    "sql_meaning",
    "sql_texts",
    "osq_config",
    "pack_rules",
    "entry_model",
    "calendar_text",
    "result_batches",
]
GOAL = 0.1

PROGRAM = """\
//! Makes the result lines of batches of a thousand rows, `lines_bench BATCHES`, and prints how many bytes they have.
#![tactic(auto)]

ghost use Rattle.std.specs.Prelude.{◌≡◌, IfOk};

use entry_model::entry::Batch;
use osq_value::{NoMemory, Row, RowList, Sequence, Str, TextList, Value};
use pack_rules::schedule::{Form, Mode, QueryKey};
use result_batches::result_lines;
use std::alloc::Global;
use std::io::ErrorKind;
use std::{env, io};

/// The names of the columns.
const NAMES: &[&str] = &[
    "target_path",
    "category",
    "action",
    "inode",
    "uid",
    "gid",
    "mode",
    "size",
    "mtime",
    "time",
];

fn names(alloc: Global) -> Result<TextList, NoMemory> {
    let mut names = TextList::new(alloc);
    for name in NAMES {
        names.push(Str::of(alloc, name)?)?;
    }
    Ok(names)
}

fn text(alloc: Global, text: &str) -> Result<Value, NoMemory> {
    Ok(Value::Text(Str::of(alloc, text)?))
}

fn row(alloc: Global, number: i64) -> Result<Row, NoMemory> {
    let mut row: Row = Sequence::new(alloc);
    row.push(text(alloc, "/etc/ssh/sshd_config")?)?;
    row.push(text(alloc, "etc")?)?;
    row.push(text(alloc, "UPDATED")?)?;
    row.push(Value::Int(number))?;
    row.push(Value::Int(0))?;
    row.push(Value::Null)?;
    row.push(text(alloc, "0100644")?)?;
    row.push(Value::Int(4096))?;
    row.push(Value::Int(1_700_000_000))?;
    row.push(Value::Int(1_700_000_000))?;
    Ok(row)
}

fn batch(alloc: Global) -> Result<Batch, NoMemory>
    ensures { IfOk result (λ batch. batch.moment ≡ 1000) }
{
    let mut rows: RowList = Sequence::new(alloc);
    for number in 0..1000 {
        rows.push(row(alloc, number)?)?;
    }
    let query = QueryKey::read(
        Str::of(alloc, "files")?,
        Str::of(alloc, "SELECT * FROM file_events")?,
        Mode::Evented,
    );
    Ok(Batch {
        number: 1,
        query,
        lo: 0,
        hi: 1000,
        cut: 4,
        moment: 1000,
        rows,
    })
}

/// How many bytes the lines of so many batches have.
fn measure(alloc: Global, batches: u64) -> Result<usize, NoMemory> {
    let names = names(alloc)?;
    let batch = batch(alloc)?;
    let mut bytes = 0usize;
    for _ in 0..batches {
        let lines = result_lines(alloc, &batch, &names, "h1", Form::Event)?;
        bytes = bytes.wrapping_add(lines.len());
    }
    Ok(bytes)
}

fn main(rt: HostRuntime) -> io::Result<()> {
    let mut words = env::args(&rt)?.skip(1);
    let Some(batches) = words.next() else {
        return Err(io::Error::from(ErrorKind::InvalidInput));
    };
    let Ok(batches) = batches.as_str().parse::<u64>() else {
        return Err(io::Error::from(ErrorKind::InvalidInput));
    };
    let Ok(bytes) = measure(rt.alloc(), batches) else {
        return Err(io::Error::from(ErrorKind::OutOfMemory));
    };
    println!(&rt; "{bytes}")
}
"""

DUMPS_LOOP = """\
import json, sys
names = ["target_path", "category", "action", "inode", "uid", "gid", "mode", "size", "mtime", "time"]
rows = [["/etc/ssh/sshd_config", "etc", "UPDATED", n, 0, None, "0100644", 4096, 1700000000, 1700000000] for n in range(1000)]
total = 0
for _ in range(int(sys.argv[1])):
    for row in rows:
        columns = {name: "" if value is None else str(value) for name, value in zip(names, row)}
        line = json.dumps({"name": "files", "hostIdentifier": "h1", "calendarTime": "Thu Jan 01 00:16:40 1970 UTC",
            "unixTime": 1000, "batch": 1, "action": "added", "columns": columns}, separators=(",", ":"))
        total += len(line) + 1
print(total)
"""

JQ_OBJECT = (
    '{"name":"files","hostIdentifier":"h1","calendarTime":"Thu Jan 01 00:16:40 1970 UTC","unixTime":1000,"batch":1,'
    '"action":"added","columns":{"target_path":"/etc/ssh/sshd_config","category":"etc","action":"UPDATED",'
    '"inode":"%d","uid":"0","gid":"","mode":"0100644","size":"4096","mtime":"1700000000","time":"1700000000"}}\n'
)


def write_program(folder: pathlib.Path) -> pathlib.Path:
    """Writes a repository of the program and of the crates below it, and answers the program's folder."""
    for crate in BELOW:
        shutil.copytree(
            TOP / "crates" / crate,
            folder / "crates" / crate,
            ignore=shutil.ignore_patterns("out", "must-fail"),
            dirs_exist_ok=True,
        )
    listed = [line for line in (TOP / "crates.txt").read_text().splitlines() if line.split(":")[0] in BELOW]
    (folder / "crates.txt").write_text("\n".join(listed) + f"\nlines_bench: {' '.join(BELOW)}\n")
    shutil.copy(TOP / "HANDLES", folder / "HANDLES")
    program = folder / "crates" / "lines_bench"
    (program / "src").mkdir(parents=True, exist_ok=True)
    (program / "src" / "main.rt").write_text(PROGRAM)
    return program


def build(folder: pathlib.Path) -> str:
    """Proves and builds the program, which runs once."""
    program = write_program(folder)
    built = subprocess.run(["rt", "run", "--", "1"], cwd=program, capture_output=True, text=True)
    if built.returncode != 0:
        sys.exit(built.stdout + built.stderr)
    return str(program / "out" / "lines_bench")


def seconds(folder: pathlib.Path, command: list[str], rounds: int, source: pathlib.Path | None = None) -> float:
    """The least processor time of some runs."""
    told = folder / "time"
    least = float("inf")
    for _ in range(rounds):
        with (source or pathlib.Path("/dev/null")).open() as given:
            timed = ["/usr/bin/time", "-o", str(told), "-f", "%U %S", *command]
            subprocess.run(timed, check=True, stdin=given, stdout=subprocess.DEVNULL)
        user, system = (float(word) for word in told.read_text().split())
        least = min(least, user + system)
    return least


def tell(name: str, count: int, took: float, ours: float | None = None) -> None:
    ratio = "" if ours is None else f"   ours / this: {ours / took:.2f} (goal: at most {GOAL})"
    print(f"{name:22} {count / took:12.0f} lines/s {took:8.2f} s{ratio}", flush=True)


def measure_all(folder: pathlib.Path, thousands: int, rounds: int) -> None:
    program = build(folder)
    count = 1000 * thousands
    ours = seconds(folder, [program, str(thousands)], rounds)
    tell("result_lines", count, ours)
    theirs = seconds(folder, [sys.executable, "-c", DUMPS_LOOP, str(thousands)], rounds)
    tell("Python's json.dumps", count, theirs, ours)
    if not shutil.which("jq"):
        print("jq is left out: it is not installed")
        return
    objects = folder / "objects.jsonl"
    with objects.open("w") as file:
        for _ in range(thousands):
            file.writelines(JQ_OBJECT % number for number in range(1000))
    tell("jq -c .", count, seconds(folder, ["jq", "-c", "."], rounds, objects), ours)


def main() -> None:
    thousands = int(sys.argv[1]) if len(sys.argv) > 1 else 1000
    rounds = int(sys.argv[2]) if len(sys.argv) > 2 else 3
    if len(sys.argv) > 3:
        folder = pathlib.Path(sys.argv[3])
        folder.mkdir(parents=True, exist_ok=True)
        measure_all(folder.resolve(), thousands, rounds)
    else:
        with tempfile.TemporaryDirectory() as made:
            measure_all(pathlib.Path(made), thousands, rounds)


if __name__ == "__main__":
    main()
