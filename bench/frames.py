#!/usr/bin/env python3
"""Frames beside Python's json and hashlib, in one run: encoding, collecting, opening a ledger, and the memory of a collector; and ledgers of one frame of
each of many hosts, whose names somebody chose, beside one of as many that nobody chose.

The program is written into a folder beside copies of the crates that it needs, and proved and built by `rt run`. Usage:
bench/frames.py [ROUNDS [FOLDER [PROGRAM]]]. Each figure is the least processor time of ROUNDS runs (default 3), since other work on the
machine only takes time away; that of memory is the greatest resident size. The folder is a temporary one unless FOLDER names one: that one
stays, with its inputs of about 450 MB. PROGRAM names a program that was built from FOLDER's before; it isn't built then, and where FOLDER
has none it is only written, and nothing is measured.

The names are chosen in two ways. Those of one hash would share a place of a map by the kit's hash, whose first state is known: behind sixteen bytes it
is known too, and a name whose next eight are that state makes the next product nought, whatever comes behind it. Those of one front are as long as a host's
name may be and differ in their last bytes alone, which is the most that an order of names has to compare.
"""

import hashlib
import itertools
import json
import os
import pathlib
import shutil
import subprocess
import sys
import tempfile

import crafted_keys

TOP = pathlib.Path(__file__).resolve().parent.parent
NAME = "frames_bench"
USES = "osq_value osq_outside pack_rules entry_model batch_frames collector_core collector_answers collector_ledger collect_rounds"
ENCODED = 100_000
RECORDED = 1_000_000
HOSTS = 1000
NAMED = 20_000  # hosts of one frame each, whose names are chosen
HASHED = 32  # bytes of a name that is chosen by its hash
LONGEST = 255  # bytes of a host's name at most

PROGRAM = """\
//! Encodes frames of ten rows, `frames_bench encode COUNT`; collects a stream of them from a ledger without frames,
//! `frames_bench collect FILE`; or opens the ledger of a file, `frames_bench open FILE`. It prints a number that hangs on all of it.
#![tactic(auto)]

use batch_frames::{Frame, encode_frame};
use collect_rounds::collect;
use collector_core::Ledger;
use collector_ledger::{OpenedLedger, open_ledger};
use entry_model::entry::Batch;
use osq_outside::{FileSink, FileSource, HostFiles};
use osq_value::{NoMemory, Row, RowList, Str, TextList, Value};
use pack_rules::schedule::{Mode, QueryKey};
use std::alloc::Global;
use std::fs::File;
use std::io::{self, ErrorKind, Write};
use std::env;

const NAMES: &[&str] = &[
    "target_path",
    "category",
    "action",
    "inode",
    "uid",
    "gid",
    "mode",
    "size",
    "mtime",
    "time",
];

/// A writer that keeps nothing.
#[derive(Drop)]
struct Nowhere {
    bytes: u64,
}

impl Write for Nowhere {
    fn write(&mut self, buf: &[u8]) -> io::Result<usize> {
        self.bytes = self.bytes.wrapping_add(buf.len() as u64);
        Ok(buf.len())
    }

    fn flush(&mut self) -> io::Result<()> {
        Ok(())
    }
}

fn names(alloc: Global) -> Result<TextList, NoMemory> {
    let mut names = TextList::new(alloc);
    for name in NAMES {
        names.push(Str::of(alloc, name)?)?;
    }
    Ok(names)
}

fn text(alloc: Global, text: &str) -> Result<Value, NoMemory> {
    Ok(Value::Text(Str::of(alloc, text)?))
}

fn row(alloc: Global, number: i64) -> Result<Row, NoMemory> {
    let mut row = Row::new(alloc);
    row.push(text(alloc, "/etc/ssh/sshd_config")?)?;
    row.push(text(alloc, "etc")?)?;
    row.push(text(alloc, "UPDATED")?)?;
    row.push(Value::Int(number))?;
    row.push(Value::Int(0))?;
    row.push(Value::Null)?;
    row.push(text(alloc, "0100644")?)?;
    row.push(Value::Int(4096))?;
    row.push(Value::Int(1_700_000_000))?;
    row.push(Value::Int(1_700_000_000))?;
    Ok(row)
}

fn frame(alloc: Global) -> Result<Frame, NoMemory> {
    let mut rows = RowList::new(alloc);
    for number in 0..10 {
        rows.push(row(alloc, number)?)?;
    }
    let query = QueryKey::read(
        Str::of(alloc, "files")?,
        Str::of(alloc, "SELECT * FROM file_events")?,
        Mode::Evented,
    );
    let batch = Batch {
        number: 1,
        query,
        lo: 0,
        hi: 10,
        cut: 4,
        moment: 1000,
        rows,
    };
    Ok(Frame {
        host: Str::of(alloc, "h1")?,
        batch,
        names: names(alloc)?,
    })
}

/// How many bytes the texts of so many frames have.
fn encode(alloc: Global, count: u64) -> Result<u64, NoMemory> {
    let mut frame = frame(alloc)?;
    let mut bytes = 0u64;
    for number in 0..count {
        frame.batch.number = number.saturating_add(1);
        if frame.is_valid() {
            bytes = bytes.wrapping_add(encode_frame(alloc, &frame)?.len() as u64);
        }
    }
    Ok(bytes)
}

/// Whether a stream was collected to its end.
fn collected(alloc: Global, file: File) -> u64 {
    let opened = OpenedLedger {
        ledger: Ledger::empty(alloc),
        has_rest: false,
    };
    let mut source = FileSource::new(file);
    let mut ledger = FileSink::new(Nowhere { bytes: 0 });
    let mut answers = FileSink::new(Nowhere { bytes: 0 });
    match collect(
        alloc,
        opened,
        &mut source,
        1_000_000,
        &mut ledger,
        &mut answers,
    ) {
        Ok(true) => 1,
        _ => 0,
    }
}

/// How many frames of one host a file records.
fn opened<R: std::rt::Files + AllocGlobal>(rt: &R, alloc: Global, path: &str) -> u64 {
    let mut files = HostFiles::new(rt);
    match (open_ledger(alloc, &mut files, path), Str::of(alloc, "h1")) {
        (Ok(opened), Ok(host)) => opened.ledger.recorded(&host),
        _ => 0,
    }
}

fn main(rt: HostRuntime) -> io::Result<()> {
    let alloc = rt.alloc();
    let mut words = env::args(&rt)?.skip(1);
    let (Some(mode), Some(word)) = (words.next(), words.next()) else {
        return Err(io::Error::from(ErrorKind::InvalidInput));
    };
    let told = match mode.as_str() {
        "encode" => encode(alloc, word.as_str().parse::<u64>().unwrap_or(0)).unwrap_or(0),
        "collect" => collected(alloc, File::open(&rt, word.as_str())?),
        "open" => opened(&rt, alloc, word.as_str()),
        _ => 0,
    };
    println!(&rt; "{told}")
}
"""

ENCODE = """\
import hashlib, json, sys
names = ["target_path", "category", "action", "inode", "uid", "gid", "mode", "size", "mtime", "time"]
rows = [["/etc/ssh/sshd_config", "etc", "UPDATED", n, 0, None, "0100644", 4096, 1700000000, 1700000000] for n in range(10)]
total = 0
for number in range(1, int(sys.argv[1]) + 1):
    body = json.dumps({"frame": 1, "host": "h1", "number": number, "name": "files", "text": "SELECT * FROM file_events",
        "mode": "evented", "lo": 0, "hi": 10, "cut": 4, "moment": 1000, "names": names, "rows": rows}, separators=(",", ":"))[:-1].encode()
    total += len(body + b',"sha256":"' + hashlib.sha256(body).hexdigest().encode() + b'"}')
print(total)
"""

RECORD = """\
import hashlib, json, sys
hosts = {}
for line in open(sys.argv[1], "rb"):
    frame = json.loads(line)
    digest = hashlib.sha256(line[:line.rindex(b',"sha256"')])
    if digest.hexdigest() != frame["sha256"]:
        continue
    kept = hosts.setdefault(frame["host"], [])
    if frame["number"] == len(kept) + 1:
        kept.append(digest.digest())
print(len(hosts["h1"]))
"""


def line_of(host: str, number: int, names: list, rows: list) -> bytes:
    shown = {"frame": 1, "host": host, "number": number, "name": "files", "text": "SELECT * FROM file_events", "mode": "evented"}
    shown |= {"lo": 0, "hi": 10, "cut": 4, "moment": 1000, "names": names, "rows": rows}
    body = json.dumps(shown, separators=(",", ":"))[:-1].encode()
    return body + b',"sha256":"' + hashlib.sha256(body).hexdigest().encode() + b'"}\n'


def write_inputs(folder: pathlib.Path) -> tuple[pathlib.Path, pathlib.Path]:
    """Writes the stream of frames of ten rows and the ledger of frames of one row each, where they aren't there yet."""
    names = ["target_path", "category", "action", "inode", "uid", "gid", "mode", "size", "mtime", "time"]
    rows = [["/etc/ssh/sshd_config", "etc", "UPDATED", n, 0, None, "0100644", 4096, 1700000000, 1700000000] for n in range(10)]
    stream, ledger = folder / "stream", folder / "ledger"
    if not stream.exists():
        with stream.open("wb") as file:
            file.writelines(line_of("h1", number, names, rows) for number in range(1, ENCODED + 1))
    if not ledger.exists():
        with ledger.open("wb") as file:
            for at in range(RECORDED):
                file.write(line_of(f"h{at % HOSTS}", at // HOSTS + 1, ["username"], [["root"]]))
    return stream, ledger


def state_behind(front: bytes) -> bytes:
    """The state of the kit's hash behind the first sixteen bytes of a name, as the bytes that are that number."""
    first, second = int.from_bytes(front[:8], "little"), int.from_bytes(front[8:], "little")
    product = (first ^ (crafted_keys.FIRST + HASHED)) * (second ^ crafted_keys.MULTIPLIER ^ 16)
    return ((product >> 64) ^ (product % crafted_keys.WORD)).to_bytes(8, "little")


def of_one_hash(count: int) -> list[str]:
    """So many names of one hash: behind some front that makes a state of ASCII, that state."""
    front = next(it for it in (f"{at:016d}".encode() for at in itertools.count()) if state_behind(it).isascii())
    return [(front + state_behind(front)).decode() + f"{at:08d}" for at in range(count)]


def of_one_front(count: int) -> list[str]:
    """So many of the longest names, which differ in their last bytes."""
    return [f"{at:08d}".rjust(LONGEST, "h") for at in range(count)]


def of_nobody(count: int, length: int) -> list[str]:
    """So many names of this length that nobody chose."""
    return [(hashlib.sha256(str(at).encode()).hexdigest() * 4)[:length] for at in range(count)]


def tell_names(folder: pathlib.Path, rounds: int, program: str, what: str, chosen: list[str]) -> None:
    """Opens the ledger of hosts of these names, and that of as many whose names are as long."""
    each = []
    for names in (chosen, of_nobody(len(chosen), len(chosen[0]))):
        ledger = folder / "named"
        with ledger.open("wb") as file:
            file.writelines(line_of(name, 1, ["username"], [["root"]]) for name in names)
        each.append(run(folder, [program, "open", str(ledger)], rounds)[0])
    print(f"{what:28} {each[0] * 1e3:6.1f} ms, others {each[1] * 1e3:6.1f}: {each[0] / each[1]:.2f} (goal: at most 2.0)", flush=True)


def crates_below(names: list[str]) -> list[str]:
    """The lines of crates.txt of these crates and of those below them, lowest first."""
    lines = [line for line in (TOP / "crates.txt").read_text().splitlines() if ":" in line]
    below = {line.split(":")[0].split()[0]: line.split(":")[1].split() for line in lines}
    wanted, ahead = set(), list(names)
    while ahead:
        name = ahead.pop()
        if name in below and name not in wanted:
            wanted.add(name)
            ahead += below[name]
    return [line for line in lines if line.split(":")[0].split()[0] in wanted]


def write_program(folder: pathlib.Path) -> pathlib.Path:
    """Writes a repository of the program and of the crates below it, and answers the program's folder."""
    listed = crates_below(USES.split())
    for line in listed:
        crate = line.split(":")[0].split()[0]
        ignored = shutil.ignore_patterns("out", "must-fail", "wrong-bodies")
        shutil.copytree(TOP / "crates" / crate, folder / "crates" / crate, ignore=ignored, dirs_exist_ok=True)
    (folder / "crates.txt").write_text("\n".join(listed) + f"\n{NAME}: {USES}\n")
    shutil.copy(TOP / "HANDLES", folder / "HANDLES")
    program = folder / "crates" / NAME
    (program / "src").mkdir(parents=True, exist_ok=True)
    (program / "src" / "main.rt").write_text(PROGRAM)
    return program


def build(folder: pathlib.Path) -> str:
    """Proves and builds the program, which runs once."""
    program = write_program(folder)
    built = subprocess.run(["rt", "run", "--", "encode", "1"], cwd=program, capture_output=True, text=True)
    if built.returncode != 0:
        sys.exit(built.stdout + built.stderr)
    return str(program / "out" / NAME)


def run(folder: pathlib.Path, command: list[str], rounds: int) -> tuple[float, float]:
    """The least processor time of some runs, and the greatest resident size in bytes."""
    told, least, most = folder / "time", float("inf"), 0.0
    for _ in range(rounds):
        timed = subprocess.Popen(["/usr/bin/time", "-o", str(told), "-f", "%M", *command], stdout=subprocess.DEVNULL)
        _, status, used = os.wait4(timed.pid, 0)
        if status != 0:
            sys.exit(f"{command} ended with {status}")
        least, most = min(least, used.ru_utime + used.ru_stime), max(most, 1024 * float(told.read_text()))
    return least, most


def tell(what: str, count: int, ours: float, theirs: float, goal: float) -> None:
    each = 1e6 / count
    print(f"{what:28} {ours * each:6.2f} µs each, Python {theirs * each:6.2f}: {ours / theirs:.2f} (goal: at most {goal})", flush=True)


def measure_all(folder: pathlib.Path, rounds: int, program: str) -> None:
    stream, ledger = (str(path) for path in write_inputs(folder))
    python = [sys.executable, "-c"]
    ours, small = run(folder, [program, "encode", str(ENCODED)], rounds)
    tell("frames of ten rows encoded", ENCODED, ours, run(folder, [*python, ENCODE, str(ENCODED)], rounds)[0], 0.15)
    ours, _ = run(folder, [program, "collect", stream], rounds)
    tell("decoded and recorded", ENCODED, ours, run(folder, [*python, RECORD, stream], rounds)[0], 0.25)
    ours, _ = run(folder, [program, "open", ledger], rounds)
    tell("a ledger's frame opened", RECORDED, ours, run(folder, [*python, RECORD, ledger], rounds)[0], 0.3)
    tell_names(folder, rounds, program, f"{NAMED} names of one hash", of_one_hash(NAMED))
    tell_names(folder, rounds, program, f"{NAMED} names of one front", of_one_front(NAMED))
    _, size = run(folder, [program, "collect", ledger], 1)
    print(f"memory of a recorded frame     {(size - small) / RECORDED:6.1f} bytes (goal: at most 120)")


def main() -> None:
    rounds = int(sys.argv[1]) if len(sys.argv) > 1 else 3
    if len(sys.argv) > 2:
        folder = pathlib.Path(sys.argv[2]).resolve()
        folder.mkdir(parents=True, exist_ok=True)
        if len(sys.argv) > 3 and not pathlib.Path(sys.argv[3]).exists():
            print(write_program(folder))
            return
        measure_all(folder, rounds, sys.argv[3] if len(sys.argv) > 3 else build(folder))
    else:
        with tempfile.TemporaryDirectory() as made:
            folder = pathlib.Path(made)
            measure_all(folder, rounds, build(folder))


if __name__ == "__main__":
    main()
