#!/usr/bin/env python3
"""The keeper over a file beside Python's sqlite3 with the same tables and the same statements, in one run.

The program is written into a folder beside copies of the crates that it needs, and proved and built by `rt run`. Usage:
bench/keeper.py [ROUNDS [FOLDER [PROGRAM]]]. Each figure is the least processor time of ROUNDS runs (default 3), since other work on the
machine only takes time away. What both have before their first row, the start of a process, is measured and taken off. The folder is a
temporary one unless FOLDER names one, which stays. PROGRAM names a program that was built from FOLDER's before; it isn't built then, and
where FOLDER has none it is only written, and nothing is measured.
"""

import math
import os
import pathlib
import shutil
import subprocess
import sys
import tempfile

TOP = pathlib.Path(__file__).resolve().parent.parent
NAME = "keeper_bench"
USES = "osq_value pack_rules entry_model batch_keeper keeper_sqlite"
# How the names of a database's files end.
ENDS = ("", "-wal", "-shm")
# How many seals are made to tell the time of one.
SEALS = 500

PROGRAM = """\
//! Makes seals, `keeper_bench PATH SEALS EVENTS BATCHES ROWS IS_ACKED`: so many, each of so many events and batches of so many rows. Where
//! IS_ACKED is 1, each acknowledges the batches of those before. It loads first, prints how many batches and live events it loads, and begins
//! with the seals once standard input has ended.
#![tactic(auto)]

use batch_keeper::{Keeper, KeeperError};
use entry_model::entry::{Batch, Entry, EntryList};
use keeper_sqlite::SqliteKeeper;
use osq_value::{Event, EventList, NoMemory, Row, RowList, Str, TableId, Value};
use pack_rules::schedule::{Mode, QueryKey};
use std::alloc::Global;
use std::env;
use std::io::{self, ErrorKind};

fn text(alloc: Global, text: &str) -> Result<Value, NoMemory> {
    Ok(Value::Text(Str::of(alloc, text)?))
}

fn row(alloc: Global, number: u64) -> Result<Row, NoMemory> {
    let mut row = Row::new(alloc);
    row.push(Value::Int(1_700_000_000))?;
    row.push(text(alloc, "/usr/lib/x86_64-linux-gnu/ld-linux-x86-64.so.2")?)?;
    row.push(text(alloc, "/usr/bin/python3 -m http.server --bind 127.0.0.1 8000")?)?;
    row.push(Value::Int(i64::from((number % 65536) as u16)))?;
    row.push(Value::Null)?;
    row.push(text(alloc, "execve")?)?;
    Ok(row)
}

const NAMES: [&str; 10] = ["q0", "q1", "q2", "q3", "q4", "q5", "q6", "q7", "q8", "q9"];

fn batch(alloc: Global, number: u64, count: u64) -> Result<Batch, NoMemory> {
    let mut rows = RowList::new(alloc);
    for at in 0..count {
        rows.push(row(alloc, at)?)?;
    }
    let name = Str::of(alloc, NAMES[(number % 10) as usize])?;
    let text = Str::of(alloc, "SELECT path, cmdline FROM process_events WHERE pid > 1")?;
    Ok(Batch {
        number,
        query: QueryKey::read(name, text, Mode::Evented),
        lo: 0,
        hi: 2,
        cut: 5,
        moment: 1000,
        rows,
    })
}

fn appended(alloc: Global, count: u64) -> Result<Entry, NoMemory> {
    let mut events = EventList::new(alloc);
    for at in 0..count {
        events.push(Event {
            table: TableId::PROCESS_EVENTS,
            row: row(alloc, at)?,
        })?;
    }
    Ok(Entry::Appended {
        source: Str::of(alloc, "audit")?,
        taken: count,
        events,
        skipped: 0,
        moment: 1000,
    })
}

/// The entries of a seal behind so many batches.
fn tick(alloc: Global, before: u64, words: &[u64; 5]) -> Result<EntryList, NoMemory> {
    let mut entries = EntryList::new(alloc);
    entries.push(Entry::Ticked { moment: 1000 })?;
    if words[1] > 0 {
        entries.push(appended(alloc, words[1])?)?;
    }
    for at in 0..words[2] {
        let number = before.saturating_add(at).saturating_add(1);
        let batch = batch(alloc, number, words[3])?;
        entries.push(Entry::Committed { batch })?;
    }
    if words[4] == 1 {
        entries.push(Entry::Acked { upto: before })?;
    }
    Ok(entries)
}

/// Makes the seals behind so many batches.
fn seal_all(
    alloc: Global,
    keeper: &mut SqliteKeeper,
    batches: u64,
    words: &[u64; 5],
) -> Result<(), KeeperError> {
    let mut before = batches;
    for _ in 0..words[0] {
        let entries = tick(alloc, before, words)?;
        keeper.seal(alloc, &entries)?;
        before = before.saturating_add(words[2]);
    }
    Ok(())
}

fn wait(rt: &HostRuntime, alloc: Global) -> io::Result<()> {
    for line in rt.lines(alloc) {
        line?;
    }
    Ok(())
}

fn main(rt: HostRuntime) -> io::Result<()> {
    let alloc = rt.alloc();
    let mut given = env::args(&rt)?.skip(1);
    let Some(path) = given.next() else {
        return Err(io::Error::from(ErrorKind::InvalidInput));
    };
    let mut words = [0; 5];
    for at in 0..5 {
        if let Some(word) = given.next() {
            words[at] = word.as_str().parse::<u64>().unwrap_or(0);
        }
    }
    let path = match Str::of(alloc, path.as_str()) {
        Ok(path) => path,
        Err(_) => return Err(io::Error::from(ErrorKind::OutOfMemory)),
    };
    let mut keeper = SqliteKeeper::new(rt, path);
    let (batches, live) = match keeper.load(alloc) {
        Ok(restored) => (restored.batches, restored.live.len()),
        Err(_) => return Err(io::Error::other("no load")),
    };
    println!(&rt; "{batches} {live}")?;
    wait(&rt, alloc)?;
    match seal_all(alloc, &mut keeper, batches, &words) {
        Ok(()) => Ok(()),
        Err(_) => Err(io::Error::other("no seal")),
    }
}
"""

SAME = '''\
import json, re, sqlite3, sys
layout = open(sys.argv[1]).read()
def sql(name):
    return re.search(r'const %s: &str\\s*=\\s*"(.*?)";' % name, layout, re.S).group(1)
def row(number):
    return [1700000000, "/usr/lib/x86_64-linux-gnu/ld-linux-x86-64.so.2", "/usr/bin/python3 -m http.server --bind 127.0.0.1 8000", number % 65536, None, "execve"]
def parts(rows):
    text, size, first = [], 0, 0
    for at, one in enumerate(rows):
        text.append(json.dumps(one, separators=(",", ":")))
        size += len(text[-1]) + 1
        if size >= 65536:
            yield first, at, "[" + ",".join(text) + "]"
            text, size, first = [], 0, at + 1
    if text:
        yield first, len(rows) - 1, "[" + ",".join(text) + "]"
seals, events, batches, rows, is_acked = (int(word) for word in sys.argv[3:])
db = sqlite3.connect(sys.argv[2], isolation_level=None)
db.execute("PRAGMA journal_mode=WAL")
db.execute("PRAGMA synchronous=FULL")
if not db.execute(sql("NAMES")).fetchone():
    db.executescript(sql("TABLES"))
position, sessions, moment, last, f0, f1, f2, made, acked, places = db.execute(sql("COUNTS")).fetchone()
live = []
for table, at, numbers, texts in db.execute(sql("LIVE")):
    live += zip(json.loads(numbers), json.loads(texts))
for name in ("TAKEN", "SET", "RUNS"):
    db.execute(sql(name)).fetchall()
print(made, len(live), flush=True)
sys.stdin.read()
for _ in range(seals):
    before = made
    db.execute("BEGIN IMMEDIATE")
    position += 1
    if events:
        position += 1
        db.execute(sql("NOTE_TAKEN"), (events, "audit"))
        for first, end, text in parts([row(at) for at in range(events)]):
            numbers = json.dumps(list(range(last + 1 + first, last + 2 + end)), separators=(",", ":"))
            db.execute(sql("ADD_EVENTS"), (last + 1 + end, 0, 1000, numbers, text))
        last += events
    for at in range(batches):
        made += 1
        position += 1
        key = ("q%d" % (made % 10), "SELECT path, cmdline FROM process_events WHERE pid > 1")
        db.execute(sql("NOTE_RUN"), (made, 2, 1000, 0, *key))
        db.execute(sql("ADD_BATCH"), (made, 2, 1000, 0, 5, 0, *key))
        for _, _, text in parts([row(at) for at in range(rows)]):
            places += 1
            db.execute(sql("ADD_BATCH_PART"), (places, made, text))
    if is_acked:
        position += 1
        acked = before
        db.execute(sql("ACKNOWLEDGE"), (before,))
    db.execute(sql("WRITE_COUNTS"), (position, sessions, 1000, last, f0, f1, f2, made, acked, places))
    db.execute("COMMIT")
'''


def crates_below(names: list[str]) -> list[str]:
    """The lines of crates.txt of these crates and of those below them, lowest first."""
    lines = [line for line in (TOP / "crates.txt").read_text().splitlines() if ":" in line]
    below = {line.split(":")[0].split()[0]: line.split(":")[1].split() for line in lines}
    wanted, ahead = set(), list(names)
    while ahead:
        name = ahead.pop()
        if name in below and name not in wanted:
            wanted.add(name)
            ahead += below[name]
    return [line for line in lines if line.split(":")[0].split()[0] in wanted]


def write_program(folder: pathlib.Path) -> pathlib.Path:
    """Writes a repository of the program and of the crates below it, and answers the program's folder."""
    listed = crates_below(USES.split())
    for line in listed:
        crate = line.split(":")[0].split()[0]
        ignored = shutil.ignore_patterns("out", "must-fail", "wrong-bodies")
        shutil.copytree(TOP / "crates" / crate, folder / "crates" / crate, ignore=ignored, dirs_exist_ok=True)
    (folder / "crates.txt").write_text("\n".join(listed) + f"\n{NAME}: {USES}\n")
    shutil.copy(TOP / "HANDLES", folder / "HANDLES")
    program = folder / "crates" / NAME
    (program / "src").mkdir(parents=True, exist_ok=True)
    (program / "src" / "main.rt").write_text(PROGRAM)
    return program


def build(folder: pathlib.Path) -> str:
    """Proves and builds the program, which runs once."""
    program = write_program(folder)
    words = ["rt", "run", "--", str(folder / "built.db")]
    built = subprocess.run(words, cwd=program, stdin=subprocess.DEVNULL, capture_output=True, text=True)
    if built.returncode != 0:
        sys.exit(built.stdout + built.stderr)
    return str(program / "out" / NAME)


class Bench:
    def __init__(self, folder: pathlib.Path, rounds: int, program: str):
        self.folder, self.rounds = folder, rounds
        same = folder / "same.py"
        same.write_text(SAME)
        layout = TOP / "crates" / "kept_tables" / "src" / "layout.rt"
        self.commands = {"ours": [program], "python": [sys.executable, str(same), str(layout)]}
        self.idle = {who: sum(self.timed(who, self.path(who, "idle"), (0, 0, 0, 0, 0))) for who in self.commands}

    def path(self, who: str, name: str) -> pathlib.Path:
        return self.folder / f"{who}-{name}.db"

    def timed(self, who: str, path: pathlib.Path, words: tuple) -> tuple[float, float]:
        """The processor time of one run until it has loaded, and of its seals."""
        command = [*self.commands[who], str(path), *(str(word) for word in words)]
        run = subprocess.Popen(command, stdin=subprocess.PIPE, stdout=subprocess.PIPE)
        run.stdout.readline()
        # It waits now for its input to end.
        load = int(pathlib.Path(f"/proc/{run.pid}/schedstat").read_text().split()[0]) / 1e9
        run.stdin.close()
        _, status, used = os.wait4(run.pid, 0)
        if status != 0:
            sys.exit(f"{command} ends with {status}")
        return load, used.ru_utime + used.ru_stime - load

    def least(self, who: str, name: str, words: tuple, setup: list[tuple]) -> float:
        """The least time of some runs, each over files that were set up anew."""
        least = float("inf")
        for _ in range(self.rounds):
            path = self.path(who, name)
            for end in ENDS:
                pathlib.Path(f"{path}{end}").unlink(missing_ok=True)
            for words_before in setup:
                self.timed(who, path, words_before)
            least = min(least, sum(self.timed(who, path, words)))
        return max(least - self.idle[who], 0.001)

    def seal_behind(self, batches: int) -> float:
        """The time of a seal of one batch behind so many, over copies of one file."""
        grown, copy = self.path("ours", f"behind-{batches}"), self.path("ours", "copy")
        self.timed("ours", grown, (batches // 1000, 0, 1000, 5, 0))
        least = float("inf")
        for _ in range(self.rounds):
            for end in ENDS:
                if (whole := pathlib.Path(f"{grown}{end}")).exists():
                    shutil.copy(whole, f"{copy}{end}")
            least = min(least, self.timed("ours", copy, (SEALS, 0, 1, 5, 0))[1])
        return least / SEALS

    def compare(self, what: str, words: tuple, setup: list[tuple], goal: str) -> float:
        ours = self.least("ours", "file", words, setup)
        theirs = self.least("python", "file", words, setup)
        print(f"{what:44} {ours:7.3f} s, Python {theirs:7.3f} s: {ours / theirs:5.2f} ({goal})", flush=True)
        return ours


def measure_all(folder: pathlib.Path, rounds: int, program: str) -> None:
    bench = Bench(folder, rounds, program)
    print(f"a process and an open of no rows             {bench.idle['ours']:.3f} s, Python {bench.idle['python']:.3f} s; taken off below")
    bench.compare("a seal of 10^4 events", (1, 10000, 0, 0, 0), [], "goal: at most 0.5")
    bench.compare("a seal of 10^5 events", (1, 100000, 0, 0, 0), [], "")
    bench.compare("a seal of a batch of 10^4 rows", (1, 0, 1, 10000, 0), [], "goal: at most 0.5")
    live, acked, kept = (5, 10000, 0, 0, 0), (100, 0, 1000, 5, 1), (100, 0, 1000, 5, 0)
    bench.compare("100 seals of 1000 batches of 5 rows", kept, [], "")
    bench.compare("the same, acknowledged", acked, [], "")
    bench.compare("a start, 50000 live, 10^5 acknowledged", (0, 0, 0, 0, 0), [live, acked], "goal: ours at most 0.5 s")
    bench.compare("a start, 10^5 batches not acknowledged", (0, 0, 0, 0, 0), [kept], "goal: ours at most 2 s")
    small, large = (bench.seal_behind(batches) for batches in (1000, 100000))
    exponent = math.log(large / small) / math.log(100)
    print(f"a seal of a batch behind 10^3 and 10^5        {small * 1000:.3f} ms and {large * 1000:.3f} ms: exponent {exponent:.2f} (goal: at most 0.1)")


def main() -> None:
    rounds = int(sys.argv[1]) if len(sys.argv) > 1 else 3
    if len(sys.argv) > 2:
        folder = pathlib.Path(sys.argv[2]).resolve()
        folder.mkdir(parents=True, exist_ok=True)
        if len(sys.argv) > 3 and not pathlib.Path(sys.argv[3]).exists():
            print(write_program(folder))
            return
        measure_all(folder, rounds, sys.argv[3] if len(sys.argv) > 3 else build(folder))
    else:
        with tempfile.TemporaryDirectory() as made:
            folder = pathlib.Path(made)
            measure_all(folder, rounds, build(folder))


if __name__ == "__main__":
    main()
