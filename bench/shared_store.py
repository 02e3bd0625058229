#!/usr/bin/env python3
"""Appends per second by 1, 2 and 4 seats of one store, and cuts per second of a store with many live events, in one run.

Usage: bench/shared_store.py [ROUNDS]: each figure is the best of ROUNDS (default 3), since other work on the machine only
takes turns away. An append adds one event of `file_events`. A cut is claimed and given back, and sees all live events.
The program is written into a temporary folder beside copies of the crates that it needs, proved and built by `rt run`, and
run there. What a check of these crates kept on this machine is used.
"""

import pathlib
import shutil
import subprocess
import sys
import tempfile

TOP = pathlib.Path(__file__).resolve().parent.parent
NAME = "store_bench"
SEATS = (1, 2, 4)
APPENDS = 40_000
LIVE = 50_000
CUTS = 40

PROGRAM = """\
//! Prints how many microseconds appends by 1, 2 and 4 seats take, and cuts: a line `WHAT COUNT MICROSECONDS` for each.
#![tactic(auto)]

ghost use Rattle.std.specs.Prelude.{◌≡◌, ◌+◌, ◌<◌, ◌≤◌, IfOk};
ghost use Rattle.osq_value.specs.Catalogue.{width_of};
ghost use Rattle.entry_model.specs.Legal.{IsEvent};
ghost use Rattle.entry_model.specs.Schedules.{IsRunnable, IsSound};
ghost use Rattle.session_state.specs.Readings.{IsReading};
ghost use Rattle.turn_lock.specs.Words.{number, seats_out, split_off, IsAtRest, IsFirst, IsSame};
ghost use Rattle.shared_store.specs.Words.{most_seats, IsSeatOf};

use entry_model::restored::Restored;
use osq_value::{Event, EventList, NoMemory, Reading, Row, Str, TableId, TextList, Value};
use pack_rules::schedule::{Form, Mode, QueryKey, Schedule, Scheduled, ScheduledList};
use shared_store::{Store, StoreSeat};
use sql_query::answers::is_evented;
use sql_texts::text::query_of_text;
use std::alloc::Global;
use std::io;
use std::sync::Wait;
use std::thread::{Threads, join};
use std::time::{Clock, Instant};

const APPENDS: u64 = @APPENDS@;

const LIVE: u64 = @LIVE@;

const CUTS: u64 = @CUTS@;

const PATHS: &str = "SELECT target_path FROM file_events";

#[tactic(auto, unfolding(sql_texts::specs::Meaning::is_accepted, sql_texts::specs::Meaning::names_evented))]
fn paths(alloc: Global) -> Result<Scheduled, NoMemory>
    ensures { IfOk result IsRunnable }
{
    let Ok(query) = query_of_text(alloc, PATHS) else {
        return Err(NoMemory);
    };
    if !is_evented(&query) {
        return Err(NoMemory);
    }
    Ok(Scheduled {
        key: QueryKey::read(
            Str::of(alloc, "fe")?,
            Str::of(alloc, PATHS)?,
            Mode::Evented,
        ),
        interval: 60,
    })
}

fn schedule(alloc: Global) -> Result<Schedule, NoMemory>
    ensures { IfOk result IsSound }
{
    let mut queries = ScheduledList::new(alloc);
    queries.push(paths(alloc)?)?;
    Ok(Schedule {
        queries,
        events_expiry: 3600,
        events_max: 50000,
        form: Form::Event,
    })
}

fn opened<R: Wait>(rt: &R, alloc: Global, seats: u32) -> Result<(Store, StoreSeat), NoMemory>
    requires { 1 ≤ seats }
    ensures seat { IfOk result (λ r. IsSeatOf r.0 r.1 × IsAtRest r.1 × IsFirst r.1) }
    ensures room { IfOk result (λ r. (most_seats r.0 ≡ seats) × (seats_out r.1 ≡ 1) × (split_off r.1 ≡ 0)) }
{
    let (store, mut first) = Store::begin(alloc, Restored::empty(alloc), seats)?;
    let schedule = schedule(alloc)?;
    store.configure(rt, alloc, &mut first, TextList::new(alloc), schedule, 1000)?;
    match store.tick(rt, &mut first, 1000) {
        Ok(()) => Ok((store, first)),
        Err(_) => Err(NoMemory),
    }
}

#[tactic(auto, unfolding(osq_value::specs::Catalogue::width_of, osq_value::specs::Catalogue::columns_of, osq_value::specs::Catalogue::tables))]
fn file(alloc: Global, path: &str) -> Result<Event, NoMemory>
    ensures { IfOk result IsEvent }
{
    let mut row = Row::new(alloc);
    row.push(Value::Text(Str::of(alloc, path)?))?;
    row.push(Value::Null)?;
    row.push(Value::Null)?;
    row.push(Value::Null)?;
    row.push(Value::Null)?;
    row.push(Value::Null)?;
    row.push(Value::Null)?;
    row.push(Value::Null)?;
    row.push(Value::Null)?;
    row.push(Value::Null)?;
    Ok(Event { table: TableId::FILE_EVENTS, row })
}

fn reading(alloc: Global, taken: u64, count: u64) -> Result<Reading, NoMemory>
    ensures { IfOk result IsReading }
{
    let mut events = EventList::new(alloc);
    for _ in 0..count {
        events.push(file(alloc, "/etc/osquery/osquery.conf")?)?;
    }
    Ok(Reading::Events {
        taken,
        events,
        skipped: 0,
    })
}

fn add<R: Wait>(
    rt: &R,
    alloc: Global,
    store: &Store,
    seat: &mut StoreSeat,
    source: &Str,
    reading: Reading,
) -> bool
    requires seat { IsSeatOf store.now seat.old × IsAtRest seat.old }
    requires reading { IsReading reading }
    ensures { IsSame seat.old seat.new × IsAtRest seat.new }
{
    store.append(rt, alloc, seat, source, reading).is_ok()
}

fn add_one<R: Wait>(
    rt: &R,
    alloc: Global,
    store: &Store,
    seat: &mut StoreSeat,
    source: &Str,
    taken: u64,
) -> bool
    requires { IsSeatOf store.now seat.old × IsAtRest seat.old }
    ensures { IsSame seat.old seat.new × IsAtRest seat.new }
{
    match reading(alloc, taken, 1) {
        Ok(reading) => add(rt, alloc, store, seat, source, reading),
        Err(NoMemory) => false,
    }
}

fn add_many<R: Wait>(
    rt: &R,
    alloc: Global,
    store: &Store,
    mut seat: StoreSeat,
    source: &Str,
    turns: u64,
) -> StoreSeat
    requires { IsSeatOf store.now seat × IsAtRest seat }
    ensures { IsSame seat result × IsAtRest result }
{
    for at in 0..turns {
        let _added = add_one(rt, alloc, store, &mut seat, source, at + 1);
    }
    seat
}

fn add_by_two<R: Threads + Wait + Sync>(
    rt: &R,
    alloc: Global,
    store: &Store,
    one: StoreSeat,
    two: StoreSeat,
    sources: [&Str; 2],
    turns: u64,
) -> (StoreSeat, StoreSeat)
    requires one { IsSeatOf store.now one × IsAtRest one }
    requires two { IsSeatOf store.now two × IsAtRest two }
    ensures first { IsSame one result.0 × IsAtRest result.0 }
    ensures second { IsSame two result.1 × IsAtRest result.1 }
{
    let [left, right] = sources;
    join(
        rt,
        || -> StoreSeat
            requires { IsSeatOf store.now one × IsAtRest one }
            ensures { IsSame one result × IsAtRest result }
        { add_many(rt, alloc, store, one, left, turns) },
        || -> StoreSeat
            requires { IsSeatOf store.now two × IsAtRest two }
            ensures { IsSame two result × IsAtRest result }
        { add_many(rt, alloc, store, two, right, turns) },
    )
}

fn last<R: Wait>(
    rt: &R,
    alloc: Global,
    store: &Store,
    seat: &mut StoreSeat,
) -> Result<u64, NoMemory>
    requires { IsSeatOf store.now seat.old × IsAtRest seat.old }
    ensures { IsSame seat.old seat.new × IsAtRest seat.new }
{
    match store.claim_cut(rt, alloc, seat)? {
        None => Ok(0),
        Some(cut) => {
            let last = cut.hi();
            store.release(rt, seat, cut);
            Ok(last)
        }
    }
}

fn by_one<R: Wait>(rt: &R, alloc: Global) -> Result<u64, NoMemory> {
    let (store, seat) = opened(rt, alloc, 1)?;
    let source = Str::of(alloc, "a")?;
    let mut seat = add_many(rt, alloc, &store, seat, &source, APPENDS);
    last(rt, alloc, &store, &mut seat)
}

fn by_two<R: Threads + Wait + Sync>(rt: &R, alloc: Global) -> Result<u64, NoMemory> {
    let (store, mut first) = opened(rt, alloc, 3)?;
    let sources = [Str::of(alloc, "a")?, Str::of(alloc, "b")?];
    let [left, right] = &sources;
    let one = store.split(&mut first)?;
    let two = store.split(&mut first)?;
    let (one, two) = add_by_two(rt, alloc, &store, one, two, [left, right], APPENDS / 2);
    store.join(&mut first, one);
    store.join(&mut first, two);
    last(rt, alloc, &store, &mut first)
}

fn by_four<R: Threads + Wait + Sync>(rt: &R, alloc: Global) -> Result<u64, NoMemory> {
    let (store, mut first) = opened(rt, alloc, 5)?;
    let a = &Str::of(alloc, "a")?;
    let b = &Str::of(alloc, "b")?;
    let c = &Str::of(alloc, "c")?;
    let d = &Str::of(alloc, "d")?;
    let one = store.split(&mut first)?;
    let two = store.split(&mut first)?;
    let three = store.split(&mut first)?;
    let four = store.split(&mut first)?;
    let ((one, two), (three, four)) = join(
        rt,
        || -> (StoreSeat, StoreSeat)
            requires { IsSeatOf store one × IsAtRest one × IsSeatOf store two × IsAtRest two }
            ensures { IsSame one result.0 × IsAtRest result.0 × IsSame two result.1 × IsAtRest result.1 }
        { add_by_two(rt, alloc, &store, one, two, [a, b], APPENDS / 4) },
        || -> (StoreSeat, StoreSeat)
            requires { IsSeatOf store three × IsAtRest three × IsSeatOf store four × IsAtRest four }
            ensures { IsSame three result.0 × IsAtRest result.0 × IsSame four result.1 × IsAtRest result.1 }
        { add_by_two(rt, alloc, &store, three, four, [c, d], APPENDS / 4) },
    );
    store.join(&mut first, one);
    store.join(&mut first, two);
    store.join(&mut first, three);
    store.join(&mut first, four);
    last(rt, alloc, &store, &mut first)
}

fn filled<R: Wait>(rt: &R, alloc: Global) -> Result<(Store, StoreSeat), NoMemory>
    ensures { IfOk result (λ r. IsSeatOf r.0 r.1 × IsAtRest r.1) }
{
    let (store, mut seat) = opened(rt, alloc, 1)?;
    let source = Str::of(alloc, "a")?;
    let reading = reading(alloc, 1, LIVE)?;
    let _added = add(rt, alloc, &store, &mut seat, &source, reading);
    Ok((store, seat))
}

fn cuts<R: Wait>(rt: &R, alloc: Global, store: &Store, mut seat: StoreSeat) -> Result<u64, NoMemory>
    requires { IsSeatOf store.now seat × IsAtRest seat }
{
    let mut least = LIVE;
    for _ in 0..CUTS {
        least = least.min(last(rt, alloc, store, &mut seat)?);
    }
    Ok(least)
}

fn main(rt: HostRuntime) -> io::Result<()> {
    let alloc = rt.alloc();
    for seats in [1u64, 2, 4] {
        let start = Instant::now(&rt)?;
        let last = match seats {
            1 => by_one(&rt, alloc),
            2 => by_two(&rt, alloc),
            _ => by_four(&rt, alloc),
        };
        let time = start.elapsed(&rt)?.as_micros();
        println!(&rt; "{seats} {} {time}", last.unwrap_or(0))?;
    }
    if let Ok((store, seat)) = filled(&rt, alloc) {
        let start = Instant::now(&rt)?;
        let least = cuts(&rt, alloc, &store, seat);
        let time = start.elapsed(&rt)?.as_micros();
        println!(&rt; "cut {} {time}", least.unwrap_or(0))?;
    }
    Ok(())
}
"""

INVARIANTS = {
    "reading": """\
use Rattle.std.specs.Prelude.{All}
use Rattle.entry_model.specs.Legal.{IsEvent}
use Rattle.store_bench.proofs.reading.Given as goal

abbrev pub invariant-loop : goal.invariant-loop
invariant-loop l = All IsEvent l.events
""",
    "add_many": """\
use Rattle.turn_lock.specs.Words.{IsSame, IsAtRest}
use Rattle.store_bench.proofs.add_many.Given as goal

abbrev pub invariant-loop-at : goal.invariant-loop-at
invariant-loop-at g l = IsSame l.initial.seat l.seat × IsAtRest l.seat
""",
    "cuts": """\
use Rattle.turn_lock.specs.Words.{IsAtRest}
use Rattle.shared_store.specs.Words.{IsSeatOf}
use Rattle.store_bench.proofs.cuts.Given as goal

abbrev pub invariant-loop : goal.invariant-loop
invariant-loop g l = IsSeatOf l.store l.seat × IsAtRest l.seat
""",
}


def write_program(folder: pathlib.Path) -> pathlib.Path:
    """Writes a repository of the program and of the crates below it, and answers the program's folder."""
    lines = {line.split(" ", 1)[0].rstrip(":"): line for line in (TOP / "crates.txt").read_text().splitlines() if line}
    wanted, needed = ["shared_store"], set()
    while wanted:
        crate = wanted.pop()
        if crate in lines and crate not in needed:
            needed.add(crate)
            wanted.extend(lines[crate].split(":", 1)[1].split())
    kept = []
    (folder / "crates").mkdir()
    for crate, line in lines.items():
        if crate in needed:
            shutil.copytree(
                TOP / "crates" / crate,
                folder / "crates" / crate,
                ignore=shutil.ignore_patterns("out", "must-fail"),
            )
            kept.append(line)
    kept.append(f"{NAME}: {' '.join(sorted(needed))}")
    (folder / "crates.txt").write_text("\n".join(kept) + "\n")
    shutil.copy(TOP / "HANDLES", folder / "HANDLES")
    program = folder / "crates" / NAME
    (program / "src").mkdir(parents=True)
    text = PROGRAM.replace("@APPENDS@", str(APPENDS)).replace("@LIVE@", str(LIVE)).replace("@CUTS@", str(CUTS))
    (program / "src" / "main.rt").write_text(text)
    for function, text in INVARIANTS.items():
        proof = program / "proofs" / function
        proof.mkdir(parents=True)
        (proof / "Invariants.antt").write_text(text)
    return program


def measure(program: pathlib.Path) -> dict[str, int]:
    """Runs the program once: the microseconds of each kind of work."""
    run = subprocess.run([str(program / "out" / NAME)], check=True, capture_output=True, text=True)
    figures = {}
    for line in run.stdout.splitlines():
        what, last, time = line.split()
        if int(last) != (LIVE if what == "cut" else APPENDS):
            sys.exit(f"events were lost: {line}")
        figures[what] = int(time)
    return figures


def main() -> None:
    rounds = int(sys.argv[1]) if len(sys.argv) > 1 else 3
    with tempfile.TemporaryDirectory() as name:
        program = write_program(pathlib.Path(name))
        built = subprocess.run(["rt", "run", "--jobs", "1"], cwd=program, capture_output=True, text=True)
        if built.returncode != 0:
            sys.exit(built.stdout + built.stderr)
        runs = [measure(program) for _ in range(rounds)]
    print(f"the best of {rounds} runs")
    print("seats  appends/s")
    for seats in SEATS:
        time = min(run[str(seats)] for run in runs)
        print(f"{seats:5}  {APPENDS * 10**6 // time:9}")
    time = min(run["cut"] for run in runs)
    print(f"cuts/s of a store with {LIVE} live events: {CUTS * 10**6 / time:.1f}")


if __name__ == "__main__":
    main()
