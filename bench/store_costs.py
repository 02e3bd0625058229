#!/usr/bin/env python3
"""What the calls of an image and of cursors cost, and how that grows, in one run.

The program is written into a temporary folder beside copies of the crates that it needs, proved and built by `rt run`, and
run there: usage: bench/store_costs.py [ROUNDS]. Each figure is the least of ROUNDS (default 5), since other work on the
machine only takes time away. An append has the nanoseconds of an event among so many live ones, an expiry those of an event
that goes, finding the places of runs and a look at all queries those of a query. The exponent is that of the whole time
between two sizes: 1.0 is in step. Beside the look stands a walk that finds the run of each query anew.
"""

import math
import pathlib
import shutil
import subprocess
import sys
import tempfile

TOP = pathlib.Path(__file__).resolve().parent.parent
ABOVE = ("event_store", "query_cursors", "entry_summary")

PROGRAM = """\
//! Prints what calls of an image and of cursors take, a line each: `CALL SIZE PART NANOSECONDS`.
#![tactic(auto)]

ghost use Rattle.std.specs.Prelude.{◌≡◌, ◌<◌, ◌≤◌, All, IfOk, length};
ghost use Rattle.entry_model.specs.Fits.{Fits};
ghost use Rattle.entry_model.specs.Legal.{IsEvent};
ghost use Rattle.entry_model.specs.Reserved.{HaveOwnKeys};
ghost use Rattle.query_cursors.specs.Places.{places_of};

use entry_model::restored::{Restored, Run, RunList};
use entry_summary::distinct::have_own_keys;
use event_store::{Image, Steps};
use osq_value::{Event, EventList, NoMemory, Row, Str, TableId, Value};
use pack_rules::schedule::{Form, Mode, QueryKey, Schedule, Scheduled, ScheduledList};
use query_cursors::Cursors;
use std::alloc::Global;
use std::io;
use std::marker::Brand;
use std::sync::ledger::{Blank, Ledger};
use std::time::{Clock, Instant};

/// One change of a file.
#[tactic(auto, unfolding(osq_value::specs::Catalogue::width_of, osq_value::specs::Catalogue::columns_of, osq_value::specs::Catalogue::tables))]
fn change(alloc: Global) -> Result<Event, NoMemory>
    ensures { IfOk result IsEvent }
{
    let mut row = Row::with_capacity(alloc, 10)?;
    row.push(Value::Null)?;
    row.push(Value::Null)?;
    row.push(Value::Null)?;
    row.push(Value::Null)?;
    row.push(Value::Null)?;
    row.push(Value::Null)?;
    row.push(Value::Null)?;
    row.push(Value::Null)?;
    row.push(Value::Null)?;
    row.push(Value::Null)?;
    Ok(Event { table: TableId::FILE_EVENTS, row })
}

/// So many changes.
fn changes(alloc: Global, count: u64) -> Result<EventList, NoMemory>
    ensures { IfOk result (λ events. All IsEvent events) }
{
    let mut events = EventList::new(alloc);
    for _ in 0..count {
        events.push(change(alloc)?)?;
    }
    Ok(events)
}

/// The values of an empty list.
fn nothing(alloc: Global) -> Restored
    ensures { Fits result }
{
    Restored::empty(alloc)
}

fn append_counted<L: Ledger>(
    image: &mut Image,
    events: EventList,
    moment: u64,
    blank: Blank,
) -> Result<(), NoMemory>
    requires events { All IsEvent events }
    requires name { blank.name ≡ L.name }
    requires parts { blank.parts ≡ L.parts }
    requires some { 0 < blank.parts }
{
    let mut steps = Steps::<L>::new(blank);
    match image.append(events, moment, &mut steps) {
        Ok(_) => Ok(()),
        Err(_) => Err(NoMemory),
    }
}

fn append(image: &mut Image, events: EventList, moment: u64) -> Result<(), NoMemory>
    requires { All IsEvent events }
{
    append_counted::<Brand>(image, events, moment, Blank::new(1))
}

/// An image with so many changes, of which the first ones are from the moment 1000 and the others from 2000.
fn image_of(alloc: Global, old: u64, young: u64) -> Result<Image, NoMemory> {
    let mut image = Image::restore(alloc, &nothing(alloc))?;
    append(&mut image, changes(alloc, old)?, 1000)?;
    append(&mut image, changes(alloc, young)?, 2000)?;
    Ok(image)
}

/// Appends a thousand changes twenty times to so many live ones.
fn time_appends<R: Clock>(rt: &R, alloc: Global, live: u64) -> Result<u128, NoMemory> {
    let mut image = image_of(alloc, 0, live)?;
    let mut total = 0u128;
    for _ in 0..20 {
        let events = changes(alloc, 1000)?;
        let Ok(start) = Instant::now(rt) else {
            return Err(NoMemory);
        };
        append(&mut image, events, 2000)?;
        let Ok(taken) = start.elapsed(rt) else {
            return Err(NoMemory);
        };
        total = total.wrapping_add(taken.as_nanos());
    }
    Ok(total)
}

/// Finds and drops the old changes among so many.
fn time_expiry<R: Clock>(rt: &R, alloc: Global, old: u64, live: u64) -> Result<u128, NoMemory> {
    let mut image = image_of(alloc, old, live.saturating_sub(old))?;
    let Ok(start) = Instant::now(rt) else {
        return Err(NoMemory);
    };
    let floor = image.floor_owed(TableId::FILE_EVENTS, 500, 1_000_000_000, 2000);
    let Some(found) = floor else {
        return Err(NoMemory);
    };
    image.expire(TableId::FILE_EVENTS, found);
    let Ok(taken) = start.elapsed(rt) else {
        return Err(NoMemory);
    };
    if found != old {
        return Err(NoMemory);
    }
    Ok(taken.as_nanos())
}

/// The key of the query of this number.
fn key(alloc: Global, number: u64) -> Result<QueryKey, NoMemory> {
    Ok(QueryKey::read(
        Str::from_string(format!(in alloc; "pack/some_pack/query_{number}")?),
        Str::of(alloc, "SELECT target_path, action, time FROM file_events")?,
        Mode::Evented,
    ))
}

/// So many queries, at most 10000.
fn schedule_of(alloc: Global, count: u64) -> Result<Schedule, NoMemory>
    ensures { IfOk result (λ schedule. length schedule.queries ≤ 10000) }
{
    let mut queries = ScheduledList::new(alloc);
    for number in 0..count {
        queries.push(Scheduled {
            key: key(alloc, number)?,
            interval: 60,
        })?;
    }
    if queries.len() > 10000 {
        return Err(NoMemory);
    }
    Ok(Schedule {
        queries,
        events_expiry: 3600,
        events_max: 50000,
        form: Form::Event,
    })
}

/// A run of each of so many queries.
fn runs_of(alloc: Global, count: u64) -> Result<RunList, NoMemory>
    ensures { IfOk result HaveOwnKeys }
{
    let mut runs = RunList::new(alloc);
    for number in 0..count {
        runs.push(Run {
            key: key(alloc, count - 1 - number)?,
            number,
            hi: 0,
            moment: 1000,
            count: 1,
        })?;
    }
    if !have_own_keys(runs.as_slice()) {
        return Err(NoMemory);
    }
    Ok(runs)
}

/// Cursors that know the places of a schedule's runs.
fn placed(alloc: Global, runs: RunList, schedule: &Schedule) -> Result<Cursors, NoMemory>
    requires { HaveOwnKeys runs }
    ensures { IfOk result (λ cursors. cursors.places ≡ places_of cursors.runs schedule.now.queries) }
{
    let mut cursors = Cursors::restore(alloc, runs);
    let places = cursors.find_places(alloc, schedule.queries.as_slice())?;
    cursors.set_places(places);
    Ok(cursors)
}

/// How many of so many looks at all queries found none that is due.
fn look(cursors: &Cursors, schedule: &Schedule, claimed: &[bool], rounds: u64) -> u64
    requires count { length schedule.now.queries ≤ 10000 }
    requires claims { length claimed.now ≡ length schedule.now.queries }
    requires places { cursors.now.places ≡ places_of cursors.now.runs schedule.now.queries }
{
    let mut none = 0u64;
    for _ in 0..rounds {
        if cursors.next_due(schedule, claimed, 0, 1030).is_none() {
            none = none.wrapping_add(1);
        }
    }
    none
}

/// How many queries have a run, each found by a walk over the runs.
fn walk(cursors: &Cursors, schedule: &Schedule) -> u64 {
    let mut found = 0u64;
    for scheduled in schedule.queries.as_slice() {
        if cursors.run(&scheduled.key).is_some() {
            found = found.wrapping_add(1);
        }
    }
    found
}

/// Finds the run of each of so many queries by a walk.
fn time_walk<R: Clock>(rt: &R, alloc: Global, count: u64) -> Result<u128, NoMemory> {
    let schedule = schedule_of(alloc, count)?;
    let cursors = Cursors::restore(alloc, runs_of(alloc, count)?);
    let Ok(start) = Instant::now(rt) else {
        return Err(NoMemory);
    };
    let found = walk(&cursors, &schedule);
    let Ok(taken) = start.elapsed(rt) else {
        return Err(NoMemory);
    };
    if found != count {
        return Err(NoMemory);
    }
    Ok(taken.as_nanos())
}

/// Finds the places of so many queries' runs, and looks a hundred times which is due.
fn time_due<R: Clock>(rt: &R, alloc: Global, count: u64) -> Result<(u128, u128), NoMemory> {
    let schedule = schedule_of(alloc, count)?;
    let runs = runs_of(alloc, count)?;
    let claimed = vec![in alloc; false; schedule.queries.len()]?;
    let Ok(start) = Instant::now(rt) else {
        return Err(NoMemory);
    };
    let cursors = placed(alloc, runs, &schedule)?;
    let Ok(placing) = start.elapsed(rt) else {
        return Err(NoMemory);
    };
    let Ok(start) = Instant::now(rt) else {
        return Err(NoMemory);
    };
    let none = look(&cursors, &schedule, claimed.as_slice(), 100);
    let Ok(looking) = start.elapsed(rt) else {
        return Err(NoMemory);
    };
    if none != 100 {
        return Err(NoMemory);
    }
    Ok((placing.as_nanos(), looking.as_nanos()))
}

fn main(rt: HostRuntime) -> io::Result<()> {
    let alloc = rt.alloc();
    for live in [1000u64, 10_000, 100_000] {
        let taken = time_appends(&rt, alloc, live).unwrap_or(0);
        println!(&rt; "append {live} 20000 {taken}")?;
    }
    for (live, old) in [(1000u64, 100u64), (10_000, 100), (100_000, 100), (100_000, 1000), (100_000, 10_000)] {
        let taken = time_expiry(&rt, alloc, old, live).unwrap_or(0);
        println!(&rt; "expire {live} {old} {taken}")?;
    }
    for count in [10u64, 100, 1000, 10_000] {
        let (placing, looking) = time_due(&rt, alloc, count).unwrap_or((0, 0));
        println!(&rt; "place {count} {count} {placing}")?;
        println!(&rt; "due {count} 100 {looking}")?;
        let walking = time_walk(&rt, alloc, count).unwrap_or(0);
        println!(&rt; "walk {count} 1 {walking}")?;
    }
    Ok(())
}
"""

INVARIANT = """\
use Rattle.std.specs.Prelude.{All}
use Rattle.entry_model.specs.Legal.{IsEvent}
use Rattle.store_costs.proofs.changes.Given as goal

abbrev pub invariant-loop : goal.invariant-loop
invariant-loop l = All IsEvent l.events
"""

LEDGER = """\
use Rattle.store_costs.proofs.append.Given as goal

abbrev pub ghosts-append_counted : goal.ghosts-append_counted
ghosts-append_counted a = record { name = a.blank.name; parts = a.blank.parts }
"""


def crates_below(tops: tuple[str, ...]) -> dict[str, str]:
    """The crates of the repository that these need, each with its line of crates.txt."""
    lines = {}
    for line in (TOP / "crates.txt").read_text().splitlines():
        words = line.split("#")[0].split(":", 1)
        if len(words) == 2:
            lines[words[0].split()[0]] = (line, words[1].split())
    wanted = list(tops)
    found = {}
    while wanted:
        name = wanted.pop()
        if name in lines and name not in found:
            found[name] = lines[name][0]
            wanted.extend(lines[name][1])
    return found


def write_program(folder: pathlib.Path) -> pathlib.Path:
    """Writes a repository of the program and of the crates below it, and answers the program's folder."""
    crates = crates_below(ABOVE)
    for crate in crates:
        shutil.copytree(
            TOP / "crates" / crate,
            folder / "crates" / crate,
            ignore=shutil.ignore_patterns("out", "must-fail"),
        )
    below = " ".join(sorted(crates))
    lines = list(crates.values()) + [f"store_costs: {below}"]
    (folder / "crates.txt").write_text("\n".join(lines) + "\n")
    shutil.copy(TOP / "HANDLES", folder / "HANDLES")
    program = folder / "crates" / "store_costs"
    (program / "src").mkdir(parents=True)
    (program / "src" / "main.rt").write_text(PROGRAM)
    loop = program / "proofs" / "changes"
    loop.mkdir(parents=True)
    (loop / "Invariants.antt").write_text(INVARIANT)
    ledger = program / "proofs" / "append"
    ledger.mkdir(parents=True)
    (ledger / "Invariants.antt").write_text(LEDGER)
    return program


def measure(program: pathlib.Path) -> dict[tuple[str, int, int], int]:
    """Runs the program once: the nanoseconds by call, size and part."""
    run = subprocess.run(
        [str(program / "out" / "store_costs")], check=True, capture_output=True, text=True
    )
    figures = {}
    for line in run.stdout.splitlines():
        call, size, part, taken = line.split()
        if int(taken) == 0:
            sys.exit(f"a call failed: {line}")
        figures[call, int(size), int(part)] = int(taken)
    return figures


def show(best: dict[tuple[str, int, int], int]) -> None:
    """Prints each figure by the piece of its work, with the exponent since the figure before."""
    print("append: live events, ns an event")
    for live in (1000, 10_000, 100_000):
        print(f"  {live:7}  {best['append', live, 20_000] / 20_000:8.1f}")
    print("expire: live events, events that go, ns an event that goes")
    for live, old in ((1000, 100), (10_000, 100), (100_000, 100), (100_000, 1000), (100_000, 10_000)):
        print(f"  {live:7} {old:7}  {best['expire', live, old] / old:8.1f}")
    for call, what in (("place", "finding the places of runs"), ("due", "a look at all queries"), ("walk", "a walk for each query")):
        print(f"{what}: queries, ns a query, exponent since the line above")
        before = None
        for count in (10, 100, 1000, 10_000):
            part = {"place": count, "due": 100, "walk": 1}[call]
            taken = best[call, count, part] / (100 if call == "due" else 1)
            grows = "" if before is None else f"{math.log10(taken / before):6.2f}"
            print(f"  {count:7}  {taken / count:10.1f}  {grows}")
            before = taken


def main() -> None:
    rounds = int(sys.argv[1]) if len(sys.argv) > 1 else 5
    with tempfile.TemporaryDirectory() as folder:
        program = write_program(pathlib.Path(folder))
        built = subprocess.run(
            ["rt", "run", "--jobs", "1"], cwd=program, capture_output=True, text=True
        )
        if built.returncode != 0:
            sys.exit(built.stdout + built.stderr)
        runs = [measure(program) for _ in range(rounds)]
    best = {key: min(run[key] for run in runs) for key in runs[0]}
    print(f"the least of {rounds} runs")
    show(best)


if __name__ == "__main__":
    main()
