#!/usr/bin/env python3
"""Turns per second of the turn lock at 1, 2 and 4 threads, beside std's Mutex, in one run.

The program is written into a temporary folder beside copies of the crates that it needs, proved and built by
`rt run`, and run there: usage: bench/turn_lock.py [ROUNDS]. Each figure is the best of ROUNDS (default 5), since other
work on the machine only takes turns away.
"""

import pathlib
import shutil
import subprocess
import sys
import tempfile

TOP = pathlib.Path(__file__).resolve().parent.parent
CRATES = {"osq_value": "arrayvec", "turn_lock": "osq_value atomic_table"}
THREADS = (1, 2, 4)
TURNS = 1_000_000

PROGRAM = """\
//! Prints, for 1, 2 and 4 threads, how many microseconds a number of turns takes: `THREADS LOCK MUTEX`.
#![tactic(auto)]

ghost use Rattle.std.specs.Prelude.{◌≡◌, [], ◌++◌};
ghost use Rattle.turn_lock.specs.Words.{IsSeatOf, IsAtRest, IsSame};

use osq_value::NoMemory;
use std::alloc::Global;
use std::io;
use std::snapshot::Snapshot;
use std::sync::{Mutex, Wait};
use std::thread::{Threads, join};
use std::time::{Clock, Instant};
use turn_lock::{Stands, TurnLock, TurnSeat};

const TURNS: u64 = @TURNS@;

#[derive(Drop)]
struct Tally {
    count: u64,
}

// Any count stands for any list, so that the turns have nothing to show.
impl Stands for Tally {
    type Start = ();

    type Entry = ();

    ghost stands = { λ t _ es. Unit {0} };
}

fn take_turns<R: Wait>(
    rt: &R,
    lock: &TurnLock<Tally>,
    mut seat: TurnSeat<Tally>,
    turns: u64,
) -> TurnSeat<Tally>
    requires { IsSeatOf lock.now seat × IsAtRest seat }
    ensures { IsSame seat result × IsAtRest result }
{
    for _ in 0..turns {
        let mut turn = lock.turn(rt, &mut seat);
        turn.value.count = turn.value.count.wrapping_add(1);
        lock.pass(&mut seat, turn, Snapshot::of(&()));
    }
    seat
}

fn take_both<R: Threads + Wait + Sync>(
    rt: &R,
    lock: &TurnLock<Tally>,
    one: TurnSeat<Tally>,
    two: TurnSeat<Tally>,
    turns: u64,
) -> (TurnSeat<Tally>, TurnSeat<Tally>)
    requires one { IsSeatOf lock.now one × IsAtRest one }
    requires two { IsSeatOf lock.now two × IsAtRest two }
    ensures first { IsSame one result.0 × IsAtRest result.0 }
    ensures second { IsSame two result.1 × IsAtRest result.1 }
{
    join(
        rt,
        || -> TurnSeat<Tally>
            requires { IsSeatOf lock.now one × IsAtRest one }
            ensures { IsSame one result × IsAtRest result }
        { take_turns(rt, lock, one, turns) },
        || -> TurnSeat<Tally>
            requires { IsSeatOf lock.now two × IsAtRest two }
            ensures { IsSame two result × IsAtRest result }
        { take_turns(rt, lock, two, turns) },
    )
}

fn lock_by_one<R: Threads + Wait + Sync>(rt: &R, alloc: Global) -> Result<u64, NoMemory> {
    let (lock, first) = TurnLock::make(alloc, Tally { count: 0 }, Snapshot::of(&()), 1)?;
    let first = take_turns(rt, &lock, first, TURNS);
    Ok(lock.close(first).count)
}

fn lock_by_two<R: Threads + Wait + Sync>(rt: &R, alloc: Global) -> Result<u64, NoMemory> {
    let (lock, mut first) = TurnLock::make(alloc, Tally { count: 0 }, Snapshot::of(&()), 3)?;
    let one = lock.split(&mut first)?;
    let two = lock.split(&mut first)?;
    let (one, two) = take_both(rt, &lock, one, two, TURNS / 2);
    lock.join(&mut first, one);
    lock.join(&mut first, two);
    Ok(lock.close(first).count)
}

fn lock_by_four<R: Threads + Wait + Sync>(rt: &R, alloc: Global) -> Result<u64, NoMemory> {
    let (lock, mut first) = TurnLock::make(alloc, Tally { count: 0 }, Snapshot::of(&()), 5)?;
    let one = lock.split(&mut first)?;
    let two = lock.split(&mut first)?;
    let three = lock.split(&mut first)?;
    let four = lock.split(&mut first)?;
    let ((one, two), (three, four)) = join(
        rt,
        || -> (TurnSeat<Tally>, TurnSeat<Tally>)
            requires { IsSeatOf lock one × IsAtRest one × IsSeatOf lock two × IsAtRest two }
            ensures { IsSame one result.0 × IsAtRest result.0 × IsSame two result.1 × IsAtRest result.1 }
        { take_both(rt, &lock, one, two, TURNS / 4) },
        || -> (TurnSeat<Tally>, TurnSeat<Tally>)
            requires { IsSeatOf lock three × IsAtRest three × IsSeatOf lock four × IsAtRest four }
            ensures { IsSame three result.0 × IsAtRest result.0 × IsSame four result.1 × IsAtRest result.1 }
        { take_both(rt, &lock, three, four, TURNS / 4) },
    );
    lock.join(&mut first, one);
    lock.join(&mut first, two);
    lock.join(&mut first, three);
    lock.join(&mut first, four);
    Ok(lock.close(first).count)
}

fn count<R: Wait>(rt: &R, shared: &Mutex<u64>, turns: u64) {
    for _ in 0..turns {
        let mut held = shared.lock(rt);
        *held = held.wrapping_add(1);
    }
}

fn mutex_by<R: Threads + Wait + Sync>(rt: &R, threads: u64) -> u64 {
    let mutex = Mutex::new(0);
    let shared = &mutex;
    match threads {
        1 => count(rt, shared, TURNS),
        2 => {
            join(
                rt,
                || count(rt, shared, TURNS / 2),
                || count(rt, shared, TURNS / 2),
            );
        }
        _ => {
            join(
                rt,
                || {
                    join(
                        rt,
                        || count(rt, shared, TURNS / 4),
                        || count(rt, shared, TURNS / 4),
                    )
                },
                || {
                    join(
                        rt,
                        || count(rt, shared, TURNS / 4),
                        || count(rt, shared, TURNS / 4),
                    )
                },
            );
        }
    }
    mutex.into_inner()
}

fn main(rt: HostRuntime) -> io::Result<()> {
    for threads in [1u64, 2, 4] {
        let start = Instant::now(&rt)?;
        let turns = match threads {
            1 => lock_by_one(&rt, rt.alloc()),
            2 => lock_by_two(&rt, rt.alloc()),
            _ => lock_by_four(&rt, rt.alloc()),
        };
        let lock = start.elapsed(&rt)?.as_micros();
        let start = Instant::now(&rt)?;
        let counted = mutex_by(&rt, threads);
        let mutex = start.elapsed(&rt)?.as_micros();
        println!(&rt; "{threads} {lock} {mutex} {} {counted}", turns.unwrap_or(0))?;
    }
    Ok(())
}
"""

INVARIANT = """\
use Rattle.std.proofs.Common.{◌≡◌}
use Rattle.turn_lock.specs.Words.{IsSame, IsAtRest}
use Rattle.turn_bench.proofs.take_turns.Given as goal

abbrev pub invariant-loop : goal.invariant-loop
invariant-loop g l = IsSame l.initial.seat l.seat × IsAtRest l.seat
"""


def write_program(folder: pathlib.Path) -> pathlib.Path:
    """Writes a repository of the program and of the crates below it, and answers the program's folder."""
    lines = []
    for crate, below in CRATES.items():
        shutil.copytree(
            TOP / "crates" / crate,
            folder / "crates" / crate,
            ignore=shutil.ignore_patterns("out", "must-fail"),
        )
        lines.append(f"{crate}: {below}")
    lines.append("turn_bench: osq_value turn_lock")
    (folder / "crates.txt").write_text("\n".join(lines) + "\n")
    shutil.copy(TOP / "HANDLES", folder / "HANDLES")
    program = folder / "crates" / "turn_bench"
    (program / "src").mkdir(parents=True)
    (program / "src" / "main.rt").write_text(PROGRAM.replace("@TURNS@", str(TURNS)))
    loop = program / "proofs" / "take_turns"
    loop.mkdir(parents=True)
    (loop / "Invariants.antt").write_text(INVARIANT)
    return program


def measure(program: pathlib.Path) -> dict[int, tuple[int, int]]:
    """Runs the program once: the microseconds of the lock and of the mutex, by threads."""
    run = subprocess.run(
        [str(program / "out" / "turn_bench")], check=True, capture_output=True, text=True
    )
    figures = {}
    for line in run.stdout.splitlines():
        threads, lock, mutex, taken, counted = (int(word) for word in line.split())
        if taken != TURNS or counted != TURNS:
            sys.exit(f"turns were lost: {line}")
        figures[threads] = (lock, mutex)
    return figures


def main() -> None:
    rounds = int(sys.argv[1]) if len(sys.argv) > 1 else 5
    with tempfile.TemporaryDirectory() as folder:
        program = write_program(pathlib.Path(folder))
        built = subprocess.run(
            ["rt", "run", "--jobs", "1"], cwd=program, capture_output=True, text=True
        )
        if built.returncode != 0:
            sys.exit(built.stdout + built.stderr)
        runs = [measure(program) for _ in range(rounds)]
    print(f"{TURNS} turns, the best of {rounds} runs")
    print("threads  lock turns/s  mutex turns/s  lock's time / mutex's")
    for threads in THREADS:
        lock = min(run[threads][0] for run in runs)
        mutex = min(run[threads][1] for run in runs)
        print(
            f"{threads:7}  {TURNS * 10**6 // lock:12}  {TURNS * 10**6 // mutex:13}  {lock / mutex:.2f}"
        )


if __name__ == "__main__":
    main()
