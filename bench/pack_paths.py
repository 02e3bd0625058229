#!/usr/bin/env python3
"""Processor time of `osqd check` over packs that are given as paths, by their number: the time a pack should stay the same.

Usage: bench/pack_paths.py [--program OSQD]... [ROUNDS [NUMBERS..]]. Without --program the program is proved and built by
`rt run` in a clone of the repository, which takes as long as that does; two programs are measured in the same run, one
after another at each number. NUMBERS default to 5000 10000 20000 40000; each figure is the least of ROUNDS (default 3),
by the processor time of the child. Two configurations: `read`, whose packs all name one file without queries, and
`left out`, whose packs name a file that is refused, so that each is left out and a line tells so.

Status: 0 where the time a pack at the greatest number is at most twice that at the least, for the last program; else 1.
"""

import argparse
import json
import os
import pathlib
import subprocess
import sys
import tempfile

TOP = pathlib.Path(__file__).resolve().parent.parent
KINDS = {"read": '{"queries": {}}', "left out": '{"queries": 0}'}


def built(folder: pathlib.Path) -> str:
    """Builds the program in a clone, and returns its path."""
    subprocess.run(["git", "clone", "-q", str(TOP), str(folder)], check=True)
    crate = folder / "crates" / "osqd"
    subprocess.run(["rt", "run", "--", "sessions"], cwd=crate, check=False, stdout=subprocess.DEVNULL, stderr=subprocess.DEVNULL)
    return str(crate / "out" / "osqd")


def config_of(folder: pathlib.Path, kind: str, packs: int) -> str:
    """Writes a configuration of so many packs, and returns its path."""
    file = folder / f"{kind.replace(' ', '_')}.json"
    file.write_text(KINDS[kind], encoding="utf-8")
    config = folder / f"{kind.replace(' ', '_')}_{packs}.conf"
    names = {f"pack{number:06d}": str(file) for number in range(packs)}
    config.write_text(json.dumps({"packs": names}), encoding="utf-8")
    return str(config)


def seconds(program: str, config: str) -> float:
    """The processor time of one `check`."""
    child = subprocess.Popen(
        [program, "check", "--config", config, "--host", "h"], stdout=subprocess.DEVNULL, stderr=subprocess.DEVNULL
    )
    _, status, used = os.wait4(child.pid, 0)
    if os.waitstatus_to_exitcode(status) != 0:
        raise SystemExit(f"{config}: status {os.waitstatus_to_exitcode(status)}")
    return used.ru_utime + used.ru_stime


def main() -> int:
    words = argparse.ArgumentParser(description=__doc__, formatter_class=argparse.RawDescriptionHelpFormatter)
    words.add_argument("--program", action="append", default=[])
    words.add_argument("rounds", nargs="?", type=int, default=3)
    words.add_argument("numbers", nargs="*", type=int, default=[5000, 10000, 20000, 40000])
    asked = words.parse_args()
    numbers = asked.numbers or [5000, 10000, 20000, 40000]
    is_linear = True
    with tempfile.TemporaryDirectory() as scratch:
        folder = pathlib.Path(scratch)
        programs = asked.program or [built(folder / "clone")]
        for kind in KINDS:
            per_pack: dict[str, list[float]] = {program: [] for program in programs}
            for packs in numbers:
                config = config_of(folder, kind, packs)
                for program in programs:
                    least = min(seconds(program, config) for _ in range(asked.rounds))
                    per_pack[program].append(least / packs)
                    print(f"{kind:9} {packs:6} packs {least:8.3f} s {least / packs * 1e6:8.1f} us a pack  {program}", flush=True)
            last = per_pack[programs[-1]]
            is_linear = is_linear and last[-1] <= 2 * last[0]
    print("linear" if is_linear else "not linear")
    return 0 if is_linear else 1


if __name__ == "__main__":
    sys.exit(main())
