#!/usr/bin/env python3
"""What the load commands cost: `osqd generate` beside a loop in Python that writes the same bytes, and `osqd selftest` beside `osqd replay` over the
generated file, with the same configuration, records and ticks.

Usage: bench/generator.py [LINES [TESTED [PROGRAM]]]: so many lines are made (default 1000000), and so many are tested (default 100000), by the built
program (default crates/osqd/out/osqd). Each is run three times, and the least processor time of each counts. The bytes of both generators are
compared, and so are the numbers of the self test with what the session's final line tells. Printed are the ratios of the times, and the least time in which
the program starts and refuses its words. Skipped where the program isn't built.
"""

import os
import pathlib
import subprocess
import sys
import tempfile
import time

TOP = pathlib.Path(__file__).resolve().parent.parent
FROM = 7
CONFIGURATION = '{"schedule":{"all":{"query":"SELECT target_path FROM file_events","interval":60}},"file_paths":{"etc":["/etc/%%"]}}'
LOOP = """
import sys
number, count, write = int(sys.argv[1]), int(sys.argv[2]), sys.stdout.write
actions = ("CREATED", "UPDATED", "DELETED")
for at in range(1, count + 1):
    number = (6364136223846793005 * number + 1442695040888963407) & 0xFFFFFFFFFFFFFFFF
    write(f'{{"path":"/etc/f{(number >> 33) % 100}","action":"{actions[(number >> 20) % 3]}","time":{at}}}\\n')
"""


def spent(words: list[str], into: pathlib.Path) -> float:
    """The least processor time of three runs, whose output goes to the file. A run that fails ends the benchmark."""
    times = []
    for _ in range(3):
        with into.open("wb") as output:
            begun = subprocess.Popen(words, stdout=output, stderr=subprocess.PIPE)
            told = begun.stderr.read()
            _, status, used = os.wait4(begun.pid, 0)
        if os.waitstatus_to_exitcode(status) != 0:
            sys.exit(f"generator: {words[:2]} ended with {os.waitstatus_to_exitcode(status)}: {told.decode(errors='replace')}")
        times.append(used.ru_utime + used.ru_stime)
    return min(times)


def least_start(program: str) -> float:
    """The least time from start to end of thirty runs whose words are refused."""
    times = []
    for _ in range(30):
        begun = time.perf_counter()
        subprocess.run([program], stdout=subprocess.DEVNULL, stderr=subprocess.DEVNULL, check=False)
        times.append(time.perf_counter() - begun)
    return min(times)


def main() -> None:
    words = sys.argv[1:]
    lines = int(words[0]) if words else 1000000
    tested = int(words[1]) if len(words) > 1 else 100000
    program = words[2] if len(words) > 2 else str(TOP / "crates/osqd/out/osqd")
    if not os.access(program, os.X_OK):
        print(f"skipped: no program {program}")
        return
    with tempfile.TemporaryDirectory() as folder:
        place = pathlib.Path(folder)
        made, looped = place / "made", place / "looped"
        ours = spent([program, "generate", "--from", str(FROM), "--count", str(lines)], made)
        theirs = spent([sys.executable, "-c", LOOP, str(FROM), str(lines)], looped)
        same = made.read_bytes() == looped.read_bytes()
        print(f"generate: {lines} lines in {ours:.3f} s, a loop in Python {theirs:.3f} s: {ours / theirs:.3f}; the same bytes: {same}")

        load, configuration = place / "load", place / "configuration"
        configuration.write_text(CONFIGURATION)
        spent([program, "generate", "--from", str(FROM), "--count", str(tested)], load)
        itself = spent([program, "selftest", "--from", str(FROM), "--count", str(tested)], place / "numbers")
        session = ["replay", "--config", str(configuration), "--host", "self", "--start", "1000", "--records", "100", "--ticks", str(tested // 100 + 2)]
        replayed = spent([program, *session, "--changes", str(load)], place / "results")
        print(f"selftest: {tested} lines in {itself:.3f} s, replay over the file {replayed:.3f} s: {itself / replayed:.3f}")
        print(f"          {(place / 'numbers').read_text().strip()}; replay wrote {(place / 'results').read_bytes().count(10)} lines")
    print(f"start: {1000 * least_start(program):.2f} ms")


if __name__ == "__main__":
    main()
