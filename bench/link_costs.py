#!/usr/bin/env python3
"""What a link to a collector costs: whole sessions of `osqd replay` with a link over files beside the same sessions without one, in one run.

Usage: bench/link_costs.py [CHANGES [GROUPS [ROUNDS [PROGRAM]]]]: sources of so many change lines (default 300000) and audit groups (default 30000),
with the ten queries of whole_sessions.py, in few ticks of many records and in many of few. Each figure is the least processor time of ROUNDS runs
(default 5), the sides one after the other, since other work on the machine only takes time away. A session with a link has one of two peers:

- a collector that has recorded each tick's frames by the time that the next are sent: a tick polls at most 1000 answers, and the file of answers has
  so many for each tick, which tell what was sealed until then;
- one that never answers: each tick sends the most frames that it may, 64, since none is acknowledged.

Printed are the times, their ratio to those without a link, and the bytes of frames. Skipped where the program isn't built.
"""

import pathlib
import sys
import tempfile

from whole_sessions import CHANGE_QUERIES, PROCESS_QUERIES, TOP, configuration, spent, write_changes, write_groups

POLLED = 1000
SEALED = len(CHANGE_QUERIES + PROCESS_QUERIES)


def write_answers(path: pathlib.Path, ticks: int) -> None:
    with path.open("w") as file:
        for number in range(SEALED, SEALED * ticks + 1, SEALED):
            for at in range(POLLED):
                file.write(f'{{"answer":"{"repeat" if at else "recorded"}","host":"h1","number":{number},"recorded":{number}}}\n')


def least(words: list[str], links: list[list[str]], frames: pathlib.Path, rounds: int) -> list[tuple[float, int]]:
    """The least time and the bytes of frames of the session without a link and with each of these, all in turn."""
    sides = [[], *links]
    times, sizes = [[] for _ in sides], [0 for _ in sides]
    for _ in range(rounds):
        for at, link in enumerate(sides):
            frames.unlink(missing_ok=True)
            used, _, status, told = spent(words + link)
            if status:
                sys.exit(f"status {status}: {told[-300:]!r}")
            times[at].append(used)
            sizes[at] = frames.stat().st_size if link else 0
    return [(min(it), size) for it, size in zip(times, sizes)]


def main() -> None:
    changes, groups, rounds = (int(sys.argv[at]) if len(sys.argv) > at else default for at, default in ((1, 300_000), (2, 30_000), (3, 5)))
    program = sys.argv[4] if len(sys.argv) > 4 else str(TOP / "crates" / "osqd" / "out" / "osqd")
    if not pathlib.Path(program).exists():
        print(f"skipped: {program} isn't built")
        return
    with tempfile.TemporaryDirectory() as name:
        folder = pathlib.Path(name)
        write_changes(folder / "changes", changes)
        write_groups(folder / "audit", folder / "processes", groups)
        (folder / "config").write_text(configuration())
        (folder / "none").touch()
        for parts in (5, 50):
            records, ticks, frames = max(changes, groups) // parts + 1, parts + 2, folder / "frames"
            write_answers(folder / "answers", ticks)
            words = [program, "replay", "--config", str(folder / "config"), "--host", "h1", "--start", "1700000000", "--step", "60", "--ticks", str(ticks)]
            words += ["--records", str(records), "--changes", str(folder / "changes"), "--audit", str(folder / "audit")]
            links = [["--frames-out", str(frames), "--answers-in", str(folder / answers)] for answers in ("answers", "none")]
            (without, _), (answered, some), (alone, most) = least(words, links, frames, rounds)
            print(f"{ticks} ticks: {without:.3f} s without a link", flush=True)
            print(f"  with a collector that answers: {answered:.3f} s, {some / 1e6:.1f} MB of frames: {answered / without:.2f} (goal 1.15)", flush=True)
            print(f"  with one that never does: {alone:.3f} s, {most / 1e6:.1f} MB of frames: {alone / without:.2f}", flush=True)


if __name__ == "__main__":
    main()
