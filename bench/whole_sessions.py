#!/usr/bin/env python3
"""From the bytes of sources to sealed batches and result lines: `osqd replay` beside what one would build instead, in one run.

Usage: bench/whole_sessions.py [CHANGES [GROUPS [PROGRAM]]]: a file of so many change lines (default 1000000) and an audit log of so
many groups (default 100000), by the built program (default crates/osqd/out/osqd). One session of as many ticks as the files need, with ten
scheduled queries, all in memory. The peers do the same ten queries over the same change lines and over the groups' process lines:

- `sqlite3` (the command line): the lines are imported into a table, and each query reads them by json_extract;
- Python: json.loads for each line, an insert into sqlite3 in memory, and each query over the rows above its cursor.

Both peers read the audit groups as prepared JSON lines, which spares them the parsing of the log; so the comparison favours them there. Times are
those of the processor. Printed are events per second, peak memory, and the ratio of times. A peer that isn't installed is left out; skipped where the
program isn't built.
"""

import json
import os
import pathlib
import shutil
import subprocess
import sys
import tempfile

TOP = pathlib.Path(__file__).resolve().parent.parent
STEP_BYTES = 16777216

CHANGE_QUERIES = [
    "SELECT target_path, action, time FROM file_events WHERE action = 'DELETED'",
    "SELECT target_path, action, time FROM file_events WHERE target_path LIKE '/etc/cron%'",
    "SELECT target_path, uid, mode FROM file_events WHERE uid = '0' AND action = 'UPDATED'",
    "SELECT action, COUNT(*) AS n FROM file_events GROUP BY action",
    "SELECT target_path, time FROM file_events WHERE target_path LIKE '%/passwd%'",
    "SELECT COUNT(*) AS n FROM file_events",
]
PROCESS_QUERIES = [
    "SELECT pid, path, cmdline FROM process_events WHERE path LIKE '/tmp/%'",
    "SELECT path, COUNT(*) AS n FROM process_events GROUP BY path",
    "SELECT pid, uid, euid FROM process_events WHERE euid = '0' AND uid <> '0'",
    "SELECT COUNT(*) AS n FROM process_events",
]
CHANGE_KEYS = ["target_path", "action", "uid", "mode", "time"]
PROCESS_KEYS = ["pid", "path", "cmdline", "uid", "euid"]


def write_changes(path: pathlib.Path, count: int) -> None:
    actions = ["CREATED", "UPDATED", "DELETED"]
    with path.open("w") as file:
        for at in range(count):
            folder = "cron.d" if at % 97 == 0 else "conf"
            file.write(f'{{"path":"/etc/{folder}/file{at % 5000}","action":"{actions[at % 3]}","time":{1700000000 + at // 100},"uid":"{at % 7}","mode":"0644"}}\n')


def write_groups(log: pathlib.Path, lines: pathlib.Path, count: int) -> None:
    with log.open("w") as file, lines.open("w") as prepared:
        for at in range(count):
            stamp = f"{1700000000 + at // 50}.{at % 1000:03d}:{at + 1}"
            path = "/tmp/run" if at % 211 == 0 else f"/usr/bin/tool{at % 40}"
            file.write(
                f'type=SYSCALL msg=audit({stamp}): arch=c000003e syscall=59 success=yes exit=0 ppid=1 pid={at % 30000} auid=1000 uid={at % 3} gid=0'
                f' euid=0 egid=0 comm="tool" exe="{path}"\n'
                f'type=EXECVE msg=audit({stamp}): argc=2 a0="tool" a1="-v{at % 9}"\n'
                f'type=CWD msg=audit({stamp}): cwd="/root"\n'
                f'type=PATH msg=audit({stamp}): item=0 name="{path}" mode=0100755\n'
            )
            prepared.write(json.dumps({"pid": str(at % 30000), "path": path, "cmdline": f"tool -v{at % 9}", "uid": str(at % 3), "euid": "0"}) + "\n")


def configuration() -> str:
    schedule = {f"q{at}": {"query": text, "interval": 60} for at, text in enumerate(CHANGE_QUERIES + PROCESS_QUERIES)}
    return json.dumps({"options": {"events_max": 100000}, "schedule": schedule, "file_paths": {"etc": ["/etc/%%"]}})


def spent(words: list[str], **given) -> tuple[float, int, int, bytes]:
    """Processor time, peak memory in KB, status, and what was written on the status stream."""
    with tempfile.TemporaryFile() as errors:
        begun = subprocess.Popen(words, stdout=subprocess.DEVNULL, stderr=errors, **given)
        _, status, used = os.wait4(begun.pid, 0)
        errors.seek(0)
        return used.ru_utime + used.ru_stime, used.ru_maxrss, os.waitstatus_to_exitcode(status), errors.read()


def by_sqlite(folder: pathlib.Path) -> tuple[float, int] | None:
    if not shutil.which("sqlite3"):
        return None
    script = [".mode list", '.separator "\\t" "\\n"', "CREATE TABLE changes (line TEXT);", "CREATE TABLE processes (line TEXT);"]
    script += [f".import {folder}/changes changes", f".import {folder}/processes processes", ".output /dev/null"]
    for table, texts, keys in (("file_events", CHANGE_QUERIES, CHANGE_KEYS), ("process_events", PROCESS_QUERIES, PROCESS_KEYS)):
        source = "changes" if table == "file_events" else "processes"
        columns = ", ".join(f"json_extract(line, '$.{'path' if key == 'target_path' else key}') AS {key}" for key in keys)
        script += [text.replace(table, f"(SELECT {columns} FROM {source})") + ";" for text in texts]
    (folder / "script").write_text("\n".join(script) + "\n")
    with (folder / "script").open() as file:
        time_used, memory, status, errors = spent(["sqlite3", ":memory:"], stdin=file)
    if status:
        print(f"sqlite3 ended with {status}: {errors[:200]!r}")
        return None
    return time_used, memory


PYTHON = """
import json, sqlite3, sys
folder, change_queries, process_queries = sys.argv[1], json.loads(sys.argv[2]), json.loads(sys.argv[3])
base = sqlite3.connect(":memory:")
base.execute("CREATE TABLE file_events (target_path TEXT, action TEXT, uid TEXT, mode TEXT, time TEXT)")
base.execute("CREATE TABLE process_events (pid TEXT, path TEXT, cmdline TEXT, uid TEXT, euid TEXT)")
with open(folder + "/changes") as file:
    for line in file:
        it = json.loads(line)
        base.execute("INSERT INTO file_events VALUES (?,?,?,?,?)", (it["path"], it["action"], it["uid"], it["mode"], str(it["time"])))
with open(folder + "/processes") as file:
    for line in file:
        it = json.loads(line)
        base.execute("INSERT INTO process_events VALUES (?,?,?,?,?)", (it["pid"], it["path"], it["cmdline"], it["uid"], it["euid"]))
for table, queries in (("file_events", change_queries), ("process_events", process_queries)):
    for text in queries:
        rows = base.execute(text.replace(table, "(SELECT * FROM " + table + " WHERE rowid > 0)")).fetchall()
        sys.stdout.write("".join(json.dumps([str(value) for value in row]) for row in rows))
"""


def main() -> None:
    changes = int(sys.argv[1]) if len(sys.argv) > 1 else 1_000_000
    groups = int(sys.argv[2]) if len(sys.argv) > 2 else 100_000
    program = sys.argv[3] if len(sys.argv) > 3 else str(TOP / "crates" / "osqd" / "out" / "osqd")
    if not pathlib.Path(program).exists():
        print(f"skipped: {program} isn't built")
        return
    with tempfile.TemporaryDirectory() as name:
        folder = pathlib.Path(name)
        write_changes(folder / "changes", changes)
        write_groups(folder / "audit", folder / "processes", groups)
        (folder / "config").write_text(configuration())
        most = max((folder / "changes").stat().st_size, (folder / "audit").stat().st_size)
        ticks = most // STEP_BYTES + 3
        words = [program, "replay", "--config", str(folder / "config"), "--host", "h1", "--start", "1700000000", "--step", "60", "--ticks", str(ticks)]
        words += ["--records", "1000000", "--changes", str(folder / "changes"), "--audit", str(folder / "audit")]
        ours, memory, status, told = spent(words)
        print(f"osqd: {ours:.2f} s, {(changes + groups) / ours:.0f} events a second, {memory / 1024:.0f} MB, {ticks} ticks, status {status}: {told.decode().splitlines()[-1:]}")
        theirs = by_sqlite(folder)
        if theirs:
            print(f"sqlite3 with json_extract: {theirs[0]:.2f} s, {theirs[1] / 1024:.0f} MB; osqd takes {ours / theirs[0]:.2f} of its time (goal 1.0)")
        used, memory, status, _ = spent([sys.executable, "-c", PYTHON, str(folder), json.dumps(CHANGE_QUERIES), json.dumps(PROCESS_QUERIES)])
        print(f"Python with sqlite3: {used:.2f} s, {memory / 1024:.0f} MB, status {status}; osqd takes {ours / used:.2f} of its time (goal 0.2)")


if __name__ == "__main__":
    main()
