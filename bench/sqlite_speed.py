#!/usr/bin/env python3
"""The processor time of filters, joins, groups and sorts by `plan_of` and `run_plan` beside SQLite, in one run.

Usage: bench/sqlite_speed.py [--program FILE] [ROUNDS [ROWS ..]]: the least of so many rounds (default 5) over tables of so many rows
(default 10000, 100000 and 1000000). The program in bench/plan_speed.txt is built by `rt run` over the crates of this
checkout, in a folder of its own, which proves it and what of those isn't built yet; --program takes one that is built. It makes the
tables and plans and runs each text over them, so that its time is that of a query without reading the tables. SQLite holds the same
tables in memory, without an index of its own making, and its time is that of the query and of fetching its rows. Both are measured by
their processes' processor time, in as many rounds, and take turns, three times. The exponent tells how our time grows from the size
before: 1.0 is in step with the rows. `bench/sqlite_queries.py` compares rows; here only their number is. Skipped where there is no `rt`.
"""

import math
import os
import pathlib
import shutil
import sqlite3
import subprocess
import sys
import tempfile
import time

TOP = pathlib.Path(__file__).resolve().parent.parent

# The crates that the program uses, and the kit's.
LIBRARIES = [
    "osq_value",
    "set_keys",
    "sql_tree",
    "sql_tokens",
    "sql_faults",
    "sql_parser",
    "sql_query",
    "sql_scope",
    "sql_names",
    "sql_scalar",
    "sql_meaning",
    "sql_texts",
    "virtual_tables",
    "sql_joins",
    "sql_groups",
    "sql_planner",
]
TURNS = 3

COLUMNS = {
    "users": ["uid INTEGER", "gid INTEGER", "username TEXT", "description TEXT", "directory TEXT", "shell TEXT"],
    "groups": ["gid INTEGER", "groupname TEXT"],
    "user_groups": ["uid INTEGER", "gid INTEGER"],
}


def items(count: int) -> str:
    """So many numbers, one in a hundred of which is a gid of the smallest tables."""
    return ", ".join(str(at * 97) for at in range(count))


# What is measured, its text, and the goal for ours over SQLite's; of the last ones the goal is 0.2 ms.
QUERIES = [
    (
        "join of three tables",
        "SELECT u.gid AS n FROM users u JOIN groups g ON g.gid = u.gid JOIN user_groups k ON k.gid = g.gid ORDER BY u.gid DESC LIMIT 2",
        0.25,
    ),
    (
        "the same by commas",
        "SELECT u.gid AS n FROM users u, groups g, user_groups k WHERE g.gid = u.gid AND k.gid = g.gid ORDER BY u.gid DESC LIMIT 2",
        0.25,
    ),
    ("join by two keys", "SELECT COUNT(*) AS n FROM users u JOIN user_groups k ON k.uid = u.uid AND k.gid = u.gid", 0.3),
    ("the same by a comma", "SELECT COUNT(*) AS n FROM users u, user_groups k WHERE k.uid = u.uid AND k.gid = u.gid", 0.3),
    ("join with filters", "SELECT COUNT(*) AS n FROM users u, groups g WHERE g.gid = u.gid AND u.uid < 1000 AND g.groupname > 'group5'", 0.5),
    ("LEFT JOIN", "SELECT COUNT(*) AS n, COUNT(g.gid) AS m FROM users u LEFT JOIN groups g ON g.gid = u.uid", 0.4),
    ("GROUP BY one key", "SELECT shell, COUNT(*) AS c, SUM(uid) AS s FROM users GROUP BY shell ORDER BY c DESC, shell LIMIT 10", 0.2),
    ("GROUP BY two keys", "SELECT shell, uid % 7 AS d, COUNT(*) AS c FROM users GROUP BY shell, uid % 7 ORDER BY c DESC LIMIT 10", 0.4),
    ("HAVING", "SELECT shell, COUNT(*) AS c FROM users GROUP BY shell HAVING COUNT(*) > 5 ORDER BY shell LIMIT 10", 0.4),
    ("SUM and MAX without GROUP BY", "SELECT SUM(uid) AS s, MAX(gid) AS m FROM users", 0.5),
    ("DISTINCT of one column", "SELECT DISTINCT shell FROM users ORDER BY shell LIMIT 5", 0.25),
    ("DISTINCT of two columns", "SELECT DISTINCT shell, description FROM users ORDER BY shell LIMIT 5", 0.4),
    ("ORDER BY two keys, LIMIT 10", "SELECT uid FROM users ORDER BY shell, uid DESC LIMIT 10", 0.3),
    ("ORDER BY two keys, LIMIT 200", "SELECT uid FROM users ORDER BY shell, uid DESC LIMIT 200", 0.3),
    ("ORDER BY a text", "SELECT uid FROM users ORDER BY username", 0.6),
    ("ORDER BY a number", "SELECT uid FROM users ORDER BY gid", 0.6),
    ("ORDER BY an expression, LIMIT 10", "SELECT uid FROM users ORDER BY gid % 1000, uid LIMIT 10", 0.6),
    ("=", "SELECT uid, username FROM users WHERE gid = 7 ORDER BY uid LIMIT 1000", 0.5),
    ("<", "SELECT COUNT(*) AS n FROM users WHERE gid < 5000", 0.5),
    ("BETWEEN", "SELECT COUNT(*) AS n FROM users WHERE gid BETWEEN 100 AND 5000", 0.5),
    ("<>", "SELECT COUNT(*) AS n FROM users WHERE gid <> 7", 0.5),
    ("OR", "SELECT COUNT(*) AS n FROM users WHERE gid = 7 OR gid = 70 OR shell = '/bin/shell7'", 0.5),
    ("IN of 8", f"SELECT COUNT(*) AS n FROM users WHERE gid IN ({items(8)})", 0.5),
    ("IN of 100", f"SELECT COUNT(*) AS n FROM users WHERE gid IN ({items(100)})", 0.5),
    ("IN of 1000", f"SELECT COUNT(*) AS n FROM users WHERE gid IN ({items(1000)})", 0.5),
    ("NOT IN of 100", f"SELECT COUNT(*) AS n FROM users WHERE gid NOT IN ({items(100)})", 0.5),
    ("LIKE", "SELECT COUNT(*) AS n FROM users WHERE username LIKE '%9 user%'", 0.5),
    ("LIKE with a prefix", "SELECT COUNT(*) AS n FROM users WHERE username LIKE 'name9%'", 0.5),
    ("LIKE or LIKE", "SELECT COUNT(*) AS n FROM users WHERE username LIKE '%9 user%' OR username LIKE '%8 user'", 0.5),
    ("LIMIT 3", "SELECT uid, username FROM users LIMIT 3", None),
    ("DISTINCT with LIMIT 3", "SELECT DISTINCT shell FROM users LIMIT 3", None),
    ("filter with LIMIT 3", "SELECT uid FROM users WHERE gid > 100 LIMIT 3", None),
]


def tables_of(rows: int) -> dict[str, list[tuple[int | str, ...]]]:
    """Rows of the three tables: each number once as a gid, but for users' shells, of which there are a thousand."""
    step = 7919  # a prime, so that no table is sorted by its key
    return {
        "users": [
            (at, at * step % rows, f"name{at} user", "a user of the host", f"/home/name{at}", f"/bin/shell{at % 1000}")
            for at in range(rows)
        ],
        "groups": [(at, f"group{at}") for at in range(rows)],
        "user_groups": [(at, (at * 31) % rows) for at in range(rows)],
    }


def held(tables: dict[str, list[tuple[int | str, ...]]]) -> sqlite3.Connection:
    base = sqlite3.connect(":memory:")
    for table, rows in tables.items():
        base.execute(f"CREATE TABLE {table} ({', '.join(COLUMNS[table])})")
        base.executemany(f"INSERT INTO {table} VALUES ({', '.join('?' for _ in COLUMNS[table])})", rows)
    return base


def built(folder: pathlib.Path) -> str:
    """The program, built in that folder over copies of this checkout's crates."""
    lines = [line for line in (TOP / "crates.txt").read_text().splitlines() if line.split(":")[0].split(" ")[0] in LIBRARIES]
    (folder / "crates.txt").write_text("\n".join([*lines, f"plan_speed: anyhow {' '.join(LIBRARIES)}"]) + "\n")
    shutil.copy(TOP / "HANDLES", folder)
    for crate in LIBRARIES:
        shutil.copytree(TOP / "crates" / crate, folder / "crates" / crate, symlinks=True)
    own = folder / "crates" / "plan_speed"
    (own / "src").mkdir(parents=True)
    shutil.copy(TOP / "bench" / "plan_speed.txt", own / "src" / "main.rt")
    subprocess.run(["rt", "fmt"], cwd=own, stdout=subprocess.DEVNULL, check=True)
    subprocess.run(["rt", "run", "--", "1", "1", "SELECT 1"], cwd=own, stdout=subprocess.DEVNULL, stderr=subprocess.DEVNULL, check=True)
    return str(own / "out" / "plan_speed")


def ours(program: str, rows: int, rounds: int, texts: list[str]) -> tuple[list[tuple[float, int]], int]:
    """For each text the least time in seconds and the number of rows, and the peak memory in KB."""
    with tempfile.TemporaryFile() as out:
        started = subprocess.Popen([program, str(rows), str(rounds), *texts], stdin=subprocess.DEVNULL, stdout=out)
        _, _, used = os.wait4(started.pid, 0)
        out.seek(0)
        found = [line.split() for line in out.read().decode().splitlines()]
        return [(int(least) / 1e9, int(count)) for least, count in found], used.ru_maxrss


def least_theirs(base: sqlite3.Connection, text: str, rounds: int) -> tuple[float, list[tuple[int | str | None, ...]]]:
    best, rows = math.inf, []
    for _ in range(rounds):
        begun = time.process_time()
        rows = base.execute(text).fetchall()
        best = min(best, time.process_time() - begun)
    return best, rows


def measured(program: str, rows: int, rounds: int) -> list[tuple[float, float, bool]]:
    """For each query our time, SQLite's, and whether both gave so many rows."""
    texts = [text for _, text, _ in QUERIES]
    base = held(tables_of(rows))
    best = [(math.inf, math.inf, True)] * len(QUERIES)
    _, tables = ours(program, rows, rounds, [])
    for _ in range(TURNS):
        times, memory = ours(program, rows, rounds, texts)
        for at, (text, (mine, count)) in enumerate(zip(texts, times)):
            theirs, wanted = least_theirs(base, text, rounds)
            best[at] = (min(best[at][0], mine), min(best[at][1], theirs), best[at][2] and count == len(wanted))
    print(f"{rows} rows: at most {memory / 1024:.0f} MB, of which the tables are {tables / 1024:.0f} MB")
    return best


def words_and_program() -> tuple[list[str], str | None]:
    """The words behind `--program FILE`, and that file. Where it isn't named and there is no `rt` to build one, nothing is measured."""
    words = sys.argv[1:]
    if words[:1] == ["--program"]:
        return words[2:], words[1]
    if not shutil.which("rt"):
        print("skipped: there is no rt")
        sys.exit(0)
    return words, None


def main() -> None:
    words, given = words_and_program()
    rounds = int(words[0]) if words else 5
    sizes = [int(word) for word in words[1:]] or [10_000, 100_000, 1_000_000]
    with tempfile.TemporaryDirectory() as folder:
        program = given or built(pathlib.Path(folder))
        before: list[tuple[float, float, bool]] = []
        is_same = True
        for number, rows in enumerate(sizes):
            found = measured(program, rows, rounds)
            print(f"{'query':34} {'ours':>11} {'SQLite':>11} {'ratio':>6} {'goal':>6} {'exponent':>9}  rows")
            for at, (name, _, goal) in enumerate(QUERIES):
                mine, theirs, same = found[at]
                exponent = f"{math.log(mine / before[at][0], rows / sizes[number - 1]):9.2f}" if before else f"{'':9}"
                wanted = f"{goal:6.2f}" if goal else "0.2 ms"
                print(f"{name:34} {mine * 1e3:8.3f} ms {theirs * 1e3:8.3f} ms {mine / theirs:6.2f} {wanted} {exponent}  {'as many' if same else 'DIFFERENT'}")
                is_same = is_same and same
            before = found
    sys.exit(0 if is_same else 1)


if __name__ == "__main__":
    main()
