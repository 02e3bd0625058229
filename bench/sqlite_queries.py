#!/usr/bin/env python3
"""Generated queries over small tables, asked of `osqd query` and of SQLite, with the differences listed.

Usage: bench/sqlite_queries.py [QUERIES [SEED [PROGRAM]]]: so many queries (default 2000) from a seed (default 1), by the
built program (default crates/osqd/out/osqd, which `rt run` in crates/osqd makes). The tables are users, groups and
user_groups with Nulls, equal values, and texts that spell numbers. A query has joins, LEFT JOINs, USING, WHERE, GROUP BY
with aggregates and HAVING, DISTINCT, ORDER BY, LIMIT and OFFSET. It is built so that the two languages agree: no result
leaves 64 bits, no column stands bare beside an aggregate, and a query with LIMIT or OFFSET is sorted by all its columns, or
is of one table without groups, whose rows SQLite reads in their order. Any other without ORDER BY is compared as a bag of
rows, since SQLite promises no order there. Ends with 1 where a difference is found, and lists each with its text. Skipped
where the program isn't built.
"""

import collections
import json
import pathlib
import random
import sqlite3
import subprocess
import sys
import tempfile

TOP = pathlib.Path(__file__).resolve().parent.parent

COLUMNS = {
    "users": {"uid": "INTEGER", "gid": "INTEGER", "username": "TEXT", "shell": "TEXT"},
    "groups": {"gid": "INTEGER", "groupname": "TEXT"},
    "user_groups": {"uid": "INTEGER", "gid": "INTEGER"},
}
ALL_COLUMNS = {
    "users": ["uid", "gid", "username", "description", "directory", "shell"],
    "groups": ["gid", "groupname"],
    "user_groups": ["uid", "gid"],
}
NUMBERS = [None, 0, 1, 2, 3, -1, 10, 1000]
TEXTS = [None, "", "root", "Root", "1", "10", "-1", "a b", "%", "é", "2x", "/bin/sh"]
COMPARISONS = ["=", "==", "<>", "!=", "<", "<=", ">", ">=", "IS", "IS NOT"]


def literal(rng: random.Random) -> str:
    value = rng.choice(NUMBERS + TEXTS)
    if value is None:
        return "NULL"
    if isinstance(value, int):
        return str(value)
    return "'" + value.replace("'", "''") + "'"


class Query:
    """A query in the making: its tables with the names that they are known by."""

    def __init__(self, rng: random.Random) -> None:
        self.rng = rng
        self.tables: list[tuple[str, str]] = []

    def column(self) -> str:
        alias, table = self.rng.choice(self.tables)
        return f"{alias}.{self.rng.choice(list(COLUMNS[table]))}"

    def number(self, depth: int) -> str:
        """A small number: no sum or product of a few of these leaves 64 bits."""
        pick = self.rng.randrange(5 if depth else 2)
        if pick == 0:
            return str(self.rng.choice([0, 1, 2, 3, 7]))
        if pick == 1:
            return f"CAST({self.value(0)} AS INTEGER)"
        if pick == 2:
            return f"length({self.value(depth - 1)})"
        if pick == 3:
            op = self.rng.choice(["+", "-", "*", "/", "%"])
            return f"({self.number(depth - 1)} {op} {self.number(depth - 1)})"
        return f"(- {self.number(depth - 1)})"

    def value(self, depth: int) -> str:
        pick = self.rng.randrange(8 if depth else 2)
        if pick == 0 and self.tables:
            return self.column()
        if pick <= 1:
            return literal(self.rng)
        if pick == 2:
            return self.number(depth)
        if pick == 3:
            return f"({self.value(depth - 1)} || {self.value(depth - 1)})"
        if pick == 4:
            return f"coalesce({self.value(depth - 1)}, {self.value(depth - 1)})"
        if pick == 5:
            return f"{self.rng.choice(['upper', 'lower', 'typeof'])}({self.value(depth - 1)})"
        if pick == 6:
            return f"({self.condition(depth - 1)})"
        return self.column() if self.tables else literal(self.rng)

    def condition(self, depth: int) -> str:
        pick = self.rng.randrange(8 if depth > 0 else 4)
        if pick <= 1:
            return f"{self.value(depth)} {self.rng.choice(COMPARISONS)} {self.value(depth)}"
        if pick == 2:
            items = ", ".join(literal(self.rng) for _ in range(self.rng.randrange(4)))
            test = f"{self.value(0)} {self.rng.choice(['IN', 'NOT IN'])} ({items})"
            # (of a test against no items SQLite makes TRUE or FALSE, behind which IS is its test of truth)
            return test if items else f"({test}) + 0"
        if pick == 3:
            form = self.rng.choice(["LIKE", "NOT LIKE"])
            pattern = self.rng.choice(["'%o%'", "'r___'", "'%'", "''", "'1%'"])
            return f"{self.value(0)} {form} {pattern}"
        if pick == 4:
            return f"{self.value(0)} {self.rng.choice(['BETWEEN', 'NOT BETWEEN'])} {literal(self.rng)} AND {literal(self.rng)}"
        if pick == 5:
            return f"NOT ({self.condition(depth - 1)})"
        return f"({self.condition(depth - 1)} {self.rng.choice(['AND', 'OR'])} {self.condition(depth - 1)})"

    def filter(self) -> str:
        """Conditions side by side, so that each is a part of WHERE or a side of its OR."""
        between = self.rng.choice([" AND ", " OR "])
        return between.join(self.condition(self.rng.randrange(3)) for _ in range(self.rng.choice([1, 1, 2, 3])))

    def sources(self) -> str:
        text = ""
        for at in range(self.rng.choice([0, 1, 1, 1, 2, 2, 3])):
            table = self.rng.choice(list(COLUMNS))
            alias = "abc"[at]
            if at == 0:
                self.tables.append((alias, table))
                text = f" FROM {table} AS {alias}"
                continue
            join = self.rng.choice([", ", " CROSS JOIN ", " JOIN ", " LEFT JOIN ", " LEFT JOIN "])
            text += f"{join if join == ', ' else join}{table} {alias}"
            self.tables.append((alias, table))
            if "JOIN" in join and "CROSS" not in join:
                # (where no columns are equated all pairs are looked at, another form of a join)
                left, right = self.rng.choice(self.tables[:-1])[0], alias
                parts = [f"{left}.gid = {right}.gid"] if self.rng.randrange(4) else []
                if not parts or self.rng.randrange(2):
                    parts.append(self.condition(1))
                text += f" ON {' AND '.join(parts)}"
        return text

    def aggregate(self) -> str:
        fold = self.rng.choice(["COUNT(*)", "COUNT", "COUNT(DISTINCT", "SUM", "MIN", "MAX"])
        if fold == "COUNT(*)":
            return fold
        if fold == "COUNT(DISTINCT":
            return f"COUNT(DISTINCT {self.value(1)})"
        argument = self.number(1) if fold == "SUM" else self.value(1)
        return f"{fold}({argument})"


def limited(rng: random.Random) -> str:
    if rng.randrange(2):
        return ""
    return f" LIMIT {rng.choice([-1, 0, 1, 2, 5])}" + rng.choice(["", f" OFFSET {rng.choice([-1, 0, 1, 3])}"])


def generate(rng: random.Random) -> tuple[str, bool]:
    """A text, and whether its rows have an order."""
    query = Query(rng)
    sources = query.sources()
    where = f" WHERE {query.filter()}" if sources and rng.randrange(2) else ""
    grouping = having = ""
    is_grouped = bool(sources) and rng.randrange(3) == 0
    if is_grouped:
        keys = [query.column() for _ in range(rng.randrange(3))]
        items = keys + [query.aggregate() for _ in range(rng.randrange(1, 3))]
        grouping = f" GROUP BY {', '.join(keys)}" if keys else ""
        if rng.randrange(3) == 0:
            having = f" HAVING {query.aggregate()} {rng.choice(COMPARISONS)} {literal(rng)}"
    else:
        items = [query.value(2) for _ in range(rng.randrange(1, 4))]
    shown = [f"{item} AS c{at}" for at, item in enumerate(items)]
    distinct = "DISTINCT " if rng.randrange(4) == 0 else ""
    order = limit = ""
    has_order = rng.randrange(2) == 0
    if has_order:
        terms = [f"c{at}{rng.choice(['', ' ASC', ' DESC'])}" for at in range(len(items))]
        rng.shuffle(terms)
        order = f" ORDER BY {', '.join(terms)}"
        limit = limited(rng)
    elif len(query.tables) == 1 and not is_grouped:
        limit = limited(rng)
        has_order = True
    return f"SELECT {distinct}{', '.join(shown)}{sources}{where}{grouping}{having}{order}{limit}", has_order


def rows_of(rng: random.Random, table: str) -> list[dict[str, int | str | None]]:
    pools = {"INTEGER": NUMBERS, "TEXT": TEXTS}
    return [
        {name: rng.choice(pools[kind]) for name, kind in COLUMNS[table].items()}
        for _ in range(rng.randrange(6))
    ]


def fill(base: sqlite3.Connection, tables: dict[str, list[dict[str, int | str | None]]]) -> None:
    for table, rows in tables.items():
        kinds = COLUMNS[table]
        columns = ", ".join(f"{name} {kinds.get(name, 'TEXT')}" for name in ALL_COLUMNS[table])
        base.execute(f"CREATE TABLE {table} ({columns})")
        for row in rows:
            places = ", ".join("?" for _ in row)
            base.execute(f"INSERT INTO {table} ({', '.join(row)}) VALUES ({places})", list(row.values()))


def shown(value: int | str | float | None) -> str:
    return "" if value is None else str(value)


def ask(program: str, text: str, tables: pathlib.Path) -> list[tuple[str, ...]] | str:
    words = [program, "query", "--text", text, "--start", "1000", "--tables", str(tables)]
    ran = subprocess.run(words, capture_output=True)
    if ran.returncode != 0:
        return f"status {ran.returncode}: {ran.stderr.decode(errors='replace').strip()}"
    return [tuple(json.loads(line).values()) for line in ran.stdout.splitlines()]


def compare(rng: random.Random, program: str, folder: pathlib.Path, count: int) -> int:
    """Asks so many queries over one set of tables, and answers how many differ."""
    tables = {table: rows_of(rng, table) for table in COLUMNS}
    lines = folder / "tables.jsonl"
    lines.write_text("".join(json.dumps({"table": table, "rows": rows}) + "\n" for table, rows in tables.items()))
    base = sqlite3.connect(":memory:")
    fill(base, tables)
    differ = 0
    for _ in range(count):
        text, has_order = generate(rng)
        try:
            theirs = [tuple(shown(value) for value in row) for row in base.execute(text)]
        except sqlite3.Error as error:
            theirs = f"refused: {error}"
        ours = ask(program, text, lines)
        if isinstance(ours, list) and isinstance(theirs, list):
            same = ours == theirs if has_order else collections.Counter(ours) == collections.Counter(theirs)
        else:
            same = isinstance(ours, str) and isinstance(theirs, str)
        if not same:
            differ += 1
            print(f"{text}\n  tables: {json.dumps(tables)}\n  ours:   {ours}\n  SQLite: {theirs}", flush=True)
    return differ


def main() -> None:
    count = int(sys.argv[1]) if len(sys.argv) > 1 else 2000
    seed = int(sys.argv[2]) if len(sys.argv) > 2 else 1
    program = sys.argv[3] if len(sys.argv) > 3 else str(TOP / "crates" / "osqd" / "out" / "osqd")
    if not pathlib.Path(program).exists():
        print(f"skipped: {program} isn't built")
        return
    rng = random.Random(seed)
    differ = asked = 0
    with tempfile.TemporaryDirectory() as folder:
        while asked < count:
            some = min(50, count - asked)
            differ += compare(rng, program, pathlib.Path(folder), some)
            asked += some
    print(f"{asked} queries of seed {seed}: {differ} differ")
    sys.exit(1 if differ else 0)


if __name__ == "__main__":
    main()
