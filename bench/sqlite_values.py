#!/usr/bin/env python3
"""The operators, functions and casts of SQL on generated values, beside SQLite.

A program that answers one operation a line is written into a temporary folder beside copies of the crates that it needs, proved and
built by `rt run`, and run there on ROWS rows (default 5000) of each SEED (default 1): usage: bench/sqlite_values.py [ROWS [SEED ..]].

Each row is asked three times: of the program; of SQLite as it is; and of SQLite by the rule that docs/SQL.md states, with its
casts and affinities written out. Where the program differs from SQLite, the row counts under the reason for which we differ. A row
for which there is no such reason, or where the program isn't what the rule says, is printed as UNEXPECTED, and the status is then 1.
"""

import collections
import dataclasses
import pathlib
import random
import re
import shutil
import subprocess
import sys
import tempfile

try:
    import sqlite3
except ImportError:
    sqlite3 = None

TOP = pathlib.Path(__file__).resolve().parent.parent
CRATES = {
    "osq_value": "arrayvec",
    "sql_tree": "",
    "sql_scalar": "memchr osq_value sql_tree",
}

PROGRAM = r"""
//! Reads operations on values, one a line, and prints the answer of each on a line of its own.
//!
//! A line is the name of an operation and its sides, parted by blanks. A side is a sign and a value: `-` for an expression without
//! affinity, `i` and `t` for a column of whole numbers or of texts, `I` and `T` for a cast to one of these. A value is `n` for Null, a
//! whole number, or a single quote and the bytes of a text in hexadecimal digits. What is no such line is answered by `?`.
#![tactic(auto)]

use osq_value::{Affinity, Copied, NoMemory, Row, Str, Value, cast_int, cast_text, int_spelling};
use sql_scalar::{apply, call, minus, negation, truth};
use sql_tree::functions::Function;
use sql_tree::tree::Operator;
use std::alloc::Global;
use std::io;

#[derive(Drop)]
struct Given {
    value: Value,
    affinity: Option<Affinity>,
}

fn operator(name: &str) -> Option<Operator> {
    for (word, op) in [
        ("Or", Operator::Or),
        ("And", Operator::And),
        ("Equal", Operator::Equal),
        ("NotEqual", Operator::NotEqual),
        ("Is", Operator::Is),
        ("IsNot", Operator::IsNot),
        ("Less", Operator::Less),
        ("LessEqual", Operator::LessEqual),
        ("Greater", Operator::Greater),
        ("GreaterEqual", Operator::GreaterEqual),
        ("Like", Operator::Like),
        ("NotLike", Operator::NotLike),
        ("Add", Operator::Add),
        ("Subtract", Operator::Subtract),
        ("Multiply", Operator::Multiply),
        ("Divide", Operator::Divide),
        ("Remainder", Operator::Remainder),
        ("Concat", Operator::Concat),
    ] {
        if word == name {
            return Some(op);
        }
    }
    None
}

fn function(name: &str) -> Option<Function> {
    for (word, function) in [
        ("length", Function::Length),
        ("lower", Function::Lower),
        ("upper", Function::Upper),
        ("trim", Function::Trim),
        ("substr", Function::Substr),
        ("instr", Function::Instr),
        ("replace", Function::Replace),
        ("abs", Function::Abs),
        ("typeof", Function::Typeof),
        ("coalesce", Function::Coalesce),
        ("ifnull", Function::Ifnull),
        ("nullif", Function::Nullif),
    ] {
        if word == name {
            return Some(function);
        }
    }
    None
}

fn value(alloc: Global, word: &str) -> Result<Option<Value>, NoMemory> {
    if word == "n" {
        return Ok(Some(Value::Null));
    }
    let Some(digits) = word.strip_prefix('\'') else {
        return Ok(int_spelling(word.as_bytes()).map(Value::Int));
    };
    let Ok(bytes) = hex::decode(alloc, digits) else {
        return Ok(None);
    };
    match String::from_utf8(bytes) {
        Ok(text) => Ok(Some(Value::Text(Str::from_string(text)))),
        Err(_) => Ok(None),
    }
}

fn side(alloc: Global, word: &str) -> Result<Option<Given>, NoMemory> {
    let mut rest = word.chars();
    let sign = rest.next();
    let Some(value) = value(alloc, rest.as_str())? else {
        return Ok(None);
    };
    let affinity = match sign {
        Some('i') | Some('I') => Some(Affinity::Integer),
        Some('t') | Some('T') => Some(Affinity::Text),
        _ => None,
    };
    let value = match sign {
        Some('I') => cast_int(&value),
        Some('T') => cast_text(alloc, &value)?,
        _ => value,
    };
    Ok(Some(Given { value, affinity }))
}

fn truth_value(value: &Value) -> Value {
    match truth(value) {
        None => Value::Null,
        Some(holds) => Value::Int(i64::from(holds)),
    }
}

fn answer_one(alloc: Global, name: &str, value: &Value) -> Result<Option<Value>, NoMemory> {
    match name {
        "value" => Ok(Some(value.copy(alloc)?)),
        "truth" => Ok(Some(truth_value(value))),
        "negation" => Ok(Some(negation(value))),
        "minus" => Ok(Some(minus(value))),
        _ => Ok(None),
    }
}

fn answer_call(alloc: Global, name: &str, sides: &[Given]) -> Result<Option<Value>, NoMemory> {
    let Some(function) = function(name) else {
        return match sides {
            [side] => answer_one(alloc, name, &side.value),
            _ => Ok(None),
        };
    };
    let mut arguments = Row::new(alloc);
    for side in sides {
        arguments.push(side.value.copy(alloc)?)?;
    }
    Ok(Some(call(alloc, function, &arguments)?))
}

fn answer(alloc: Global, line: &str) -> Result<Option<Value>, NoMemory> {
    let mut words = line.split(' ');
    let Some(name) = words.next() else {
        return Ok(None);
    };
    let mut sides = Vec::new(alloc);
    for word in words {
        let Some(side) = side(alloc, word)? else {
            return Ok(None);
        };
        sides.push(side)?;
    }
    match (operator(name), sides.as_slice()) {
        (Some(op), [left, right]) => {
            let affinities = (left.affinity, right.affinity);
            Ok(Some(apply(alloc, op, &left.value, &right.value, affinities)?))
        }
        (None, sides) => answer_call(alloc, name, sides),
        _ => Ok(None),
    }
}

fn spelled(alloc: Global, answer: &Option<Value>) -> Result<String, NoMemory> {
    match answer {
        None => Ok(String::from_str(alloc, "?")?),
        Some(Value::Null) => Ok(String::from_str(alloc, "n")?),
        Some(Value::Int(number)) => Ok(number.to_string(alloc)?),
        Some(Value::Text(text)) => {
            let mut spelled = String::from_str(alloc, "'")?;
            spelled.push_str(hex::encode(alloc, text.as_str())?.as_str())?;
            Ok(spelled)
        }
    }
}

fn answered(alloc: Global, line: &str) -> Result<String, NoMemory> {
    spelled(alloc, &answer(alloc, line)?)
}

fn main(rt: HostRuntime) -> io::Result<()> {
    let alloc = rt.alloc();
    for line in rt.lines(alloc) {
        let Ok(text) = answered(alloc, line?.as_str()) else {
            return Err(io::Error::from(io::ErrorKind::OutOfMemory));
        };
        println!(&rt; "{text}")?;
    }
    Ok(())
}
"""

# What SQLite writes for each operation on its sides.
COMPARISONS = {
    "Equal": "{0} = {1}",
    "NotEqual": "{0} <> {1}",
    "Is": "{0} IS {1}",
    "IsNot": "{0} IS NOT {1}",
    "Less": "{0} < {1}",
    "LessEqual": "{0} <= {1}",
    "Greater": "{0} > {1}",
    "GreaterEqual": "{0} >= {1}",
}
ON_NUMBERS = {
    "Or": "{0} OR {1}",
    "And": "{0} AND {1}",
    "Add": "{0} + {1}",
    "Subtract": "{0} - {1}",
    "Multiply": "{0} * {1}",
    "Divide": "{0} / {1}",
    "Remainder": "{0} % {1}",
    "truth": "CASE WHEN {0} THEN 1 WHEN NOT {0} THEN 0 END",
    "negation": "NOT {0}",
    "minus": "- {0}",
    "abs": "abs({0})",
}
ON_TEXTS = {
    "Like": "{0} LIKE {1}",
    "NotLike": "{0} NOT LIKE {1}",
    "Concat": "{0} || {1}",
    "length": "length({0})",
    "lower": "lower({0})",
    "upper": "upper({0})",
    "trim": "trim({0})",
    "instr": "instr({0}, {1})",
    "replace": "replace({0}, {1}, {2})",
}
ON_VALUES = {
    "value": "{0}",
    "typeof": "typeof({0})",
    "coalesce": "coalesce({0}, {1}, {2})",
    "ifnull": "ifnull({0}, {1})",
    "nullif": "nullif({0}, {1})",
}
WINDOWS = {
    "substr": "substr({0}, {1}, {2})",
    "substr of two": "substr({0}, {1})",
}
OPERATIONS = COMPARISONS | ON_NUMBERS | ON_TEXTS | ON_VALUES | WINDOWS

# How a side is written in SQLite, by its sign: a sign `+` takes a column's affinity away.
SIDES = {
    "-": "+n{0}",
    "i": "i{0}",
    "t": "t{0}",
    "I": "CAST(+n{0} AS INTEGER)",
    "T": "CAST(+n{0} AS TEXT)",
}
COLUMNS = "nit"
PLACES = range(3)

LEAST = -(2**63)
GREATEST = 2**63 - 1
NUMBERS = (0, 1, -1, 2, 3, -3, 5, 7, -7, 10, 12, 100, 2**31 - 1, 2**31, -(2**31), 2**32 + 2, 3037000500, 2**53 + 1, 2**62)
ENDS = (GREATEST, GREATEST - 1, LEAST, LEAST + 1)
CHARACTERS = "aAbBkKzZ%_ \0'\"05-.\\\u00e9\u00c9\u00df\u20ac\u212a\U0001f600"
FRONTS = ("", "", "", " ", "\t", "\n", "  ", "\v\f\r", "\u00a0")
SIGNS = ("", "", "", "-", "+", "--", "- ")
RESTS = ("", "", "", "", " ", "\n", "x", " apples", "-1", "%", "_", ".", ".0", ".5", "e2", "e", "E-1", "e+3x", ".5e1")

BLANKS = " \t\n\v\f\r"
FRONT = re.compile(r"[ \t\n\v\f\r]*([+-]?[0-9]+)")
SPELLING = re.compile(r"[+-]?[0-9]+")
FLOAT = re.compile(r"[+-]?([0-9]+(\.[0-9]*)?|\.[0-9]+)([eE][+-]?[0-9]+)?")


# What stands for SQLite's error where abs has no answer of 64 bits.
OVERFLOW = float("inf")

# SQLite ends some texts at a byte 0. The rule is asked with this character in place of it.
STAND_IN = "\ue000"


def shown(value) -> str:
    if value is None:
        return "NULL"
    return "an overflow" if value == OVERFLOW else repr(value)


@dataclasses.dataclass(frozen=True)
class Side:
    sign: str
    value: object


@dataclasses.dataclass(frozen=True)
class Operation:
    name: str
    sides: tuple

    def __str__(self) -> str:
        return " ".join([self.name] + [side.sign.strip("-") + shown(side.value) for side in self.sides])


class Sqlite:
    """One table of one row, whose columns hold the sides of an operation under each affinity."""

    def __init__(self):
        self.connection = sqlite3.connect(":memory:")
        kinds = {"n": "", "i": "INTEGER", "t": "TEXT"}
        columns = ", ".join(f"{column}{place} {kinds[column]}" for place in PLACES for column in COLUMNS)
        self.connection.execute(f"CREATE TABLE side ({columns})")
        names = [f"{column}{place}" for place in PLACES for column in COLUMNS]
        self.connection.execute(f"INSERT INTO side VALUES ({', '.join('?' for _ in names)})", [None for _ in names])
        self.update = f"UPDATE side SET {', '.join(f'{name} = ?' for name in names)}"

    def hold(self, values) -> None:
        padded = (list(values) + [None for _ in PLACES])[: len(PLACES)]
        self.connection.execute(self.update, [value for value in padded for _ in COLUMNS])

    def ask(self, expression: str):
        try:
            return self.connection.execute(f"SELECT {expression} FROM side").fetchone()[0]
        except sqlite3.OperationalError as error:
            if "integer overflow" not in str(error):
                raise
            return OVERFLOW

    def stored(self, sign: str, value):
        """What a column of the sign's affinity holds once the value is put into it."""
        self.hold([value])
        return self.ask(f"{sign}0")

    def answer(self, name: str, sides):
        self.hold([side.value for side in sides])
        written = [SIDES[side.sign].format(place) for place, side in enumerate(sides)]
        return self.ask(OPERATIONS[name].format(*written))


def number_of(value):
    """The cast to a whole number: the longest front of blanks, sign and digits, or the nearest end of 64 bits."""
    if not isinstance(value, str):
        return value
    front = FRONT.match(value)
    return min(max(int(front[1]), LEAST), GREATEST) if front else 0


def text_of(value):
    return str(value) if isinstance(value, int) else value


def cast(side: Side):
    if side.sign == "I":
        return number_of(side.value)
    return text_of(side.value) if side.sign == "T" else side.value


def spelled(value):
    """The number of a text that is an optional sign and digits within 64 bits."""
    if isinstance(value, str) and SPELLING.fullmatch(value) and LEAST <= int(value) <= GREATEST:
        return int(value)
    return value


def compared(first: Side, second: Side):
    """The two values of a comparison, once the affinity of either side has turned the other one's."""
    left, right = cast(first), cast(second)
    kinds = (first.sign.lower(), second.sign.lower())
    if kinds[0] == "i" and kinds[1] != "i":
        return left, spelled(right)
    if kinds[1] == "i" and kinds[0] != "i":
        return spelled(left), right
    if kinds == ("t", "-"):
        return left, text_of(right)
    if kinds == ("-", "t"):
        return text_of(left), right
    return left, right


def window(text, start, width=GREATEST * 4):
    if None in (text, start, width):
        return None
    first = start if start >= 0 else len(text) + start + 1
    low, high = (first, first + width) if width >= 0 else (first + width, first)
    return "".join(character for place, character in enumerate(text, 1) if low <= place < high)


def stated(sqlite: Sqlite, operation: Operation):
    """The answer by docs/SQL.md: SQLite's for values that are cast as the rule says, where Null stands for a float."""
    name = operation.name
    values = [cast(side) for side in operation.sides]
    if name in WINDOWS:
        return window(text_of(values[0]), *map(number_of, values[1:]))
    if name in COMPARISONS:
        values = compared(*operation.sides)
    elif name in ON_NUMBERS:
        values = map(number_of, values)
    elif name in ON_TEXTS:
        values = [text and text.replace("\0", STAND_IN) for text in map(text_of, values)]
    answer = sqlite.answer(name, [Side("-", value) for value in values])
    if isinstance(answer, str):
        return answer.replace(STAND_IN, "\0")
    return None if isinstance(answer, float) else answer


def reason_of(operation: Operation, theirs) -> str | None:
    """Why we differ from SQLite by intent, if so."""
    name = operation.name
    values = [cast(side) for side in operation.sides]
    texts = [value.strip(BLANKS) for value in values if isinstance(value, str)]
    if name in WINDOWS and any(abs(number_of(value)) > 10**9 for value in values[1:]):
        return "substr's window: a place or a width beyond 10^9"
    if (name in WINDOWS or name in ON_TEXTS) and any("\0" in text for text in texts):
        return "a text with a byte 0"
    if name == "replace" and values[1] == "" and isinstance(values[0], int):
        return "replace of an empty text gives the text of a number"
    if name in COMPARISONS and any(side.sign in "iI" for side in operation.sides):
        numerals = [text for text in texts if FLOAT.fullmatch(text)]
        if any(SPELLING.fullmatch(text) is None for text in numerals):
            return "a text that reads as a float"
        if any(isinstance(spelled(text), str) for text in numerals):
            return "a text's number outside 64 bits"
        return "blanks round a number in a comparison" if numerals else None
    if name in ON_NUMBERS:
        fronts = [FLOAT.match(text)[0] for text in texts if FLOAT.match(text)]
        if any(SPELLING.fullmatch(front) is None for front in fronts):
            return "a text that reads as a float"
        if any(isinstance(spelled(front), str) for front in fronts):
            return "a text's number outside 64 bits"
        if name == "abs" and texts:
            return "abs of a text is a float"
        return "a result outside 64 bits" if isinstance(theirs, float) else None
    return None


class Maker:
    """Makes operations from a seed."""

    def __init__(self, sqlite: Sqlite, seed: str):
        self.sqlite = sqlite
        self.random = random.Random(seed)

    def number(self) -> int:
        kind = self.random.random()
        if kind < 0.6:
            return self.random.choice(NUMBERS)
        return self.random.choice(ENDS) if kind < 0.8 else self.random.randint(-20, 20)

    def letters(self) -> str:
        return "".join(self.random.choices(CHARACTERS, k=self.random.randint(0, 7)))

    def numeral(self) -> str:
        digits = str(abs(self.number()) + self.random.choice((0, 0, 0, 1)))
        if self.random.random() < 0.15:
            digits = "".join(self.random.choices("0123456789", k=self.random.randint(18, 40)))
        zeros = self.random.choice(("", "", "", "00", "0" * 20))
        return "".join(map(self.random.choice, (FRONTS, SIGNS))) + zeros + digits + self.random.choice(RESTS)

    def value(self):
        kind = self.random.random()
        if kind < 0.1:
            return None
        if kind < 0.4:
            return self.number()
        return self.numeral() if kind < 0.7 else self.letters()

    def near(self, value):
        """A value that has something to do with another one."""
        if isinstance(value, int):
            near = (value, value + 1, value - 1, -value, f"{value}", f"+{value}", f" {value}", f"{value} ", f"{value}.0", f"{value}x")
            chosen = self.random.choice(near)
            return chosen if isinstance(chosen, str) else min(max(chosen, LEAST), GREATEST)
        if isinstance(value, str):
            return self.random.choice((value, value.swapcase(), value + "a", value[:-1], f" {value}", number_of(value)))
        return self.value()

    def part(self, text: str) -> str:
        start, end = sorted(self.random.choices(range(len(text) + 1), k=2))
        return text[start:end]

    def pattern(self, text: str) -> str:
        signs = [self.random.choice((sign, sign, sign.swapcase(), "_", "%")) for sign in text]
        for _ in range(self.random.randint(0, 2)):
            start, end = sorted(self.random.choices(range(len(signs) + 1), k=2))
            signs[start:end] = ["%"]
        return "".join(signs)

    def second(self, name: str, first):
        chosen = self.random.random()
        if chosen < 0.3:
            return self.value()
        if name in ("Like", "NotLike") and first is not None:
            return self.pattern(text_of(first))
        if name in ("instr", "replace") and first is not None:
            return self.part(text_of(first))
        if name in WINDOWS:
            return self.random.randint(-9, 9) if chosen < 0.8 else self.near(self.random.randint(-9, 9))
        return self.near(first)

    def side(self, name: str, value) -> Side | None:
        """The value under an affinity, as a column of it would hold it; none where that would be a float."""
        sign = self.random.choice("--iitIT" if name in COMPARISONS else "-------iItT")
        if sign in "it":
            value = self.sqlite.stored(sign, value)
        return None if isinstance(value, float) else Side(sign, value)

    def operation(self) -> Operation:
        name = self.random.choice(list(OPERATIONS))
        while True:
            values = [self.value()]
            count = OPERATIONS[name].count("{") if name != "truth" else 1
            while len(values) < count:
                values.append(self.second(name, values[0]) if len(values) == 1 or name in WINDOWS else self.value())
            if self.random.random() < 0.3 and name not in WINDOWS and count == 2:
                values.reverse()
            sides = [self.side(name, value) for value in values]
            if None not in sides:
                return Operation(name, tuple(sides))


def encoded(operation: Operation) -> str:
    words = [operation.name.split()[0]]
    for side in operation.sides:
        if side.value is None:
            value = "n"
        elif isinstance(side.value, int):
            value = str(side.value)
        else:
            value = "'" + side.value.encode().hex()
        words.append(side.sign + value)
    return " ".join(words)


def decoded(answer: str):
    if answer == "n":
        return None
    return bytes.fromhex(answer[1:]).decode() if answer.startswith("'") else int(answer)


def is_same(left, right) -> bool:
    return type(left) is type(right) and left == right


def build(folder: pathlib.Path) -> pathlib.Path:
    """Writes a repository of the program and of the crates below it, builds it, and answers the program."""
    lines = []
    for crate, below in CRATES.items():
        shutil.copytree(
            TOP / "crates" / crate,
            folder / "crates" / crate,
            ignore=shutil.ignore_patterns("out", "must-fail"),
        )
        lines.append(f"{crate}: {below}")
    lines.append(f"sql_values: hex {' '.join(CRATES)}")
    (folder / "crates.txt").write_text("\n".join(lines) + "\n")
    shutil.copy(TOP / "HANDLES", folder / "HANDLES")
    program = folder / "crates" / "sql_values"
    (program / "src").mkdir(parents=True)
    (program / "src" / "main.rt").write_text(PROGRAM.lstrip("\n"))
    built = subprocess.run(
        ["rt", "run", "--jobs", "1"], cwd=program, stdin=subprocess.DEVNULL, capture_output=True, text=True
    )
    if built.returncode != 0:
        sys.exit(built.stdout + built.stderr)
    return program / "out" / "sql_values"


def answers(program: pathlib.Path, operations: list[Operation]) -> list:
    rows = "".join(encoded(operation) + "\n" for operation in operations)
    run = subprocess.run([str(program)], input=rows, check=True, capture_output=True, text=True)
    return [decoded(line) for line in run.stdout.splitlines()]


def compare(program: pathlib.Path, seed: str, rows: int) -> bool:
    """Compares the answers to the rows of a seed, prints the differences, and answers whether each was expected."""
    sqlite = Sqlite()
    maker = Maker(sqlite, seed)
    operations = [maker.operation() for _ in range(rows)]
    found = answers(program, operations)
    if len(found) != rows:
        sys.exit(f"{len(found)} answers to {rows} rows")
    differences = collections.defaultdict(list)
    unexpected = []
    for operation, ours in zip(operations, found):
        theirs = sqlite.answer(operation.name, operation.sides)
        rule = stated(sqlite, operation)
        reason = None if is_same(ours, theirs) else reason_of(operation, theirs)
        line = f"{operation}: ours {shown(ours)}, SQLite's {shown(theirs)}"
        if not is_same(ours, rule) or not (is_same(ours, theirs) or reason):
            unexpected.append(f"UNEXPECTED {line}, by the rule {shown(rule)}")
        elif reason:
            differences[reason].append(line)
    same = rows - len(unexpected) - sum(map(len, differences.values()))
    print(f"seed {seed}: {rows} rows, {same} as in SQLite {sqlite3.sqlite_version}, {len(unexpected)} unexpected")
    for reason, lines in sorted(differences.items()):
        print(f"{len(lines):6}  {reason}, as {lines[0]}")
    for line in unexpected:
        print(line)
    return not unexpected


def main() -> None:
    if sqlite3 is None:
        print("skipped: this python has no sqlite3")
        return
    rows = int(sys.argv[1]) if len(sys.argv) > 1 else 5000
    seeds = sys.argv[2:] or ["1"]
    with tempfile.TemporaryDirectory() as folder:
        program = build(pathlib.Path(folder))
        expected = [compare(program, seed, rows) for seed in seeds]
    sys.exit(0 if all(expected) else 1)


if __name__ == "__main__":
    main()
