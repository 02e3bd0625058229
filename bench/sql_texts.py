#!/usr/bin/env python3
"""Generated texts of SELECT: what the parser and the names make of them beside another reading, and how fast.

Usage: bench/sql_texts.py [COUNT [SEED [FOLDER]]]. A program that answers one text a line is written into a folder beside copies of the
crates that it needs, proved and built by `rt run`, and run there. The folder is a temporary one unless FOLDER names one: that one stays,
so that a second run need not prove again.

COUNT texts (default 20000) of the SEED (default 1) are read twice: by the program, and by the reader of this file, which follows
docs/SQL.md and docs/SQL_MEANING.md and shares nothing with the program. Some are right, and most have a fault of names or, by tokens that were dropped,
doubled or exchanged, of the grammar. Each answer is compared: the fault's kind and place, or the names of the result's columns and
whether a table is one of events. A text for which they differ is printed, and the status is then 1.

Then 10000 texts of about 1 KB are parsed and resolved, and the processor's time is printed beside that of this file's reader.
"""

import collections
import pathlib
import random
import shutil
import subprocess
import sys
import tempfile
import time

TOP = pathlib.Path(__file__).resolve().parent.parent
CRATES = {
    "osq_value": "arrayvec",
    "sql_tree": "",
    "sql_tokens": "sql_tree",
    "sql_faults": "sql_tree sql_tokens",
    "sql_parser": "sql_tree sql_tokens sql_faults",
    "sql_query": "osq_value sql_tree",
    "sql_scope": "osq_value sql_tree sql_query",
    "sql_names": "osq_value sql_tree sql_query sql_scope",
}

PROGRAM = r"""
//! Reads texts of SELECT, one a line, and prints for each the kind and place of its fault, or `ok`, whether a table is one of events, and
//! the names of the result's columns. The byte 01 stands for a line feed.
#![tactic(auto)]

use osq_value::NoMemory;
use sql_names::error::NameKind;
use sql_names::resolve::resolve;
use sql_parser::ParseKind;
use sql_parser::parse::parse;
use sql_query::answers::{is_evented, names_of};
use std::alloc::Global;
use std::io;

fn parse_kind(kind: ParseKind) -> &'static str {
    match kind {
        ParseKind::NotInGrammar => "NotInGrammar",
        ParseKind::NumberTooWide => "NumberTooWide",
        ParseKind::TextTooLong => "TextTooLong",
        ParseKind::TooDeep => "TooDeep",
        ParseKind::NoMemory => "NoMemory",
    }
}

fn name_kind(kind: NameKind) -> &'static str {
    match kind {
        NameKind::TooManyTables => "TooManyTables",
        NameKind::NoTable => "NoTable",
        NameKind::NoColumn => "NoColumn",
        NameKind::Ambiguous => "Ambiguous",
        NameKind::BadAggregate => "BadAggregate",
        NameKind::BareColumn => "BareColumn",
        NameKind::NoMemory => "NoMemory",
    }
}

fn answer(alloc: Global, text: &str) -> Result<String, NoMemory> {
    let select = match parse(alloc, text) {
        Ok(select) => select,
        Err(error) => {
            let kind = parse_kind(error.kind);
            return Ok(format!(in alloc; "{kind} {}", error.place)?);
        }
    };
    let query = match resolve(alloc, text, &select) {
        Ok(query) => query,
        Err(error) => {
            let kind = name_kind(error.kind);
            return Ok(format!(in alloc; "{kind} {}", error.place)?);
        }
    };
    let mut shown = format!(in alloc; "ok {}", is_evented(&query))?;
    for name in names_of(alloc, &query)?.as_slice() {
        shown.push_str("|")?;
        shown.push_str(name.as_str())?;
    }
    Ok(shown)
}

fn answered(alloc: Global, line: &str) -> Result<String, NoMemory> {
    let text = line.replace(alloc, "\u{1}", "\n")?;
    let shown = answer(alloc, text.as_str())?;
    Ok(shown.replace(alloc, "\n", "\u{1}")?)
}

fn main(rt: HostRuntime) -> io::Result<()> {
    let alloc = rt.alloc();
    for line in rt.lines(alloc) {
        let Ok(text) = answered(alloc, line?.as_str()) else {
            return Err(io::Error::from(io::ErrorKind::OutOfMemory));
        };
        println!(&rt; "{text}")?;
    }
    Ok(())
}
"""

# The tables, whether they are of events, and their columns.
CATALOGUE = {
    "process_events": (True, "pid path mode cmdline cwd auid uid euid gid egid parent time"),
    "socket_events": (
        True,
        "action pid path fd auid status family local_address remote_address local_port remote_port socket time",
    ),
    "file_events": (True, "target_path category action inode uid gid mode size mtime time"),
    "users": (False, "uid gid username description directory shell"),
    "groups": (False, "gid groupname"),
    "user_groups": (False, "uid gid"),
    "processes": (False, "pid name path cmdline state cwd uid gid parent start_time"),
    "listening_ports": (False, "pid port protocol family address"),
    "system_info": (False, "hostname uuid cpu_brand physical_memory"),
    "os_version": (False, "name version major minor platform"),
    "deb_packages": (False, "name version source size arch"),
    "logged_in_users": (False, "type user tty host time pid"),
    "time": (False, "unix_time"),
    "osquery_schedule": (False, "name query interval executions last_executed"),
    "osquery_events": (False, "name events"),
}
KEYWORDS = set(
    "SELECT DISTINCT AS FROM WHERE GROUP BY HAVING ORDER ASC DESC LIMIT OFFSET JOIN INNER CROSS LEFT OUTER ON USING "
    "AND OR NOT IS IN LIKE BETWEEN NULL CAST".split()
)
# How many arguments a function takes, from and to.
FUNCTIONS = {
    "length": (1, 1),
    "lower": (1, 1),
    "upper": (1, 1),
    "trim": (1, 1),
    "substr": (2, 3),
    "instr": (2, 2),
    "replace": (3, 3),
    "abs": (1, 1),
    "typeof": (1, 1),
    "coalesce": (2, 10**9),
    "ifnull": (2, 2),
    "nullif": (2, 2),
}
AGGREGATES = {"count", "sum", "min", "max"}
TYPES = {"integer", "bigint", "int", "text"}
SIGNS = ("==", "<>", "!=", "<=", ">=", "||", *",.()*/%+-=<>;")
LETTERS = set("abcdefghijklmnopqrstuvwxyzABCDEFGHIJKLMNOPQRSTUVWXYZ")
DIGITS = set("0123456789")
GREATEST = 2**63 - 1
NESTINGS = 64
OPERATORS = 1000
TABLES = 16

# A nesting takes about a dozen calls of the reader.
sys.setrecursionlimit(20 * 1000)

Token = collections.namedtuple("Token", "kind text start end before")
Node = collections.namedtuple("Node", "kind parts place end", defaults=(0, 0))


def lowered(text: str) -> str:
    """ASCII letters alone have a case."""
    return "".join(sign.lower() if sign in LETTERS else sign for sign in text)


def past_blanks(text: str, at: int) -> int:
    while at < len(text):
        if text[at] in " \t\n\r":
            at += 1
        elif text.startswith("--", at):
            feed = text.find("\n", at)
            at = len(text) if feed < 0 else feed + 1
        elif text.startswith("/*", at):
            end = text.find("*/", at + 2)
            at = len(text) if end < 0 else end + 2
        else:
            break
    return at


def past_quote(text: str, at: int) -> int | None:
    """The place behind the quote that closes the one here."""
    quote = text[at]
    at += 1
    while at < len(text):
        if text[at] != quote:
            at += 1
        elif text.startswith(quote, at + 1):
            at += 2
        else:
            return at + 1
    return None


def token_at(text: str, at: int, before: int) -> Token:
    first = text[at]
    if first in LETTERS or first == "_":
        end = at
        while end < len(text) and (text[end] in LETTERS or text[end] in DIGITS or text[end] == "_"):
            end += 1
        word = text[at:end]
        upper = "".join(sign.upper() for sign in word)
        kind = upper if upper in KEYWORDS else "name"
        return Token(kind, word, at, end, before)
    if first in DIGITS:
        end = at
        while end < len(text) and text[end] in DIGITS:
            end += 1
        return Token("number", text[at:end], at, end, before)
    if first in "\"'":
        end = past_quote(text, at)
        if end is None:
            return Token("bad", text[at:], at, len(text), before)
        inner = text[at + 1 : end - 1].replace(first * 2, first)
        return Token("quoted" if first == '"' else "text", inner, at, end, before)
    for sign in SIGNS:
        if text.startswith(sign, at):
            return Token(sign, sign, at, at + len(sign), before)
    return Token("bad", first, at, at + 1, before)


def tokens_of(text: str) -> list[Token]:
    tokens = []
    end = 0
    while (at := past_blanks(text, end)) < len(text):
        tokens.append(token_at(text, at, end))
        end = tokens[-1].end
    tokens.append(Token("end", "", len(text), len(text), end))
    return tokens


class Stop(Exception):
    """The reading stops at a token that isn't expected."""


class Reading:
    """A descent over the tokens of a text. `faults` has those of the tokens that were taken."""

    def __init__(self, text: str):
        self.text = text
        self.tokens = tokens_of(text)
        self.at = 0
        self.depth = 0
        self.faults = []

    def token(self, ahead: int = 0) -> Token:
        return self.tokens[min(self.at + ahead, len(self.tokens) - 1)]

    def sees(self, *kinds: str) -> bool:
        return self.token().kind in kinds

    def sees_name(self, ahead: int = 0) -> bool:
        return self.token(ahead).kind in ("name", "quoted")

    def take(self, *kinds: str) -> Token:
        if not self.sees(*kinds):
            self.faults.append((self.token().start, "NotInGrammar"))
            raise Stop()
        self.at += 1
        return self.tokens[self.at - 1]

    def takes(self, *kinds: str) -> bool:
        if self.sees(*kinds):
            self.at += 1
            return True
        return False

    def name(self) -> Token:
        return self.take("name", "quoted")

    def number(self) -> Token:
        token = self.take("number")
        if int(token.text) > GREATEST:
            self.faults.append((token.start, "NumberTooWide"))
        return token

    def nest(self, token: Token) -> None:
        self.depth += 1
        if self.depth > NESTINGS:
            self.faults.append((token.start, "TooDeep"))

    def listed(self, read) -> list:
        found = [read()]
        while self.takes(","):
            found.append(read())
        return found

    # ---- expressions

    def chain(self, kinds, operand, step) -> Node:
        first = operand()
        steps = []
        while self.sees(*kinds):
            if len(steps) >= OPERATORS:
                self.faults.append((self.token().start, "TooDeep"))
            steps.append(step(operand))
        return Node("chain", (first, *steps)) if steps else first

    def binary(self, operand) -> Node:
        sign = self.take(self.token().kind).kind
        return Node(sign, (operand(),))

    def expression(self) -> Node:
        return self.chain(("OR",), self.conjunction, self.binary)

    def conjunction(self) -> Node:
        return self.chain(("AND",), self.negation, self.binary)

    def negation(self) -> Node:
        if not self.sees("NOT"):
            return self.chain(
                ("=", "==", "<>", "!=", "IS", "IN", "LIKE", "BETWEEN", "NOT"), self.comparison, self.equality
            )
        self.nest(self.take("NOT"))
        inner = self.negation()
        self.depth -= 1
        return Node("negation", (inner,))

    def equality(self, operand) -> Node:
        if self.takes("=", "=="):
            return Node("=", (operand(),))
        if self.takes("<>", "!="):
            return Node("<>", (operand(),))
        if self.takes("IS"):
            return Node("IS NOT" if self.takes("NOT") else "IS", (operand(),))
        negated = "NOT " if self.takes("NOT") else ""
        kind = self.take("IN", "LIKE", "BETWEEN").kind
        if kind == "LIKE":
            return Node(negated + kind, (operand(),))
        if kind == "BETWEEN":
            low = operand()
            self.take("AND")
            return Node(negated + kind, (low, operand()))
        self.nest(self.take("("))
        items = [] if self.sees(")") else self.listed(self.expression)
        self.take(")")
        self.depth -= 1
        return Node(negated + kind, tuple(items))

    def comparison(self) -> Node:
        return self.chain(("<", "<=", ">", ">="), self.total, self.binary)

    def total(self) -> Node:
        return self.chain(("+", "-"), self.product, self.binary)

    def product(self) -> Node:
        return self.chain(("*", "/", "%"), self.joined, self.binary)

    def joined(self) -> Node:
        return self.chain(("||",), self.signed, self.binary)

    def signed(self) -> Node:
        if not self.sees("-", "+"):
            return self.atom()
        sign = self.take("-", "+")
        self.nest(sign)
        inner = self.signed()
        self.depth -= 1
        return Node("sign " + sign.kind, (inner,))

    def atom(self) -> Node:
        if self.sees("number"):
            token = self.number()
            return Node("number", (int(token.text),), token.start)
        if self.sees("text"):
            return Node("text", (self.take("text").text,))
        if self.takes("NULL"):
            return Node("null", ())
        if self.takes("CAST"):
            return self.cast()
        if self.sees("("):
            self.nest(self.take("("))
            inner = self.expression()
            self.take(")")
            self.depth -= 1
            return inner
        name = self.name()
        if self.takes("."):
            return Node("column", (name, self.name()), name.start)
        if self.sees("("):
            return self.call(name)
        return Node("column", (None, name), name.start)

    def cast(self) -> Node:
        self.nest(self.take("("))
        inner = self.expression()
        self.take("AS")
        kind = self.name()
        if lowered(kind.text) not in TYPES:
            self.faults.append((kind.start, "NotInGrammar"))
        self.take(")")
        self.depth -= 1
        return Node("cast " + ("text" if lowered(kind.text) == "text" else "integer"), (inner,))

    def call(self, name: Token) -> Node:
        function = lowered(name.text)
        if function not in FUNCTIONS and function not in AGGREGATES:
            self.faults.append((name.start, "NotInGrammar"))
        self.nest(self.take("("))
        is_all = is_distinct = False
        arguments = []
        if self.takes("*"):
            is_all = True
        elif not self.sees(")"):
            is_distinct = self.takes("DISTINCT")
            arguments = self.listed(self.expression)
        self.take(")")
        self.depth -= 1
        if function in FUNCTIONS:
            least, most = FUNCTIONS[function]
            is_right = not is_all and not is_distinct and least <= len(arguments) <= most
        else:
            is_right = len(arguments) == 1 or is_all
            is_right = is_right and (function == "count" or not (is_all or is_distinct))
        if not is_right:
            self.faults.append((name.start, "NotInGrammar"))
        if function in AGGREGATES:
            return Node("aggregate", (function, is_distinct, *arguments), name.start)
        return Node("call " + function, tuple(arguments))

    # ---- the select

    def alias(self) -> Token | None:
        if self.takes("AS") or self.sees_name():
            return self.name()
        return None

    def item(self) -> tuple:
        if self.sees("*"):
            return ("all", self.take("*").start)
        if self.sees_name() and self.token(1).kind == "." and self.token(2).kind == "*":
            table = self.name()
            self.take(".")
            self.take("*")
            return ("all of", table)
        start = self.token().start
        node = self.expression()
        end = self.token().before
        return ("one", node, self.text[start:end], self.alias())

    def source(self) -> dict:
        table = self.name()
        return {"table": table, "alias": self.alias(), "on": None, "using": []}

    def sources(self) -> list[dict]:
        found = [self.source()]
        while self.sees(",", "CROSS", "INNER", "JOIN", "LEFT"):
            if self.takes(","):
                found.append(self.source())
                continue
            if self.takes("CROSS"):
                self.take("JOIN")
                found.append(self.source())
                continue
            if self.takes("LEFT"):
                self.takes("OUTER")
            else:
                self.takes("INNER")
            self.take("JOIN")
            found.append(self.source())
            if self.takes("ON"):
                found[-1]["on"] = self.expression()
            elif self.takes("USING"):
                self.take("(")
                found[-1]["using"] = self.listed(self.name)
                self.take(")")
        return found

    def term(self) -> Node:
        node = self.expression()
        self.takes("ASC", "DESC")
        return node

    def integer(self) -> None:
        self.takes("-", "+")
        self.number()

    def select(self) -> dict:
        self.take("SELECT")
        self.takes("DISTINCT")
        made = {"items": self.listed(self.item), "sources": [], "where": None, "keys": [], "having": None, "terms": []}
        if self.takes("FROM"):
            made["sources"] = self.sources()
        if self.takes("WHERE"):
            made["where"] = self.expression()
        if self.takes("GROUP"):
            self.take("BY")
            made["keys"] = self.listed(self.expression)
        if self.sees("HAVING"):
            place = self.take("HAVING").start
            made["having"] = (place, self.expression())
        if self.takes("ORDER"):
            self.take("BY")
            made["terms"] = self.listed(self.term)
        if self.takes("LIMIT"):
            self.integer()
            if self.takes("OFFSET"):
                self.integer()
        self.takes(";")
        self.take("end")
        return made


def walk(node: Node, inside: bool = False):
    """The columns and aggregates of an expression, each with whether it stands inside an aggregate."""
    if node.kind in ("column", "aggregate"):
        yield node, inside
    if node.kind == "column":
        return
    for part in node.parts:
        if isinstance(part, Node):
            yield from walk(part, inside or node.kind == "aggregate")


class Names:
    """The names of a select without a fault of the grammar."""

    def __init__(self, select: dict):
        self.select = select
        self.scope = []
        for source in select["sources"]:
            name = lowered(source["table"].text)
            self.scope.append(
                {
                    "known": lowered(source["alias"].text if source["alias"] else source["table"].text),
                    "columns": CATALOGUE[name][1].split() if name in CATALOGUE else [],
                    "joined": {lowered(token.text) for token in source["using"]},
                }
            )
        self.shown = [column for item in select["items"] for column in self.result(item)]

    def holders(self, name: str, reach: int) -> list[int]:
        return [at for at, table in enumerate(self.scope[:reach]) if name in table["columns"]]

    def known(self, table: str, reach: int) -> list[int]:
        return [at for at, seen in enumerate(self.scope[:reach]) if seen["known"] == table]

    def result(self, item: tuple) -> list[tuple]:
        """The columns of the result: the name, the resolved tree, the alias if there is one, and the item's tree."""
        if item[0] == "one":
            _, node, text, alias = item
            name = text
            if node.kind == "column" and (place := self.column(node, "item")) is not None:
                name = place[2]
            return [(alias.text if alias else name, self.resolved(node, "item"), alias and lowered(alias.text), node)]
        found = []
        for at, table in enumerate(self.scope):
            if item[0] == "all" or table["known"] == lowered(item[1].text):
                for column in table["columns"]:
                    if item[0] != "all" or column not in table["joined"]:
                        found.append((column, Node("place", (at, column)), None, None))
        return found

    def reach(self, clause) -> int:
        return clause + 1 if isinstance(clause, int) else len(self.scope)

    def aliased(self, name: str) -> int | None:
        return next((at for at, shown in enumerate(self.shown) if shown[2] == name), None)

    def meaning(self, name: str, clause) -> tuple:
        holders = self.holders(name, self.reach(clause))
        alias = self.aliased(name) if clause in ("key", "having", "term") else None
        if alias is not None and (clause == "term" or not holders):
            return ("alias", alias)
        return ("column", holders[0], name) if holders else ("word",)

    def column(self, node: Node, clause) -> tuple | None:
        """The table's number and the column that a column is."""
        table, column = node.parts
        name = lowered(column.text)
        if table is None:
            meaning = self.meaning(name, clause)
            return meaning if meaning[0] == "column" else None
        for at in self.known(lowered(table.text), self.reach(clause)):
            if name in self.scope[at]["columns"]:
                return ("column", at, name)
        return None

    def resolved(self, node: Node, clause):
        if node.kind == "column":
            place = self.column(node, clause)
            if place is not None:
                return Node("place", place[1:])
            if node.parts[0] is None:
                meaning = self.meaning(lowered(node.parts[1].text), clause)
                if meaning[0] == "alias":
                    return self.shown[meaning[1]][1]
            return Node("text", (node.parts[1].text,))
        parts = tuple(self.resolved(part, clause) if isinstance(part, Node) else part for part in node.parts)
        return Node(node.kind, parts)

    def number(self, node: Node) -> int | None:
        return node.parts[0] if node.kind == "number" else None

    def term(self, node: Node, clause):
        number = self.number(node)
        if number is not None and 1 <= number <= len(self.shown):
            return self.shown[number - 1][1]
        return self.resolved(node, clause)

    def clauses(self):
        """Each expression with its clause: the number of a table for that table's ON."""
        for item in self.select["items"]:
            if item[0] == "one":
                yield item[1], "item"
        for at, source in enumerate(self.select["sources"]):
            if source["on"] is not None:
                yield source["on"], at
        if self.select["where"] is not None:
            yield self.select["where"], "where"
        for node in self.select["keys"]:
            yield node, "key"
        if self.select["having"] is not None:
            yield self.select["having"][1], "having"
        for node in self.select["terms"]:
            yield node, "term"

    def mentions(self):
        for node, clause in self.clauses():
            for found, inside in walk(node):
                yield found, clause, inside

    def too_many_tables(self):
        if len(self.select["sources"]) > TABLES:
            yield self.select["sources"][TABLES]["table"].start

    def no_table(self):
        for source in self.select["sources"]:
            if lowered(source["table"].text) not in CATALOGUE:
                yield source["table"].start
        tables = [item[1] for item in self.select["items"] if item[0] == "all of"]
        for node, _, _ in self.mentions():
            if node.kind == "column" and node.parts[0] is not None:
                tables.append(node.parts[0])
        for table in tables:
            if not self.known(lowered(table.text), len(self.scope)):
                yield table.start

    def no_column(self):
        for node, clause, _ in self.mentions():
            if node.kind == "column" and self.column(node, clause) is None:
                table, column = node.parts
                if table is not None:
                    yield table.start
                elif column.kind == "name" and self.meaning(lowered(column.text), clause)[0] == "word":
                    yield column.start
        for item in self.select["items"]:
            if item[0] == "all" and not self.scope:
                yield item[1]
        for at, source in enumerate(self.select["sources"]):
            for token in source["using"]:
                name = lowered(token.text)
                if not self.holders(name, at) or name not in self.scope[at]["columns"]:
                    yield token.start
        for node in self.select["keys"] + self.select["terms"]:
            number = self.number(node)
            if number is not None and not 1 <= number <= len(self.shown):
                yield node.place

    def ambiguous(self):
        for at, source in enumerate(self.select["sources"]):
            if self.known(self.scope[at]["known"], at):
                yield source["table"].start
        for node, clause, _ in self.mentions():
            if node.kind == "column" and node.parts[0] is None:
                name = lowered(node.parts[1].text)
                if self.meaning(name, clause)[0] == "column":
                    holders = self.holders(name, self.reach(clause))
                    if len([at for at in holders if name not in self.scope[at]["joined"]]) > 1:
                        yield node.place

    def aggregates_in(self, shown: tuple) -> list[int]:
        nodes = walk(shown[3]) if shown[3] is not None else ()
        return [node.place for node, _ in nodes if node.kind == "aggregate"]

    def bad_aggregate(self):
        free = False
        for node, clause, inside in self.mentions():
            forbidden = inside or clause in ("where", "key") or isinstance(clause, int)
            if node.kind == "aggregate":
                free = free or clause in ("item", "having", "term")
                if forbidden:
                    yield node.place
            elif forbidden and node.parts[0] is None:
                meaning = self.meaning(lowered(node.parts[1].text), clause)
                if meaning[0] == "alias":
                    yield from self.aggregates_in(self.shown[meaning[1]])
        for node in self.select["keys"]:
            number = self.number(node)
            if number is not None and 1 <= number <= len(self.shown):
                yield from self.aggregates_in(self.shown[number - 1])
        if self.select["having"] is not None and not self.select["keys"] and not free:
            yield self.select["having"][0]

    def bare_in(self, node: Node, clause, keys):
        if self.resolved(node, clause) in keys or node.kind == "aggregate":
            return
        if node.kind == "column":
            if self.column(node, clause) is not None:
                yield node.place
            return
        for part in node.parts:
            if isinstance(part, Node):
                yield from self.bare_in(part, clause, keys)

    def bare_column(self):
        folds = [node.parts[0] for node, clause, _ in self.mentions() if node.kind == "aggregate"]
        if not {"min", "max"} & set(folds):
            return
        keys = [self.term(node, "key") for node in self.select["keys"]]
        for item in self.select["items"]:
            if item[0] != "one" and any(shown[1] not in keys for shown in self.result(item)):
                yield item[1] if item[0] == "all" else item[1].start
        for node, clause in self.clauses():
            if clause in ("item", "having", "term"):
                yield from self.bare_in(node, clause, keys)

    def answer(self) -> str:
        kinds = {
            "TooManyTables": self.too_many_tables,
            "NoTable": self.no_table,
            "NoColumn": self.no_column,
            "Ambiguous": self.ambiguous,
            "BadAggregate": self.bad_aggregate,
            "BareColumn": self.bare_column,
        }
        for kind, places in kinds.items():
            found = list(places())
            if found:
                return f"{kind} {min(found)}"
        evented = any(CATALOGUE[lowered(source["table"].text)][0] for source in self.select["sources"])
        return "|".join([f"ok {str(evented).lower()}"] + [shown[0] for shown in self.shown])


def read(text: str) -> str:
    """The answer of this file's reader."""
    if len(text) > 65536:
        return "TextTooLong 65536"
    reading = Reading(text)
    select = None
    try:
        select = reading.select()
    except Stop:
        pass
    if reading.faults:
        place, kind = min(reading.faults, key=lambda fault: fault[0])
        return f"{kind} {place}"
    return Names(select).answer()


class Maker:
    """Makes texts from a seed."""

    def __init__(self, seed: str):
        self.random = random.Random(seed)
        self.columns = ["uid"]

    def chance(self, share: float) -> bool:
        return self.random.random() < share

    def choice(self, items):
        return self.random.choice(items)

    def cased(self, word: str) -> str:
        return self.choice((word, word, word.upper(), word.title()))

    def column(self) -> str:
        if self.chance(0.05):
            return self.choice(("nope", '"nope"', "n", "m", '"n"', "uid", "gid", "x.uid", "u.nope"))
        name = self.choice(self.columns)
        if self.chance(0.1):
            table, _, column = name.rpartition(".")
            name = (table + "." if table else "") + f'"{column}"'
        return self.cased(name)

    def atom(self, depth: int, fold: bool) -> str:
        kind = self.random.random()
        if kind < 0.5 or depth > 3:
            return self.column()
        if kind < 0.62:
            return self.choice(("0", "1", "2", "3", "17", "9223372036854775807", "'a'", "'it''s'", "NULL", "007"))
        if kind < 0.7 and fold:
            name = self.choice(("COUNT(*)", "count(DISTINCT {})", "SUM({})", "min({})", "MAX({})", "max({})"))
            return name.format(self.expression(depth + 1, self.chance(0.1)))
        if kind < 0.8:
            name = self.choice(list(FUNCTIONS))
            least, most = FUNCTIONS[name]
            count = self.random.randint(least, min(most, least + 2))
            if self.chance(0.03):
                count += self.choice((-1, 1, 2))
            arguments = [self.expression(depth + 1, fold) for _ in range(max(count, 0))]
            return f"{self.cased(name)}({', '.join(arguments)})"
        if kind < 0.85:
            kind = self.choice(("TEXT", "int", "BIGINT", "INTEGER", '"text"', "TEXT", "TEXT", "text", "int", "REAL"))
            return f"CAST({self.expression(depth + 1, fold)} AS {kind})"
        if kind < 0.92:
            return f"({self.expression(depth + 1, fold)})"
        return self.choice(("-", "+", "- -", "NOT ")) + self.atom(depth + 1, fold)

    def expression(self, depth: int, fold: bool) -> str:
        text = self.atom(depth, fold)
        while self.chance(0.35 / (depth + 1)):
            kind = self.random.random()
            if kind < 0.75:
                sign = self.choice("= == <> != < <= > >= + - * / % || AND OR IS LIKE".split() + ["IS NOT", "NOT LIKE"])
                text += f" {sign} {self.atom(depth + 1, fold)}"
            elif kind < 0.88:
                items = ", ".join(self.expression(depth + 1, fold) for _ in range(self.random.randint(0, 2)))
                text += f" {self.choice(('IN', 'NOT IN'))} ({items})"
            else:
                ends = f"{self.atom(depth + 1, fold)} AND {self.atom(depth + 1, fold)}"
                text += f" {self.choice(('BETWEEN', 'NOT BETWEEN'))} {ends}"
        return text

    def sources(self) -> str:
        text = ""
        self.columns = []
        found = []
        for number in range(self.choice((1, 1, 1, 2, 2, 3, 4)) if self.chance(0.98) else self.random.randint(15, 18)):
            table = self.choice(list(CATALOGUE) if self.chance(0.4) else ["users", "groups", "user_groups", "processes"])
            if self.chance(0.02):
                table = "nope"
            alias = self.choice(("", "", f" {'abcdefgh'[number % 8]}{number}", f' AS "T {number}"', " u"))
            known = alias.strip().removeprefix("AS ") or table
            columns = CATALOGUE[table][1].split() if table in CATALOGUE else ["uid"]
            self.columns += columns + [f"{known}.{column}" for column in columns]
            text += self.choice((", ", " JOIN ", " LEFT JOIN ", " CROSS JOIN ", " inner join ")) if number else ""
            text += self.cased(table) + alias
            if number and not text.endswith("x") and self.chance(0.6) and " CROSS" not in text and ", " not in text:
                shared = [column for column in columns if any(column in before for before in found)]
                if shared and self.chance(0.6):
                    text += f" USING ({self.choice(shared)})"
                else:
                    text += f" ON {self.expression(1, self.chance(0.03))}"
            found.append(columns)
        return text

    def select(self) -> str:
        source = self.sources() if self.chance(0.95) else ""
        if not source:
            self.columns = ["1", "'a'", '"w"']
        fold = self.chance(0.3)
        items = []
        for _ in range(self.random.randint(1, 4)):
            kind = self.random.random()
            if kind < 0.1:
                items.append("*")
            elif kind < 0.15:
                items.append(self.choice(("u", "users", "groups", "nope", '"T 1"')) + ".*")
            else:
                items.append(self.expression(0, fold) + self.choice(("", "", "", " AS n", " m", ' AS "N"', " uid", " AS gid")))
        text = f"SELECT {self.choice(('', '', 'DISTINCT '))}{', '.join(items)}"
        if source:
            text += f" FROM {source}"
        self.columns += ["n", "m"] if self.chance(0.3) else []
        if self.chance(0.3):
            text += f" WHERE {self.expression(0, self.chance(0.05))}"
        if self.chance(0.3):
            keys = [self.expression(1, self.chance(0.03)) for _ in range(self.random.randint(1, 2))] + items[:1]
            text += f" GROUP BY {', '.join(self.random.sample(keys, 1))}"
            if self.chance(0.3):
                text += ", 1"
        if self.chance(0.2):
            text += f" HAVING {self.expression(0, True)}"
        if self.chance(0.3):
            terms = [self.expression(0, fold) + self.choice(("", " ASC", " desc")) for _ in range(self.random.randint(1, 2))]
            if self.chance(0.3):
                terms.append(str(self.random.randint(0, 5)))
            text += f" ORDER BY {', '.join(terms)}"
        if self.chance(0.2):
            text += self.choice((" LIMIT 1", " LIMIT -1 OFFSET 2", " LIMIT +0;", " LIMIT 1 OFFSET 99999999999999999999"))
        return text + self.choice(("", "", ";", " -- the end", "/* open"))

    def blanks(self, text: str) -> str:
        """The same tokens with other blanks between them."""
        parts = [text[token.start : token.end] for token in tokens_of(text)]
        blanks = [" ", " ", " ", "\n", "\t ", "/* a */", " -- b\n", "  "]
        return "".join(part + self.choice(blanks) for part in parts)

    def broken(self, text: str) -> str:
        """The same with a token or two dropped, doubled or exchanged."""
        parts = [text[token.start : token.end] for token in tokens_of(text) if token.kind != "end"]
        others = list(KEYWORDS) + list("*,.()+-=<;!|'\"#") + ["99999999999999999999", "length", "nosuch(", "uid", "1"]
        for _ in range(self.random.randint(1, 2)):
            at = self.random.randrange(len(parts)) if parts else 0
            change = self.random.randrange(4)
            if change == 0 and parts:
                del parts[at]
            elif change == 1 and parts:
                parts.insert(at, parts[at])
            elif change == 2:
                parts.insert(at, self.choice(others))
            elif parts:
                other = self.random.randrange(len(parts))
                parts[at], parts[other] = parts[other], parts[at]
        return " ".join(parts)

    def deep(self) -> str:
        """Text at the limits of nesting and of chains."""
        count = self.random.randint(62, 66)
        opening, closing = self.choice((("(", ")"), ("NOT ", ""), ("-", ""), ("lower(", ")"), ("1 IN (", ")"), ("CAST(", " AS INT)")))
        if self.chance(0.5):
            return f"SELECT {opening * count}1{closing * self.choice((count, count, count - 1))}"
        sign = self.choice(("+ 1", "AND 1", "IS NOT 1", "NOT IN ()", "= 1", "|| 1", "NOT BETWEEN 1 AND 2"))
        count = self.random.randint(999, 1002)
        wide = self.choice(("", "", "9223372036854775808, "))
        return f"SELECT {wide}1 {f'{sign} ' * count}{self.choice(('', ', 9223372036854775808', ' NOT 1'))}"

    def text(self) -> str:
        if self.chance(0.01):
            return self.deep()
        text = self.select()
        if self.chance(0.2):
            text = self.blanks(text)
        return self.broken(text) if self.chance(0.25) else text

    def long(self, size: int) -> str:
        """A text of about this size without a fault, as a pack of scheduled queries has them."""
        text = "SELECT u.uid, u.username AS name, g.groupname, COUNT(*) AS n FROM users u JOIN groups g ON g.gid = u.gid WHERE 1"
        while len(text) < size - 60:
            number = self.random.randrange(10**6)
            text += self.choice(
                (
                    f" AND u.uid <> {number}",
                    f" AND lower(u.shell) LIKE '%{number}%'",
                    f" AND u.gid NOT IN ({number}, {number + 1}, {number + 2})",
                    f" AND length(u.directory) + {number} > g.gid",
                )
            )
        return text + " GROUP BY u.uid, g.groupname ORDER BY n DESC, name LIMIT 100"


def build(folder: pathlib.Path) -> str:
    """Writes a repository of the program and of the crates below it, builds it, and answers the program."""
    lines = []
    for crate, below in CRATES.items():
        shutil.copytree(
            TOP / "crates" / crate,
            folder / "crates" / crate,
            ignore=shutil.ignore_patterns("out", "must-fail"),
            dirs_exist_ok=True,
        )
        lines.append(f"{crate}: {below}")
    lines.append(f"sql_texts: {' '.join(CRATES)}")
    (folder / "crates.txt").write_text("\n".join(lines) + "\n")
    shutil.copy(TOP / "HANDLES", folder / "HANDLES")
    program = folder / "crates" / "sql_texts"
    (program / "src").mkdir(parents=True, exist_ok=True)
    (program / "src" / "main.rt").write_text(PROGRAM.lstrip("\n"))
    built = subprocess.run(["rt", "run", "--jobs", "1"], cwd=program, stdin=subprocess.DEVNULL, capture_output=True, text=True)
    if built.returncode != 0:
        sys.exit(built.stdout + built.stderr)
    return str(program / "out" / "sql_texts")


def answers(program: str, texts: list[str]) -> list[str]:
    lines = "".join(text.replace("\n", "\x01") + "\n" for text in texts)
    run = subprocess.run([program], input=lines, check=True, capture_output=True, text=True)
    return [line.replace("\x01", "\n") for line in run.stdout.splitlines()]


def compare(program: str, seed: str, count: int) -> bool:
    """Prints how many texts of each kind there are, and those on which the two readers differ; answers whether there is none."""
    maker = Maker(seed)
    texts = [maker.text() for _ in range(count)]
    texts += ["SELECT 1" + " " * 65528, "SELECT 1" + " " * 65529, "SELECT x," + " " * 65529]
    found = answers(program, texts)
    if len(found) != len(texts):
        sys.exit(f"{len(found)} answers to {len(texts)} texts")
    kinds = collections.Counter()
    differences = 0
    for text, ours in zip(texts, found):
        wanted = read(text)
        kinds[wanted.split(" ")[0]] += 1
        if ours != wanted:
            differences += 1
            print(f"DIFFERENT {text!r}: {ours!r}, by this file's reader {wanted!r}")
    print(f"seed {seed}: {len(texts)} texts, {differences} differences; {', '.join(f'{n} {kind}' for kind, n in kinds.most_common())}")
    return differences == 0


def measure(program: str, count: int, size: int) -> None:
    maker = Maker("long")
    texts = [maker.long(size) for _ in range(count)]
    lines = "".join(text + "\n" for text in texts)
    with tempfile.TemporaryDirectory() as folder:
        file = pathlib.Path(folder) / "texts"
        file.write_text(lines)
        took = []
        for _ in range(3):
            with file.open() as source:
                run = subprocess.run(
                    ["/usr/bin/time", "-f", "%U %S %M", program], stdin=source, check=True, capture_output=True, text=True
                )
            user, system, peak = map(float, run.stderr.split())
            took.append((user + system, peak))
    right = sum(line.startswith("ok ") for line in run.stdout.splitlines())
    begun = time.process_time()
    for text in texts:
        read(text)
    theirs = time.process_time() - begun
    ours, peak = min(took)
    print(f"{count} texts of {len(lines) // count} bytes, {right} of them right: {ours:.2f} s of the processor, {peak / 1024:.1f} MB at the peak")
    print(f"this file's reader in Python: {theirs:.2f} s")


def main() -> None:
    count = int(sys.argv[1]) if len(sys.argv) > 1 else 20000
    seed = sys.argv[2] if len(sys.argv) > 2 else "1"
    with tempfile.TemporaryDirectory() as temporary:
        folder = pathlib.Path(sys.argv[3] if len(sys.argv) > 3 else temporary).resolve()
        folder.mkdir(parents=True, exist_ok=True)
        program = build(folder)
        is_same = compare(program, seed, count)
        measure(program, 10000, 1000)
    sys.exit(0 if is_same else 1)


if __name__ == "__main__":
    main()
