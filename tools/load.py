#!/usr/bin/env python3
"""Writes the rows of a CSV file as INSERTs for `ledgerd step`.

    tools/load.py TABLE FILE [--like IMAGE | --text COLUMN..] [--session NAME] [--rows N] [--split NAME]
                             [--delimiter C] [--encoding NAME]

The first line of FILE has the names of the columns. Each line written is an INSERT of up to N rows (1,000, and no more)
by the session (`load`). A field that is empty becomes NULL; one that is empty in quotes is an empty text.

  --like IMAGE    takes the types of the columns from the table TABLE of this image: what stands in a column of texts
                  or days is a text, whatever it looks like
  --text COLUMN   takes each field of this column as a text; may stand more than once
  --split NAME    writes files NAME-1.txt, NAME-2.txt and so on, each short enough for one input of ledgerd
  --delimiter C   stands between fields in place of a comma
  --encoding E    of the file; UTF-8 if none is given, with or without a byte order mark

Without --like a column is one of numbers if all its fields are numbers, one of bytes if all are as 0x00FF, and else one
of texts. It is one of texts, too, if all its fields are in quotes, unless all fields of the file are, the names among them. A column
that mixes numbers and texts, or has numbers in quotes or with leading zeros, is taken as one of texts, and standard
error says so.

Nothing is written unless every row can be. The exit status is 2 if the words are none of these, 6 if a file can't be
read or written, 7 if it isn't there, 10 if the rows can't be written as INSERTs, 11 if IMAGE is no image, and 14 if it
has no such table or column.
"""

import argparse
import os
import re
import sys
from typing import Iterator, NamedTuple

from command import FAULT, INPUT, MAX_INPUT, NO_ENTRY, NOT_IMAGE, USAGE, Ended, read_file, run, write_lines
from ledger import BIGINT, BIT, DECIMAL, INT, VARBINARY, Malformed, NoSuchTable, read_image, table_named

NUMBER = r"-?([0-9]+(\.[0-9]+)?|\.[0-9]+)"
LEADING_ZERO = r"-?0[0-9].*"
BYTES = r"0[xX]([0-9A-Fa-f]{2})*"
NAME = r"[ -Z\\^-~]{1,128}"
MOST_ROWS = 1000


class Field(NamedTuple):
    """A field of a CSV file, without its quotes."""

    text: str
    is_quoted: bool

    def is_null(self) -> bool:
        return self.text == "" and not self.is_quoted


class Row(NamedTuple):
    """The fields of a row, and the line of the file in which it begins."""

    line: int
    fields: list[Field]


# --- Reading (RFC 4180) ----------------------------------------------------------------------------------------------


def rows_of(text: str, delimiter: str) -> Iterator[Row]:
    """The rows. The `csv` module doesn't tell an empty text in quotes from nothing, so it doesn't serve."""
    field = re.compile('"((?:[^"]|"")*)"|([^"\r\n' + re.escape(delimiter) + "]*)")
    at, line, fields, began = 0, 1, [], 1
    while at < len(text):
        found = field.match(text, at)
        fields.append(Field((found[1] or "").replace('""', '"') or found[2] or "", found[1] is not None))
        line += found[0].count("\n")
        at = found.end()
        end = re.compile("\r?\n|\r|$").match(text, at)
        if text.startswith(delimiter, at):
            at += 1
            if at < len(text):
                continue
            fields.append(Field("", False))
        elif end is None:
            raise Ended(INPUT, f"line {line}: a quote stands inside a field, or a field goes on after its quotes")
        else:
            at = end.end()
        if fields != [Field("", False)]:
            yield Row(began, fields)
        line += 1
        fields, began = [], line


def decoded(data: bytes, path: str, encoding: str) -> str:
    try:
        return data.decode("utf-8-sig" if encoding.lower() in ("utf-8", "utf8") else encoding)
    except LookupError as error:
        raise Ended(USAGE, f"there is no encoding {encoding}") from error
    except UnicodeDecodeError as error:
        line = data[: error.start].count(b"\n") + 1
        raise Ended(INPUT, f"{path}, line {line}: not {encoding}; --encoding names another, as latin-1") from error


# --- Columns ---------------------------------------------------------------------------------------------------------

NUMBERS, BINARY, TEXTS = "a number", "bytes", "a text"


def kinds_like(path: str, table: str, names: list[str]) -> list[str]:
    """What the columns of a table of an image take."""
    try:
        definition = table_named(read_image(read_file(path)), table)
    except Malformed as error:
        raise Ended(NOT_IMAGE, f"{path} is no image: {error}") from error
    except NoSuchTable as error:
        raise Ended(NO_ENTRY, f"{path}: {error}") from error
    types = {it.name: it.type.code for it in definition.columns if not it.dropped}
    for name in names:
        if name not in types:
            raise Ended(NO_ENTRY, f"{path}: table {table} has no column {name}")
    kinds = {code: NUMBERS for code in (BIT, INT, BIGINT, DECIMAL)} | {VARBINARY: BINARY}
    return [kinds.get(types[name], TEXTS) for name in names]


def kinds_seen(head: Row, rows: list[Row], texts: list[str]) -> list[str]:
    """What the columns seem to take, by their fields."""
    are_all_quoted = all(field.is_quoted for row in [head, *rows] for field in row.fields)
    names = [field.text for field in head.fields]
    return [
        TEXTS if name in texts else kind_of(name, [it for row in rows if not (it := row.fields[n]).is_null()], are_all_quoted)
        for n, name in enumerate(names)
    ]


def kind_of(name: str, fields: list[Field], are_all_quoted: bool) -> str:
    are_numbers = [re.fullmatch(NUMBER, it.text) is not None for it in fields]
    if not are_all_quoted and all(it.is_quoted for it in fields):
        if fields and all(are_numbers):
            note(f"column {name} has numbers in quotes, and is taken as texts")
        return TEXTS
    if all(are_numbers):
        if any(re.fullmatch(LEADING_ZERO, it.text) for it in fields):
            note(f"column {name} has numbers with leading zeros, and is taken as texts")
            return TEXTS
        return NUMBERS
    if all(re.fullmatch(BYTES, it.text) for it in fields):
        return BINARY
    if any(are_numbers):
        note(f"column {name} mixes numbers and texts, and is taken as texts")
    return TEXTS


def note(sentence: str) -> None:
    print(f"load.py: {sentence}", file=sys.stderr)


# --- Statements ------------------------------------------------------------------------------------------------------


def literal(row: Row, name: str, kind: str, field: Field) -> str:
    if field.is_null() or (field.text == "" and kind != TEXTS):
        return "NULL"
    if kind == TEXTS:
        if re.search("[\r\n]", field.text):
            raise Ended(INPUT, f"line {row.line}, column {name}: a text with a line end can't stand in a statement")
        return "N'" + field.text.replace("'", "''") + "'"
    if not re.fullmatch(NUMBER if kind == NUMBERS else BYTES, field.text):
        raise Ended(INPUT, f"line {row.line}, column {name}: {field.text!r} is not {kind}")
    return field.text


def values_of(row: Row, names: list[str], kinds: list[str]) -> str:
    return "(" + ", ".join(literal(row, *it) for it in zip(names, kinds, row.fields)) + ")"


def statements(start: str, values: list[str], most_rows: int) -> Iterator[str]:
    """INSERTs of so many rows, and fewer if they wouldn't fit into one input."""
    own, size = [], len(start.encode())
    for it in values:
        more = len(it.encode()) + 2
        if own and (len(own) == most_rows or size + more >= MAX_INPUT):
            yield start + ", ".join(own)
            own, size = [], len(start.encode())
        own.append(it)
        size += more
    if own:
        yield start + ", ".join(own)


def parts_of(lines: list[str]) -> Iterator[list[str]]:
    """The lines in parts, each of which one input may have."""
    own, size = [], 0
    for line in lines:
        more = len(line.encode()) + 1
        if own and size + more > MAX_INPUT:
            yield own
            own, size = [], 0
        own.append(line)
        size += more
    if own:
        yield own


def write_parts(name: str, lines: list[str]) -> None:
    """Writes a file for each part, unless one of these files is there."""
    parts = [(f"{name}-{n}.txt", part) for n, part in enumerate(parts_of(lines), 1)]
    for path, _ in parts:
        if os.path.lexists(path):
            raise Ended(FAULT, f"{path} is there, and isn't replaced")
    for path, part in parts:
        try:
            with open(path, "x", encoding="utf-8", newline="\n") as file:
                file.writelines(f"{line}\n" for line in part)
        except OSError as error:
            raise Ended(FAULT, f"{path} could not be written: {error.strerror}") from error


# --- The command -----------------------------------------------------------------------------------------------------


class Words(argparse.ArgumentParser):
    """Words that are refused in one sentence."""

    def error(self, message: str):
        raise Ended(USAGE, f"{message}; --help says more")


def read_words(words: list[str]) -> argparse.Namespace:
    known = Words(usage=__doc__, add_help=False)
    known.add_argument("table")
    known.add_argument("file")
    types = known.add_mutually_exclusive_group()
    types.add_argument("--like")
    types.add_argument("--text", action="append", default=[])
    known.add_argument("--session", default="load")
    known.add_argument("--rows", type=int, default=MOST_ROWS, choices=range(1, MOST_ROWS + 1), metavar="N")
    known.add_argument("--split")
    known.add_argument("--delimiter", default=",")
    known.add_argument("--encoding", default="utf-8")
    given = known.parse_args(words)
    if len(given.delimiter) != 1 or given.delimiter in '"\r\n':
        raise Ended(USAGE, "a delimiter is one character, and no quote")
    if not re.fullmatch("[A-Za-z0-9_]{1,32}", given.session):
        raise Ended(USAGE, f"{given.session!r} is no name of a session")
    return given


def table_of(word: str) -> str:
    """The name of a table, which may stand in brackets."""
    return word[1:-1] if word.startswith("[") and word.endswith("]") else word


def read_rows(given: argparse.Namespace) -> tuple[Row, list[Row]]:
    """The names and the rows of the file."""
    rows = list(rows_of(decoded(read_file(given.file), given.file, given.encoding), given.delimiter))
    if not rows:
        raise Ended(INPUT, f"{given.file} is empty")
    head, *rows = rows
    for row in rows:
        if len(row.fields) != len(head.fields):
            raise Ended(INPUT, f"{given.file}, line {row.line}: {len(row.fields)} fields and not {len(head.fields)}")
    for name in [table_of(given.table), *[field.text for field in head.fields]]:
        if not re.fullmatch(NAME, name):
            raise Ended(INPUT, f"{given.file}: {name!r} is no name of a table or a column")
    return head, rows


def lines_of(given: argparse.Namespace) -> list[str]:
    head, rows = read_rows(given)
    names = [field.text for field in head.fields]
    for name in given.text:
        if name not in names:
            raise Ended(INPUT, f"{given.file} has no column {name}")
    kinds = kinds_like(given.like, given.table, names) if given.like else kinds_seen(head, rows, given.text)
    columns = ", ".join(f"[{name}]" for name in names)
    start = f"{given.session}: INSERT INTO [{table_of(given.table)}] ({columns}) VALUES "
    return list(statements(start, [values_of(row, names, kinds) for row in rows], given.rows))


def main(words: list[str]) -> int:
    if words in (["--help"], ["-h"]):
        write_lines(iter([__doc__]))
        return 0
    given = read_words(words)
    lines = lines_of(given)
    if given.split:
        write_parts(given.split, lines)
        return 0
    if sum(len(line.encode()) + 1 for line in lines) > MAX_INPUT:
        note("this is more than one input of ledgerd may have (4 MiB): --split writes files that are short enough")
    write_lines(iter(lines))
    return 0


if __name__ == "__main__":
    run("load.py", main)
