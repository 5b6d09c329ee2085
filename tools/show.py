#!/usr/bin/env python3
"""Shows what an image or a journal of ledgerd holds, by docs/reference/formats.md.

    tools/show.py IMAGE                 the tables with their definitions, the transactions, the blocks
    tools/show.py IMAGE --rows          besides, live and ended rows with their events, the system's tables too
    tools/show.py IMAGE --csv TABLE     the live rows of a table, as CSV, without its dropped columns
    tools/show.py IMAGE --json          all tables with live and ended rows, as JSON
    tools/show.py IMAGE --why 'No V5 transaction 2 table 3'
                                        what a line of `verify` speaks of
    tools/show.py JOURNAL               the transactions with their statements and replies, and where blocks were closed

TABLE is an id or a name; a name of digits alone is written in brackets, as [4].

The exit status is 2 if the words are none of these, 3 if a file has more than 256 MiB, 6 if it can't be read, 7 if it
isn't there, 11 if it is neither an image nor a journal, and 14 if the image has no such table or place.
"""

import datetime
import json
import re
from collections import Counter
from typing import Iterator, Optional

import verify
from command import NO_ENTRY, NOT_IMAGE, USAGE, Ended, read_file, run, write_lines
from ledger import (
    APPEND_ONLY, COLUMNS, DATE, DECIMAL, NVARCHAR, TABLES, VARBINARY, Column, Definition, Entry, EventId, Image,
    Malformed, NoSuchTable, Type, Value, Values, Version, all_definitions, read_image, read_journal, signed, table_named,
    tree_hash,
)

TYPE_NAMES = ("?", "BIT", "INT", "BIGINT", "DECIMAL", "NVARCHAR", "VARBINARY", "DATE")
# So that each row has one line, and is read back from it.
ESCAPES = str.maketrans({"\n": "\\n", "\r": "\\r", "\\": "\\\\"})

# --- Texts -----------------------------------------------------------------------------------------------------------


def type_text(it: Type) -> str:
    parameters = {DECIMAL: f"({it.first},{it.second})", NVARCHAR: f"({it.first})", VARBINARY: f"({it.first})"}
    return TYPE_NAMES[it.code] + parameters.get(it.code, "")


def value_text(value: Optional[Value], quoted: bool = True) -> str:
    """A value as transcripts write it (docs/reference/sql.md, "Values and types"), or without its quotes."""
    if value is None:
        return "NULL" if quoted else ""
    code, data = value.type.code, value.data
    if code == VARBINARY:
        return "0x" + data.hex().upper()
    if code == NVARCHAR:
        text = data.decode()
        return "N'" + text.replace("'", "''").translate(ESCAPES) + "'" if quoted else text
    if code == DATE:
        day = datetime.date.fromordinal(int.from_bytes(data, "big") + 1).isoformat()
        return f"'{day}'" if quoted else day
    digits = str(abs(signed(data))).rjust(value.type.second + 1, "0")
    point = len(digits) - value.type.second if code == DECIMAL else len(digits)
    sign = "-" if signed(data) < 0 else ""
    return sign + digits[:point] + ("." + digits[point:] if point < len(digits) else "")


def row_text(values: Values) -> str:
    return "|".join(map(value_text, values))


def moment_text(ticks: int) -> str:
    """A moment as digest files write it."""
    seconds, rest = divmod(ticks, 10**7)
    start = datetime.datetime(1970, 1, 1) + datetime.timedelta(seconds=seconds)
    return f"{start.isoformat(timespec='seconds')}.{rest:07}"


def version_text(it: Version) -> str:
    return f"{row_text(it.values)}  from {it.start}" + (f" to {it.end}" if it.end else "")


# --- An image --------------------------------------------------------------------------------------------------------


def image_lines(image: Image, has_rows: bool) -> Iterator[str]:
    yield f"database {image.database}"
    for definition in all_definitions(image) if has_rows else image.definitions:
        yield from definition_lines(definition)
        rows = image.rows[definition.id]
        yield f"  {len(rows.base)} live rows, {len(rows.history)} ended ones"
        if has_rows:
            yield from (f"    {version_text(it)}" for it in rows.base + rows.history)
    for entry in image.entries:
        yield entry_text(image, entry)
    for place, record in enumerate(image.blocks):
        yield f"block {place}: {record.size} transactions, hash 0x{record.hash().hex().upper()}"


def definition_lines(it: Definition) -> Iterator[str]:
    kind = "append-only" if it.kind == APPEND_ONLY else "updatable"
    others = [f"{what} [{name}]" for what, name in (("history", it.history), ("view", it.view)) if name]
    gone = ["gone"] if it.gone else []
    yield f"table {it.id} [{it.name}]: " + ", ".join([kind, *others, *gone])
    for ordinal, column in enumerate(it.columns, 1):
        told = [*([f"key {column.key}"] if column.key else []), *(["dropped"] if column.dropped else [])]
        shown = "".join(f", {it}" for it in told)
        yield f"  {ordinal} [{column.name}] {type_text(column.type)}{'' if column.nullable else ' NOT NULL'}{shown}"
    for place, index in enumerate(it.indexes, 1):
        yield f"  index {place} [{index.name}] on columns {', '.join(map(str, index.ordinals))}"


def entry_text(image: Image, it: Entry) -> str:
    block = f"block {it.block}" if it.block < len(image.blocks) else "pending"
    tables = ", ".join(map(str, it.roots))
    return f"transaction {it.id}: {moment_text(it.time)} by {it.session}, {block} at {it.ordinal}, tables {tables}"


def csv_lines(image: Image, definition: Definition) -> Iterator[str]:
    """RFC 4180. Each text is in quotes, so that it is told from NULL, which is nothing, and from a number."""
    shown = [(place, column) for place, column in enumerate(definition.columns) if not column.dropped]

    def field(value: Optional[Value]) -> str:
        text = value_text(value, quoted=False)
        return quoted(text) if value is not None and value.type.code == NVARCHAR else text

    def heading(name: str) -> str:
        return quoted(name) if re.search(r'[",\r\n]|^ | $', name) else name

    def quoted(text: str) -> str:
        return '"' + text.replace('"', '""') + '"'

    yield ",".join(heading(column.name) for _, column in shown)
    for version in image.rows[definition.id].base:
        yield ",".join(field(value) for value in verify.picked(version, [place for place, _ in shown]))


def as_json(image: Image) -> dict:
    """All tables; numbers with a point and what isn't a number are texts."""

    def plain(value: Optional[Value]) -> object:
        if value is None:
            return None
        is_whole = value.type.code < DECIMAL
        return int(value_text(value)) if is_whole else value_text(value, quoted=False)

    def row(columns: tuple[Column, ...], it: Version) -> dict:
        names = [column.name for column in columns]
        names += [f"column {n}" for n in range(len(names) + 1, len(it.values) + 1)]
        ended = {"ended": list(it.end)} if it.end else {}
        return {"started": list(it.start), **ended, "values": dict(zip(names, map(plain, it.values)))}

    named = Counter(it.name for it in all_definitions(image))
    return {
        it.name if named[it.name] == 1 else f"{it.name} [{it.id}]":
            [row(it.columns, version) for version in image.rows[it.id].base + image.rows[it.id].history]
        for it in all_definitions(image)
    }


# --- What a line of verify speaks of ---------------------------------------------------------------------------------


def why_lines(image: Image, line: str) -> Iterator[str]:
    """Section "Verdict": what stands at the place, and what should."""
    place = re.sub(r"^(No )?V\d ", "", line.strip())
    words, numbers = re.sub(r"-?\d+", "_", place), [int(digits) for digits in re.findall(r"-?\d+", place)]
    shower = {
        "digest _": why_digest, "block _": why_block, "entry _": why_entry, "table _ event _ _": why_event,
        "transaction _ numbers": why_numbers, "transaction _ table _": why_root, "table _": why_table,
        "table _ index _": why_index,
    }.get(words)
    if shower is None:
        raise Ended(USAGE, f"{line!r} is no line of verify with a place")
    yield from shower(image, *numbers)


def why_digest(image: Image, index: int) -> Iterator[str]:
    yield f"item {index} of the digests should be of database {image.database} and of one of these blocks:"
    for place, record in enumerate(image.blocks):
        yield f"block_id {place}, hash 0x{record.hash().hex().upper()}"


def why_block(image: Image, place: int) -> Iterator[str]:
    record, before = image.blocks[place], image.blocks[place - 1].hash() if place else bytes(32)
    own = [entry for entry in image.entries if entry.block == place]
    yield f"its id is {record.id}, and should be {place}"
    yield f"the hash before it is {record.previous.hex()}"
    yield f"and should be {before.hex()}"
    yield f"its number of entries is {record.size}, and so many are there: {len(own)}"
    yield f"its root is {record.root.hex()}"
    yield f"and should be {tree_hash([entry.leaf() for entry in own]).hex()}, of these entries:"
    yield from (entry_text(image, entry) for entry in own)


def why_entry(image: Image, place: int) -> Iterator[str]:
    yield from (entry_text(image, it) for it in image.entries[: place + 1] if it.id == image.entries[place].id)


def why_event(image: Image, table: int, id: int, number: int) -> Iterator[str]:
    """The versions that begin or end there, and those of the same key."""
    definition, event = table_named(image, str(table)), EventId(id, number)
    yield from definition_lines(definition)
    versions = image.rows[table].base + image.rows[table].history
    own = [it for it in versions if event in (it.start, it.end)]
    keys = {verify.picked(it, definition.key()) for it in own if verify.has_columns(definition.columns, it.values)}
    for it in versions:
        is_like = verify.has_columns(definition.columns, it.values) and verify.picked(it, definition.key()) in keys
        if it in own or is_like:
            yield ("this: " if it in own else "of its key: ") + version_text(it)
    ids = {entry.id for entry in image.entries}
    for transaction in sorted({it.transaction for one in own for it in (one.start, one.end) if it} - ids):
        yield f"there is no entry of transaction {transaction}"


def why_numbers(image: Image, id: int) -> Iterator[str]:
    own = verify.events_of(image).get(id, [])
    yield f"its events should be numbered from 0 to {len(own) - 1}, each once; there are:"
    yield from map(event_text, own)


def event_text(it: verify.Event) -> str:
    what = f"ends the version from {it.start} of" if it.start else "starts"
    return f"event {it.id.number} in table {it.table} {what} {row_text(it.values)}"


def why_root(image: Image, id: int, table: int) -> Iterator[str]:
    own = [it for it in verify.events_of(image).get(id, []) if it.table == table]
    yield from map(event_text, own)
    yield f"their root is {tree_hash([it.leaf() for it in own]).hex() if own else 'none'}"
    for entry in image.entries:
        if entry.id == id:
            yield f"and should be {entry.roots[table].hex() if table in entry.roots else 'none'}, by the entry of"
            yield entry_text(image, entry)


def why_table(image: Image, table: int) -> Iterator[str]:
    """Of the rows of the system's tables about it those that count and say something else than its definition."""
    own = [it for it in image.definitions if it.id == table]
    for it in own:
        yield from definition_lines(it)
    tables = [verify.table_row(it) for it in own]
    items = [row for it in own for row in verify.item_rows(it)]
    for system, thing, wanted in ((TABLES, 0, tables), (COLUMNS, 1, items)):
        about = verify.by_table(image.rows[system].base).get(table, [])
        found = {verify.without_change(row, thing): row for row in verify.latest(about, thing)}
        yield from differing(f"table {system}", "the definition", found, {row: row for row in wanted})
    if own and not verify.keeps_rules(own[0]):
        yield "the definition breaks a rule that CREATE keeps"
    if own and verify.has_old_name(own[0], verify.by_table(image.rows[TABLES].base)):
        yield "a name of it is taken by a table with a lower id or by the system"


def differing(here: str, there: str, found: dict[Values, Values], wanted: dict[Values, Values]) -> Iterator[str]:
    """What is in one place and not in the other; what is compared, and what is shown of it."""
    yield from (f"in {here}, not of {there}: {row_text(found[it])}" for it in found if it not in wanted)
    yield from (f"not in {here}, of {there}: {row_text(wanted[it])}" for it in wanted if it not in found)


def why_index(image: Image, table: int, place: int) -> Iterator[str]:
    definition = table_named(image, str(table))
    found, wanted = image.rows[table].indexes[place - 1], verify.index_rows(image, definition, place - 1)
    yield from definition_lines(definition)
    yield from differing("the index", "the table", {row: row for row in found}, {row: row for row in wanted})
    there, here = Counter(wanted), Counter(found)
    if there == here:
        yield "the rows are those of the table, in another order"
    for row in here:
        if here[row] != there[row] and row in there:
            yield f"{here[row]} times in the index, {there[row]} times in the table: {row_text(row)}"


# --- A journal -------------------------------------------------------------------------------------------------------


def journal_lines(database: str, items: list) -> Iterator[str]:
    yield f"database {database}"
    for place, item in enumerate(items):
        if isinstance(item, int):
            yield f"item {place}: a block of {item} transactions is closed"
            continue
        begun = ", begun by BEGIN" if item.explicit else ""
        yield f"item {place}: transaction {item.id}: {moment_text(item.time)} by {item.session}{begun}"
        for statement, reply in item.statements:
            yield f"  {statement}"
            yield from (f"    {line}" for line in reply_lines(reply))


def reply_lines(reply: str) -> list[str]:
    """The lines of a reply as transcripts write them: what needs an escape stands between quotes."""
    return re.sub("'[^']*'", lambda it: it[0].translate(ESCAPES), reply).removesuffix("\n").split("\n")


# --- The command -----------------------------------------------------------------------------------------------------


def lines_of(data: bytes, option: Optional[str], word: str) -> Iterator[str]:
    if data[:4] == b"LGJN":
        return journal_lines(*read_journal(data))
    image = read_image(data)
    if option == "--csv":
        return csv_lines(image, table_named(image, word))
    if option == "--json":
        return iter([json.dumps(as_json(image), indent=1, ensure_ascii=False)])
    return why_lines(image, word) if option == "--why" else image_lines(image, option == "--rows")


def main(words: list[str]) -> int:
    option, rest = words[1] if words[1:] else None, words[2:]
    if words[:1] == ["--help"]:
        write_lines(iter([__doc__]))
        return 0
    if not words or len(rest) != {None: 0, "--rows": 0, "--json": 0, "--csv": 1, "--why": 1}.get(option):
        raise Ended(USAGE, "show.py IMAGE [--rows | --csv TABLE | --json | --why LINE], or JOURNAL; --help says more")
    try:
        write_lines(lines_of(read_file(words[0]), option, "".join(rest)))
    except Malformed as error:
        raise Ended(NOT_IMAGE, f"{words[0]} is neither an image nor a journal: {error}") from error
    except NoSuchTable as error:
        raise Ended(NO_ENTRY, f"{words[0]}: {error}") from error
    except (IndexError, KeyError) as error:
        raise Ended(NO_ENTRY, f"{words[0]} has no such place") from error
    return 0


if __name__ == "__main__":
    run("show.py", main)
