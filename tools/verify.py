#!/usr/bin/env python3
"""Judges an image and digests as `ledgerd verify` does, by docs/reference/formats.md and verdicts.md alone.

    tools/verify.py [--coverage] IMAGE [DIGESTS]

Writes the line of the page on verdicts, and ends with the exit status of `ledgerd verify`. What the digests cover stands
on a second line with `--coverage`, and otherwise on standard error.
"""

import sys
from bisect import bisect_left
from collections import Counter, defaultdict
from typing import Iterator, NamedTuple, Optional

from digests import Digest, NoDigest, read_digests
from ledger import (
    APPEND_ONLY, BIGINT, BIT, COLUMNS, DECIMAL, FIRST_USER_TABLE, INT, MAX_BLOCK_ENTRIES, NVARCHAR, TABLES,
    Definition, EventId, Image, Malformed, Type, Value, Values, Version, event_leaf, has_columns, has_forbidden_null,
    number, read_image, signed, system_definitions, tree_hash,
)
from rules import DROPPED, GONE, Changes

MAX_IMAGE, MAX_DIGESTS = 256 * 2**20, 32 * 2**20
MAX_TABLES, MAX_COLUMNS, MAX_PARTS, MAX_INDEXES = 32, 64, 4, 4
MAX_COLUMN_ITEM = 1000  # the items of columns end here

Place = Optional[str]
# of a column, by table and item: the ranks of rows about it, and whether they say NOT NULL
ColumnsByStart = dict[tuple[int, int], list[tuple[tuple[int, int], bool]]]


def verdict(data: bytes, digests: list[Digest]) -> str:
    """The line on an image's bytes and held digests."""
    try:
        image = read_image(data)
    except Malformed:
        return "No V0"
    for invariant, fault in enumerate(INVARIANTS, 1):
        place = fault(image, digests)
        if place is not None:
            return f"No V{invariant} {place}"
    return "Yes"


def coverage(image: Image, digests: list[Digest]) -> tuple[str, int]:
    """What digests cover of an image with which they hold, and how many transactions they don't."""
    newest = max((digest.block for digest in digests), default=-1)
    covered = sum(record.size for record in image.blocks[: newest + 1])
    blocks = f"blocks 0 to {newest}" if digests else "no block"
    said = f"covers {covered} of {len(image.entries)} transactions, {blocks} of {len(image.blocks)}"
    return said, len(image.entries) - covered


# --- V1 to V3: digests, and blocks -----------------------------------------------------------------------------------


def digest_fault(image: Image, digests: list[Digest]) -> Place:
    """V1: each digest is of this database, and of the block at that place."""
    hashes = [record.hash() for record in image.blocks]
    for index, digest in enumerate(digests):
        is_of_block = digest.block < len(hashes) and digest.hash == hashes[digest.block]
        if not (digest.database == image.database and is_of_block):
            return f"digest {index}"
    return None


def chain_fault(image: Image, _: list[Digest]) -> Place:
    """V2: blocks are numbered by their places, and each keeps the hash of the one before."""
    previous = bytes(32)
    for place, record in enumerate(image.blocks):
        if record.id != place or record.previous != previous:
            return f"block {place}"
        previous = record.hash()
    return None


def block_fault(image: Image, _: list[Digest]) -> Place:
    """V3: a block has its entries, and the root is the tree hash of their bytes."""
    first = 0
    for place, record in enumerate(image.blocks):
        last = first + record.size
        if not (1 <= record.size <= MAX_BLOCK_ENTRIES and last <= len(image.entries)):
            return f"block {place}"
        if record.root != tree_hash([entry.leaf() for entry in image.entries[first:last]]):
            return f"block {place}"
        first = last
    return None


# --- V4 and V5: entries, and the events that they are of -------------------------------------------------------------


class Event(NamedTuple):
    """An event in a table; the start of the version is told for an end."""

    id: EventId
    table: int
    start: Optional[EventId]
    values: Values

    def leaf(self) -> bytes:
        return event_leaf(self.table, self.id, self.start, self.values)


def events_of(image: Image) -> dict[int, list[Event]]:
    """The events of each transaction, by number."""
    events: dict[int, list[Event]] = defaultdict(list)
    for table, rows in image.rows.items():
        for version in rows.base + rows.history:
            events[version.start.transaction].append(Event(version.start, table, None, version.values))
            if version.end is not None:
                events[version.end.transaction].append(Event(version.end, table, version.start, version.values))
    for own in events.values():
        own.sort(key=lambda event: event.id.number)
    return events


def roots_of(events: list[Event]) -> dict[int, bytes]:
    """The root for each table with such an event."""
    leaves: dict[int, list[bytes]] = defaultdict(list)
    for event in events:
        leaves[event.table].append(event.leaf())
    return {table: tree_hash(own) for table, own in leaves.items()}


def id_fault(image: Image, _: list[Digest]) -> Place:
    """V4: entries have ids of their own, and events are of transactions with an entry."""
    ids: set[int] = set()
    for place, entry in enumerate(image.entries):
        if entry.id in ids:
            return f"entry {place}"
        ids.add(entry.id)
    strangers = [(it.table, it.id) for id, own in events_of(image).items() if id not in ids for it in own]
    return event_place(strangers)


def event_place(events: list[tuple[int, EventId]]) -> Place:
    """The least of these events, by table, transaction and number."""
    return "table {} event {}".format(*min(events)) if events else None


def root_fault(image: Image, _: list[Digest]) -> Place:
    """V5: events are numbered from 0 without a gap or a repetition, and the entry has their roots."""
    events = events_of(image)
    for entry in image.entries:
        own = events.get(entry.id, [])
        if [event.id.number for event in own] != list(range(len(own))):
            return f"transaction {entry.id} numbers"
        roots = roots_of(own)
        wrong = [table for table in {*roots, *entry.roots} if roots.get(table) != entry.roots.get(table)]
        if wrong:
            return f"transaction {entry.id} table {min(wrong)}"
    return None


# --- V6: versions ----------------------------------------------------------------------------------------------------


def version_fault(image: Image, _: list[Digest]) -> Place:
    """V6: versions have their table's columns as of their start, and those of one key follow one another."""
    places = {entry.id: place for place, entry in enumerate(image.entries)}
    columns, changes = columns_by_start(image, places), Changes(image)
    bad = []
    for definition in [*system_definitions(), *image.definitions]:
        rows = image.rows[definition.id]
        versions = rows.base + rows.history
        fitting = [it for it in versions if has_columns(definition.columns, it.values)]
        starts = {it.start for it in versions if not has_columns(definition.columns, it.values)}
        if definition.id < FIRST_USER_TABLE:
            starts |= {it.start for it in fitting if has_forbidden_null(definition.columns, it.values)}
        else:
            starts |= {
                it.start
                for it in fitting
                if has_null_too_much(columns, definition.id, it, places)
                or not changes.is_in_its_time(definition.id, it)
            }
        if definition.kind == APPEND_ONLY:
            starts |= {it.start for it in rows.history}
        starts |= out_of_order(definition, fitting, places)
        bad += [(definition.id, start) for start in starts]
    return event_place(bad)


def columns_by_start(image: Image, places: dict[int, int]) -> ColumnsByStart:
    """The base rows of the table of columns that have its columns, by table and item and then by start."""
    columns = system_definitions()[1].columns
    found: ColumnsByStart = defaultdict(list)
    for it in image.rows[COLUMNS].base:
        if has_columns(columns, it.values) and it.values[0] and it.values[1]:
            says_not_null = it.values[7] is not None and signed(it.values[7].data) == 0
            column = signed(it.values[0].data), signed(it.values[1].data)
            found[column].append((rank(it.start, places), says_not_null))
    for rows in found.values():
        rows.sort(key=lambda row: row[0])
    return found


def has_null_too_much(columns: ColumnsByStart, table: int, version: Version, places: dict[int, int]) -> bool:
    """Whether a value isn't NULL that no row before is about, or is NULL where the last row before says NOT NULL."""
    for item, value in enumerate(version.values, 1):
        rows = columns.get((table, item), [])
        before = bisect_left(rows, (rank(version.start, places),))
        if (value is None and before > 0 and rows[before - 1][1]) or (value is not None and before == 0):
            return True
    return False


def rank(event: EventId, places: dict[int, int]) -> tuple[int, int]:
    """The place of the event's entry, and its number: the order of the ledger."""
    return places[event.transaction], event.number


def in_order(
    definition: Definition, versions: list[Version], places: dict[int, int]
) -> Iterator[tuple[Optional[Version], Version]]:
    """Each version with the one of its key just before it, if there is one; those of one key in their order."""
    by_key: dict[Values, list[Version]] = defaultdict(list)
    for version in versions:
        by_key[picked(version, definition.key())].append(version)
    for own in by_key.values():
        own.sort(key=lambda it: (rank(it.start, places), it.end is None))
        yield from zip([None, *own], own)


def out_of_order(definition: Definition, versions: list[Version], places: dict[int, int]) -> set[EventId]:
    """The starts of versions that end too early, or that begin before another of their key had ended."""

    def at(event: EventId) -> tuple[int, int]:
        return rank(event, places)

    found = {it.start for it in versions if it.end is not None and not at(it.start) < at(it.end)}
    is_live_before = False
    for before, it in in_order(definition, versions, places):
        has_followed = before is None or (before.end is not None and at(before.end) < at(it.start))
        is_live_before = is_live_before and before is not None
        if not has_followed or (it.end is None and is_live_before):
            found.add(it.start)
        is_live_before |= it.end is None
    return found


def picked(version: Version, places: list[int]) -> Values:
    return tuple(version.values[place] for place in places)


# --- V7: definitions -------------------------------------------------------------------------------------------------


def definition_fault(image: Image, _: list[Digest]) -> Place:
    """V7: the system's rows encode the definitions, which keep the rules of CREATE, and keep those of changes."""
    tables, items = (by_table(image.rows[table].base) for table in (TABLES, COLUMNS))
    definitions, changes = {it.id: it for it in image.definitions}, Changes(image)
    wrong = [
        id
        for id in {*tables, *items, *definitions}
        if id not in definitions
        or not encode(definitions[id], tables.get(id, []), items.get(id, []))
        or not keeps_rules(definitions[id])
        or has_old_name(definitions[id], tables)
        or changes.break_rules(id)
    ]
    return f"table {min(wrong)}" if wrong else None


def encode(it: Definition, tables: list[Values], items: list[Values]) -> bool:
    """Whether the rows about a table that count say its definition, and all changes keep to their rules."""
    return (
        Counter(without_change(row, 0) for row in latest(tables, 0)) == Counter([table_row(it)])
        and Counter(without_change(row, 1) for row in latest(items, 1)) == Counter(item_rows(it))
        and changes_are_right(tables, items)
        and items_follow(items)
    )


def latest(rows: list[Values], place: int) -> list[Values]:
    """Of the rows with one number at the place those with the greatest change, which stands behind it."""
    greatest: dict[int, int] = {}
    for row in rows:
        thing, change = number_at(row, place), number_at(row, place + 1)
        greatest[thing] = max(change, greatest.get(thing, change))
    return [row for row in rows if number_at(row, place + 1) == greatest[number_at(row, place)]]


def number_at(row: Values, place: int) -> int:
    value = row[place]
    return 0 if value is None else signed(value.data)


def without_change(row: Values, place: int) -> Values:
    return (*row[: place + 1], whole(0), *row[place + 2 :])


def changes_are_right(tables: list[Values], items: list[Values]) -> bool:
    """Whether one row of the table and each row of an index has change 0, and the others have 1 and on, each once."""
    changes = [number_at(row, 1) for row in tables] + [number_at(row, 2) for row in items]
    later = sorted(change for change in changes if change)
    return (
        [number_at(row, 1) for row in tables].count(0) == 1
        and not any(number_at(row, 1) > MAX_COLUMN_ITEM and number_at(row, 2) for row in items)
        and later == list(range(1, len(later) + 1))
    )


def items_follow(items: list[Values]) -> bool:
    """Whether the rows before one that counts have its type and key position, or none of the key, if it drops a column."""
    for row in latest(items, 1):
        before = [it for it in items if number_at(it, 1) == number_at(row, 1) and number_at(it, 2) < number_at(row, 2)]
        dropped = number_at(row, 8) == DROPPED
        position = 0 if dropped else number_at(row, 8)
        if dropped and not before or any((it[4:7], number_at(it, 8)) != (row[4:7], position) for it in before):
            return False
    return True


def by_table(base: list[Version]) -> dict[int, list[Values]]:
    """Rows of a system table by the table that they are about."""
    found: dict[int, list[Values]] = defaultdict(list)
    for version in base:
        found[signed(version.values[0].data)].append(version.values)
    return found


def whole(value: int) -> Value:
    return Value(Type(INT), (value % 2**32).to_bytes(4, "big"))


def bit(value: int) -> Value:
    return Value(Type(BIT), number(value, 1))


def text(value: str) -> Value:
    return Value(Type(NVARCHAR, 128), value.encode())


def table_row(it: Definition) -> Values:
    """Section "The system's tables": the row of a table."""
    history = None if it.kind == APPEND_ONLY else text(it.history)
    kind = it.kind + GONE if it.gone else it.kind
    return (whole(it.id), whole(0), text(it.name), whole(kind), history, text(it.view))


def item_rows(it: Definition) -> list[Values]:
    """Section "The system's tables": the rows of columns and of parts of indexes."""
    items = [
        (place, column.name, column.type, column.nullable, DROPPED if column.dropped else column.key)
        for place, column in enumerate(it.columns, 1)
    ] + [
        (1000 * group + part, index.name, Type(0), 0, ordinal)
        for group, index in enumerate(it.indexes, 1)
        for part, ordinal in enumerate(index.ordinals, 1)
    ]
    return [
        (whole(it.id), whole(item), whole(0), text(name), *map(whole, type), bit(nullable), whole(key))
        for item, name, type, nullable, key in items
    ]


def keeps_rules(it: Definition) -> bool:
    """Section "The system's tables": the rules on a definition by itself."""
    names = own_names(it)
    columns = [column.name for column in it.columns]
    keys = sorted(column.key for column in it.columns if column.key)
    return (
        it.id < FIRST_USER_TABLE + MAX_TABLES
        and not any(column.dropped and column.key for column in it.columns)
        and len(set(names)) == len(names)
        and 1 <= len(columns) <= MAX_COLUMNS
        and len(set(columns)) == len(columns)
        and not any(name.lower().startswith("ledger_") for name in columns)
        and 1 <= len(keys) <= MAX_PARTS
        and keys == list(range(1, len(keys) + 1))
        and not any(column.key and column.nullable for column in it.columns)
        and len(it.indexes) <= MAX_INDEXES
        and len({index.name for index in it.indexes}) == len(it.indexes)
        and all(
            1 <= len(index.ordinals) <= MAX_PARTS
            and len(set(index.ordinals)) == len(index.ordinals)
            and all(1 <= ordinal <= len(columns) for ordinal in index.ordinals)
            for index in it.indexes
        )
    )


def own_names(it: Definition) -> list[str]:
    """The names of a table, its history and its view, as far as it has them."""
    return [name for name in (it.name, it.history, it.view) if name]


def has_old_name(it: Definition, tables: dict[int, list[Values]]) -> bool:
    """Whether a name of the table is one of the system's, or of a table with a lower id by the row that counts."""
    taken = {text(system.name).data for system in system_definitions()}
    for id, rows in tables.items():
        if id < it.id:
            taken |= {value.data for row in latest(rows, 0) for value in row if value is not None and value.type.code == NVARCHAR}
    return any(name.encode() in taken for name in own_names(it))


# --- V8: indexes -----------------------------------------------------------------------------------------------------


def index_fault(image: Image, _: list[Digest]) -> Place:
    """V8: an index has the base rows, cut down to its columns and then the key's, and sorted."""
    for definition in image.definitions:
        for group, found in enumerate(image.rows[definition.id].indexes):
            if found != index_rows(image, definition, group):
                return f"table {definition.id} index {group + 1}"
    return None


def index_rows(image: Image, definition: Definition, group: int) -> list[Values]:
    """The rows that an index should have."""
    places = [ordinal - 1 for ordinal in definition.indexes[group].ordinals] + definition.key()
    rows = [picked(version, places) for version in image.rows[definition.id].base]
    return sorted(rows, key=lambda row: [order(value) for value in row])


def order(value: Optional[Value]) -> tuple:
    """What values of one type are sorted by: NULL first, numbers as such, texts and bytes by their bytes."""
    if value is None:
        return (0,)
    return (1, signed(value.data) if value.type.code in (BIT, INT, BIGINT, DECIMAL) else value.data)


INVARIANTS = (
    digest_fault, chain_fault, block_fault, id_fault, root_fault, version_fault, definition_fault, index_fault
)

# --- The command -----------------------------------------------------------------------------------------------------


class Ended(Exception):
    """An exit status, and what standard error says."""


def read_file(place: int, path: str, most: int) -> bytes:
    try:
        with open(path, "rb") as file:
            data = file.read(most + 1)
    except FileNotFoundError as error:
        raise Ended(7, f"no such name (name {place})") from error
    except OSError as error:
        raise Ended(6, f"the file could not be read ({error})") from error
    if len(data) > most:
        raise Ended(3, "a limit was exceeded")
    return data


def read_held(path: str) -> list[Digest]:
    data = read_file(2, path, MAX_DIGESTS)
    try:
        return read_digests(data)
    except NoDigest as error:
        raise Ended(8, f"the digests were refused (digest {error})") from error
    except Malformed as error:
        raise Ended(8, "the digests were refused") from error


def main(words: list[str]) -> int:
    shows = words[:1] == ["--coverage"]
    names = words[1:] if shows else words
    try:
        if len(names) not in (1, 2):
            raise Ended(2, "verify.py [--coverage] IMAGE [DIGESTS]")
        image = read_file(1, names[0], MAX_IMAGE)
        digests = read_held(names[1]) if len(names) == 2 else []
    except Ended as ended:
        status, said = ended.args
        print(f"verify.py: {said}", file=sys.stderr)
        return status
    line = verdict(image, digests)
    print(line)
    if line != "Yes":
        return 1
    said, left = coverage(read_image(image), digests)
    if shows:
        print(said)
    else:
        print(f"verify.py: {said}; no digest covers {left}", file=sys.stderr)
    return 17 if len(names) == 2 and not digests else 0


if __name__ == "__main__":
    sys.exit(main(sys.argv[1:]))
