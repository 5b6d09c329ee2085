"""Images and journals of ledgerd, read by docs/reference/formats.md alone; sections named here are those of that page.

`tools/verify.py` and `tools/show.py` stand on this module.
"""

import hashlib
import re
from typing import NamedTuple, Optional

MAX_ID, MAX_TICKS = 2**63 - 1, 2534023007999999999
MAX_BLOCK_ENTRIES = 100_000
TABLES, COLUMNS, FIRST_USER_TABLE = 1, 2, 3
APPEND_ONLY, UPDATABLE = 1, 2


class Malformed(Exception):
    """Bytes that lack the form of their section."""


def need(condition: bool, what: str) -> None:
    if not condition:
        raise Malformed(what)


class Type(NamedTuple):
    """A type as leaves and definitions write it."""

    code: int
    first: int = 0
    second: int = 0


class Value(NamedTuple):
    """A value that isn't NULL: its type and its bytes; a NULL is None."""

    type: Type
    data: bytes


Values = tuple[Optional[Value], ...]


class EventId(NamedTuple):
    """The transaction that made an event and the event's number there."""

    transaction: int
    number: int

    def __str__(self) -> str:
        return f"{self.transaction} {self.number}"


class Version(NamedTuple):
    """A state that a row has or had; a live one has no end."""

    start: EventId
    end: Optional[EventId]
    values: Values


class Record(NamedTuple):
    """A block's record."""

    id: int
    root: bytes
    size: int
    previous: bytes

    def bytes(self) -> bytes:
        """Section "Block record"."""
        return number(self.id, 8) + self.root + number(self.size, 8) + self.previous

    def hash(self) -> bytes:
        """The hash of the block."""
        return sha256(self.bytes())


class Entry(NamedTuple):
    """A transaction's entry with its place: its block, and its ordinal there."""

    id: int
    block: int
    ordinal: int
    time: int
    session: str
    roots: dict[int, bytes]

    def leaf(self) -> bytes:
        """The bytes of the entry (section "Transaction entry")."""
        roots = b"".join(number(table, 4) + root for table, root in self.roots.items())
        return (
            number(1, 1) + number(self.id, 8) + number(self.block, 8) + number(self.ordinal, 4) + number(self.time, 8)
            + short(self.session) + number(1, 1) + number(len(self.roots), 1) + roots
        )


class Column(NamedTuple):
    """A column; the key position is 0 where it isn't of the key."""

    name: str
    type: Type
    nullable: int
    key: int
    dropped: int = 0


class Index(NamedTuple):
    """An index, and the ordinals of its columns."""

    name: str
    ordinals: tuple[int, ...]


class Definition(NamedTuple):
    """A table's definition."""

    id: int
    kind: int
    name: str
    history: str
    view: str
    columns: tuple[Column, ...]
    indexes: tuple[Index, ...] = ()
    gone: int = 0

    def key(self) -> list[int]:
        """The places of the key's columns, by key position."""
        return sorted((i for i, column in enumerate(self.columns) if column.key), key=lambda i: self.columns[i].key)


class Rows(NamedTuple):
    """The rows of a table: live versions, ended ones, and those of each index."""

    base: list[Version]
    history: list[Version]
    indexes: list[list[Values]]


class Image(NamedTuple):
    """An image; rows by table."""

    database: str
    blocks: list[Record]
    entries: list[Entry]
    definitions: list[Definition]
    rows: dict[int, Rows]


class Transaction(NamedTuple):
    """A journal's transaction; each of its statements with its reply."""

    id: int
    session: str
    time: int
    explicit: int
    statements: list[tuple[str, str]]


# --- Bytes -----------------------------------------------------------------------------------------------------------


def sha256(data: bytes) -> bytes:
    return hashlib.sha256(data).digest()


def number(value: int, width: int) -> bytes:
    return value.to_bytes(width, "big")


def short(text: str) -> bytes:
    data = text.encode()
    return number(len(data), 2) + data


def tree_hash(leaves: list[bytes]) -> bytes:
    """Section "Tree hash"."""
    if len(leaves) < 2:
        return sha256(b"\0" + leaves[0] if leaves else b"")
    half = 1 << (len(leaves) - 1).bit_length() - 1
    return sha256(b"\1" + tree_hash(leaves[:half]) + tree_hash(leaves[half:]))


def event_leaf(table: int, event: EventId, start: Optional[EventId], values: Values) -> bytes:
    """Section "Leaf"; the start of the version is given for an end alone."""
    told = [(place, value) for place, value in enumerate(values, 1) if value is not None]
    at_start = number(start.transaction, 8) + number(start.number, 8) if start else b""
    columns = b"".join(
        number(place, 2) + type_bytes(value.type) + number(len(value.data), 4) + value.data for place, value in told
    )
    kind = 2 if start else 1
    head = number(1, 1) + number(table, 4) + number(kind, 1) + number(event.transaction, 8) + number(event.number, 8)
    return head + at_start + number(len(told), 2) + columns


def type_bytes(it: Type) -> bytes:
    return number(it.code, 1) + number(it.first, 2) + number(it.second, 1)


class Reader:
    """Bytes, read from the front."""

    def __init__(self, data: bytes):
        self.data = data
        self.at = 0

    def take(self, count: int) -> bytes:
        piece = self.data[self.at : self.at + count]
        need(len(piece) == count, "too few bytes")
        self.at += count
        return piece

    def number(self, width: int, least: int = 0, most: Optional[int] = None) -> int:
        found = int.from_bytes(self.take(width), "big")
        need(least <= found and (most is None or found <= most), "a number out of its range")
        return found

    def text(self, width: int, form: str = "") -> str:
        """Text behind a length of that many bytes, of a form where one is given."""
        text = decoded(self.take(self.number(width)))
        need(not form or re.fullmatch(form, text) is not None, "a name out of its form")
        return text

    def close(self) -> None:
        need(self.at == len(self.data), "bytes behind the end")


def decoded(data: bytes) -> str:
    try:
        return data.decode()
    except UnicodeDecodeError as error:
        raise Malformed("not UTF-8") from error


DATABASE = r"[A-Za-z0-9][A-Za-z0-9_.-]{0,63}"
SESSION = r"[A-Za-z0-9_]{1,32}"
NAME = r"[ -Z\\^-~]{1,128}"
NOTHING = r"()"


# --- Values (section "Leaf") -----------------------------------------------------------------------------------------

BIT, INT, BIGINT, DECIMAL, NVARCHAR, VARBINARY, DATE = range(1, 8)


def read_type(source: Reader) -> Type:
    it = Type(source.number(1), source.number(2), source.number(1))
    fits = {
        DECIMAL: 1 <= it.first <= 38 and it.second <= it.first,
        NVARCHAR: 1 <= it.first <= 4000 and it.second == 0,
        VARBINARY: 1 <= it.first <= 8000 and it.second == 0,
    }
    need(BIT <= it.code <= DATE and fits.get(it.code, it.first == it.second == 0), "no type")
    return it


def is_value(it: Type, data: bytes) -> bool:
    """Whether these are the bytes of a value of a type."""
    if it.code == NVARCHAR:
        return len(decoded(data).encode("utf-16-le")) // 2 <= it.first
    if it.code == VARBINARY:
        return len(data) <= it.first
    unsigned = int.from_bytes(data, "big")
    if it.code == BIT:
        return len(data) == 1 and unsigned <= 1
    if it.code == DATE:
        return len(data) == 4 and unsigned <= 3652058
    if it.code == DECIMAL:
        return len(data) == 16 and abs(signed(data)) < 10**it.first
    return len(data) == (4 if it.code == INT else 8)


def signed(data: bytes) -> int:
    return int.from_bytes(data, "big", signed=True)


def read_value(source: Reader) -> Optional[Value]:
    if source.number(1, 0, 1) == 0:
        return None
    value = Value(read_type(source), source.take(source.number(4)))
    need(is_value(value.type, value.data), "no value of its type")
    return value


def read_values(source: Reader) -> Values:
    return tuple(read_value(source) for _ in range(source.number(2)))


# --- Image (section "Image") -----------------------------------------------------------------------------------------


def read_image(data: bytes) -> Image:
    source = Reader(data)
    need(source.take(4) == b"LGIM", "not an image")
    version = source.number(1, 1, 2)
    database = source.text(2, DATABASE)
    blocks = [read_record(source) for _ in range(source.number(8))]
    entries = placed([read_entry(source) for _ in range(source.number(8))], blocks)
    definitions: list[Definition] = []
    for _ in range(source.number(4)):
        least = definitions[-1].id + 1 if definitions else FIRST_USER_TABLE
        definitions.append(read_definition(source, version, least))
    rows = {table: read_rows(source, 0) for table in (TABLES, COLUMNS)}
    rows |= {it.id: read_rows(source, len(it.indexes)) for it in definitions}
    source.close()
    return Image(database, blocks, entries, definitions, rows)


def read_record(source: Reader) -> Record:
    return Record(source.number(8), source.take(32), source.number(8), source.take(32))


def read_entry(source: Reader) -> Entry:
    """An entry, without its place."""
    it = Entry(source.number(8, 1, MAX_ID), 0, 0, source.number(8, 0, MAX_TICKS), source.text(2, SESSION), {})
    need(source.number(1) == 1, "table hashes of another version")
    for _ in range(source.number(1, 1)):
        table = source.number(4, max(it.roots, default=-1) + 1)
        it.roots[table] = source.take(32)
    return it


def placed(entries: list[Entry], blocks: list[Record]) -> list[Entry]:
    """The entries with their places, which the sizes of the blocks tell."""
    found: list[Entry] = []
    for block in range(len(blocks) + 1):
        first = len(found)
        last = min(len(entries), first + blocks[block].size) if block < len(blocks) else len(entries)
        found += [entries[at]._replace(block=block, ordinal=at - first) for at in range(first, last)]
    return found


def read_definition(source: Reader, version: int, least: int) -> Definition:
    def dropped() -> int:
        """Whether something was dropped, which version 1 doesn't say."""
        return source.number(1, 0, 1) if version > 1 else 0

    id, kind, gone = source.number(4, least), source.number(1, APPEND_ONLY, UPDATABLE), dropped()
    name = source.text(2, NAME)
    history, view = source.text(2, NAME if kind == UPDATABLE else NOTHING), source.text(2, NAME)
    columns = tuple(
        Column(source.text(2, NAME), read_type(source), source.number(1, 0, 1), source.number(1), dropped())
        for _ in range(source.number(2))
    )
    indexes = tuple(
        Index(source.text(2, NAME), tuple(source.number(2) for _ in range(source.number(1))))
        for _ in range(source.number(1))
    )
    return Definition(id, kind, name, history, view, columns, indexes, gone)


def system_definitions() -> list[Definition]:
    """Section "The system's tables"."""
    whole, name, bit = Type(INT), Type(NVARCHAR, 128), Type(BIT)
    tables = (("table_id", whole), ("change", whole), ("name", name), ("kind", whole), ("history_name", name),
              ("view_name", name))
    columns = (("table_id", whole), ("item", whole), ("change", whole), ("name", name), ("type_code", whole),
               ("p", whole), ("s", whole), ("nullable", bit), ("key_position", whole))

    def defined(id: int, table: str, parts: tuple, key: int) -> Definition:
        places = [*range(1, key + 1), *[0] * len(parts)]
        found = (Column(*part, part[0] == "history_name", place) for part, place in zip(parts, places))
        return Definition(id, APPEND_ONLY, table, "", "", tuple(found))

    return [defined(TABLES, "sys_ledger_tables", tables, 2), defined(COLUMNS, "sys_ledger_columns", columns, 3)]


def all_definitions(image: Image) -> list[Definition]:
    """Those of the system's tables, and those of the image."""
    return [*system_definitions(), *image.definitions]


class NoSuchTable(Exception):
    """Why a word names no table, or more than one."""


def table_named(image: Image, word: str) -> Definition:
    """The table with this id, or with this name. A name of digits alone is written in brackets."""
    is_id = re.fullmatch("[0-9]+", word) is not None
    name = word[1:-1] if word.startswith("[") and word.endswith("]") else word
    found = [it for it in all_definitions(image) if (it.id == int(word) if is_id else it.name == name)]
    if len(found) != 1:
        raise NoSuchTable(f"{len(found) or 'no'} tables are named {word}" if found else f"there is no table {word}")
    return found[0]


def has_columns(columns: tuple[Column, ...], values: Values) -> bool:
    """Whether there is one value for each column, NULL or of its type."""
    return len(values) == len(columns) and all(
        value is None or value.type == column.type for column, value in zip(columns, values)
    )


def has_forbidden_null(columns: tuple[Column, ...], values: Values) -> bool:
    """Whether there is a NULL in a column that may have none."""
    return any(value is None and not column.nullable for column, value in zip(columns, values))


def read_rows(source: Reader, indexes: int) -> Rows:
    base = [Version(read_event_id(source), None, read_values(source)) for _ in range(source.number(8))]
    history = [
        Version(read_event_id(source), read_event_id(source), read_values(source)) for _ in range(source.number(8))
    ]
    for part in (base, history):
        need(all(one.start < other.start for one, other in zip(part, part[1:])), "rows out of order")
    return Rows(base, history, [[read_values(source) for _ in range(source.number(8))] for _ in range(indexes)])


def read_event_id(source: Reader) -> EventId:
    return EventId(source.number(8), source.number(8))


# --- Journal ---------------------------------------------------------------------------------------------------------


def read_journal(data: bytes) -> tuple[str, list]:
    """Section "Journal": the database, and the items: transactions, and for each closing how many it takes."""
    source = Reader(data)
    need(source.take(4) == b"LGJN", "not a journal")
    source.number(1, 1, 2)  # which statements a server may have read
    database, items, ids, pending = source.text(2, DATABASE), [], set(), 0
    for _ in range(source.number(8)):
        if source.number(1, 1, 2) == 1:
            it = read_transaction(source)
            need(it.id not in ids, "an id twice")
            ids.add(it.id)
            pending += 1
        else:
            it = source.number(4, 1, min(pending, MAX_BLOCK_ENTRIES))
            pending -= it
        items.append(it)
    source.close()
    return database, items


def read_transaction(source: Reader) -> Transaction:
    id, session = source.number(8, 1, MAX_ID), source.text(2, SESSION)
    time, explicit = source.number(8, 0, MAX_TICKS), source.number(1, 0, 1)
    statements = [(source.text(8), source.text(8)) for _ in range(source.number(8))]
    need(explicit == 1 or len(statements) == 1, "a script that BEGIN didn't open has one statement")
    return Transaction(id, session, time, explicit, statements)
