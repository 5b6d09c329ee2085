"""The rules of changes (docs/reference/formats.md, section "The system's tables"): what statements can have made of tables.

A row is a base row of one of the system's tables, and stands where it starts. Of the rows about a table or a column
the first has the least change.
"""

from bisect import bisect_left
from collections import defaultdict
from itertools import pairwise
from typing import Iterable, NamedTuple, Optional, Sequence, Union
import re

from ledger import (
    APPEND_ONLY, COLUMNS, NAME, TABLES, UPDATABLE, EventId, Image, Values, Version, has_columns, has_forbidden_null,
    signed, system_definitions,
)

# Where an event stands in the ledger: the position of its transaction's entry, and its number.
Place = tuple[int, int]
FIRST_INDEX_ITEM, PARTS_APART = 1000, 1000
# what a kind has more, and the key position, where DROP was
GONE, DROPPED = 2, -1
SYSTEM_NAMES = {it.name for it in system_definitions()}


class TableRow(NamedTuple):
    """A row about a table; an append-only table has no history."""

    place: Place
    table: int
    change: int
    name: str
    kind: int
    history: Optional[str]
    view: str

    def names(self) -> list[str]:
        return [self.name, self.view] + ([] if self.history is None else [self.history])

    def when_dropped(self) -> tuple:
        """The names and the kind that DROP TABLE gives."""
        history = None if self.history is None else f"MSSQL_DroppedLedgerHistory_{self.history}_{self.table}"
        return (f"MSSQL_DroppedLedgerTable_{self.name}_{self.table}", self.kind + GONE, history,
                f"MSSQL_DroppedLedgerView_{self.view}_{self.table}")


class ItemRow(NamedTuple):
    """A row about a column, or about a part of an index, whose key position is its column's ordinal."""

    place: Place
    table: int
    item: int
    change: int
    name: str
    nullable: int
    key: int

    def is_of_column(self) -> bool:
        return self.item < FIRST_INDEX_ITEM

    def when_dropped(self) -> tuple:
        """The name, nullable and key position that DROP COLUMN gives."""
        return f"MSSQL_DroppedLedgerColumn_{self.name}_{self.item}", 1, DROPPED


Row = Union[TableRow, ItemRow]


class About:
    """The rows about one table, each part by place."""

    def __init__(self) -> None:
        self.tables: list[TableRow] = []
        self.columns: list[ItemRow] = []
        self.parts: list[ItemRow] = []
        self.has_drop = False  # of a column

    def rows(self) -> list[Row]:
        return [*self.tables, *self.columns, *self.parts]

    def by_column(self) -> dict[int, list[ItemRow]]:
        """The rows about each column, by item, the first one first."""
        found: dict[int, list[ItemRow]] = defaultdict(list)
        for row in sorted(self.columns, key=lambda row: (row.item, row.change)):
            found[row.item].append(row)
        return found

    def made(self) -> list[Place]:
        """Where the table was made, which is once in an image of a server."""
        return [row.place for row in self.tables if row.change == 0]

    def name_row(self, place: Place) -> Optional[TableRow]:
        """The row with the table's names at a place, once it has some."""
        before = bisect_left(self.tables, place, key=lambda row: row.place)
        return self.tables[before - 1] if before else None


class Changes:
    """The rows of the system's tables, by the table that they are about and by transaction."""

    def __init__(self, image: Image):
        self.positions = {entry.id: position for position, entry in enumerate(image.entries)}
        self.hashed = [entry.roots.keys() for entry in image.entries]
        self.about: dict[int, About] = defaultdict(About)
        self.made_at: dict[int, list[Row]] = defaultdict(list)
        for row in sorted([*self.table_rows(image), *self.item_rows(image)], key=lambda row: row.place):
            own = self.about[row.table]
            rows = own.tables if isinstance(row, TableRow) else own.columns if row.is_of_column() else own.parts
            rows.append(row)
            own.has_drop |= isinstance(row, ItemRow) and row.key == DROPPED
            self.made_at[row.place[0]].append(row)

    def place(self, event: EventId) -> Place:
        return self.positions[event.transaction], event.number

    def table_rows(self, image: Image) -> Iterable[TableRow]:
        for it in base_rows(image, TABLES):
            table, change, name, kind, history, view = it.values
            yield TableRow(self.place(it.start), whole(table), whole(change), text(name), whole(kind),
                           history and text(history), text(view))

    def item_rows(self, image: Image) -> Iterable[ItemRow]:
        for it in base_rows(image, COLUMNS):
            table, item, change, name, _, _, _, nullable, key = it.values
            yield ItemRow(self.place(it.start), whole(table), whole(item), whole(change), text(name),
                          nullable.data[0], whole(key))

    # --- Rules on the rows about a table -----------------------------------------------------------------------------

    def break_rules(self, table: int) -> bool:
        """Whether the rows about a table break one of the rules."""
        own = self.about[table]
        return not (
            all(self.is_of_statement(position, table) for position in {row.place[0] for row in own.rows()})
            and is_table_once(own)
            and all(is_column_once(rows) for rows in own.by_column().values())
            and have_order(own)
            and have_column_names(own)
            and all(is_index_in_time(own, part) for part in own.parts)
            and self.follows_table_before(table)
            and all(self.has_free_names(row) for row in own.tables)
        )

    def is_of_statement(self, position: int, table: int) -> bool:
        """Whether a transaction is one statement that defines something, about this table alone."""
        rows = self.made_at[position]
        return (
            self.hashed[position] <= {TABLES, COLUMNS}
            and all(row.table == table for row in rows)
            and (is_table_created(rows) or is_index_created(rows) or is_changed(rows))
        )

    def follows_table_before(self, table: int) -> bool:
        """Whether the table was made after the one with the id before."""
        own, earlier = (self.about[id].made() if id in self.about else [] for id in (table, table - 1))
        return table == 3 or any(one < other for one in earlier for other in own)

    def has_free_names(self, row: TableRow) -> bool:
        """Whether the names of a row differ, and nothing has one of them at its place."""
        names, own = set(row.names()), row.names()
        held = [it.name_row(row.place) for it in self.about.values()]
        taken = SYSTEM_NAMES.union(*(it.names() for it in held if it))
        return len(names) == len(own) and names.isdisjoint(taken)

    # --- Rules on a version ------------------------------------------------------------------------------------------

    def is_in_its_time(self, table: int, version: Version) -> bool:
        """Whether a version starts after its table was made, and nothing happens to it after the table's drop."""
        last = self.place(version.end or version.start)
        made = self.about[table].made()
        drops = [row.place for row in self.about[table].tables if row.kind in (APPEND_ONLY + GONE, UPDATABLE + GONE)]
        start = self.place(version.start)
        return any(it < start for it in made) and not any(it < max(start, last) for it in drops)


# --- Values ----------------------------------------------------------------------------------------------------------


def base_rows(image: Image, table: int) -> list[Version]:
    """The base rows of a system table that have its columns."""
    columns = system_definitions()[table - 1].columns

    def fits(values: Values) -> bool:
        return has_columns(columns, values) and not has_forbidden_null(columns, values)

    return [it for it in image.rows[table].base if fits(it.values)]


def whole(value) -> int:
    return signed(value.data)


def text(value) -> str:
    return value.data.decode()


def is_name(it: str) -> bool:
    return re.fullmatch(NAME, it) is not None


# --- Statements ------------------------------------------------------------------------------------------------------


def is_table_created(rows: Sequence[Row]) -> bool:
    """By number a row of a table, and then its columns by item."""
    first, *columns = rows
    return (
        isinstance(first, TableRow)
        and all(isinstance(row, ItemRow) and row.is_of_column() and row.item == row.place[1] for row in columns)
        and all(row.change == 0 for row in rows)
    )


def is_index_created(rows: Sequence[Row]) -> bool:
    """By number the parts of an index."""
    parts = [row for row in rows if isinstance(row, ItemRow) and not row.is_of_column() and row.change == 0]
    group, part = divmod(parts[0].item, PARTS_APART) if parts else (0, 0)
    return (
        len(parts) == len(rows)
        and group >= 1 and part == 1
        and all(other.item == one.item + 1 for one, other in pairwise(parts))
    )


def is_changed(rows: Sequence[Row]) -> bool:
    """One row of a column that is added or dropped, or of a table that is dropped."""
    return len(rows) == 1 and rows[0].change != 0


# --- Rules on the rows about a table by themselves -------------------------------------------------------------------


def is_table_once(own: About) -> bool:
    """Whether a table was made, and at most dropped."""
    first, *later = sorted(own.tables, key=lambda row: row.change) or [None]
    return (
        first is not None
        and first.kind in (APPEND_ONLY, UPDATABLE)
        and all(map(is_name, first.names()))
        and len(later) <= 1
        and all((row.name, row.kind, row.history, row.view) == first.when_dropped() for row in later)
    )


def is_column_once(rows: list[ItemRow]) -> bool:
    """Whether a column was made or added, and at most dropped."""
    first, *later = rows
    return (
        is_name(first.name)
        and not first.name.lower().startswith("ledger_")
        and (first.change == 0 or (first.nullable, first.key) == (1, 0))
        and len(later) <= 1
        and all((row.name, row.nullable, row.key) == first.when_dropped() for row in later)
    )


def rise(numbers: Iterable[int]) -> bool:
    return all(one <= other for one, other in pairwise(numbers))


def have_order(own: About) -> bool:
    """Whether changes rise with time, columns come by item, and nothing follows the drop of the table."""
    rows = sorted([*own.tables, *own.columns], key=lambda row: row.place)
    drops = sorted(row.change for row in own.tables)[1:]
    return (
        rise(row.change for row in rows)
        and rise(first.change for first, *_ in own.by_column().values())
        and all(row.change <= drop for row in rows for drop in drops)
    )


def have_column_names(own: About) -> bool:
    """Whether no row gives a column a name that a column has then."""
    names: dict[int, str] = {}
    for row in own.columns:
        if row.name in names.values():
            return False
        names[row.item] = row.name
    return True


def is_index_in_time(own: About, part: ItemRow) -> bool:
    """Whether a part of an index came while its table and column were there, and after the parts below it."""
    drops = sorted(own.tables, key=lambda row: row.change)[1:]
    added, *dropped = own.by_column().get(part.key, [None])
    return (
        all(part.place < row.place for row in drops)
        and all(row.place < part.place for row in own.parts if row.item < part.item)
        and added is not None and added.place < part.place
        and all(part.place < row.place for row in dropped)
    )
