"""Forges images: alters one at random, and makes some of what is above the change anew (docs/reference/formats.md)."""

import collections
import contextlib
import random

import verify
from ledger import (
    BIGINT, BIT, DATE, DECIMAL, NVARCHAR, VARBINARY, Column, Definition, EventId, Image, Index, Record, Rows, Type,
    Value, Version, number, short, type_bytes,
)


def image_bytes(image: Image) -> bytes:
    """Section "Image", version 2."""
    return b"LGIM\2" + short(image.database) + b"".join((
        listed(8, [record.bytes() for record in image.blocks]),
        listed(8, [placeless(entry.leaf()) for entry in image.entries]),
        listed(4, [definition_bytes(it) for it in image.definitions]),
        *(rows_bytes(rows) for _, rows in sorted(image.rows.items())),
    ))


def listed(width: int, items: list[bytes]) -> bytes:
    return number(len(items), width) + b"".join(items)


def placeless(leaf: bytes) -> bytes:
    """An entry as an image has it: the leaf without its version and its place."""
    return leaf[1:9] + leaf[21:]


def definition_bytes(it: Definition) -> bytes:
    columns = [
        short(c.name) + type_bytes(c.type) + number(c.nullable, 1) + number(c.key, 1) + number(c.dropped, 1)
        for c in it.columns
    ]
    indexes = [short(index.name) + listed(1, [number(n, 2) for n in index.ordinals]) for index in it.indexes]
    names = short(it.name) + short(it.history) + short(it.view)
    return number(it.id, 4) + number(it.kind, 1) + number(it.gone, 1) + names + listed(2, columns) + listed(1, indexes)


def rows_bytes(rows: Rows) -> bytes:
    return b"".join((
        listed(8, [event_bytes(it.start) + values_bytes(it.values) for it in rows.base]),
        listed(8, [event_bytes(it.start) + event_bytes(it.end) + values_bytes(it.values) for it in rows.history]),
        *(listed(8, [values_bytes(row) for row in own]) for own in rows.indexes),
    ))


def event_bytes(it: EventId) -> bytes:
    return number(it.transaction, 8) + number(it.number, 8)


def values_bytes(values: tuple) -> bytes:
    return listed(2, [
        b"\0" if it is None else b"\1" + type_bytes(it.type) + number(len(it.data), 4) + it.data for it in values
    ])


class Forger:
    """Alters an image at random."""

    def __init__(self, image: Image, choice: random.Random):
        self.image = image
        self.choice = choice

    def forge(self) -> Image:
        for _ in range(self.choice.choice((1, 1, 1, 2, 3))):
            alter = self.choice.choice((
                self.alter_value, self.alter_value, self.alter_row, self.alter_row, self.alter_event, self.alter_event,
                self.alter_definition, self.alter_definition, self.alter_entry, self.alter_block, self.alter_index,
            ))
            # (there may be nothing of the kind)
            with contextlib.suppress(IndexError):
                alter()
        self.mend()
        return self.image

    # --- What is altered

    def pick_rows(self) -> Rows:
        return self.image.rows[self.choice.choice(list(self.image.rows))]

    def pick_part(self) -> list[Version]:
        rows = self.pick_rows()
        return self.choice.choice((rows.base, rows.base, rows.history))

    def place_in(self, items: list) -> int:
        """A place in a list, or an IndexError."""
        return self.choice.choice(range(len(items)))

    def pick_event(self) -> EventId:
        """An event that may be there, or one next to it."""
        it = self.choice.choice(self.pick_part()).start
        ids = [entry.id for entry in self.image.entries] + [it.transaction] * 3 + [0, 2**63, 2**64 - 1]
        return EventId(self.choice.choice(ids), max(0, it.number + self.choice.choice((-1, 0, 0, 1, 2))))

    def pick_type(self) -> Type:
        code = self.choice.randint(BIT, DATE)
        scale = self.choice.randint(0, 3)
        return {
            DECIMAL: Type(code, self.choice.randint(4, 38), scale),
            NVARCHAR: Type(code, self.choice.choice((1, 5, 20, 128))),
            VARBINARY: Type(code, self.choice.choice((1, 4, 8))),
        }.get(code, Type(code))

    def pick_value(self, like: Value | None) -> Value | None:
        if self.choice.random() < 0.1:
            return None
        it = like.type if like is not None and self.choice.random() < 0.9 else self.pick_type()
        if it.code == NVARCHAR:
            data = "".join(self.choice.choices("ab~ é😀", k=self.choice.randint(0, min(it.first, 6)))).encode()
        elif it.code == VARBINARY:
            data = self.choice.randbytes(self.choice.randint(0, min(it.first, 4)))
        else:
            width = {BIT: 1, BIGINT: 8, DECIMAL: 16}.get(it.code, 4)
            least = 0 if it.code in (BIT, DATE) else -2
            data = self.choice.randint(least, 1 if it.code == BIT else 1100).to_bytes(width, "big", signed=True)
        return Value(it, data)

    def with_other_value(self, values: tuple) -> tuple:
        found = list(values)
        place = self.place_in(found)
        how = self.choice.random()
        if how < 0.05:
            del found[place]
        elif how < 0.1:
            found.insert(place, self.pick_value(found[place]))
        else:
            found[place] = self.pick_value(found[place])
        return tuple(found)

    def alter_value(self) -> None:
        part = self.pick_part()
        place = self.place_in(part)
        part[place] = part[place]._replace(values=self.with_other_value(part[place].values))

    def alter_row(self) -> None:
        """A row goes, comes twice, ends or begins to live again."""
        rows = self.pick_rows()
        part = self.choice.choice((rows.base, rows.history))
        it = part[self.place_in(part)]
        how = self.choice.randrange(4)
        if how == 0:
            part.remove(it)
        elif how == 1:
            part.append(it._replace(start=self.pick_event()))
        else:
            if how == 2:
                part.remove(it)
            is_live = it.end is not None
            (rows.base if is_live else rows.history).append(it._replace(end=None if is_live else self.pick_event()))

    def alter_event(self) -> None:
        part = self.pick_part()
        place = self.place_in(part)
        if part[place].end is not None and self.choice.random() < 0.5:
            part[place] = part[place]._replace(end=self.pick_event())
        else:
            part[place] = part[place]._replace(start=self.pick_event())

    def alter_index(self) -> None:
        rows = self.choice.choice([rows for rows in self.image.rows.values() if rows.indexes])
        own = self.choice.choice(rows.indexes)
        place, other = self.place_in(own), self.place_in(own)
        how = self.choice.randrange(4)
        if how == 0:
            del own[place]
        elif how == 1:
            own.insert(place, own[other])
        elif how == 2:
            own[place], own[other] = own[other], own[place]
        else:
            own[place] = self.with_other_value(own[place])

    def put(self, items: list, place: int, other: int, altered, ways: int) -> None:
        """Takes an item away, doubles it or exchanges it with another; in all other ways puts the altered one there."""
        how = self.choice.randrange(ways)
        if how == 0:
            del items[place]
        elif how == 1:
            items.insert(other, items[place])
        elif how == 2:
            items[place], items[other] = items[other], items[place]
        else:
            items[place] = altered

    def alter_entry(self) -> None:
        entries = self.image.entries
        place, other = self.place_in(entries), self.place_in(entries)
        it = entries[place]
        roots = dict(it.roots)
        table = self.choice.choice(list(roots))
        roots[self.choice.choice((0, 1, 2, 3, 4, 5, 2**32 - 1))] = roots[table]
        rest = {key: root for key, root in it.roots.items() if key != table} or roots
        altered = self.choice.choice((
            it._replace(id=self.choice.choice((entries[other].id, it.id + 1, 2**63 - 1))),
            it._replace(time=self.choice.randint(0, 9)), it._replace(session="eve"),
            it._replace(roots=dict(sorted(roots.items()))), it._replace(roots=rest),
            it._replace(roots={**it.roots, table: self.choice.randbytes(32)}),
        ))
        self.put(entries, place, other, altered, 8)

    def alter_block(self) -> None:
        blocks = self.image.blocks
        place, other = self.place_in(blocks), self.place_in(blocks)
        it = blocks[place]
        altered = self.choice.choice((
            it._replace(id=it.id + self.choice.choice((1, 2**32))), it._replace(root=self.choice.randbytes(32)),
            it._replace(size=self.choice.choice((0, it.size + 1, it.size + 2, 100_000, 100_001, 2**64 - 1))),
            it._replace(previous=self.choice.choice((bytes(32), blocks[other].hash()))),
        ))
        self.put(blocks, place, other, altered, 6)

    def alter_definition(self) -> None:
        definitions = self.image.definitions
        place = self.place_in(definitions)
        it = definitions[place]
        columns, indexes = list(it.columns), list(it.indexes)
        name = self.choice.choice((
            "sys_ledger_columns", "a b", "~", "x" * 128, "Ledger_x", "k", "K", it.name, it.view, definitions[0].name
        ))
        rows = self.image.rows[it.id]
        how = self.choice.randrange(10)
        if how == 0:
            del definitions[place], self.image.rows[it.id]
            return
        if how == 1:
            named = ("name", "view", "history") if it.history else ("name", "view")
            it = it._replace(**{self.choice.choice(named): name})
        elif how == 2:
            it = it._replace(kind=3 - it.kind, history="" if it.kind == 2 else name)
        elif how == 3:
            column = self.place_in(columns)
            columns[column] = self.choice.choice((
                columns[column]._replace(name=name), columns[column]._replace(type=self.pick_type()),
                columns[column]._replace(nullable=1 - columns[column].nullable),
                columns[column]._replace(key=self.choice.choice((0, 1, 2, 3, 255))),
                columns[column]._replace(dropped=1 - columns[column].dropped),
            ))
        elif how == 4:
            columns.insert(self.place_in(columns), Column(name, self.pick_type(), 1, 0))
        elif how == 5:
            del columns[self.place_in(columns)]
        elif how == 6:
            index = self.place_in(indexes)
            ordinals = self.choice.choices((0, 1, 2, 3, 8, 65535), k=self.choice.randint(0, 5))
            indexes[index] = self.choice.choice((Index(name, indexes[index].ordinals), Index("i", tuple(ordinals))))
        elif how == 7:
            indexes.append(Index(name, (self.choice.randint(1, 3),)))
            rows.indexes.append([])
        elif how == 8:
            index = self.place_in(indexes)
            del indexes[index], rows.indexes[index]
        else:
            del self.image.rows[it.id]
            it = it._replace(id=self.choice.choice((3, 34, 35, 2**31, 2**32 - 1)))
        definitions[place] = it._replace(columns=tuple(columns), indexes=tuple(indexes))
        self.image.rows[it.id] = rows

    # --- What is made anew above it

    def mend(self) -> None:
        if self.choice.random() < 0.6:
            self.mend_numbers()
        if self.choice.random() < 0.95:
            for rows in self.image.rows.values():
                rows.base.sort(key=lambda it: it.start)
                rows.history.sort(key=lambda it: it.start)
            self.image.definitions.sort(key=lambda it: it.id)
        if self.choice.random() < 0.5:
            self.mend_system_rows()
        if self.choice.random() < 0.6:
            self.mend_indexes()
        if self.choice.random() < 0.8:
            self.mend_roots()
        if self.choice.random() < 0.9:
            self.mend_blocks()

    def mend_numbers(self) -> None:
        """The events of each transaction are numbered from 0, in the order in which they were numbered."""
        events = collections.defaultdict(list)
        for rows in self.image.rows.values():
            for part in (rows.base, rows.history):
                for place, it in enumerate(part):
                    events[it.start.transaction].append((it.start.number, part, place, "start"))
                    if it.end is not None:
                        events[it.end.transaction].append((it.end.number, part, place, "end"))
        for transaction, own in events.items():
            for count, (_, part, place, field) in enumerate(sorted(own, key=lambda event: event[0])):
                part[place] = part[place]._replace(**{field: EventId(transaction, count)})

    def mend_system_rows(self) -> None:
        """The system's rows are those of the definitions, with the starts that stood there, and new ones behind."""
        wanted = [[verify.table_row(it) for it in self.image.definitions]]
        wanted.append([row for it in self.image.definitions for row in verify.item_rows(it)])
        for table, rows in zip((1, 2), wanted):
            base = self.image.rows[table].base
            if not base:
                return
            last = base[-1].start
            starts = [it.start for it in base]
            starts += [EventId(last.transaction, last.number + 1 + n) for n in range(len(rows))]
            base[:] = [Version(start, None, row) for start, row in zip(starts, rows)]

    def mend_indexes(self) -> None:
        for it in self.image.definitions:
            rows = self.image.rows[it.id]
            for own, index in zip(rows.indexes, it.indexes):
                places = [ordinal - 1 for ordinal in index.ordinals] + it.key()
                with contextlib.suppress(IndexError, TypeError):
                    found = [verify.picked(version, places) for version in rows.base]
                    own[:] = sorted(found, key=lambda row: [verify.order(value) for value in row])

    def mend_roots(self) -> None:
        events = verify.events_of(self.image)
        for place, entry in enumerate(self.image.entries):
            roots = verify.roots_of(events.get(entry.id, []))
            if roots:
                self.image.entries[place] = entry._replace(roots=dict(sorted(roots.items())))

    def mend_blocks(self) -> None:
        """Entries have their places, and blocks their roots and the hashes of those before."""
        at, previous = 0, bytes(32)
        for place, record in enumerate(self.image.blocks):
            own = [
                entry._replace(block=place, ordinal=ordinal)
                for ordinal, entry in enumerate(self.image.entries[at : min(len(self.image.entries), at + record.size)])
            ]
            at += len(own)
            record = Record(place, verify.tree_hash([entry.leaf() for entry in own]), len(own), previous)
            self.image.blocks[place] = record
            previous = record.hash()
