"""Columns of words for statements, as PostgreSQL spells them, and rows of answers."""

from collections.abc import Collection, Iterable, Sequence
from typing import Any, LiteralString

from . import lines, servers

Handed = Iterable[tuple[int, bytes, bytes]]  # entries, their marks, and the recipients with a NUL between two


def arrays(rows: Iterable[Sequence[int | str | bytes | None]], many: int) -> list[str]:
    """Rows of so many values as arrays, one for each column, as PostgreSQL spells them."""
    columns: list[tuple[int | str | bytes | None, ...]] = list(zip(*rows)) or [()] * many
    return ['{' + ','.join(map(spelled, column)) + '}' for column in columns]


def spelled(value: int | str | bytes | None) -> str:
    """A value as it stands in an array."""
    if value is None:
        return 'NULL'
    if isinstance(value, int):
        return str(value)
    if isinstance(value, bytes):
        return f'"\\\\x{value.hex()}"'
    return '"' + value.replace('\\', '\\\\').replace('"', '\\"') + '"'


def keep_handed(cursor: lines.Cursor, copies: Collection[tuple[str, int, bytes, bytes]]) -> None:
    """Notes copies that were handed on, each with its list's name."""
    if copies:
        cursor.execute('INSERT INTO ezmlm.handed SELECT * FROM unnest(%s::text[], %s::bigint[], %s::bytea[], %s::bytea[])', arrays(copies, 4))


def make_each(cursor: lines.Cursor, statement: LiteralString, rows: Sequence[Sequence[Any]]) -> None:
    """Makes a change for each row of words."""
    cursor.executemany(statement, rows)


def row_of(cursor: 'lines.Cursor | servers.Answer') -> tuple[Any, ...]:
    """The one row of an answer. If there is none the list has no history."""
    row = cursor.fetchone()
    if row is None:
        raise servers.Unfit('the list has no history')
    return row


def one(cursor: lines.Cursor) -> Any:
    row = cursor.fetchone()
    return None if row is None else row[0]
