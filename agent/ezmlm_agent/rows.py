"""What is given to lists that several hosts have: one row of numbered items for each list.

Each host gives its own copy of a list the items of the row in their order, each under its number. What a list does with an item depends on
nothing but the list and the item, and an item that can't be answered now leaves the list as it was: so the copies are the same list, each at
some place of the row. A list's place is the number of the first item that it hasn't answered.
"""

import dataclasses
import functools
import time
from collections.abc import Collection, Iterable, Mapping, Sequence
from typing import Any, LiteralString

from . import lines, program, puts, servers, taking
from .columns import Handed, arrays, keep_handed, make_each, row_of

CHANNEL = 'ezmlm'
STEP = 512_000  # by which the floor may rise at once
# Each of these is asked for many lists at once, by columns of words.
MAILS = '''SELECT list, key, number FROM (SELECT list, key, (SELECT number FROM ezmlm.mail m WHERE m.list = w.list AND m.key = w.key) AS number
    FROM unnest(%s::text[], %s::bytea[]) AS w (list, key)) AS found WHERE number IS NOT NULL'''
GIVEN = 'SELECT list, theirs, number FROM ezmlm.given JOIN unnest(%s::text[], %s::bigint[]) AS w (list, theirs) USING (list, theirs)'
# One statement that writes all: items, the keys of mails, where the lists' rows go on and where this host's lists stand, and that copies are
# forgotten. All hosts hear of the items.
WRITE = '''WITH items AS (INSERT INTO ezmlm.item (list, number, first, text, hash) SELECT list, number, %s, text, hash
            FROM unnest(%s::text[], %s::bigint[], %s::bytea[], %s::bytea[]) AS new (list, number, text, hash)),
        mails AS (INSERT INTO ezmlm.mail (list, key, number, first) SELECT list, key, number, %s
            FROM unnest(%s::text[], %s::bytea[], %s::bigint[]) AS new (list, key, number)),
        hosts AS (UPDATE ezmlm.host h SET place = w.place, seen = %s, key = coalesce(w.key, h.key),
                ahead = %s, server = pg_postmaster_start_time()::text
            FROM unnest(%s::text[], %s::bigint[], %s::bytea[]) AS w (list, place, key) WHERE h.list = w.list AND h.host = %s),
        copies AS (DELETE FROM ezmlm.handed h USING unnest(%s::text[], %s::bigint[]) AS w (list, entry)
            WHERE h.list = w.list AND h.entry = w.entry),
        grown AS (SELECT * FROM unnest(%s::text[], %s::bigint[], %s::bytea[]) AS w (list, next, head)),
        lists AS (UPDATE ezmlm.list l SET next = grown.next, head = grown.head FROM grown WHERE l.name = grown.list)
    SELECT pg_notify(%s, next || ' ' || list) FROM grown'''
# Items from a place on and below a bound, of so many bytes for each list, and one at least.
ROWS = '''SELECT w.list, r.number, r.text, r.hash, r.back, g.number IS NOT NULL FROM unnest(%s::text[], %s::bigint[], %s::bigint[], %s::bigint[])
        AS w (list, place, bound, size) CROSS JOIN LATERAL (SELECT number, text, hash, back, sum(length(text)) OVER (ORDER BY number) AS sum
            FROM ezmlm.item WHERE list = w.list AND number >= w.place AND number < w.bound) AS r
        LEFT JOIN ezmlm.given g ON g.list = w.list AND g.number = r.number AND g.answer IS NULL
    WHERE r.sum <= w.size OR r.number = w.place ORDER BY w.list, r.number'''
AGAIN = '''SELECT number, text, hash, back, true FROM (SELECT i.number, i.text, i.hash, i.back, sum(length(i.text)) OVER (ORDER BY i.number) AS sum,
        row_number() OVER (ORDER BY i.number) AS at FROM ezmlm.item i JOIN ezmlm.given g USING (list, number)
        WHERE g.list = %s AND g.answer IS NULL AND g.number < %s ORDER BY i.number LIMIT %s) AS r WHERE sum <= %s OR at = 1 ORDER BY number'''
DAY = 86400
FIRST = 512  # the lowest number of a history's item, as notes.FIRST is


@dataclasses.dataclass
class Asked:
    """What was asked when lists' rows were locked: the next numbers, and the numbers of mails and of operators' items that came before."""
    next: 'servers.Answer | None' = None
    mails: 'servers.Answer | None' = None
    given: 'servers.Answer | None' = None


class Rows(taking.Taking):
    """The part of `history.History` that has the items. Each call is one transaction."""

    async def proceed(self, wish: puts.Wish) -> puts.Told:
        """Puts items after the others, and tells those from a host's place on that its list hasn't answered. What it tells is kept by the servers
        for good, whoever put it there. What is asked of several lists at one moment is one transaction."""
        if wish.adds.takes_long():
            return await self.lines.call(self.proceeded_alone, wish)
        return await self.lines.join(self.proceeded, wish, wish.name, wish.adds.size)

    def proceeded_alone(self, cursor: lines.Cursor, wish: puts.Wish) -> puts.Told:
        told, = self.proceeded(cursor, [wish])
        if isinstance(told, servers.Unfit):
            raise told
        return told

    def proceeded(self, cursor: lines.Cursor, wishes: Sequence[puts.Wish]) -> list[puts.Told | servers.Unfit]:
        """What the histories of several lists tell, or why a host's copy can't go by one: then nothing was put into that one."""
        asked = self.ask(cursor, {wish.name: wish.adds for wish in wishes if wish.adds})
        stands = taking.stands(cursor, [(wish.name, wish.place) for wish in wishes], self.host)
        mails, given = found_of(asked.mails), found_of(asked.given)
        steps: dict[str, puts.Step] = {}
        unfit: dict[str, servers.Unfit] = {}
        for wish in wishes:
            try:
                stand = puts.look_at(wish, stands.get(wish.name))
            except servers.Unfit as error:
                unfit[wish.name] = error
                continue
            put = puts.Put(wish.name, stand.next, stand.clock, stand.head)
            put.add(wish.adds, mails.get(wish.name, {}), given.get(wish.name, {}))
            if wish.adds.keep is not None:
                self.timed(cursor, wish.name, stand.clock - wish.adds.keep, put)
            steps[wish.name] = puts.Step(wish, stand, put)
        news = [step for step in steps.values() if step.has_news()]
        self.write(cursor, [step.put for step in news], [(name, entry) for name, step in steps.items() for entry in step.wish.adds.left],
                   [(step.wish.name, step.wish.place, step.wish.key) for step in news])
        self.tell(cursor, news)
        return [unfit[wish.name] if wish.name in unfit else steps[wish.name].told() for wish in wishes]

    def ask(self, cursor: lines.Cursor, adds: Mapping[str, puts.Adds]) -> Asked:
        """Locks lists' rows, each agent in the same order, and asks which of these items came before. The answers come with those of what is asked
        next."""
        if not adds:
            return Asked()
        mails = [(name, key) for name, each in adds.items() for key, _ in each.mails]
        given = [(name, key) for name, each in adds.items() for key, _ in each.given if key]
        return Asked(cursor.execute('SELECT next, head, extract(epoch FROM clock_timestamp())::bigint FROM ezmlm.list WHERE name = ANY(%s) ORDER BY name '
                                    'FOR UPDATE', (list(adds),)),
                     cursor.execute(MAILS, arrays(mails, 2)) if mails else None, cursor.execute(GIVEN, arrays(given, 2)) if given else None)

    def write(self, cursor: lines.Cursor, those: Sequence[puts.Put], left: Sequence[tuple[str, int]] = (),
              places: Sequence[tuple[str, int, bytes | None]] = ()) -> None:
        """Writes what is put into lists' rows, which are locked, and where this host's lists stand, and forgets copies of entries that left the
        queue."""
        grown = [put for put in those if put.texts]
        if grown or left or places:
            now = max((put.now for put in those), default=0) or int(time.time())
            items = ((put.name, number, text, digest) for put in grown for number, (text, digest) in enumerate(zip(put.texts, put.hashes()), put.following))
            # Mails are of items that are put in, so without these there is none.
            mails = ((put.name, key, number) for put in grown for key, number in put.mails)
            nexts = ((put.name, put.next(), put.hashes()[-1]) for put in grown)
            cursor.execute(WRITE, (now, *arrays(items, 4), now, *arrays(mails, 3), now, int(time.time()) - now, *arrays(places, 3), self.host,
                                   *arrays(left, 2), *arrays(nexts, 3), CHANNEL))
        for put in grown:
            if put.timed:
                number, back = put.timed
                cursor.execute('UPDATE ezmlm.item SET back = %s WHERE list = %s AND number = %s', (back, put.name, number))
        if given := [(put.name, number, theirs) for put in grown for theirs, number in put.given]:
            cursor.execute('INSERT INTO ezmlm.given SELECT * FROM unnest(%s::text[], %s::bigint[], %s::bigint[])', arrays(given, 3))

    def tell(self, cursor: lines.Cursor, steps: Sequence[puts.Step]) -> None:
        """Finds the items that lists are told, which share the bytes that one may have."""
        sizes = {step.wish.name: step.wish.size // len(steps) for step in steps}
        kept = {step.wish.name: step for step in steps if not step.is_all_new()}
        waited = [step for step in steps if step.stand.is_waited_for]
        bounds = [(name, step.wish.place, step.bound(), sizes[name]) for name, step in kept.items()]
        rows = cursor.execute(ROWS, arrays(bounds, 4)) if kept else None
        again = [cursor.execute(AGAIN, (name, step.wish.place, step.wish.most, sizes[name])) for step in waited for name in [step.wish.name]]
        for step in steps:
            if step.is_all_new():
                step.rows = puts.first_of(step.put.rows(), step.bound(), sizes[step.wish.name])
        for name, *row in rows.fetchall() if rows else []:
            kept[name].rows.append(puts.Row(*row))
        for step, answer in zip(waited, again):
            step.again = [puts.Row(*row) for row in answer.fetchall()]

    def put(self, cursor: lines.Cursor, name: str, adds: puts.Adds) -> tuple[list[int], int]:
        """Puts items into a list's row. The answer is their numbers, those that they had if they came before, and the number that was the next
        one."""
        asked = self.ask(cursor, {name: adds})
        assert asked.next
        following, head, now = row_of(asked.next)
        put = puts.Put(name, following, now, head)
        put.add(adds, found_of(asked.mails).get(name, {}), found_of(asked.given).get(name, {}))
        self.write(cursor, [put])
        return put.numbers, following

    def timed(self, cursor: lines.Cursor, name: str, before: int, put: puts.Put) -> None:
        """Puts a timed run into the row, and what raises the floor: mails that came first before a moment can't come again, and are forgotten.
        What all hosts have answered by then is removed."""
        now, following = put.now, put.following
        cursor.execute('SELECT number FROM ezmlm.mail WHERE list = %s AND first >= %s ORDER BY number LIMIT 1', (name, before))
        (lowest,) = cursor.fetchone() or (following,)
        cursor.execute('DELETE FROM ezmlm.mail WHERE list = %s AND number < %s', (name, lowest))
        cursor.execute('SELECT floor, day, (SELECT max(number) FROM ezmlm.item WHERE list = name AND back IS NOT NULL) FROM ezmlm.list '
                       'WHERE name = %s', (name,))
        floor, day, last = row_of(cursor)
        is_whole = last is None or day != now // DAY
        put.put_timed(lambda number, moment: program.item(b'T', number, moment), puts.WHOLE if is_whole else following - last)
        for value in [*range(floor + STEP, lowest, STEP), lowest] if lowest > max(floor, FIRST) else []:
            put.put(functools.partial(puts.raised, value))
        cursor.execute('UPDATE ezmlm.list SET timed = %s, day = %s, floor = greatest(floor, %s) WHERE name = %s', (now, now // DAY, lowest, name))
        cursor.execute('SELECT least((SELECT min(place) FROM ezmlm.host WHERE list = %s), (SELECT number FROM ezmlm.item WHERE list = %s AND '
                       'first >= %s ORDER BY number LIMIT 1), %s)', (name, name, before, following))
        (bound,) = row_of(cursor)
        cursor.execute('UPDATE ezmlm.list SET first = %s, base = (SELECT hash FROM ezmlm.item WHERE list = name AND number = %s) '
                       'WHERE name = %s AND first < %s', (bound, bound - 1, name, bound))
        cursor.execute('DELETE FROM ezmlm.item WHERE list = %s AND number < %s', (name, bound))
        cursor.execute('DELETE FROM ezmlm.given WHERE list = %s AND number < %s AND theirs = 0', (name, bound))
        cursor.execute('DELETE FROM ezmlm.configuration WHERE list = %s AND number < (SELECT max(number) FROM ezmlm.configuration '
                       'WHERE list = %s AND number <= %s)', (name, name, bound))
        cursor.execute('DELETE FROM ezmlm.digest WHERE list = %s AND place < (SELECT min(place) FROM ezmlm.host WHERE list = %s)', (name, name))

    async def forget(self, name: str, keys: Sequence[bytes]) -> None:
        """The mails of these keys get new numbers if they come again."""
        await self.lines.call(make_each, 'DELETE FROM ezmlm.mail WHERE list = %s AND key = ANY(%s)', [(name, list(keys))])

    async def answer(self, name: str, answers: Sequence[tuple[int, bytes, str]]) -> None:
        """Notes what the list answered to items of operators, by their numbers in the row and the hashes up to them: so no answer is noted for
        an item that was put in their place."""
        await self.lines.call(make_each, 'UPDATE ezmlm.given g SET answer = %s FROM ezmlm.item i WHERE g.list = %s AND g.number = %s '
                              'AND g.answer IS NULL AND i.list = g.list AND i.number = g.number AND i.hash = %s',
                              [(answer, name, number, digest) for number, digest, answer in answers])


def found_of(answer: 'servers.Answer | None') -> dict[str, dict[Any, int]]:
    """The numbers of what came before, by the lists and the keys."""
    found: dict[str, dict[Any, int]] = {}
    for name, key, number in answer.fetchall() if answer else []:
        found.setdefault(name, {})[key] = number
    return found


def keep_all_handed(cursor: lines.Cursor, those: Sequence[Collection[tuple[str, int, bytes, bytes]]]) -> list[None | Exception]:
    """The same of what several calls note."""
    keep_handed(cursor, [copy for copies in those for copy in copies])
    return [None for _ in those]
