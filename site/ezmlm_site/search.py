"""The search: one answer to GET, over WSGI (PEP 3333) or CGI.

It reads the files that the site keeps of lists, by read-only connections, and writes nothing. What a query may cost has an end (query.py), so has the
time that it takes, and how many of them one address may have (crowd.py). The list is named by the last part of the path, or the part before
`search`: `/cats/search` and `/cats` are the list of the section [cats]. `search` beside the page of all lists looks into all of them.
"""

from __future__ import annotations

import contextlib
import dataclasses
import functools
import heapq
import os
import re
import sqlite3
import time
import urllib.parse
import zoneinfo
from collections.abc import Callable, Iterable, Iterator
from typing import Any

import jinja2
from markupsafe import Markup

from . import crowd, cuts, pages, query, settings

SETTINGS = '/etc/ezmlm-site.conf'
LONGEST_TIME = 1.0    # seconds of a query, over all lists too
STEP = 200            # instructions of SQLite's between two looks at the clock
HITS = 20             # on a page
LAST_PAGE = 500
LAST_PAGE_OF_ALL = 10
HEADERS = [
    ('Content-Type', 'text/html; charset=utf-8'), ('X-Content-Type-Options', 'nosniff'), ('Referrer-Policy', 'no-referrer'),
    ('Content-Security-Policy', "default-src 'none'; style-src 'self'; form-action 'self'; base-uri 'none'; frame-ancestors 'none'"),
]
StartResponse = Callable[[str, list[tuple[str, str]]], object]


class Gone(Exception):
    """The list has no index: nothing of it is shown."""


@dataclasses.dataclass(frozen=True)
class Hit:
    """A post that was found, with a number that is less for what comes first, and the list's title and its place on the web, if all were asked."""
    order: float
    n: int
    moment: int
    author: str
    subject: str
    cut: Markup
    title: str = ''
    base: str = ''


class Index:
    """The kept posts of a list, to be read alone, until a moment of the monotonic clock."""

    def __init__(self, site: settings.Site, end: float) -> None:
        path = site.state / f'{site.name}.sqlite'
        if not path.exists():
            raise Gone
        self.database = sqlite3.connect(f'file:{urllib.parse.quote(str(path))}?mode=ro', uri=True, timeout=LONGEST_TIME, check_same_thread=False)
        self.database.set_progress_handler(lambda: time.monotonic() > end, STEP)

    @property
    def title(self) -> str:
        return str(self.database.execute("SELECT value FROM told WHERE name = 'title'").fetchone()[0])

    def find(self, asked: query.Query, by_rank: bool, first: int, most: int) -> list[Hit]:
        """Some hits from a place on."""
        conditions, values, by_rank = ['words MATCH ?'], [asked.expression], by_rank and bool(asked.expression)
        if not asked.expression:
            conditions, values = ['NOT is_out'], []
        moments: list[Any] = []
        for condition, moment in (('moment >= ?', asked.after), ('moment < ?', asked.before)):
            if moment is not None:
                conditions.append(condition)
                moments.append(moment)
        tables, n = ('words JOIN post ON post.n = words.rowid', 'words.rowid') if asked.expression else ('post', 'post.n')
        first_by, order = ('words.rank', 'words.rank, post.n') if by_rank else ('-moment', n)
        rows = self.database.execute(f'SELECT {first_by}, post.n, moment, post.author, post.subject, post.text FROM {tables} '
                                     f'WHERE {" AND ".join(conditions)} ORDER BY {order} DESC LIMIT ? OFFSET ?', (*values, *moments, most, first))
        pattern = cuts.pattern_of(asked.terms)
        return [Hit(order, n, moment, author, subject, cuts.cut(text, pattern)) for order, n, moment, author, subject, text in rows]


@contextlib.contextmanager
def opened(site: settings.Site, end: float) -> Iterator[Index]:
    index = Index(site, end)
    try:
        yield index
    finally:
        index.database.close()


@dataclasses.dataclass
class Result:
    """What comes of a query: the hits of a page and one more, or why there are none if the query is at fault, or the machine."""
    title: str
    status: str = '200 OK'
    hits: list[Hit] = dataclasses.field(default_factory=list)
    why: str = ''


class Search:
    """The application."""

    def __init__(self, path: str) -> None:
        chosen = settings.read(path)
        self.sites = {site.name: site for site in chosen.sites if site.search and site.archive != 'closed'}
        self.host = chosen.host if chosen.host and chosen.host.search else None
        self.crowd = crowd.Crowd()

    def asked(self, path: str) -> settings.Site | None:
        """The list that a path names, or the host's page of all lists."""
        parts = [part for part in path.split('/') if part]
        if self.host and parts == [part for part in urllib.parse.urlsplit(self.host.url).path.split('/') if part] + ['search']:
            return self.host
        if len(parts) > 1 and parts[-1] == 'search':
            parts.pop()
        return self.sites.get(parts[-1]) if parts else None

    def __call__(self, environ: dict[str, Any], start_response: StartResponse) -> Iterable[bytes]:
        site = self.asked(environ.get('SCRIPT_NAME', '') + environ.get('PATH_INFO', ''))
        more: list[tuple[str, str]] = []
        if environ.get('REQUEST_METHOD') not in ('GET', 'HEAD'):
            status, body, more = '405 Method Not Allowed', b'', [('Allow', 'GET, HEAD')]
        else:
            try:
                with self.crowd.counted(crowd.address_of(environ)):
                    if site is None:
                        raise Gone
                    status, body = self.answer(site, environ.get('QUERY_STRING', ''))
            except crowd.TooMany:
                status, body, more = '429 Too Many Requests', b'Too many queries come from this address. Try again in a minute.', [('Retry-After', '60')]
            except Gone:
                status, body = '404 Not Found', b'There is no search of this list.'
        start_response(status, [*HEADERS, ('Content-Length', str(len(body))), *more])
        return [] if environ.get('REQUEST_METHOD') == 'HEAD' else [body]

    def answer(self, site: settings.Site, asked: str) -> tuple[str, bytes]:
        """The status and the page for a query string."""
        try:
            given = urllib.parse.parse_qs(asked[:4000], max_num_fields=20, errors='replace')
        except ValueError:
            given = {}
        text = re.sub(r'[\x00-\x1f\x7f\ud800-\udfff]', ' ', (given.get('q') or [''])[0]).strip()
        by_rank = given.get('by') == ['rank']
        page = (given.get('page') or ['1'])[0]
        last = LAST_PAGE_OF_ALL if site is self.host else LAST_PAGE
        k = int(page) if re.fullmatch('[1-9][0-9]{0,2}', page, re.ASCII) and int(page) <= last else 1
        result = self.found(site, text, by_rank, k)
        hits = result.hits
        links = {name: urllib.parse.urlencode({'q': text, 'by': 'rank' if by_rank else 'date', 'page': number})
                 for name, number in (('before', k - 1), ('after', k + 1))}
        shown = template(site).render(
            title_of_list=result.title, query=text, hits=hits[:HITS], why=result.why, by_rank=by_rank, k=k, robots=True, first=HITS * (k - 1) + 1,
            is_host=site is self.host, before=links['before'] if k > 1 else None, after=links['after'] if len(hits) > HITS and k < last else None)
        return result.status, shown.encode('utf-8', 'replace')

    def found(self, site: settings.Site, text: str, by_rank: bool, k: int) -> Result:
        """What comes of a query."""
        result = Result(site.title or site.name)
        end = time.monotonic() + LONGEST_TIME
        try:
            asked = query.read(text, zoneinfo.ZoneInfo(site.timezone))
            if site is self.host:
                result.hits = self.of_all(asked, by_rank, k, end)
                return result
            with opened(site, end) as index:
                result.title = index.title
                result.hits = [] if asked.is_empty else index.find(asked, by_rank, HITS * (k - 1), HITS + 1)
        except query.Wrong as wrong:
            result.status, result.why = '400 Bad Request', str(wrong)
        except sqlite3.Error as error:
            result.status, result.why = '503 Service Unavailable', 'The index can\'t be read now. Try again in a minute.'
            if 'interrupted' in str(error):
                result.why = 'This took too long. Take rarer words.'
        return result

    def of_all(self, asked: query.Query, by_rank: bool, k: int, end: float) -> list[Hit]:
        """The hits of a page from all lists that can be searched, and one more. A list that has no index, or a spoiled one, is left out."""
        found: list[list[Hit]] = []
        for site in self.sites.values() if not asked.is_empty else ():
            try:
                with opened(site, end) as index:
                    hits = index.find(asked, by_rank, 0, HITS * k + 1)
                    title, base = index.title, site.url or f'{site.name}/'
                    found.append([dataclasses.replace(hit, title=title, base=base) for hit in hits])
            except (Gone, sqlite3.DatabaseError) as error:
                if 'interrupted' in str(error):
                    raise
        return heapq.nsmallest(HITS * k + 1, (hit for hits in found for hit in hits), key=lambda hit: hit.order)[HITS * (k - 1):]


@functools.lru_cache(maxsize=100)
def template(site: settings.Site) -> jinja2.Template:
    """The page of a list's search."""
    return pages.environment(site).get_template('search.html')


@functools.lru_cache(maxsize=1)
def from_environment() -> Search:
    return Search(os.environ.get('EZMLM_SITE_SETTINGS', SETTINGS))


def application(environ: dict[str, Any], start_response: StartResponse) -> Iterable[bytes]:
    """For gunicorn and uwsgi: the settings are the file that EZMLM_SITE_SETTINGS names, or /etc/ezmlm-site.conf."""
    return from_environment()(environ, start_response)
