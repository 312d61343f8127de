"""The pages, each made of what the store keeps and the settings alone: so they are the same whenever they are made."""

from __future__ import annotations

import datetime
import functools
import pathlib
import urllib.parse
import uuid
import zoneinfo
from typing import Any

import jinja2

from . import files, markup, settings
from .store import Page, Post, Store

OWN = pathlib.Path(__file__).parent / 'templates'
THREAD_POSTS = 50     # posts on a page of a thread
MONTH_THREADS = 200   # threads on a page of a month
MONTH_POSTS = 20      # posts of a thread that a month's page names
LATEST = 20           # threads on the index
FEED_POSTS = 30
FEED_TEXT = 2000      # characters of a post in the feed
THREAD_TEXT = 20_000  # characters of a post on a page of its thread


class Pages:
    """The pages of one list."""

    def __init__(self, site: settings.Site, local: str, host: str, store: Store) -> None:
        self.site = site
        self.store = store
        self.address = f'{local}@{host}'
        self.environment = environment(site)
        self.environment.globals.update(list=self.address, local=local, host=host, title_of_list=site.title or self.address,
                                        thread_page=self.thread_page)

    def render(self, template: str, **more: Any) -> bytes:
        return self.environment.get_template(template).render(**more).encode('utf-8', 'replace')

    def thread_page(self, post: Post) -> str:
        """The page of a thread that has a post, from the top of the site."""
        return f'thread/{numbered(str(post.thread), post.place // THREAD_POSTS + 1)}'

    def made(self, page: Page) -> tuple[str, bytes | None]:
        """A page's path below the web folder and its bytes, or None if there is none."""
        match page.kind:
            case 'post':
                return f'{page.name}.html', self.post(int(page.name))
            case 'thread':
                return f'thread/{numbered(page.name, page.k)}', self.thread(int(page.name), page.k)
            case 'month':
                return numbered(page.name, page.k), self.month(page.name, page.k)
            case 'feed':
                return 'feed.xml', self.feed()
            case _:
                return 'index.html', self.index()

    def post(self, n: int) -> bytes | None:
        post = self.store.post(n)
        if post is None:
            return None
        before, after = (self.store.number('SELECT n FROM post WHERE thread = ? AND place = ?', post.thread, post.place + step) for step in (-1, 1))
        older, newer = (self.store.number('SELECT n FROM post WHERE n = ?', n + step) for step in (-1, 1))
        return self.render('post.html', post=post, before=before, after=after, older=older, newer=newer, page=f'{n}.html')

    def name_of(self, thread: int) -> Post | None:
        """The first post of a thread that isn't left out, by which the thread is named."""
        return next(iter(self.store.heads('WHERE thread = ? AND NOT is_out ORDER BY place LIMIT 1', thread)), None)

    def thread(self, thread: int, k: int) -> bytes | None:
        first = (k - 1) * THREAD_POSTS
        posts = self.store.posts('WHERE thread = ? AND place BETWEEN ? AND ? ORDER BY place', thread, first, first + THREAD_POSTS - 1)
        if not posts:
            return None
        is_last = not self.store.rows('SELECT 1 FROM post WHERE thread = ? AND place = ?', thread, first + THREAD_POSTS)
        return self.render('thread.html', name=self.name_of(thread), posts=posts, k=k, up='../', first=first + 1, most=THREAD_TEXT,
                           before=numbered(str(thread), k - 1) if k > 1 else None, after=None if is_last else numbered(str(thread), k + 1),
                           page=f'thread/{numbered(str(thread), k)}')

    def month(self, month: str, k: int) -> bytes | None:
        first = (k - 1) * MONTH_THREADS
        rows = self.store.rows('SELECT thread, posts FROM month_thread WHERE month = ? AND place BETWEEN ? AND ? ORDER BY place',
                               month, first, first + MONTH_THREADS - 1)
        if not rows:
            return None
        threads = [(thread, self.name_of(thread), count, self.store.heads('WHERE month = ? AND thread = ? ORDER BY n LIMIT ?', month, thread, MONTH_POSTS))
                   for thread, count in rows]
        posts, all_threads = self.store.rows('SELECT posts, threads FROM month WHERE month = ?', month)[0]
        earlier = self.store.rows('SELECT max(month) FROM month WHERE month < ?', month)[0][0]
        later = self.store.rows('SELECT min(month) FROM month WHERE month > ?', month)[0][0]
        return self.render('month.html', month=month, threads=threads, posts=posts, count=all_threads, k=k, first=first + 1, earlier=earlier, later=later,
                           before=numbered(month, k - 1) if k > 1 else None,
                           after=numbered(month, k + 1) if all_threads > first + MONTH_THREADS else None, page=numbered(month, k))

    def index(self) -> bytes:
        years: dict[str, list[tuple[str, int]]] = {}
        for month, count in self.store.rows('SELECT month, posts FROM month ORDER BY month DESC'):
            years.setdefault(month[:4], []).append((month, count))
        latest = [(thread, self.name_of(thread), self.store.heads('WHERE n = ?', last)[0], count)
                  for thread, count, last in self.store.rows('SELECT thread, posts, last FROM thread ORDER BY last DESC LIMIT ?', LATEST)]
        return self.render('index.html', years=years, latest=latest, posts=self.store.number('SELECT count(*) FROM post'), page='')

    def feed(self) -> bytes:
        posts = self.store.posts('WHERE NOT is_out ORDER BY n DESC LIMIT ?', FEED_POSTS)
        return self.render('feed.xml', posts=posts, id_of=self.id_of, most=FEED_TEXT)

    def id_of(self, n: int | None = None) -> str:
        """The id of a post in the feed, or of the feed: it stays if the site moves (RFC 4287 4.2.6, RFC 4122 4.3)."""
        return uuid.uuid5(uuid.NAMESPACE_URL, f'mailto:{self.address}{"" if n is None else f"#{n}"}').urn


def environment(site: settings.Site) -> jinja2.Environment:
    """Templates of the site's folder, if it has one, or else of the package. All that they put in is escaped."""
    folders = [str(folder) for folder in (site.templates, OWN) if folder is not None]
    made = jinja2.Environment(loader=jinja2.FileSystemLoader(folders), autoescape=True, trim_blocks=True, lstrip_blocks=True,
                              undefined=jinja2.StrictUndefined, keep_trailing_newline=True, auto_reload=False)
    when = functools.partial(shown_time, zone=zoneinfo.ZoneInfo(site.timezone))
    made.filters.update(marked_up=markup.marked_up, when=when, rfc3339=rfc3339, bytes=bytes_in_words, mailto=mailto, kept_name=files.kept_name)
    made.globals.update(site=site, up='')
    return made


def style(site: settings.Site) -> bytes:
    """The style, of the site's folder or of the package."""
    paths = [folder / 'style.css' for folder in (site.templates, OWN) if folder is not None]
    return next(path for path in paths if path.is_file()).read_bytes()


def numbered(name: str, k: int) -> str:
    """The file of page k of what has this name."""
    return f'{name}.html' if k == 1 else f'{name}-{k}.html'


def shown_time(moment: int, zone: datetime.tzinfo) -> str:
    """A moment as a reader sees it, in a time zone; in UTC if the year isn't one of four digits there."""
    try:
        shown = datetime.datetime.fromtimestamp(moment, zone)
    except (OverflowError, ValueError):
        shown = datetime.datetime.fromtimestamp(moment, datetime.timezone.utc)
    return shown.strftime('%Y-%m-%d %H:%M %Z')


def rfc3339(moment: int) -> str:
    """A moment as RFC 3339 has it, in UTC."""
    return datetime.datetime.fromtimestamp(moment, datetime.timezone.utc).strftime('%Y-%m-%dT%H:%M:%SZ')


def bytes_in_words(count: int) -> str:
    if count < 1024:
        return f'{count} byte' if count == 1 else f'{count} bytes'
    return f'{count / 1024:.0f} KiB' if count < 1024 * 1024 else f'{count / (1024 * 1024):.1f} MiB'


def mailto(address: str, **fields: str) -> str:
    """A URL of mailto (RFC 6068)."""
    query = urllib.parse.urlencode({name.replace('_', '-'): value for name, value in fields.items() if value}, quote_via=urllib.parse.quote)
    return f'mailto:{urllib.parse.quote(address, safe="@")}{"?" if query else ""}{query}'
