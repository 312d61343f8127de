"""Which pages change by a post, and which files no post has any longer."""

from __future__ import annotations

import contextlib
import os
import pathlib
from collections.abc import Iterator

from . import files, pages, settings
from .store import Page, Store


def changed_by(store: Store, n: int) -> Iterator[Page]:
    """The pages that change when a post comes or changes: its own, those that lead to it, and those that the numbers on them change by."""
    (thread, place, month), = store.rows('SELECT thread, place, month FROM post WHERE n = ?', n)
    (at,), = store.rows('SELECT place FROM month_thread WHERE month = ? AND thread = ?', month, thread)
    (posts, threads), = store.rows('SELECT posts, threads FROM month WHERE month = ?', month)
    yield from (Page('index'), Page('feed'), Page('post', str(n)), Page('month', month))
    for around, in store.rows('SELECT n FROM post WHERE n IN (?, ?) OR thread = ? AND place = ?', n - 1, n + 1, thread, place - 1):
        yield Page('post', str(around))
    k = place // pages.THREAD_POSTS + 1
    yield Page('thread', str(thread), k)
    if k > 1 and place % pages.THREAD_POSTS == 0:
        yield Page('thread', str(thread), k - 1)
    k = at // pages.MONTH_THREADS + 1
    yield Page('month', month, k)
    if k > 1 and at == threads - 1:
        yield Page('month', month, k - 1)
    if posts == 1:
        for neighbours in store.rows('SELECT (SELECT max(month) FROM month WHERE month < ?1), (SELECT min(month) FROM month WHERE month > ?1)', month):
            yield from (Page('month', neighbour) for neighbour in neighbours if neighbour)


def named_by(store: Store, thread: int) -> Iterator[Page]:
    """The pages that show a thread's name."""
    posts = store.number('SELECT posts FROM thread WHERE thread = ?', thread)
    yield from (Page('thread', str(thread), k) for k in range(1, (posts - 1) // pages.THREAD_POSTS + 2))
    for month, place in store.rows('SELECT month, place FROM month_thread WHERE thread = ?', thread):
        yield Page('month', month, place // pages.MONTH_THREADS + 1)


def sweep(site: settings.Site, web: files.Web, store: Store) -> None:
    """Removes pages and files of posts that are no longer."""
    for entry in os.scandir(web.root):
        if (match := files.POST.fullmatch(entry.name)) and not has_post(site, store, int(match[1]), match[2] == 'eml'):
            web.remove(entry.name)
        elif match := files.MONTH.fullmatch(entry.name):
            threads = store.number('SELECT threads FROM month WHERE month = ?', match[1])
            if (int(match[2] or 1) - 1) * pages.MONTH_THREADS >= threads:
                web.remove(entry.name)
        elif files.FOLDER.fullmatch(entry.name) and entry.is_dir(follow_symlinks=False) and not has_post(site, store, int(entry.name), False):
            web.put_attachments(int(entry.name), {})
    for entry in os.scandir(os.path.join(web.root, 'thread')):
        if match := files.THREAD.fullmatch(entry.name):
            posts = store.number('SELECT posts FROM thread WHERE thread = ?', int(match[1]))
            if (int(match[2] or 1) - 1) * pages.THREAD_POSTS >= posts:
                web.remove(f'thread/{entry.name}')


def sweep_all(site: settings.Site, web: files.Web) -> None:
    """Removes all that a site has written. Files of other names stay, and so do the folders that have them."""
    store = Store(pathlib.Path(':memory:'))
    try:
        sweep(site, web, store)
    finally:
        store.close()
    web.clear()
    for name in ('feed.xml', 'index.html', 'style.css'):
        web.remove(name)
    with contextlib.suppress(OSError):
        os.rmdir(os.path.join(web.root, 'thread'))


def has_post(site: settings.Site, store: Store, n: int, is_source: bool) -> bool:
    """Whether there is a post of this number, or its bytes are given."""
    found = store.rows('SELECT is_out FROM post WHERE n = ?', n)
    return bool(found) and not (is_source and (found[0][0] or not site.gives_source))
