"""The page of all lists of a host: what each is for, and when its last post came. A list that is closed, or has no pages yet, isn't named."""

from __future__ import annotations

import dataclasses
import os
import sqlite3
import urllib.parse

from . import files, pages, settings


@dataclasses.dataclass(frozen=True)
class Row:
    """A list as the page names it."""
    title: str
    description: str
    address: str
    base: str           # where its index stands, from the page of all lists
    posts: int
    last: int | None    # the moment of its last post


def write(chosen: settings.Settings) -> None:
    """Writes the page of all lists, and its style, if the settings name a folder for it."""
    if chosen.host is None:
        return
    web = files.Web(chosen.host.web, ())
    rows = [row for site in chosen.sites if site.archive != 'closed' and (row := row_of(site))]
    title = chosen.host.title or 'Mailing lists'
    template = pages.environment(chosen.host).get_template('lists.html')
    web.put('style.css', pages.style(chosen.host))
    web.put('index.html', template.render(title_of_list=title, lists=rows, page='').encode('utf-8', 'replace'))
    web.clear()


def row_of(site: settings.Site) -> Row | None:
    """What the state of a list tells, or None if it has none that can be read."""
    path = site.state / f'{site.name}.sqlite'
    if not os.path.exists(path):
        return None
    database = sqlite3.connect(f'file:{urllib.parse.quote(str(path))}?mode=ro', uri=True)
    try:
        told = dict(database.execute("SELECT name, value FROM told WHERE name IN ('title', 'address')").fetchall())
        posts, = database.execute('SELECT sum(posts) FROM month').fetchone()
        last = database.execute('SELECT moment FROM post ORDER BY n DESC LIMIT 1').fetchone()
    except sqlite3.Error:
        return None
    finally:
        database.close()
    return Row(told.get('title', site.name), site.description, told.get('address', ''), site.url or f'{site.name}/', posts or 0, last and last[0])
