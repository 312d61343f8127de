"""Settings that are read anew while the agent runs: which of them count at once, and which at a new start alone."""

import dataclasses

from . import settings

# The others are what sockets, threads and memory were made by at the start.
AT_ONCE = 'program', 'mta', 'name', 'batch', 'keep_days', 'patience', 'weed', 'auto_posts', 'replies', 'sends_from', 'resolver', 'by_list'


def merged(before: settings.Settings, after: settings.Settings) -> tuple[settings.Settings, list[str], list[str]]:
    """The settings that count from now on, the names of those that changed, and of those that stay as they were until a new start."""
    changed = [field.name for field in dataclasses.fields(settings.Settings) if getattr(before, field.name) != getattr(after, field.name)]
    counts = {name: getattr(after, name) for name in changed if name in AT_ONCE}
    return dataclasses.replace(before, **counts), list(counts), [name for name in changed if name not in AT_ONCE]
