"""What Prometheus asks of lists, in its text format."""

from __future__ import annotations

from collections.abc import Iterator, Sequence

from .config import configuration
from .lists import SETS, Damaged, Said, content
from .monitoring import Seen, all_seen

METRICS = (
    ('ezmlm_list_whole', 'gauge', 'Whether check says ok of the list, if nobody held it.'),
    ('ezmlm_list_held', 'gauge', 'Whether another process held the list, so that it could not be looked at.'),
    ('ezmlm_list_check_status', 'gauge', 'The exit status of check.'),
    ('ezmlm_posts', 'gauge', 'Posts in the archive.'),
    ('ezmlm_members', 'gauge', 'Addresses in a set.'),
    ('ezmlm_held_posts', 'gauge', 'Posts that wait for a moderator.'),
    ('ezmlm_queue_entries', 'gauge', 'Entries of the outgoing queue.'),
    ('ezmlm_queue_oldest_timestamp_seconds', 'gauge', 'When the oldest entry of the queue was written, if there is one.'),
    ('ezmlm_held_oldest_timestamp_seconds', 'gauge', 'When the oldest held post came, if there is one.'),
    ('ezmlm_log_bytes', 'gauge', 'Bytes of the log; one between two runs.'),
    ('ezmlm_log_age_seconds', 'gauge', 'How long the log has had more than a byte; 0 if it has not.'),
    ('ezmlm_disk_free_bytes', 'gauge', 'Bytes that are free where the list is.'),
    ('ezmlm_disk_size_bytes', 'gauge', 'Bytes of the disk where the list is.'),
    ('ezmlm_disk_free_inodes', 'gauge', 'Inodes that are free where the list is.'),
)


def samples(one: Seen) -> Iterator[tuple[str, dict[str, str], float]]:
    """The values of a list, each with the metric's name and further labels."""
    if not one.is_held:  # Nobody knows then, and 0 would wake somebody.
        yield 'ezmlm_list_whole', {}, float(one.status == 0)
        yield 'ezmlm_list_check_status', {}, float(one.status)
    yield 'ezmlm_list_held', {}, float(one.is_held)
    if one.counts:
        yield 'ezmlm_posts', {}, one.counts[0]
        for name, many in zip(SETS, one.counts[1:6]):
            yield 'ezmlm_members', {'set': name}, many
        yield 'ezmlm_held_posts', {}, one.counts[6]
        yield 'ezmlm_queue_entries', {}, one.counts[7]
    for label, moment in (('queue', one.oldest_queued), ('held', one.oldest_held)):
        if moment is not None:
            yield f'ezmlm_{label}_oldest_timestamp_seconds', {}, int(moment)
    yield 'ezmlm_log_bytes', {}, one.log_bytes
    yield 'ezmlm_log_age_seconds', {}, int(one.log_age)
    for label, value in zip(('free_bytes', 'size_bytes', 'free_inodes'), one.space):
        yield f'ezmlm_disk_{label}', {}, value


def address(one: Seen) -> str:
    """The list's address, which labels its samples. If it is held, its configuration is read all the same, so that they stay one series."""
    try:
        return one.address or content(one.folder, 'config', configuration).address.decode('ascii')
    except (Damaged, OSError):
        return ''


def metrics(words: Sequence[str], program: str, wait: float) -> Said:
    """Prometheus' text format, for the textfile collector of node_exporter."""
    every = all_seen(words, program, wait)
    found = [(name, {'folder': str(one.folder), 'list': address(one), **more}, value) for one in every for name, more, value in samples(one)]
    lines = []
    for name, kind, about in METRICS:
        lines += [f'# HELP {name} {about}', f'# TYPE {name} {kind}']
        lines += [f'{name}{{{labels(given)}}} {value:.0f}' for metric, given, value in found if metric == name]
    return Said(lines, [{'metric': name, 'labels': given, 'value': value} for name, given, value in found])


def labels(given: dict[str, str]) -> str:
    """Labels with what their values may not have escaped: backslash, quote and line feed (Prometheus' exposition formats)."""
    def escaped(value: str) -> str:
        text = value.encode('utf-8', 'surrogateescape').decode('utf-8', 'replace')
        return text.replace('\\', '\\\\').replace('"', '\\"').replace('\n', '\\n')

    return ','.join(f'{name}="{escaped(value)}"' for name, value in given.items())
