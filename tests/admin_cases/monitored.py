"""watch and metrics."""

import json
import os
import re
import shutil
import subprocess
import time

from ezmlm_admin import metrics, monitoring

from .world import BEGIN, Skipped, check, held, holds, post, same

# A plugin's line: a text without a bar, and measures 'label'=value[UOM];[warn];[crit];[min];[max] (Nagios plugin guidelines, 2.6).
MEASURE = r"'(?:[^'=]|'')+'=-?[0-9.]+(?:us|ms|s|%|B|KB|MB|GB|TB|c)?;[0-9.:@~-]*;[0-9.:@~-]*;[0-9.]*;[0-9.]*"
LINE = re.compile(rf'EZMLM (OK|WARNING|CRITICAL|UNKNOWN) - ([^|\n]+)(?: \| ({MEASURE}(?: {MEASURE})*))?\n')


def watched(world, word, *words):
    """The text and the measures of the line of watch, which has to have this word and its status."""
    line = world.admin('watch', *words, status=('OK', 'WARNING', 'CRITICAL', 'UNKNOWN').index(word))
    found = LINE.fullmatch(line)
    check(found is not None, f'no line of a plugin: {line!r}')
    same(found[1], word, line)
    return found[2], found[3] or ''


def case_watch(world):
    """watch is one line with performance data, 0 for lists that are whole, and more for old entries, old held posts and damaged files."""
    now = time.time()
    folder = world.list_at('lists/cats', 'cats', '-m')
    world.list_at('lists/dogs', 'dogs')
    (world.place / 'lists/lost+found').mkdir()
    same(watched(world, 'OK', 'lists')[0], '2 lists are whole', 'two lists')
    same(watched(world, 'OK', folder)[0], 'the list is whole', 'one list')
    world.spool('lists/cats', post(1, moment=int(now) - 10), (b'D', 0, int(now), b'x@y', b'cats-help@ex.org', b'\n'))
    text, measures = watched(world, 'OK', 'lists/cats', 'lists/dogs/')
    for part in ("'cats held'=1;;;0;", "'cats queue'=2;;;0;", "'cats log'=1B;;;0;", "'dogs posts'=0;;;0;", "s;172800;345600;0;"):
        holds(measures, part, 'measures')
    for age, word in ((3700, 'WARNING'), (86_500, 'CRITICAL')):
        os.utime(folder / 'queue/1', (now - age,) * 2)
        text, measures = watched(world, word, 'lists')
        holds(text, f'cats: the oldest entry of the queue is {"1h" if age == 3700 else "1d"} ', 'an old entry')
    world.answers('lists/cats', 'sent', '0', '1')  # The mail to the moderators
    world.list_at('lists/old', 'old', '-m')
    world.spool('lists/old', post(1, to=b'old', moment=int(now) - 200_000))
    holds(watched(world, 'WARNING', 'lists')[0], 'old: the oldest held post is 2d 7h old', 'an old held post')
    (folder / 'counts/deny').write_bytes(b'8\n')
    text = watched(world, 'CRITICAL', 'lists')[0]
    check(text.startswith('cats: 75 counts/deny; old: '), f'the worst comes first: {text}')
    found = json.loads(world.admin('--json', 'watch', 'lists', status=2))
    same([(one['list'], one['status']) for one in found], [('cats@ex.org', 'CRITICAL'), ('dogs@ex.org', 'OK'), ('old@ex.org', 'WARNING')], 'JSON')


def case_watch_log(world):
    """A log of more than a byte for more than a minute is told, and so is a list that another run holds."""
    folder = world.list()
    (folder / 'log').write_bytes(b'\x000:,')
    watched(world, 'OK', 'cats')
    (folder / 'log').write_bytes(b'\x000:,')
    os.utime(folder / 'log', (time.time() - 120,) * 2)
    holds(watched(world, 'WARNING', 'cats')[0], 'the log has 4 bytes since 2m', 'an old log')
    watched(world, 'OK', 'cats')
    others = [world.list(f'cats{n}') for n in range(3)]
    with held(folder), held(others[0]), held(others[1]):
        begun = time.monotonic()
        text = watched(world, 'UNKNOWN', 'cats', *others)[0]
        check(10 < time.monotonic() - begun, 'it was not waited for')
        same(text.count('another run, a backup or the agent holds it'), 3, f'held lists: {text}')


def case_watch_refusals(world):
    """What can't be looked at is 3 or 2, in a plugin's line on standard output."""
    watched(world, 'UNKNOWN')
    holds(watched(world, 'CRITICAL', 'none')[0], 'there is no list here', 'no list')
    (world.place / 'a|b').mkdir()
    holds(watched(world, 'CRITICAL', 'a|b')[0], 'a/b: 75', 'a bar in the name')
    done = world.admin_run('--program', '/none', 'watch', 'x')
    same((done.returncode, done.stderr), (3, b''), 'no program')
    world.list_at("it's=one", 'odd')
    holds(watched(world, 'OK', "it's=one")[1], "'it''s_one posts'=0", 'a label')
    same(world.admin("it's=one", 'watch')[:8], 'EZMLM OK', 'the folder first')
    world.list_at('x/cats', 'cats')
    world.list_at('y/cats', 'cats')
    measures = watched(world, 'OK', 'x', 'y')[1]
    for path in ('x/cats', 'y/cats'):
        holds(measures, f"'{path} posts'=0", 'two of one name')


def case_watch_limits(world):
    """Limits of age and of disk space: above the first it is a warning, above the second critical."""
    one = monitoring.Seen(world.place, log_bytes=1)
    for queued, held_since, log, space, wanted in (
            (None, None, 0, (50, 100, 50, 100), []), (3600, None, 0, (50, 100, 50, 100), []), (3601, None, 0, (50, 100, 50, 100), [1]),
            (86_401, 172_801, 0, (50, 100, 50, 100), [2, 1]), (None, 345_601, 0, (9, 100, 50, 100), [2, 1]),
            (None, None, 0, (4, 100, 4, 100), [2, 2]),
            (None, None, 61, (10, 100, 0, 0), [1]), (None, None, 3601, (50, 100, 50, 100), [2])):
        one.oldest_queued, one.oldest_held = (None if age is None else BEGIN - age for age in (queued, held_since))
        one.log_bytes, one.log_age, one.space = (9 if log else 1), log, space
        same([status for status, _ in monitoring.faults(one, BEGIN)], wanted, (queued, held_since, log, space))


def parsed(text):
    """The samples of Prometheus' text, by promtool (which only looks) and python3-prometheus-client, whichever is installed."""
    promtool = shutil.which('promtool')
    if promtool is not None:
        done = subprocess.run([promtool, 'check', 'metrics'], input=text.encode(), stdout=subprocess.PIPE, stderr=subprocess.STDOUT)
        same((done.returncode, done.stdout), (0, b''), 'promtool')
    code = 'import sys, json; from prometheus_client.parser import text_string_to_metric_families as read; ' \
        'print(json.dumps([[s.name, s.labels, s.value] for f in read(sys.stdin.read()) for s in f.samples]))'
    done = subprocess.run(['/usr/bin/python3', '-c', code], input=text.encode(), stdout=subprocess.PIPE, stderr=subprocess.PIPE)
    if done.returncode and b'ModuleNotFoundError' not in done.stderr:
        check(False, f'the parser: {done.stderr[-300:]!r}')
    if done.returncode and promtool is None:
        raise Skipped('neither promtool nor python3-prometheus-client is installed')
    return json.loads(done.stdout) if not done.returncode else None


def case_metrics(world):
    """metrics is Prometheus' text: whether each list is whole, its sizes, moments and disk, with names that need escapes."""
    now = int(time.time())
    odd = 'a"b\\c\nd'
    world.list_at(odd, 'odd', '-m')
    world.spool(odd, post(1, to=b'odd', moment=now - 50), (b'A', 0, 5, b'list', b'a@b'), (b'D', 0, now, b'x@y', b'odd-help@ex.org', b'\n'))
    folder = world.list()
    (folder / 'num').write_bytes(b'x\n')
    text = world.admin('metrics', odd, 'cats', 'none')
    found = parsed(text)
    if found is None:
        return
    values = {(name, labels['folder'], labels.get('set')): value for name, labels, value in found}
    same(len(values), len(found), 'samples of one name and labels')
    for name, of, which, value in (('ezmlm_list_whole', odd, None, 1), ('ezmlm_list_whole', 'cats', None, 0),
            ('ezmlm_list_whole', 'none', None, 0),
                                   ('ezmlm_list_check_status', 'cats', None, 75), ('ezmlm_members', odd, 'list', 1),
                                   ('ezmlm_held_posts', odd, None, 1),
                                   ('ezmlm_held_oldest_timestamp_seconds', odd, None, now - 50), ('ezmlm_queue_entries', odd, None, 2),
                                   ('ezmlm_log_bytes', odd, None, 1)):
        same(values[name, of, which], value, (name, of))
    check(('ezmlm_posts', 'cats', None) not in values, 'posts of a damaged list')
    same({labels['list'] for _, labels, _ in found if labels['folder'] == odd}, {'odd@ex.org'}, 'the address')
    helps = [line.split(' ')[2] for line in text.splitlines() if line.startswith('# HELP ')]
    types = [line.split(' ')[2] for line in text.splitlines() if line.startswith('# TYPE ')]
    check(helps == types and len(helps) == len(set(helps)), 'HELP and TYPE')
    check({name for name, _, _ in found} <= set(helps), 'a metric without HELP')
    holds(world.admin('metrics', status=64), 'usage: ezmlm-admin metrics LISTS ..', 'without lists')
    with held(folder):
        samples = metrics.metrics([str(folder)], str(world.program), 0.1)
    found = {row['metric']: (row['labels']['list'], row['value']) for row in samples.data}
    same((found['ezmlm_list_held'], 'ezmlm_list_whole' in found, 'ezmlm_list_check_status' in found), (('cats@ex.org', 1.0), False, False), 'held')
