"""Whether a printed run with --events is honest.  It uses the readers and
the slow meaning alone."""
import re

from .canon import print_stmt
from .cells import Overflow, Refused
from .check import check
from .layout import POOL_LINES, reply_text
from .meaning import answer, effect, schema_of
from .sql import Query, Explain, parse, split

_N = r'(0|[1-9][0-9]*)'
_ACTS = [
    ('begin', re.compile('begin %s' % _N)),
    ('end', re.compile('end %s' % _N)),
    ('write', re.compile('write %s %s' % (_N, _N))),
    ('look', re.compile('look %s (?:exact %s|within %s|across %s|miss)' % (_N, _N, _N, _N))),
    ('admit', re.compile('admit %s (?:taken %s %s %s|(?:there|stale|orphan|nocredit|noroom) %s)'
                         % (_N, _N, _N, _N, _N))),
]
_LINE = re.compile('%s %s %s (.*)' % (_N, _N, _N), re.DOTALL)


def _read(text):
    try:
        return parse(text)
    except Refused as r:
        return r


class Dishonest(Exception):
    pass


def _need(ok):
    if not ok:
        raise Dishonest


def log_lines(text):
    """(text before the log part, events as (session, statement, act name, numbers))."""
    lines = text.split('\n')
    _need(lines[-1] == '')
    lines.pop()
    starts = [i for i, line in enumerate(lines) if line.startswith('log ')]
    _need(starts)
    at = starts[-1]
    m = re.fullmatch('log ' + _N, lines[at])
    _need(m)
    events = lines[at + 1:]
    _need(int(m.group(1)) == len(events))
    out = []
    for i, line in enumerate(events, 1):
        m = _LINE.fullmatch(line)
        _need(m and int(m.group(1)) == i)
        for name, pattern in _ACTS:
            a = pattern.fullmatch(m.group(4))
            if a:
                numbers = [int(g) for g in a.groups() if g is not None]
                out.append((int(m.group(2)), int(m.group(3)), name, numbers))
                break
        else:
            raise Dishonest
    return ''.join(line + '\n' for line in lines[:at]), out


def _check(files, text):
    scripts = [[_read(p) for p in split(script)] for _, script in files]
    _need(not any(isinstance(x, Explain) for script in scripts for x in script))
    front, events = log_lines(text)
    db = {}
    history = []
    replies = [[] for _ in scripts]
    open_ = [None] * len(scripts)           # the end code of an open statement
    for s, k, act, numbers in events:
        _need(1 <= s <= len(scripts))
        mine, opened = replies[s - 1], open_[s - 1]
        if act in ('look', 'admit'):
            _need(opened is not None and k == len(mine))
            continue
        if act == 'end':
            _need(opened is not None and k == len(mine) and numbers == [opened])
            open_[s - 1] = None
            continue
        _need(opened is None and k == len(mine) + 1 and k <= len(scripts[s - 1]))
        stmt = scripts[s - 1][k - 1]
        if act == 'write':
            _need(not isinstance(stmt, Query))
            if isinstance(stmt, Refused):
                reply, code, count = ('refused', stmt.no, stmt.word), stmt.no, 0
            else:
                try:
                    db, n = effect(check(stmt, schema_of(db)), db)
                    reply, code, count = (('done',) if n is None else ('count', n)), 0, n or 0
                    history.append((s, k, stmt))
                except Refused as r:
                    reply, code, count = ('refused', r.no, r.word), r.no, 0
            _need(numbers == [code, count])
        else:
            _need(isinstance(stmt, Query))
            try:
                begin = end = 0
                reply = ('rows', answer(check(stmt, schema_of(db)), db))
            except Refused as r:
                begin = end = r.no
                reply = ('refused', r.no, r.word)
            except Overflow:
                end = 10
                reply = ('refused', 10, '')
            _need(numbers == [begin])
            open_[s - 1] = end
        mine.append(reply)
    _need(all(len(r) == len(sc) for r, sc in zip(replies, scripts)))
    _need(all(o is None for o in open_))
    want = ''
    for s, ((name, _), mine) in enumerate(zip(files, replies), 1):
        want += 'session %d %s\n' % (s, name)
        want += ''.join(reply_text(k, r) for k, r in enumerate(mine, 1))
    want += 'history %d\n' % len(history)
    want += ''.join('%d %d %d %s;\n' % (i, s, k, print_stmt(stmt))
                    for i, (s, k, stmt) in enumerate(history, 1))
    _need(front.startswith(want))
    pool = 'pool\n' + ''.join('%s %s\n' % (n, _N) for n in POOL_LINES)
    _need(re.fullmatch(pool, front[len(want):]))


def honest(files, text):
    """files: list of (name, script text)."""
    try:
        _check(files, text)
        return True
    except Dishonest:
        return False
