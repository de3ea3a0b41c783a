"""Whether a printed run with --events may have been printed of these scripts
and options, whatever the interleaving.  The events are taken
in the order of the log; each answer of the pool, each reply, every pool line
is computed again, and the whole text is compared at the end.

The program has no such command.  `audit` checks less."""
from .audit import Dishonest, log_lines
from .cells import Overflow, Refused
from .engine import Book, Running, block_refusal
from .layout import (event_text, history_text, log_text, pool_text, sessions_text)
from .mal import output, print_mal, run_instr
from .optimise import marks
from .settings import CURRENT
from .sql import Explain, Query, parse


def _need(ok, *why):
    if not ok:
        raise Dishonest(*why)


class _Open:
    """A statement between its Begin and its End."""

    def __init__(self, k, code, reply, plan=None, snap=None):
        self.k = k
        self.code = code            # of its End
        self.reply = reply
        self.plan = plan
        self.snap = snap
        self.ids, self.looks, self.admits = {}, {}, set()
        self.marked, self.values, self.works = [], [], []
        if plan is not None:
            self.marked = marks(plan) if CURRENT.pool else [False] * len(plan.instrs)
            for i in plan.instrs:
                v, w = None, 0
                if all(self.values[a[1]] is not None for a in i.args if a[0] == 'v'):
                    try:
                        v, w = run_instr(i, self.values, snap.db)
                    except Overflow:
                        pass
                self.values.append(v)     # None: it overflows, or an argument does
                self.works.append(w)
            if any(v is None for v in self.values):
                self.code = 10
                self.reply = ('refused', 10, '')
            else:
                self.reply = ('rows', output(plan.out, self.values))

    def key(self, n):
        instr = self.plan.instrs[n]
        version = 0
        if instr.op == 'bind':
            version = self.snap.versions[(instr.args[0][1][1], instr.args[1][1][1])]
        return (instr.op, tuple(a if a[0] == 'c' else ('id', self.ids.get(a[1], 0))
                                for a in instr.args), version)


class Checker:
    def __init__(self, names, scripts, options, blocks_from=None):
        """scripts: lists of pieces; sessions from `blocks_from` on hold
        blocks."""
        self.names = names
        self.scripts = scripts
        self.options = options
        self.blocks_from = blocks_from
        self.book = Book(options)
        self.replies = [[] for _ in scripts]
        self.open = [None] * len(scripts)
        self.work = 0

    def is_block(self, s):
        return self.blocks_from is not None and s >= self.blocks_from

    def skip_refused_blocks(self, s):
        """Blocks refused with 21 to 26 have no event."""
        mine = self.replies[s - 1]
        while self.is_block(s) and len(mine) < len(self.scripts[s - 1]):
            r = block_refusal(self.scripts[s - 1][len(mine)])
            if not isinstance(r, Refused):
                return
            mine.append(('refused', r.no, r.word))

    def event(self, s, k, act, numbers):
        _need(1 <= s <= len(self.scripts), 'session', s)
        if act in ('write', 'begin'):
            _need(self.open[s - 1] is None, 'a statement is open')
            self.skip_refused_blocks(s)
            _need(k == len(self.replies[s - 1]) + 1 <= len(self.scripts[s - 1]), 'statement', k)
            self.first(s, k, act)
            return
        o = self.open[s - 1]
        _need(o is not None and o.k == k, 'no open statement', k)
        if act == 'end':
            self.end(s, o)
        else:
            _need(o.plan is not None, 'no plan')
            n = numbers[0] - 1
            _need(0 <= n < len(o.plan.instrs) and o.marked[n], 'instruction', n + 1)
            (self.look if act == 'look' else self.admit)(s, o, n)

    def first(self, s, k, act):
        text = self.scripts[s - 1][k - 1]
        book = self.book
        if self.is_block(s):
            _need(act == 'begin', 'a block is no write')
            _need(self.finished(1), 'session 1 goes first')
            refused, plan, snap = book.begin_plan(s, k, block_refusal(text))
        else:
            try:
                stmt = parse(text)
            except Refused as r:
                _need(act == 'write', 'a refused text is a write')
                book.refuse(s, k, r.no)
                self.replies[s - 1].append(('refused', r.no, r.word))
                return
            if not isinstance(stmt, (Query, Explain)):
                _need(act == 'write', 'a change is a write')
                self.replies[s - 1].append(book.write(s, k, stmt))
                return
            _need(act == 'begin', 'a query begins')
            refused, plan, snap = book.begin(s, k, stmt)
            if refused is None and isinstance(stmt, Explain):
                self.open[s - 1] = _Open(k, 0, ('mal', print_mal(plan)))
                return
        if refused is not None:
            self.open[s - 1] = _Open(k, refused.no, ('refused', refused.no, refused.word))
        else:
            self.open[s - 1] = _Open(k, 0, None, plan, snap)

    def look(self, s, o, n):
        _need(n not in o.looks, 'a second look', n + 1)
        for a in o.plan.instrs[n].args:
            if a[0] == 'v':
                _need(a[1] in o.looks, 'a look before its arguments', n + 1)
                done = o.looks[a[1]][0] == 'exact' or a[1] in o.admits
                _need(done or o.values[a[1]] is None, 'a look before an admit', n + 1)
        found = self.book.look(s, o.k, n + 1, o.key(n))
        o.looks[n] = found
        if found[0] == 'exact':
            o.ids[n] = found[1]

    def admit(self, s, o, n):
        _need(n in o.looks and o.looks[n][0] != 'exact' and n not in o.admits, 'admit', n + 1)
        _need(o.values[n] is not None, 'an admit of a fault', n + 1)
        instr = o.plan.instrs[n]
        v, plain, did = Running._compute(instr, o.values[:n], o.snap, o.looks[n])
        _need(v == o.values[n], 'value', n + 1)
        got = self.book.admit(s, o.k, n + 1, o.key(n), v, plain)
        self.work += did
        o.admits.add(n)
        o.ids[n] = got[1] if got[0] in ('taken', 'there') else 0

    def end(self, s, o):
        if o.plan is not None and o.code == 0:
            for n, m in enumerate(o.marked):
                if m:
                    _need(n in o.looks and (o.looks[n][0] == 'exact' or n in o.admits),
                          'an end before instruction', n + 1)
            self.work += sum(w for w, m in zip(o.works, o.marked) if not m)
        self.book.end(s, o.k, o.code)
        self.replies[s - 1].append(o.reply)
        self.open[s - 1] = None

    def finished(self, s):
        return self.open[s - 1] is None and len(self.replies[s - 1]) == len(self.scripts[s - 1])

    def text(self):
        transcripts = [list(enumerate(r, 1)) for r in self.replies]
        return (sessions_text(self.names, transcripts) + history_text(self.book.log)
                + pool_text(self.book.totals(self.work)) + log_text(self.book.log))


def served(names, scripts, options, text, blocks_from=None):
    """None where the text is served, else why it isn't."""
    c = Checker(names, scripts, options, blocks_from)
    try:
        _, events = log_lines(text)
        raw = text[text.rindex('\nlog ') + 1:].split('\n')[1:]
        for i, (s, k, act, numbers) in enumerate(events, 1):
            try:
                c.event(s, k, act, numbers)
                mine = '%d %d %d %s' % (i, s, k, event_text(c.book.log[-1][2]))
                _need(raw[i - 1] == mine, 'is', mine)
            except Dishonest as e:
                raise Dishonest('log line %d' % i, *e.args) from None
        for s in range(1, len(scripts) + 1):
            c.skip_refused_blocks(s)
            _need(c.finished(s), 'session %d has not ended' % s)
    except Dishonest as e:
        return ' '.join(map(str, e.args)) or 'no log of this layout'
    want = c.text()
    if want == text:
        return None
    a, b = want.split('\n'), text.split('\n')
    for i in range(max(len(a), len(b))):
        x = a[i] if i < len(a) else '(no line)'
        y = b[i] if i < len(b) else '(no line)'
        if x != y:
            return 'line %d is %r, not %r' % (i + 1, y, x)
    return 'texts differ'
