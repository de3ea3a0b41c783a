"""The Book, sessions, and the schedules: replay, run (one interleaving),
generate, mal (sequential)."""
from .canon import name_text
from .cells import Overflow, Refused
from .check import check
from .layout import sessions_text, history_text, pool_text, log_text
from .mal import (Bat, bind, run_op, work_of, resolve, output, run_plan, print_mal, parse_mal,
                  NoBlock, UnknownOp, PlanError, BIND_KINDS)
from .meaning import effect, schema_of
from .optimise import optimise, marks
from .pool import Pool, piece_bounds
from .settings import CURRENT, optimised
from .sql import Query, Explain, Alter, Insert, Update, parse
from .translate import compile_query, compile_write
from .cells import order


class Options:
    def __init__(self, budget=16777216, evict='lru', admit='all', credits=3, events=False,
                 weights=None, workers=4):
        self.budget = budget
        self.evict = evict
        self.admit = admit
        self.credits = credits
        self.events = events
        self.weights = weights or {}
        self.workers = workers


def planned(typed):
    """The plan by which a query is run."""
    plan = compile_query(typed)
    return optimise(plan) if optimised() else plan


def planned_write(typed):
    plan = compile_write(typed)
    return plan if plan is None or not optimised() else optimise(plan)


class Book:
    def __init__(self, options):
        self.db = {}
        self.versions = {}          # (table, column) -> position
        self.log = []               # (session, statement, act)
        self.pool = Pool(options.budget, options.evict, options.admit, options.credits,
                         options.weights)
        self.work = 0               # of the plans of writes, and of results that come back
        self.carry_work = 0         # of these, the operators run on deltas
        self.peak = 0
        self.worths = {}            # id -> Bat, every id ever given out
        self.watch = None           # called after each event, for tests

    def now(self):
        return len(self.log) + 1

    def _event(self, session, statement, act):
        self.log.append((session, statement, act))
        self.peak = max(self.peak, self.pool.bytes())
        if self.watch is not None:
            self.watch(self)

    def version(self, table, column):
        t = self.db.get(table)
        if t is None:
            return 0
        return self.versions[(table, column)] if column in t.names() else 0

    def snapshot(self):
        return Snap(dict(self.db), self)

    # -- one event each
    def refuse(self, session, k, no):
        self._event(session, k, ('write', None, no, 0))

    def begin(self, session, k, stmt):
        """(code word or None, plan or None, snap)"""
        snap = self.snapshot()
        try:
            typed = check(stmt, schema_of(self.db))
        except Refused as r:
            self._event(session, k, ('begin', r.no))
            return r, None, snap
        plan = planned(typed)
        self._event(session, k, ('begin', 0))
        return None, plan, snap

    def begin_plan(self, session, k, plan):
        snap = self.snapshot()
        for instr in plan.instrs:
            if instr.op == 'bind':
                table, column, kind = (a[1][1] for a in instr.args)
                t = self.db.get(table)
                c = None if t is None else next((c for c in t.columns if c.name == column), None)
                if c is None or c.kind != BIND_KINDS[kind]:
                    self._event(session, k, ('begin', 27))
                    return (Refused(27, '%s.%s' % (name_text(table), name_text(column))),
                            None, snap)
        plan = optimise(plan)
        self._event(session, k, ('begin', 0))
        return None, plan, snap

    def look(self, session, k, instr, key):
        got = self.pool.look((session, k), self.now(), key)
        self._event(session, k, ('look', instr, key, got))
        return got

    def admit(self, session, k, instr, key, value, work):
        present = None
        if key[0] == 'bind':
            present = self.version(key[1][0][1][1], key[1][1][1][1])
        got = self.pool.admit((session, k), self.now(), key, value, work, present)
        if got[0] == 'taken':
            self.worths[got[1]] = value
        self._event(session, k, ('admit', instr, key, got))
        return got

    def end(self, session, k, code):
        self.pool.release(session)
        self._event(session, k, ('end', code))

    def write(self, session, k, stmt):
        """The reply of a statement that is no query."""
        now = self.now()
        try:
            typed = check(stmt, schema_of(self.db))
            plan = planned_write(typed)
            if plan is not None:
                try:
                    _, load = run_plan(plan, self.db)
                    self.work += load
                except Overflow:
                    pass
            old = self.db
            new, count = effect(typed, self.db)
        except Refused as r:
            self._event(session, k, ('write', stmt, r.no, 0))
            return ('refused', r.no, r.word)
        self.db = new
        table = stmt.table
        if isinstance(stmt, Update):
            columns = {n for n, _ in stmt.sets}
        elif isinstance(stmt, Alter):
            columns = {stmt.column.name}
        else:
            columns = set((new.get(table) or old.get(table)).names())
        for c in columns:
            self.versions[(table, c)] = now
        if isinstance(stmt, Insert):
            rows = len(old[table].rows)
            added = {c: bind(new, table, c) for c in new[table].names()}
            did = self.pool.write(now, table, columns, rows, added)
            self.work += did
            self.carry_work += did
            for e in self.pool.entries.values():
                self.worths.setdefault(e.id, e.value)
        else:
            self.pool.write(now, table, columns)
        self._event(session, k, ('write', stmt, 0, count or 0))
        return ('done',) if count is None else ('count', count)

    def totals(self, work):
        t = dict(self.pool.count)
        t.update(entries=len(self.pool.entries), bytes=self.pool.bytes(), peak=self.peak,
                 work=self.work + work, events=len(self.log))
        return t


class Snap:
    """The tables and versions at a Begin."""

    def __init__(self, db, book):
        self.db = db
        self.versions = {(t, c): book.version(t, c) for t in db for c in db[t].names()}


class Running:
    """One session: a generator that does one event at each step."""

    def __init__(self, book, number, pieces, blocks_=False):
        self.book = book
        self.number = number
        self.replies = []           # (statement, reply)
        self.work = 0               # of results computed, and of what no pool is asked for
        self._steps = self._blocks(pieces) if blocks_ else self._run(pieces)
        self.done = False

    def step(self):
        """Does the next event; False where the session is done."""
        if self.done:
            return False
        try:
            next(self._steps)
            return True
        except StopIteration:
            self.done = True
            return False

    def _run(self, pieces):
        book, s = self.book, self.number
        for k, text in enumerate(pieces, 1):
            try:
                stmt = parse(text)
            except Refused as r:
                book.refuse(s, k, r.no)
                self.replies.append((k, ('refused', r.no, r.word)))
                yield
                continue
            if not isinstance(stmt, (Query, Explain)):
                self.replies.append((k, book.write(s, k, stmt)))
                yield
                continue
            refused, plan, snap = book.begin(s, k, stmt)
            yield
            if refused is not None:
                book.end(s, k, refused.no)
                self.replies.append((k, ('refused', refused.no, refused.word)))
                yield
            elif isinstance(stmt, Explain):
                book.end(s, k, 0)
                self.replies.append((k, ('mal', print_mal(plan))))
                yield
            else:
                yield from self._plan(k, plan, snap)

    def _blocks(self, pieces):
        book, s = self.book, self.number
        for k, text in enumerate(pieces, 1):
            r = block_refusal(text)
            if isinstance(r, Refused):
                self.replies.append((k, ('refused', r.no, r.word)))
                continue
            refused, plan, snap = book.begin_plan(s, k, r)
            yield
            if refused is not None:
                book.end(s, k, refused.no)
                self.replies.append((k, ('refused', refused.no, refused.word)))
                yield
            else:
                yield from self._plan(k, plan, snap)

    def _plan(self, k, plan, snap):
        book, s = self.book, self.number
        marked = marks(plan) if CURRENT.pool else [False] * len(plan.instrs)
        ids, values, unmarked = [], [], 0
        try:
            for n, instr in enumerate(plan.instrs):
                if not marked[n]:
                    v, w = self._plain(instr, values, snap)
                    values.append(v)
                    ids.append(0)
                    unmarked += w
                    continue
                version = 0
                if instr.op == 'bind':
                    version = snap.versions[(instr.args[0][1][1], instr.args[1][1][1])]
                key = (instr.op, tuple(a if a[0] == 'c' else ('id', ids[a[1]])
                                       for a in instr.args), version)
                found = book.look(s, k, n + 1, key)
                yield
                if found[0] == 'exact':
                    ids.append(found[1])
                    values.append(found[2])
                    continue
                v, plain, did = self._compute(instr, values, snap, found)
                got = book.admit(s, k, n + 1, key, v, plain)
                self.work += did
                ids.append(got[1] if got[0] in ('taken', 'there') else 0)
                values.append(v)
                yield
        except Overflow:
            book.end(s, k, 10)
            self.replies.append((k, ('refused', 10, '')))
            yield
            return
        book.end(s, k, 0)
        self.work += unmarked
        self.replies.append((k, ('rows', output(plan.out, values))))
        yield

    @staticmethod
    def _plain(instr, values, snap):
        if instr.op == 'bind':
            b = bind(snap.db, instr.args[0][1][1], instr.args[1][1][1])
            return b, len(b)
        return run_op(instr.op, [resolve(a, values) for a in instr.args])

    @staticmethod
    def _compute(instr, values, snap, found):
        """(value, stated work, work done) in the way that the Look said."""
        if found[0] == 'miss':
            v, w = Running._plain(instr, values, snap)
            return v, w, w
        args = [resolve(a, values) for a in instr.args]
        if found[0] == 'within':
            v, did = run_op('select', [found[2]] + args[1:])
        else:
            did, pairs = 0, []
            for _, span, value in found[1]:
                piece, w = run_op('select', [value] + piece_bounds(span))
                did += w
                pairs += list(piece.pairs())
            pairs.sort(key=lambda p: order(p[0]))
            v = Bat([h for h, _ in pairs], [t for _, t in pairs])
            did += len(v)
        return v, work_of('select', args, v), did


def block_refusal(text):
    """The checked plan of a block, or its refusal 21 to 26."""
    try:
        return parse_mal(text)
    except NoBlock:
        return Refused(21)
    except UnknownOp as e:
        return Refused(22, e.args[0])
    except PlanError as e:
        if e.kind == 'NoOutput':
            return Refused(26)
        no = {'UnknownVar': 23, 'KindsDiffer': 24, 'WrongCount': 25}[e.kind]
        return Refused(no, str(e.at + 1))


class Run:
    def __init__(self, book, sessions, names, options):
        self.book = book
        self.sessions = sessions
        self.names = names
        self.options = options
        self.totals = book.totals(sum(s.work for s in sessions))
        self.transcripts = [s.replies for s in sessions]

    def text(self):
        out = sessions_text(self.names, self.transcripts) + history_text(self.book.log)
        if CURRENT.pool:
            out += pool_text(self.totals)
            if self.options.events:
                out += log_text(self.book.log)
        return out


def parse_schedule(text, sessions):
    """The numbers of the lines, or the first bad line as an int in a tuple."""
    lines = text.split('\n')
    if lines[-1] == '':
        lines.pop()
    out = []
    for n, line in enumerate(lines, 1):
        ok = line.isascii() and line.isdigit() and line[0] != '0' and len(line) <= 2 \
            and int(line) <= sessions
        if not ok:
            return None, n
        out.append(int(line))
    return out, 0


def replay_sessions(names, scripts, schedule, options, watch=None):
    """scripts: lists of pieces; schedule: a list of session numbers."""
    book = Book(options)
    book.watch = watch
    sessions = [Running(book, s, pieces) for s, pieces in enumerate(scripts, 1)]
    for s in schedule:
        sessions[s - 1].step()
    for one in sessions:
        while one.step():
            pass
    return Run(book, sessions, names, options)


def serve_blocks(names, setup, files, options, schedule=(), watch=None):
    """SETUP's pieces to their end, then the block sessions: by a schedule of
    numbers from 2 (for tests), then one after the other."""
    book = Book(options)
    book.watch = watch
    sessions = [Running(book, 1, setup)]
    while sessions[0].step():
        pass
    sessions += [Running(book, s, pieces, True) for s, pieces in enumerate(files, 2)]
    for s in schedule:
        sessions[s - 1].step()
    for one in sessions:
        while one.step():
            pass
    return Run(book, sessions, names, options)


def generated(n):
    """The two scripts of `generate N`."""
    x = n
    draws = 0

    def draw():
        nonlocal x, draws
        x = (x * 1103515245 + 12345) % 2147483648
        draws += 1
        return x
    g1 = ['CREATE TABLE g (a INT)']
    for _ in range(20):
        g1.append('INSERT INTO g VALUES ' + ', '.join('(%d)' % (draw() % 10000)
                                                      for _ in range(500)))
    g2 = []
    for _ in range(100):
        low = draw() % 9000
        high = low + draw() % 1000
        g2.append('SELECT COUNT(*), SUM(a) FROM g WHERE a BETWEEN %d AND %d' % (low, high))
    return g1, g2


def generate(n):
    run = replay_sessions(['g1', 'g2'], list(generated(n)), [], Options())
    return 'generated %d\n' % n + pool_text(run.totals), run
