"""python3 selfcheck.py [seconds] [first seed]: random checks of this
implementation against itself.

plans   the plan of a statement, after each optimiser too, and its MAL text,
        against the slow meaning
runs    replay under random schedules and options: the replies by `audit` (the
        slow meaning over the commits before each place), every pooled value
        against its lineage's worth, what holds of the pool after each event,
        and the work counted again from the log
flows   the same for random logs in every order that `run` allows
blocks  random MAL blocks under random schedules against their plain meaning
"""
import os
import random
import sys
import time

sys.path.insert(0, os.path.dirname(os.path.abspath(__file__)))
from oracle import audit, canon, engine, mal, meaning, optimise, pool, served, sql, translate
from oracle.cells import Overflow, Refused
from oracle.check import check
from oracle.settings import CURRENT
from randomsql import Gen
from twin import Twin


class Wrong(Exception):
    pass


def need(ok, *what):
    if not ok:
        raise Wrong(*what)


def tidy(stmt):
    """A statement with its lists as tuples, to compare."""
    if isinstance(stmt, (list, tuple)):
        return tuple(tidy(x) for x in stmt)
    return stmt


# ---------------------------------------------------------------- plans

def outcome(f, *args):
    try:
        return ('rows', f(*args))
    except Overflow:
        return ('overflow',)


def check_statement_text(stmt):
    printed = canon.print_stmt(stmt)
    again = sql.parse(printed)
    need(tidy(again) == tidy(stmt), 'print/parse', printed)
    need(canon.print_stmt(again) == printed, 'print', printed)


def check_plan_forms(plan, db, want, what):
    mal.check_plan(plan)
    for name, f in (('plan', lambda p: p), ('fold', optimise.fold_constants),
                    ('share', optimise.share_terms), ('drop', optimise.drop_dead),
                    ('optimise', optimise.optimise)):
        p = f(plan)
        mal.check_plan(p)
        got = outcome(lambda: mal.run_plan(p, db)[0])
        need(got == want, name, what, got, want)
        if p.out.cols:
            text = mal.print_mal(p)
            back = mal.parse_mal(text)
            need(back == p and mal.print_mal(back) == text, 'mal text', text)
    p = optimise.optimise(plan)
    need(optimise.optimise(p) == p, 'optimise twice', what)
    need(len(set(p.instrs)) == len(p.instrs), 'equal instructions', what)
    marks = optimise.marks(p)
    for n, i in enumerate(p.instrs):
        if marks[n]:
            need(sum(a[0] == 'v' for a in i.args) <= 2, 'more than two variables', what)
            if i.op == 'select':
                need(all(a[0] == 'c' for a in i.args[1:]), 'select with variables', what)


def check_query(db, text):
    try:
        stmt = sql.parse(text)
        typed = check(stmt, meaning.schema_of(db))
    except Refused as r:
        return r.no
    check_statement_text(stmt)
    want = outcome(meaning.answer, typed, db)
    plan = translate.compile_query(typed)
    check_plan_forms(plan, db, want, text)
    # the choices of rows that a condition keeps
    t = translate.Translator(typed)
    t.choose(typed.query().cond)
    rows = mal.Plan(t.instrs, mal.Out(list(t.rows), None, [], None))
    values = []
    try:
        for i in rows.instrs:
            values.append(mal.run_instr(i, values, db)[0])
        got = list(zip(*[values[a[1]].tails for a in rows.out.cols]))
        tables = [db[s.table].rows for s in typed.sources]
        mine = [tuple(tables[j][o[1]] for j, o in enumerate(c)) for c in got]
        need(mine == meaning.kept(typed, typed.query().cond, db), 'kept choices', text)
        for a in rows.out.cols:
            b = values[a[1]]
            need(b.heads == mal.dense(len(b)), 'heads of rows', text)
    except Overflow:
        pass
    return 'overflow' if want[0] == 'overflow' else 'rows'


def check_write(db, text):
    """(new db, outcome)"""
    try:
        stmt = sql.parse(text)
        typed = check(stmt, meaning.schema_of(db))
    except Refused as r:
        return db, r.no
    check_statement_text(stmt)
    plan = translate.compile_write(typed)
    try:
        new, count = meaning.effect(typed, db)
        no = 0
    except Refused as r:
        new, count, no = db, None, r.no
    if plan is not None:
        for p in (plan, optimise.optimise(plan)):
            mal.check_plan(p)
            got = outcome(lambda: mal.run_plan(p, db)[0])
            if isinstance(stmt, sql.Update):
                numbers, cells = meaning.update_rows(typed, db)
                want = [(('oid', n),) + tuple(c) for n, c in zip(numbers, cells)]
                over = any(None in w for w in want) or meaning.constants_overflow(
                    [e for _, e in stmt.sets] + sql.cond_exprs(stmt.cond))
            else:
                over = meaning.constants_overflow(sql.cond_exprs(stmt.cond))
                want = None if over else [
                    (('oid', i),) for i, row in enumerate(db[stmt.table].rows)
                    if stmt.cond is None or meaning.truth(
                        stmt.cond, lambda e: meaning.value(typed, e, (row,))) is True]
            need(got == (('overflow',) if over else ('rows', want)), 'write plan', text, got, want)
    return new, no


def plans(seed):
    g = Gen(seed)
    db, seen = {}, {}
    texts = [g.create() for _ in range(g.r.randint(1, 3))]
    texts += [g.insert(6) for _ in range(g.r.randint(1, 4))]
    for t in texts:
        db, no = check_write(db, t)
    for _ in range(12):
        if g.r.random() < 0.25:
            db, no = check_write(db, g.write())
            seen[('write', no)] = seen.get(('write', no), 0) + 1
        else:
            no = check_query(db, g.query())
            seen[('query', no)] = seen.get(('query', no), 0) + 1
    return seen


# ---------------------------------------------------------------- the twin

class DoublePool(pool.Pool):
    """The pool and its twin side by side."""

    def __init__(self, *args):
        super().__init__(*args)
        self.twin = Twin(self.budget, self.evict, self.admit_kind, self.start_credit,
                         self.weights, CURRENT.cover == 'cheapest')

    def agree(self, what):
        t = self.twin
        mine = [(e.id, e.key, list(e.value.pairs()), e.work, e.reuses, e.others, e.admitted_at,
                 e.used_at, e.who, e.paid_back, e.foreign, sorted(e.pins))
                for e in self.entries.values()]
        theirs = [(e['id'], e['key'], e['pairs'], e['work'], e['reuses'], e['others'], e['at'],
                   e['used'], (e['session'], e['statement']), e['paid'], e['foreign'],
                   sorted(e['pins'])) for e in t.es]
        need(mine == theirs, 'twin state', what, mine, theirs)
        need(self.bytes() == t.bytes(), 'twin bytes')
        need(self.credits[1:] == t.credit_list(), 'twin credits', self.credits, t.ledger)
        c = self.count
        need((c['evicted'], c['carried'], c['dropped']) == (t.gone, t.brought, t.dropped),
             'twin counts')

    def look(self, who, now, key):
        got = super().look(who, now, key)
        theirs = self.twin.look(who, now, key)
        plain = got[:2] if got[0] != 'across' else ('across', [i for i, _, _ in got[1]])
        need(plain == theirs, 'twin look', key, plain, theirs)
        self.agree('look')
        return got

    def admit(self, who, now, key, value, work, present):
        got = super().admit(who, now, key, value, work, present)
        theirs = self.twin.admit(who, now, key, value, work, present)
        need(got == theirs, 'twin admit', key, got, theirs)
        self.agree('admit')
        return got

    def release(self, session):
        super().release(session)
        self.twin.end(session)
        self.agree('end')

    def write(self, *args):
        got = super().write(*args)
        theirs = self.twin.write(*args)
        need(got == theirs, 'twin write', args, got, theirs)
        self.agree('write')
        return got


def with_twin(f):
    """Runs f with the double pool in the engine's Book."""
    plain = engine.Pool
    engine.Pool = DoublePool
    try:
        return f()
    finally:
        engine.Pool = plain


# ---------------------------------------------------------------- runs

class Watcher:
    """After each event: what holds of the pool, with every worth computed from the log alone."""

    def __init__(self):
        self.dbs = {0: {}}          # position -> tables after it
        self.given = {}             # id -> (key, worth)
        self.seen = 0
        self.bytes_peak = 0

    def __call__(self, book):
        n = len(book.log)
        s, k, act = book.log[-1]
        db = self.dbs[self.seen]
        self.seen = n
        if act[0] == 'write' and act[2] == 0:
            db, _ = meaning.effect(check(act[1], meaning.schema_of(db)), db)
        self.dbs[n] = db
        same = {t: (x.columns, x.rows) for t, x in db.items()} == \
            {t: (x.columns, x.rows) for t, x in book.db.items()}
        need(same, 'tables differ at', n)
        p = book.pool
        need(p.bytes() <= p.budget, 'budget', n)
        need(len(p.entries) <= pool.PLACES, 'places', n)
        need(list(p.entries) == sorted(p.entries), 'order of ids', n)
        keys = set()
        for e in p.entries.values():
            need(e.key not in keys, 'key twice', n, e.key)
            keys.add(e.key)
            for q in e.parents():
                need(q in p.entries and q < e.id, 'parent', n, e.id)
            if e.id not in self.given:
                self.given[e.id] = (e.key, self.worth(e.key))
            key, worth = self.given[e.id]
            need(key == e.key, 'key changed', n, e.id)
            need(e.value == worth, 'worth', n, e.id, e.key, e.value, worth)
            if e.key[0] == 'bind':
                t, c = e.key[1][0][1][1], e.key[1][1][1][1]
                need(book.version(t, c) == e.key[2], 'bind version', n, e.key)
        self.bytes_peak = max(self.bytes_peak, p.bytes())
        if p.admit_kind == 'credit':
            held = {}
            for e in p.entries.values():
                if not e.paid_back:
                    held[p.shapes[e.shape]] = held.get(p.shapes[e.shape], 0) + 1
            for number in range(1, len(p.credits)):
                c = p.credits[number]
                need(0 <= c <= p.start_credit, 'credit', n, number, c)
                need(c + held.get(number, 0) <= p.start_credit, 'credits held', n)

    def worth(self, key):
        op, args, version = key
        if op == 'bind':
            return mal.bind(self.dbs[version], args[0][1][1], args[1][1][1])
        got = [self.given[a[1]][1] if a[0] == 'id' else a[1] for a in args]
        return mal.run_op(op, got)[0]


def count_work(run, scripts, watch, blocks_from=None):
    """The work from the log, without the sessions' own sums."""
    log = run.book.log
    total = 0
    open_ = {}
    for n, (s, k, act) in enumerate(log, 1):
        front = watch.dbs[n - 1]
        if act[0] == 'write' and act[1] is not None:
            try:
                typed = check(act[1], meaning.schema_of(front))
            except Refused:
                continue
            plan = engine.planned_write(typed)
            if plan is not None:
                try:
                    total += mal.run_plan(plan, front)[1]
                except Overflow:
                    pass
        elif act[0] == 'begin' and act[1] == 0:
            text = scripts[s - 1][k - 1]
            if blocks_from is not None and s >= blocks_from:
                plan = optimise.optimise(mal.parse_mal(text))
            else:
                stmt = sql.parse(text)
                if isinstance(stmt, sql.Explain):
                    continue
                plan = engine.planned(check(stmt, meaning.schema_of(front)))
            works, values = [], []
            try:
                for i in plan.instrs:
                    v, w = mal.run_instr(i, values, front)
                    values.append(v)
                    works.append(w)
            except Overflow:
                pass
            open_[s] = (plan, works, values, {})
        elif act[0] == 'look' and s in open_:
            plan, works, values, looks = open_[s]
            looks[act[1]] = act[3]
        elif act[0] == 'admit':
            plan, works, values, looks = open_[s]
            i = act[1] - 1
            found = looks[act[1]]
            if found[0] == 'miss':
                total += works[i]
            elif found[0] == 'within':
                total += len(watch.given[found[1]][1]) + len(values[i])
            else:
                for id_, span, _ in found[1]:
                    piece, w = mal.run_op('select', [watch.given[id_][1]]
                                          + pool.piece_bounds(span))
                    total += w
                total += len(values[i])
        elif act[0] == 'end' and act[1] == 0 and s in open_:
            plan, works, values, looks = open_[s]
            marked = optimise.marks(plan)
            total += sum(w for w, m in zip(works, marked) if not m)
            del open_[s]
        elif act[0] == 'end':
            open_.pop(s, None)
    return total


def random_options(r):
    return engine.Options(
        budget=r.choice([16777216, 16777216, 0, 64, 200, 600, 1000, 2000, 4000]),
        evict=r.choice(['lru', 'benefit', 'history', 'weighted']),
        admit=r.choice(['all', 'all', 'credit']), credits=r.choice([1, 1, 2, 3]), events=True,
        weights={f: r.randint(1, 9) for f in r.sample(mal.operators(), 8)})


def option_words(o):
    words = ['--budget', str(o.budget), '--evict', o.evict, '--admit', o.admit, '--credits',
             str(o.credits), '--events']
    if o.evict == 'weighted':
        words += ['--weights', ','.join('%s=%d' % w for w in sorted(o.weights.items()))]
    return words


def random_run(seed):
    """(names, scripts as texts, schedule, options)"""
    g = Gen(seed)
    r = g.r
    first = [g.create() for _ in range(r.randint(1, 2))]
    first += [g.insert(6) for _ in range(r.randint(1, 3))]
    base = dict(g.tables)
    n = r.randint(1, 3)
    shared = [g.query() for _ in range(r.randint(1, 4))]
    # ranges over one column, so that within and across come up
    ints = [(t, c) for t, cols in base.items() for c, k, _ in cols if k == 'int']
    if ints:
        t, c = r.choice(ints)
        for _ in range(r.randint(0, 6)):
            low = r.randint(-3, 8)
            shared.append(r.choice([
                'SELECT %s FROM %s WHERE %s BETWEEN %d AND %d' % (c, t, c, low,
                                                                  low + r.randint(-1, 5)),
                'SELECT COUNT(*) FROM %s WHERE %s < %d' % (t, c, low),
                'SELECT COUNT(*) FROM %s WHERE %s >= %d' % (t, c, low)]))
    scripts = []
    for s in range(n):
        g.tables = dict(base)
        pieces = list(first) if s == 0 else []
        for _ in range(r.randint(3, 9)):
            x = r.random()
            if x < 0.3:
                pieces.append(r.choice(shared))
            elif ints and x < 0.38:
                t, c = ints[0]
                for _ in range(r.randint(3, 7)):        # a burst of ranges
                    low = r.randint(-4, 8)
                    pieces.append('SELECT COUNT(*) FROM %s WHERE %s' % (t, r.choice([
                        '%s BETWEEN %d AND %d' % (c, low, low + r.randint(1, 7)),
                        '%s >= %d AND %s < %d' % (c, low, c, low + r.randint(1, 7)),
                        '%s <= %d' % (c, low), '%s > %d' % (c, low)])))
            elif x < 0.65:
                pieces.append(g.query())
            elif x < 0.66:
                pieces.append('SELECT FROM')
            else:
                pieces.append(g.write())
        scripts.append(pieces)
    schedule = []
    if n > 1:
        schedule = [1] * len(first) + [r.randint(1, n) for _ in range(r.randint(0, 150))]
    return scripts, schedule, random_options(r)


def runs(seed, covers=('cheapest', 'cheapest', 'greedy')):
    r = random.Random(seed * 7 + 1)
    scripts, schedule, options = random_run(seed)
    CURRENT.cover = r.choice(covers)
    try:
        names = ['s%d' % (i + 1) for i in range(len(scripts))]
        watch = Watcher()
        def go():
            return engine.replay_sessions(names, scripts, schedule, options, watch)
        run = with_twin(go)
        text = run.text()
        need(watch.bytes_peak == run.totals['peak'], 'peak')
        joined = [(n, ';'.join(p)) for n, p in zip(names, scripts)]
        need([sql.split(t) for _, t in joined] == scripts, 'split')
        need(audit.honest(joined, text), 'audit says no', text)
        why = served.served(names, scripts, options, text)
        need(why is None, 'served', why)
        work = count_work(run, scripts, watch)
        carried = run.book.carry_work
        need(run.totals['work'] == work + carried, 'work', run.totals['work'], work, carried)
        t = run.totals
        need(t['looks'] == t['exact'] + t['within'] + t['across'] + t['miss'], 'looks')
        need(t['entries'] == t['taken'] - t['evicted'] - t['dropped'], 'entries', t)
        return t
    finally:
        CURRENT.cover = 'cheapest'


# ---------------------------------------------------------------- flows

def next_events(c, s, r):
    """The events that session s may have next: (k, act, instruction)."""
    o = c.open[s - 1]
    if o is None:
        if c.finished(s):
            return []
        k = len(c.replies[s - 1]) + 1
        try:
            stmt = sql.parse(c.scripts[s - 1][k - 1])
        except Refused:
            return [(k, 'write', 0)]
        return [(k, 'begin' if isinstance(stmt, (sql.Query, sql.Explain)) else 'write', 0)]
    out = []
    if o.plan is not None:
        for n, i in enumerate(o.plan.instrs):
            if not o.marked[n]:
                continue
            if n not in o.looks:
                if all(a[1] in o.looks and (o.looks[a[1]][0] == 'exact' or a[1] in o.admits)
                       for a in i.args if a[0] == 'v'):
                    out.append((o.k, 'look', n + 1))
            elif o.looks[n][0] != 'exact' and n not in o.admits and n < len(o.values):
                out.append((o.k, 'admit', n + 1))
    if not out or o.code == 10 and r.random() < 0.2:
        return [(o.k, 'end', 0)]
    return out


def flows(seed):
    """Random logs in which a query's looks and admits come in any order that
    its plan allows, as under `run`."""
    r = random.Random(seed * 11 + 3)
    scripts, _, options = random_run(seed)
    names = ['s%d' % (i + 1) for i in range(len(scripts))]
    c = with_twin(lambda: served.Checker(names, scripts, options))
    watch = Watcher()
    c.book.watch = watch
    first = True
    while True:
        free = [s for s in range(1, len(scripts) + 1) if not c.finished(s)]
        if not free:
            break
        s = 1 if first and len(c.replies[0]) < 3 and 1 in free else r.choice(free)
        events = next_events(c, s, r)
        k, act, n = r.choice(events)
        c.event(s, k, act, [n])
    text = c.text()
    joined = [(n, ';'.join(p)) for n, p in zip(names, scripts)]
    need(audit.honest(joined, text), 'audit of a flow says no', text)
    why = served.served(names, scripts, options, text)
    need(why is None, 'served', why)
    run = type('R', (), {'book': c.book})
    t = c.book.totals(c.work)
    need(t['work'] == count_work(run, scripts, watch) + c.book.carry_work, 'work of a flow')
    # a changed text is refused
    at = r.randrange(len(text))
    other = text[:at] + r.choice('0123456789 xa\n') + text[at + 1:]
    if other != text:
        need(served.served(names, scripts, options, other) is not None, 'changed', at)
    return t


# ---------------------------------------------------------------- blocks

class BlockGen:
    """Random blocks over the columns of a database: kinds fit."""

    def __init__(self, r, db):
        self.r = r
        self.columns = [(t, c.name, c.kind) for t, x in db.items() for c in x.columns]

    def const(self, kind):
        r = self.r
        if r.random() < 0.15:
            return ('c', ('nil', None))
        return ('c', {'int': ('int', r.randint(-3, 9)), 'huge': ('huge', r.randint(-3, 9)),
                      'text': ('text', r.choice(['a', 'b', '', 'x\ny', '"', '\\'])),
                      'day': ('day', r.choice([0, 8886, -1])), 'bit': ('bit', r.random() < 0.5),
                      'oid': ('oid', r.choice([0, 1, 2, 2 ** 64 - 1]))}.get(
                          kind, ('int', r.randint(0, 3))))

    def ranges(self):
        """Selections of one column (or of its mirror's like) by ranges."""
        r = self.r
        t, c, k = r.choice(self.columns)
        if k != 'int':
            return None
        instrs = [mal.Instr('bind', tuple(('c', ('text', x)) for x in (t, c, 'int')))]
        cols = []
        if r.random() < 0.4:
            instrs.append(mal.Instr('select', (('v', 0), self.const('int'), ('c', ('nil', None)),
                                               ('c', ('bit', True)), ('c', ('bit', False)))))
        if r.random() < 0.3:            # heads that don't rise
            instrs.append(mal.Instr('select', (('v', 0), ('c', ('int', r.randint(0, 3))),
                                               ('c', ('nil', None)), ('c', ('bit', True)),
                                               ('c', ('bit', False)))))
            instrs.append(mal.Instr('kunion', (('v', len(instrs) - 1), ('v', 0))))
        base = len(instrs) - 1
        for _ in range(r.randint(1, 3)):
            low = r.randint(-4, 8)
            instrs.append(mal.Instr('select', (
                ('v', base), ('c', ('int', low)), ('c', ('int', low + r.randint(0, 7))),
                ('c', r.choice([('bit', True), ('bit', False), ('nil', None)])),
                ('c', ('bit', r.random() < 0.5)))))
            cols.append(('v', len(instrs) - 1))
        return mal.Plan(instrs, mal.Out(cols[-2:], None, [], None))

    def plan(self):
        r = self.r
        if r.random() < 0.4:
            p = self.ranges()
            if p is not None:
                return p
        instrs, types = [], []
        tries = 0
        while len(instrs) < r.randint(3, 14) and tries < 60:
            tries += 1
            if not instrs or r.random() < 0.2:
                t, c, k = r.choice(self.columns)
                args = tuple(('c', ('text', x)) for x in (t, c, mal.KIND_WORD[k]))
                op = 'bind'
            else:
                op = r.choice(mal.operators()[1:])
                args = []
                for i in range(mal.COUNT[op]):
                    scalar = (op == 'select' and i > 0 or op in ('markT', 'project') and i == 1)
                    if scalar or op in mal.FUNCTIONS and r.random() < 0.3:
                        kind = r.choice(['int', 'text', 'day', 'bit', 'oid', 'huge'])
                        if op == 'select':
                            kind = types[args[0][1]][-1] if i < 3 else 'bit'
                        if op == 'markT':
                            kind = 'oid'
                        args.append(self.const(kind))
                    else:
                        args.append(('v', r.randrange(len(instrs))))
                args = tuple(args)
            mine = [mal.const_type(a[1]) if a[0] == 'c' else types[a[1]] for a in args]
            try:
                kind = mal.result_type(op, args, mine)
            except mal._Differ:
                continue
            instrs.append(mal.Instr(op, args))
            types.append(kind)
        cols = [('v', r.randrange(len(instrs))) for _ in range(r.randint(1, 2))]
        order_ = [(r.randrange(len(cols)), r.random() < 0.5) for _ in range(r.randint(0, 1))]
        bits = [i for i, t in enumerate(types) if t[0] == 's' and t[1] in ('bit', 'any')]
        keep = ('v', r.choice(bits)) if bits and r.random() < 0.5 else None
        return mal.Plan(instrs, mal.Out(cols, keep, order_, r.choice([None, None, 3])))


def small(plan, db):
    """The block's meaning, or None where it grows past what a test may hold."""
    values = []
    for i in plan.instrs:
        if i.op in ('cross', 'join') and \
                all(isinstance(values[a[1]], mal.Bat) for a in i.args):
            if len(values[i.args[0][1]]) * len(values[i.args[1][1]]) > 3000:
                return False
        try:
            values.append(mal.run_instr(i, values, db)[0])
        except Overflow:
            return True
    return True


def blocks(seed):
    g = Gen(seed)
    r = g.r
    setup = [g.create() for _ in range(r.randint(1, 2))]
    setup += [g.insert(5) for _ in range(r.randint(1, 3))]
    db = {}
    for t in setup:
        try:
            db, _ = meaning.effect(check(sql.parse(t), meaning.schema_of(db)), db)
        except Refused:
            pass
    b = BlockGen(r, db)
    if not b.columns:
        return {}
    files = []
    for _ in range(r.randint(1, 3)):
        mine = []
        while len(mine) < r.randint(1, 5):
            p = b.plan()
            if small(p, db):
                mine.append(p)
        files.append(mine + mine[:1])
    texts = [[mal.print_mal(p) for p in mine] for mine in files]
    for mine in texts:
        need(len(mal.blocks(''.join(mine))) == len(mine), 'number of blocks')
    options = random_options(r)
    n = len(files)
    schedule = [r.randint(2, n + 1) for _ in range(r.randint(0, 120))]
    watch = Watcher()
    run = with_twin(lambda: engine.serve_blocks(
        ['setup'] + ['f%d' % i for i in range(n)], setup, texts, options, schedule, watch))
    for mine, replies in zip(files, run.transcripts[1:]):
        for p, (k, reply) in zip(mine, replies):
            mal.check_plan(p)
            need(mal.parse_mal(mal.print_mal(p)) == p, 'block text')
            want = outcome(lambda: mal.run_plan(p, db)[0])
            got = ('overflow',) if reply[:2] == ('refused', 10) else reply
            need(got == want, 'block', mal.print_mal(p), got, want)
            o = outcome(lambda: mal.run_plan(optimise.optimise(p), db)[0])
            need(o == want, 'optimised block', mal.print_mal(p))
    scripts = [setup] + texts
    why = served.served(run.names, scripts, options, run.text(), 2)
    need(why is None, 'served', why)
    need(run.totals['work'] == count_work(run, scripts, watch, 2) + run.book.carry_work,
         'work of blocks')
    return run.totals


def main():
    seconds = float(sys.argv[1]) if len(sys.argv) > 1 else 60
    seed = int(sys.argv[2]) if len(sys.argv) > 2 else 1
    end = time.time() + seconds
    seen, sums, n = {}, {}, 0
    while time.time() < end:
        for name, f in (('plans', plans), ('runs', runs), ('flows', flows),
                        ('blocks', blocks)):
            try:
                got = f(seed)
            except Exception as e:
                print('%s, seed %d: %s %s' % (name, seed, type(e).__name__,
                                              ' | '.join(map(str, e.args))[:3000]))
                if not isinstance(e, Wrong):
                    raise
                return 1
            if name == 'plans':
                for k, v in got.items():
                    seen[k] = seen.get(k, 0) + v
            else:
                for k, v in got.items():
                    sums[name, k] = sums.get((name, k), 0) + v
        seed += 1
        n += 1
    print('%d seeds without a difference' % n)
    print('statements:', ', '.join('%s %s: %d' % (a, b, v) for (a, b), v in
                                   sorted(seen.items(), key=str)))
    for kind in ('runs', 'flows', 'blocks'):
        print('pool lines summed over %s:' % kind,
              ', '.join('%s %d' % (k, v) for (m, k), v in sums.items() if m == kind))
    return 0


if __name__ == '__main__':
    sys.exit(main())
