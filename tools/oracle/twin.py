"""A second writing of the pool's rules, apart from oracle/pool.py: sentence by
sentence over plain dicts, other data, other algorithms (chains by trying them
all, values that come back by the operators over the whole new parents, scores
as fractions).  selfcheck.py runs both side by side."""
from fractions import Fraction
from functools import cmp_to_key

from oracle.cells import NIL
from oracle.mal import Bat, run_op

RANKS = ['nil', 'number', 'text', 'day', 'bit', 'oid']


def compare(a, b):
    """The order of cells."""
    def rank(c):
        if c == NIL:
            return 0
        return RANKS.index('number' if c[0] in ('int', 'huge') else c[0])
    if rank(a) != rank(b):
        return -1 if rank(a) < rank(b) else 1
    if a == NIL:
        return 0
    x, y = a[1], b[1]
    if a[0] == 'text':
        x, y = x.encode(), y.encode()
    return (x > y) - (x < y)


def stated(pairs):
    def cell(c):
        if c[0] == 'text':
            return 16 + len(c[1].encode())
        return {'huge': 16, 'bit': 1}.get(c[0], 8)
    n = 64
    rise = True
    for i, (h, t) in enumerate(pairs):
        n += cell(t)
        if h[0] != 'oid' or i and h[1] != pairs[i - 1][0][1] + 1:
            rise = False
    return n if rise else n + sum(cell(h) for h, _ in pairs)


# cuts: ('low',) ('before', v) ('after', v) ('high',)

def cut_less(a, b):
    if a[0] == 'low' or b[0] == 'high':
        return a[0] != b[0]
    if a[0] == 'high' or b[0] == 'low':
        return False
    c = compare(a[1], b[1])
    return c < 0 or c == 0 and a[0] == 'before' and b[0] == 'after'


def cut_at_most(a, b):
    return not cut_less(b, a)


def span(key):
    op, args, _ = key
    if op != 'select' or any(a[0] == 'id' for a in args[1:]):
        return None
    (_, low), (_, high), (_, li), (_, hi) = args[1:]
    a = ('low',) if low == NIL else ('before' if li == ('bit', True) else 'after', low)
    b = ('high',) if high == NIL else ('after' if hi == ('bit', True) else 'before', high)
    return a, b


def holds(s, c):
    """The cut c lies in the span s."""
    return cut_at_most(s[0], c) and cut_less(c, s[1])


def all_chains(spans, target):
    """Every chain of spans that covers the target, as a list of places."""
    out = []

    def go(chain, at):
        for n, s in enumerate(spans):
            if n in chain or not holds(s, at):
                continue
            if cut_at_most(target[1], s[1]):
                out.append(chain + [n])
            else:
                go(chain + [n], s[1])
    go([], target[0])
    return out


class Twin:
    def __init__(self, budget, evict, admit, credits, weights, cheapest):
        self.budget, self.evict, self.kind = budget, evict, admit
        self.start, self.weights, self.cheapest = credits, weights, cheapest
        self.es = []                    # entries, in order of id
        self.last = 0                   # the last id given out
        self.ledger = []                # (shape, credit): number n is at n - 1
        self.gone = 0                   # given up for room
        self.brought = 0
        self.dropped = 0

    def by_id(self, i):
        return next((e for e in self.es if e['id'] == i), None)

    def size(self, e):
        return 64 if e['key'][0] == 'bind' else stated(e['pairs'])

    def bytes(self):
        return sum(map(self.size, self.es))

    @staticmethod
    def parents(key):
        return [a[1] for a in key[1] if a[0] == 'id']

    def shape(self, key):
        if key[0] == 'bind':
            return 'bind(%r,%r)' % (key[1][0][1], key[1][1][1])
        return '%s(%s)' % (key[0], ','.join(
            self.by_id(a[1])['shape'] if a[0] == 'id' else '' for a in key[1]))

    def pay_back(self, e):
        e['paid'] = True
        if self.kind == 'credit':
            for line in self.ledger:
                if line[0] == e['shape']:
                    line[1] += 1

    def use(self, e, session, statement, now):
        e['reuses'] += 1
        e['used'] = now
        if (session, statement) != (e['session'], e['statement']):
            e['others'] += 1
        if session != e['session']:
            e['foreign'] = True
        else:
            if not e['paid']:
                self.pay_back(e)

    def leaves(self, e):
        self.es.remove(e)
        if e['foreign'] and not e['paid']:
            self.pay_back(e)

    def score(self, e, now):
        weight = 1 if e['others'] == 0 else 10 * e['reuses']
        if self.evict == 'lru':
            return Fraction(e['used'])
        if self.evict == 'benefit':
            return Fraction(e['work'] * weight)
        if self.evict == 'history':
            age = now - e['at']
            return Fraction(e['work'] * weight, 1 if age < 1 else age)
        return Fraction(e['work'] * weight * self.weights.get(e['key'][0], 1))

    def run_of(self, es, now, keep, enough):
        """The shortest run of entries given up until enough(left), and what is
        left; None in the place of the run where all free ones don't do."""
        left, run = list(es), []
        while not enough(left):
            free = [e for e in left if e['pins'] == [] and e['id'] not in keep
                    and all(e['id'] not in self.parents(f['key']) for f in left)]
            if not free:
                return None, left
            free.sort(key=lambda e: (self.score(e, now), e['id']))
            run.append(free[0])
            left.remove(free[0])
        return run, left

    def pin(self, e, session):
        if session not in e['pins']:
            e['pins'] = e['pins'] + [session]

    def look(self, who, now, key):
        session, statement = who
        if any(p == 0 for p in self.parents(key)):
            return ('miss',)
        for e in self.es:
            if e['key'] == key:
                self.use(e, session, statement, now)
                self.pin(e, session)
                return ('exact', e['id'])
        target = span(key)
        if target is None:
            return ('miss',)
        p = self.parents(key)[0]
        mine = [e for e in self.es if e['key'][0] == 'select' and self.parents(e['key']) == [p]]
        wide = [e for e in mine if cut_at_most(span(e['key'])[0], target[0])
                and cut_at_most(target[1], span(e['key'])[1])]
        if wide:
            e = sorted(wide, key=lambda e: (len(e['pairs']), e['id']))[0]
            self.use(e, session, statement, now)
            return ('within', e['id'])
        parent = self.by_id(p)
        if parent is None or not cut_less(target[0], target[1]):
            return ('miss',)
        heads = [h for h, _ in parent['pairs']]
        if any(compare(a, b) >= 0 for a, b in zip(heads, heads[1:])):
            return ('miss',)
        spans = [span(e['key']) for e in mine]
        if self.cheapest:
            chains = all_chains(spans, target)
            if not chains:
                return ('miss',)
            chain = min(chains, key=lambda c: (sum(len(mine[n]['pairs']) for n in c), len(c), c))
        else:
            chain, cut = [], target[0]
            while cut_less(cut, target[1]):
                able = [n for n, s in enumerate(spans) if holds(s, cut)]
                if not able:
                    return ('miss',)
                top = sorted(able, key=cmp_to_key(
                    lambda a, b: -1 if cut_less(spans[b][1], spans[a][1]) else
                    1 if cut_less(spans[a][1], spans[b][1]) else a - b))[0]
                chain.append(top)
                cut = spans[top][1]
        for n in chain:
            self.use(mine[n], session, statement, now)
        return ('across', [mine[n]['id'] for n in chain])

    def admit(self, who, now, key, value, work, present):
        session, statement = who
        for e in self.es:
            if e['key'] == key:
                self.pin(e, session)
                return ('there', e['id'])
        if key[0] == 'bind' and key[2] != present:
            return ('stale', present)
        missing = [p for p in self.parents(key) if self.by_id(p) is None]
        if missing:
            return ('orphan', missing[0])
        shape = self.shape(key)
        if self.kind == 'credit':
            if shape not in [s for s, _ in self.ledger]:
                self.ledger.append([shape, self.start])
            n = [s for s, _ in self.ledger].index(shape)
            if self.ledger[n][1] == 0:
                return ('nocredit', n + 1)
        new = dict(id=None, key=key, pairs=list(value.pairs()), work=work, reuses=0, others=0,
                   at=now, used=now, session=session, statement=statement, paid=False,
                   foreign=False, pins=[session], shape=shape)
        size = self.size(new)
        run, left = self.run_of(
            self.es, now, self.parents(key),
            lambda es: sum(map(self.size, es)) + size <= self.budget and len(es) + 1 <= 1024)
        if run is None:
            return ('noroom', sum(map(self.size, left)))
        for e in run:
            self.leaves(e)
        self.gone += len(run)
        self.last += 1
        new['id'] = self.last
        if self.kind == 'credit':
            self.ledger[[s for s, _ in self.ledger].index(shape)][1] -= 1
        self.es.append(new)
        return ('taken', new['id'], size, len(run))

    def end(self, session):
        for e in self.es:
            e['pins'] = [s for s in e['pins'] if s != session]

    def binds(self, e):
        if e['key'][0] == 'bind':
            return {(e['key'][1][0][1][1], e['key'][1][1][1][1])}
        return set().union(*(self.binds(self.by_id(p)) for p in self.parents(e['key'])))

    def write(self, now, table, columns, old_rows=None, added=None):
        """Returns the work of what is computed for the entries that come back."""
        old = {e['id']: e for e in self.es}
        touched = [e for e in self.es if any(t == table and (columns is None or c in columns)
                                             for t, c in self.binds(e))]
        ids = [e['id'] for e in touched]
        back = {}                       # old id -> the entry that comes back
        work = 0
        if added is not None:
            for e in touched:
                got = self.append_form(e, ids, back, old, old_rows, added)
                if got is None:
                    continue
                pairs, runs = got
                assert pairs[:len(e['pairs'])] == e['pairs'], 'not an extension'
                fresh = dict(e)
                self.last += 1
                op, args, version = e['key']
                fresh.update(id=self.last, pairs=pairs, pins=[], key=(
                    op, tuple(('id', back[a[1]]['id']) if a[0] == 'id' and a[1] in back else a
                              for a in args), now if op == 'bind' else version))
                back[e['id']] = fresh
                work += runs
        for e in touched:
            if e['id'] in back:
                self.es.remove(e)
                self.brought += 1
            else:
                self.leaves(e)
                self.dropped += 1
        self.es += sorted(back.values(), key=lambda e: e['id'])
        run, _ = self.run_of(self.es, now, [],
                             lambda es: sum(map(self.size, es)) <= self.budget)
        for e in run:
            self.leaves(e)
            self.gone += 1
        return work

    def append_form(self, e, ids, back, old, old_rows, added):
        """(the whole new pairs, the work on the deltas) or None."""
        op, args, _ = e['key']
        if op == 'bind':
            return list(added[args[1][1][1]].pairs()), 0

        def now_of(i):
            return back[i]['pairs'] if i in back else old[i]['pairs']

        def delta(i):
            return len(back[i]['pairs']) - len(old[i]['pairs'])

        def whole():
            v, _ = run_op(op, [Bat([h for h, _ in now_of(a[1])], [t for _, t in now_of(a[1])])
                               if a[0] == 'id' else a[1] for a in args])
            return list(v.pairs())

        ps = [a[1] for a in args if a[0] == 'id']
        came = [p in back for p in ps]
        if op in ('select', 'reverse', 'mirror', 'project', 'markT'):
            if not came[0]:
                return None
            pairs = whole()
            return pairs, delta(ps[0]) + len(pairs) - len(e['pairs'])
        if op in ('eq', 'ne', 'lt', 'le', 'gt', 'ge', 'and', 'or', 'not', 'isnil'):
            if not all(came) or len({len(old[p]['pairs']) for p in ps}) != 1:
                return None
            pairs = whole()
            return pairs, sum(delta(p) for p in ps) + len(pairs) - len(e['pairs'])
        if op != 'join':
            return None
        l, r = ps
        if l in back and r not in ids:
            pairs = whole()
            return pairs, delta(l) + len(now_of(r)) + len(pairs) - len(e['pairs'])
        if r in ids and old[r]['key'][0] == 'bind' and (l in back or l not in ids):
            if all(t[0] != 'oid' or t[1] < old_rows for _, t in old[l]['pairs']):
                pairs = whole()
                if l not in back:
                    return pairs, 0
                return pairs, delta(l) + len(now_of(r)) + len(pairs) - len(e['pairs'])
        return None

    def credit_list(self):
        return [c for _, c in self.ledger]
