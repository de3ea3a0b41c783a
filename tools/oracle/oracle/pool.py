"""The pool as a plain list of entries, scanned whole.

A key is (op, args, version); an argument is ('c', cell) or ('id', n)."""
from .cells import NIL, TRUE, Bit, Oid, order, U64
from .mal import Bat, FAULTING, FUNCTIONS, run_op
from .settings import CURRENT

PLACES = 1024

# ---------------------------------------------------------------- spans

LOW = (0,)
HIGH = (2,)


def before(v):
    return (1, order(v), 0, v)


def after(v):
    return (1, order(v), 1, v)


def rank(cut):
    """Where a cut is in the order of cuts, which begins with Low and ends
    with High; Before(v) is just ahead of After(v)."""
    return cut[:3]


def span_of(key):
    """(low, high) of a select whose last four arguments are constants."""
    op, args, _ = key
    if op != 'select' or any(a[0] != 'c' for a in args[1:]):
        return None
    low, high, li, hi = (a[1] for a in args[1:])
    lo = LOW if low == NIL else before(low) if li == TRUE else after(low)
    up = HIGH if high == NIL else after(high) if hi == TRUE else before(high)
    return lo, up


def less(a, b):
    return rank(a) < rank(b)


def at_most(a, b):
    return rank(a) <= rank(b)


def least(a, b):
    return a if at_most(a, b) else b


def within(a, b):
    return at_most(b[0], a[0]) and at_most(a[1], b[1])


def greedy(spans, target):
    """The greedy cutting: list of (place, (low, high)), or None.  `spans`
    is a list of spans in order of id."""
    if not less(target[0], target[1]):
        return None
    cut, out = target[0], []
    while less(cut, target[1]):
        best = None
        for n, (lo, up) in enumerate(spans):
            if at_most(lo, cut) and less(cut, up):
                if best is None or less(spans[best][1], up):
                    best = n
        if best is None:
            return None
        end = least(spans[best][1], target[1])
        out.append((best, (cut, end)))
        cut = end
    return out


def chosen(spans, rows, target):
    """(cost, chain) of the cheapest chain, or None.  Equal costs go by
    length, and equal lengths by the list of places."""
    if not less(target[0], target[1]):
        return None
    best = {}                   # rank of a cut -> (cost, length, places) from there

    stops = {rank(target[0])} | {rank(up) for _, up in spans
                                 if at_most(target[0], up) and less(up, target[1])}
    for c in sorted(stops, reverse=True):
        choice = None
        for n, (lo, up) in enumerate(spans):
            if rank(lo) <= c < rank(up):
                if rank(up) >= rank(target[1]):
                    tail = (0, 0, ())
                else:
                    tail = best.get(rank(up))
                if tail is None:
                    continue
                one = (rows[n] + tail[0], 1 + tail[1], (n,) + tail[2])
                if choice is None or one < choice:
                    choice = one
        best[c] = choice
    got = best[rank(target[0])]
    return None if got is None else (got[0], list(got[2]))


def cheapest(spans, rows, target):
    """The cutting along `chosen`, in the form of `greedy`."""
    got = chosen(spans, rows, target)
    if got is None:
        return None
    cut, out = target[0], []
    for n in got[1]:
        end = least(spans[n][1], target[1])
        out.append((n, (cut, end)))
        cut = end
    return out


def piece_bounds(span):
    """The constants of the select that returns the pairs of a span."""
    lo, up = span
    low, li = (NIL, True) if lo == LOW else (lo[3], lo[2] == 0)
    high, hi = (NIL, True) if up == HIGH else (up[3], up[2] == 1)
    return [low, high, Bit(li), Bit(hi)]


# ---------------------------------------------------------------- entries

class Entry:
    def __init__(self, id_, key, value, work, who, now, shape, binds):
        self.id = id_
        self.key = key
        self.value = value
        self.work = work
        self.reuses = 0
        self.others = 0
        self.admitted_at = now
        self.used_at = now
        self.who = who                  # (session, statement)
        self.paid_back = False
        self.foreign = False
        self.pins = set()               # sessions
        self.shape = shape              # see Pool.shape_of
        self.binds = binds              # set of (table, column) of its lineage

    @property
    def bytes(self):
        return 64 if self.key[0] == 'bind' else self.value.bytes()

    def parents(self):
        return [a[1] for a in self.key[1] if a[0] == 'id']


class Pool:
    def __init__(self, budget, evict='lru', admit='all', credits=3, weights=None):
        self.budget = budget
        self.evict = evict
        self.admit_kind = admit
        self.start_credit = credits
        self.weights = weights or {}
        self.entries = {}               # id -> Entry, in order of id
        self.next_id = 1
        self.shapes = {}                # shape -> number
        self.credits = [None]           # by number, from 1
        self._names = {}                # interned shapes
        self.count = dict.fromkeys(
            'looks exact within across miss taken there stale orphan nocredit noroom '
            'evicted dropped carried'.split(), 0)

    # -- small things
    def bytes(self):
        return sum(e.bytes for e in self.entries.values())

    def find(self, key):
        for e in self.entries.values():
            if e.key == key:
                return e
        return None

    def shape_of(self, key):
        """The lineage with its constants blanked out and versions dropped.
        Equal shapes have equal numbers here (not those of the ledger)."""
        op, args, _ = key
        if op == 'bind':
            s = ('bind', args[0][1][1], args[1][1][1])
        else:
            s = (op,) + tuple(self.entries[a[1]].shape if a[0] == 'id' else None for a in args)
        return self._names.setdefault(s, len(self._names))

    def binds_of(self, key):
        op, args, _ = key
        if op == 'bind':
            return frozenset([(args[0][1][1], args[1][1][1])])
        return frozenset().union(*(self.entries[a[1]].binds for a in args if a[0] == 'id'))

    def back(self, e):
        """The entry's credit is paid back, at most once."""
        e.paid_back = True
        if self.admit_kind == 'credit':
            self.credits[self.shapes[e.shape]] += 1

    def use(self, e, who, now):
        e.reuses += 1
        e.used_at = now
        if who != e.who:
            e.others += 1
        if who[0] != e.who[0]:
            e.foreign = True
        elif not e.paid_back:
            self.back(e)

    def leave(self, e):
        del self.entries[e.id]
        if e.foreign and not e.paid_back:
            self.back(e)

    def release(self, session):
        for e in self.entries.values():
            e.pins.discard(session)

    # -- scores: (top, bottom)
    def score(self, e, now):
        if self.evict == 'lru':
            return e.used_at, 1
        weight = 10 * e.reuses if e.others != 0 else 1
        top = e.work * weight
        if self.evict == 'benefit':
            return top, 1
        if self.evict == 'history':
            return top, max(1, now - e.admitted_at)
        return top * self.weights.get(e.key[0], 1), 1

    def next_to_go(self, now, gone=(), parents=()):
        """Of the entries that nobody pins, that have no child and are no
        parent of the new entry, the first by score, then id; or None."""
        has_child = {p for e in self.entries.values() if e.id not in gone for p in e.parents()}
        best = None
        for e in self.entries.values():
            if e.id in gone or e.pins or e.id in has_child or e.id in parents:
                continue
            s = self.score(e, now)
            if best is None or s[0] * best[0][1] < best[0][0] * s[1]:
                best = (s, e)
        return None if best is None else best[1]

    # -- Look
    def look(self, who, now, key):
        got = self._look(who, now, key)
        self.count['looks'] += 1
        self.count[got[0]] += 1
        return got

    def _look(self, who, now, key):
        parents = [a[1] for a in key[1] if a[0] == 'id']
        if 0 in parents:
            return ('miss',)
        e = self.find(key)
        if e is not None:
            self.use(e, who, now)
            e.pins.add(who[0])
            return ('exact', e.id, e.value)
        target = span_of(key)
        if target is None:
            return ('miss',)
        p = parents[0] if parents else None     # a select has a parent
        selects = [(e, span_of(e.key)) for e in self.entries.values()
                   if e.key[0] == 'select' and e.parents() == [p]
                   and span_of(e.key) is not None]
        fit = [e for e, s in selects if within(target, s)]
        if fit:
            e = min(fit, key=lambda e: (len(e.value), e.id))
            self.use(e, who, now)
            return ('within', e.id, e.value)
        if p in self.entries and self.entries[p].value.heads_rise():
            spans = [s for _, s in selects]
            if CURRENT.cover == 'cheapest':
                cutting = cheapest(spans, [len(e.value) for e, _ in selects], target)
            else:
                cutting = greedy(spans, target)
            if cutting is not None:
                pieces = [(selects[n][0], span) for n, span in cutting]
                for e, _ in pieces:
                    self.use(e, who, now)
                return ('across', [(e.id, span, e.value) for e, span in pieces])
        return ('miss',)

    # -- Admit
    def admit(self, who, now, key, value, work, present):
        got = self._admit(who, now, key, value, work, present)
        self.count[got[0]] += 1
        if got[0] == 'taken':
            self.count['evicted'] += got[3]
        return got

    def _admit(self, who, now, key, value, work, present):
        e = self.find(key)
        if e is not None:
            e.pins.add(who[0])
            return ('there', e.id)
        if key[0] == 'bind' and key[2] != present:
            return ('stale', present)
        parents = [a[1] for a in key[1] if a[0] == 'id']
        for p in parents:
            if p not in self.entries:
                return ('orphan', p)
        shape = self.shape_of(key)
        if self.admit_kind == 'credit':
            if shape not in self.shapes:
                self.shapes[shape] = len(self.credits)
                self.credits.append(self.start_credit)
            number = self.shapes[shape]
            if self.credits[number] == 0:
                return ('nocredit', number)
        size = 64 if key[0] == 'bind' else value.bytes()
        bytes_, places = self.bytes(), len(self.entries)
        gone = []
        while bytes_ + size > self.budget or places + 1 > PLACES:
            e = self.next_to_go(now, set(gone), parents)
            if e is None:
                return ('noroom', bytes_)
            gone.append(e.id)
            bytes_ -= e.bytes
            places -= 1
        for g in gone:
            self.leave(self.entries[g])
        e = Entry(self.next_id, key, value, work, who, now, shape, self.binds_of(key))
        self.next_id += 1
        e.pins.add(who[0])
        if self.admit_kind == 'credit':
            self.credits[self.shapes[shape]] -= 1
        self.entries[e.id] = e
        return ('taken', e.id, size, len(gone))

    # -- Write
    def write(self, now, table, columns, old_rows=None, added=None):
        """An accepted write on these columns of the table.  Under INSERT
        `added` has the new whole columns.  Returns the work of what is
        computed for the entries that come back."""
        touched = [e for e in self.entries.values()
                   if any(t == table and (columns is None or c in columns) for t, c in e.binds)]
        names = {e.id for e in touched}
        came = {}                       # old id -> (delta, entry's new value)
        work = 0
        if added is not None:
            for e in touched:
                form = self._delta(e, names, came, old_rows, added)
                if form is not None:
                    delta, w = form
                    work += w
                    came[e.id] = (delta, Bat(e.value.heads + delta.heads,
                                             e.value.tails + delta.tails))
        fresh = {}
        back = []
        for e in touched:
            if e.id in came:
                fresh[e.id] = self.next_id
                self.next_id += 1
                del self.entries[e.id]          # its leaving pays no credit
                back.append(e)
                self.count['carried'] += 1
            else:
                self.leave(e)
                self.count['dropped'] += 1
        for e in back:
            op, args, version = e.key
            args = tuple(('id', fresh.get(a[1], a[1])) if a[0] == 'id' else a for a in args)
            e.value = came[e.id][1]
            e.key = (op, args, now if op == 'bind' else version)
            e.id = fresh[e.id]
            e.pins = set()
            self.entries[e.id] = e
        while self.bytes() > self.budget:
            self.leave(self.next_to_go(now))
            self.count['evicted'] += 1
        return work

    def _delta(self, e, touched, came, old_rows, added):
        """(delta, work) of the append form of a touched entry, or None."""
        op, args, _ = e.key
        if op == 'bind':
            whole = added[args[1][1][1]]
            return Bat(whole.heads[old_rows:], whole.tails[old_rows:]), 0
        parents = e.parents()

        def delta_args():
            return [came[a[1]][0] if a[0] == 'id' else a[1] for a in args]

        if op in ('select', 'reverse', 'mirror', 'project'):
            return run_op(op, delta_args()) if parents[0] in came else None
        if op == 'markT':
            if parents[0] not in came:
                return None
            base = args[1][1]
            if base != NIL:
                base = Oid((base[1] + len(self.entries[parents[0]].value)) % U64)
            return run_op(op, [came[parents[0]][0], base])
        if op in FUNCTIONS and op not in FAULTING:
            if all(p in came for p in parents) \
                    and len({len(self.entries[p].value) for p in parents}) == 1:
                return run_op(op, delta_args())
            return None
        if op == 'join':
            l, r = args[0][1], args[1][1]
            if l in came and r not in touched:
                return run_op('join', [came[l][0], self.entries[r].value])
            right = self.entries[r]
            if r in touched and right.key[0] == 'bind' and (l in came or l not in touched):
                bound = order(Oid(old_rows))
                if all(order(t) < bound for t in self.entries[l].value.tails):
                    if l not in came:
                        return Bat([], []), 0
                    return run_op('join', [came[l][0], came[r][1]])
        return None
