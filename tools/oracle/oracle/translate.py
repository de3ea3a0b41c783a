"""From statements to plans: compile_query and compile_write."""
from .cells import NIL, Bit, Oid, Text
from .check import is_grouped
from .sql import Delete, Update, has_column
from .mal import (Instr, Out, Plan, const, var, is_bat_op, KIND_WORD)

BASE = const(Oid(0))
YES = const(Bit(True))
NO = const(Bit(False))
NONE = const(NIL)
ARITH = {'+': 'plus', '-': 'minus', '*': 'times'}
COMPARE = {'=': 'eq', '<>': 'ne', '<': 'lt', '<=': 'le', '>': 'gt', '>=': 'ge'}
TURN = {'=': '=', '<': '>', '<=': '>=', '>': '<', '>=': '<=', '<>': '<>'}


def conjuncts(cond):
    """The parts between the top ANDs, in order."""
    if cond is None:
        return []
    if cond[0] == 'and':
        return conjuncts(cond[1]) + conjuncts(cond[2])
    return [cond]


def _has_null(e):
    if e[0] == 'lit':
        return e[1] == NIL
    if e[0] == 'arith':
        return _has_null(e[2]) or _has_null(e[3])
    return False


def _is_const(e):
    """A constant that doesn't hold the word NULL."""
    return e[0] != 'agg' and not has_column(e) and not _has_null(e)


class Translator:
    def __init__(self, typed):
        self.typed = typed
        self.instrs = []
        self.flags = []
        self.rows = []

    # -- emitting
    def emit(self, op, *args):
        instr = Instr(op, tuple(args))
        self.instrs.append(instr)
        self.flags.append(is_bat_op(instr, self.flags))
        return var(len(self.instrs) - 1)

    def is_bat(self, a):
        return a[0] == 'v' and self.flags[a[1]]

    def bind(self, j, c):
        s = self.typed.sources[j]
        k = s.columns[c]
        return self.emit('bind', const(Text(s.table)), const(Text(k.name)),
                         const(Text(KIND_WORD[k.kind])))

    # -- column conditions
    def leaf_column(self, c):
        """The place of the column of a range leaf or <> leaf, else None."""
        if c[0] == 'cmp':
            _, _, l, r = c
            if l[0] == 'col' and _is_const(r):
                return self.typed.place(l)
            if r[0] == 'col' and _is_const(l):
                return self.typed.place(r)
        elif c[0] == 'between':
            if c[1][0] == 'col' and _is_const(c[2]) and _is_const(c[3]):
                return self.typed.place(c[1])
        return None

    def is_range_leaf(self, c):
        return self.leaf_column(c) is not None and not (c[0] == 'cmp' and c[1] == '<>')

    def column_condition(self, c):
        """The place of its column where c is a column condition, else None."""
        if c[0] in ('cmp', 'between'):
            return self.leaf_column(c)
        if c[0] == 'not' and self.is_range_leaf(c[1]):
            return self.leaf_column(c[1])
        if c[0] == 'or':
            a, b = self.column_condition(c[1]), self.column_condition(c[2])
            return a if a is not None and a == b else None
        return None

    def constant(self, e):
        if e[0] == 'lit':
            return const(e[1])
        return self.emit(ARITH[e[1]], self.constant(e[2]), self.constant(e[3]))

    def select_leaf(self, c, at):
        b = self.bind(*at)
        if c[0] == 'between':
            low = self.constant(c[2])
            high = self.constant(c[3])
            return self.emit('select', b, low, high, YES, YES)
        _, op, l, r = c
        if l[0] == 'col':
            k = self.constant(r)
        else:
            op = TURN[op]
            k = self.constant(l)
        if op in ('=', '<>'):               # `=` for `<>`
            return self.emit('select', b, k, k, YES, YES)
        if op in ('<', '<='):
            return self.emit('select', b, NONE, k, YES, YES if op == '<=' else NO)
        return self.emit('select', b, k, NONE, YES if op == '>=' else NO, YES)

    def selected(self, c):
        at = self.column_condition(c)
        if c[0] == 'or':
            a = self.selected(c[1])
            b = self.selected(c[2])
            return self.emit('kunion', a, b)
        if self.is_range_leaf(c):
            return self.select_leaf(c, at)
        leaf = c[1] if c[0] == 'not' else c
        a = self.emit('select', self.bind(*at), NONE, NONE, YES, YES)
        b = self.select_leaf(leaf, at)
        return self.emit('kdifference', a, b)

    # -- the rows of one table that its column conditions keep
    def candidate(self, j, conds):
        if not conds:
            return self.emit('mirror', self.bind(j, 0))
        if self.is_range_leaf(conds[0]):
            c = self.emit('mirror', self.selected(conds[0]))
        else:
            m = self.emit('mirror', self.bind(j, 0))
            c = self.emit('semijoin', m, self.selected(conds[0]))
        for d in conds[1:]:
            c = self.emit('semijoin', c, self.selected(d))
        return c

    # -- the rows that are kept: candidates, joins, other conditions
    def choose(self, cond):
        parts = conjuncts(cond)
        places = [self.column_condition(c) for c in parts]
        used = [p is not None for p in places]
        n = len(self.typed.sources)
        own = [[c for c, p in zip(parts, places) if p is not None and p[0] == j]
               for j in range(n)]
        c1 = self.candidate(0, own[0])
        self.rows = [self.emit('reverse', self.emit('markT', c1, BASE))]
        for j in range(1, n):
            cj = self.candidate(j, own[j])
            link = None
            for k, c in enumerate(parts):
                if used[k]:
                    continue
                link = self.link(c, j)
                if link is not None:
                    used[k] = True
                    break
            if link is not None:
                mine, other = link
                b = self.bind(*mine)
                if own[j]:
                    b = self.emit('semijoin', b, cj)
                left = self.emit('join', self.rows[other[0]], self.bind(*other))
                J = self.emit('join', left, self.emit('reverse', b))
            else:
                J = self.emit('cross', self.rows[0], cj)
            new = self.emit('reverse', self.emit('markT', self.emit('reverse', J), BASE))
            N = self.emit('reverse', self.emit('markT', J, BASE))
            self.rows = [self.emit('join', N, r) for r in self.rows] + [new]
        for c, u in zip(parts, used):
            if u:
                continue
            V = self.cond_value(c, self.value)
            if not self.is_bat(V):
                V = self.emit('project', self.rows[0], V)
            N = self.narrowing(V)
            self.rows = [self.emit('join', N, r) for r in self.rows]

    def link(self, c, j):
        """(column of table j, column of an earlier table) of an `=`."""
        if c[0] != 'cmp' or c[1] != '=' or c[2][0] != 'col' or c[3][0] != 'col':
            return None
        a, b = self.typed.place(c[2]), self.typed.place(c[3])
        if a[0] == j and b[0] < j:
            return a, b
        if b[0] == j and a[0] < j:
            return b, a
        return None

    def narrowing(self, V):
        s = self.emit('select', V, YES, YES, YES, YES)
        return self.emit('reverse', self.emit('markT', s, BASE))

    # -- values
    def column_value(self, e):
        j, c = self.typed.place(e)
        return self.emit('join', self.rows[j], self.bind(j, c))

    def value(self, e):
        if e[0] == 'lit':
            return const(e[1])
        if e[0] == 'col':
            return self.column_value(e)
        a = self.value(e[2])
        b = self.value(e[3])
        return self.emit(ARITH[e[1]], a, b)

    def cond_value(self, c, leaf):
        """The value of a condition; `leaf` returns that of a test's operand."""
        if c[0] == 'cmp':
            a = leaf(c[2])
            b = leaf(c[3])
            return self.emit(COMPARE[c[1]], a, b)
        if c[0] == 'between':
            a = leaf(c[1])
            low = leaf(c[2])
            ge = self.emit('ge', a, low)
            b = leaf(c[1])
            high = leaf(c[3])
            le = self.emit('le', b, high)
            return self.emit('and', ge, le)
        if c[0] == 'isnull':
            return self.emit('isnil', leaf(c[1]))
        if c[0] == 'not':
            return self.emit('not', self.cond_value(c[1], leaf))
        a = self.cond_value(c[1], leaf)
        b = self.cond_value(c[2], leaf)
        return self.emit(c[0], a, b)

    # -- items, groups and the output
    def argument(self, e):
        """An aggregate's argument as a BAT."""
        v = self.value(e)
        return v if self.is_bat(v) else self.emit('project', self.rows[0], v)

    def whole_value(self, e):
        """Grouped without GROUP BY."""
        if e[0] != 'agg':
            return self.value(e)
        if e[2] is None:
            return self.emit('count', self.rows[0])
        return self.emit(e[1].lower(), self.argument(e[2]))

    def groups_of(self, bats):
        """(g, H) over BATs that have their values."""
        g = self.emit('new', bats[0])
        for b in bats[1:]:
            g = self.emit('derive', g, b)
        return g, self.emit('heads', g)

    def group_value(self, g, H):
        def of(e):
            if e[0] == 'agg':
                if e[2] is None:
                    return self.emit('subcount', self.rows[0], g)
                return self.emit('sub' + e[1].lower(), self.argument(e[2]), g)
            if has_column(e):
                return self.emit('join', H, self.value(e))
            return self.value(e)
        return of

    def query(self):
        q = self.typed.query()
        items = self.typed.items()
        self.choose(q.cond)
        keep = None
        if not is_grouped(q):
            cols = [self.value(e) for e in items]
            if not any(self.is_bat(c) for c in cols):
                cols[0] = self.emit('project', self.rows[0], cols[0])
        elif not q.groups:
            cols = [self.whole_value(e) for e in items]
            if q.having is not None:
                keep = self.cond_value(q.having, self.whole_value)
        else:
            g, H = self.groups_of([self.value(c) for c in q.groups])
            of = self.group_value(g, H)
            cols = [of(e) for e in items]
            if not any(self.is_bat(c) for c in cols):
                cols[0] = self.emit('project', H, cols[0])
            if q.having is not None:
                V = self.cond_value(q.having, of)
                if not self.is_bat(V):
                    V = self.emit('project', H, V)
                N = self.narrowing(V)
                cols = [self.emit('join', N, c) if self.is_bat(c) else c for c in cols]
        if q.distinct and not (is_grouped(q) and not q.groups):
            _, H = self.groups_of([c for c in cols if self.is_bat(c)])
            cols = [self.emit('join', H, c) if self.is_bat(c) else c for c in cols]
        return Plan(self.instrs, Out(cols, keep, self.typed.key_positions(), q.limit))


def compile_query(typed):
    return Translator(typed).query()


def compile_write(typed):
    """The plan of a DELETE or an UPDATE; None for other writes."""
    stmt = typed.stmt
    if not isinstance(stmt, (Delete, Update)):
        return None
    t = Translator(typed)
    t.choose(stmt.cond)
    cols = [t.rows[0]]
    if isinstance(stmt, Update):
        cols += [t.value(e) for _, e in stmt.sets]
    return Plan(t.instrs, Out(cols, None, [], None))
