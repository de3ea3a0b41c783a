"""The check of a statement over a schema: refusals 3 to 8, 12 and 14, in the order of the rules.

A schema is a dict: table name -> list of Column.  `check` returns a Typed."""
from collections import namedtuple

from .canon import name_text
from .cells import NIL, Refused
from .sql import Create, Drop, Alter, Insert, Update, Query, Explain, columns_of, cond_exprs

Source = namedtuple('Source', 'name table columns')   # name: the FROM name


class Typed:
    def __init__(self, stmt, sources):
        self.stmt = stmt
        self.sources = sources
        self._places = {}

    def query(self):
        return self.stmt.query if isinstance(self.stmt, Explain) else self.stmt

    def place(self, col):
        """The (source, column) of a reference; Refused 5 or 6."""
        at = self._places.get(col)
        if at is None:
            at = self._places[col] = place(self.sources, col)
        return at

    def kind(self, col):
        j, c = self.place(col)
        return self.sources[j].columns[c].kind

    def items(self):
        """The items with * written out, as expressions.  A column of * is a
        reference by position: ('col', ('#', j), c)."""
        q = self.query()
        if q.items:
            return [it.expr for it in q.items]
        return [('col', ('#', j), c) for j, s in enumerate(self.sources)
                for c in range(len(s.columns))]

    def key_positions(self):
        """ORDER BY as positions among the items, from 0."""
        q = self.query()
        return [(self.key_position(k), k.ascending) for k in q.keys]

    def key_position(self, key):
        q = self.query()
        items = self.items()
        if isinstance(key.at, int):
            if not 1 <= key.at <= len(items):
                raise Refused(5, str(key.at))
            return key.at - 1
        _, table, column = key.at
        if table is None:
            for n, it in enumerate(q.items):
                if it.alias == column:
                    return n
        at = self.place(key.at)
        for n, e in enumerate(items):
            if e[0] == 'col' and self.place(e) == at:
                return n
        raise Refused(5, name_text(column))


def place(sources, col):
    _, table, column = col
    if isinstance(table, tuple):
        return (table[1], column)
    found = [(j, c) for j, s in enumerate(sources) if table is None or s.name == table
             for c, k in enumerate(s.columns) if k.name == column]
    if not found:
        raise Refused(5, name_text(column))
    if len(found) > 1:
        raise Refused(6, name_text(column))
    return found[0]


def first_repeated(names):
    """The name of refusal 12, or None."""
    seen = set()
    for n in names:
        if n in seen:
            return n
        seen.add(n)
    return None


def fits(a, b):
    """Kinds that a test may compare, or that may be stored; `any` is NULL."""
    return a == 'any' or b == 'any' or a == b


def comparable(a, b):
    numbers = ('int', 'huge')
    return fits(a, b) or a in numbers and b in numbers


def literal_kind(cell):
    return 'any' if cell == NIL else cell[0]


def expr_kind(typed, e):
    """The kind of an expression; Refused 7."""
    if e[0] == 'lit':
        return literal_kind(e[1])
    if e[0] == 'col':
        return typed.kind(e)
    if e[0] == 'arith':
        for x in (e[2], e[3]):
            if not fits(expr_kind(typed, x), 'int'):
                raise Refused(7)
        return 'int'
    _, f, of = e
    if of is None:
        return 'int'
    kind = expr_kind(typed, of)
    if f == 'COUNT':
        return 'int'
    if f == 'SUM':
        if not fits(kind, 'int'):
            raise Refused(7)
        return 'huge'
    return kind


def check_cond_kinds(typed, cond):
    if cond is None:
        return
    if cond[0] == 'cmp':
        if not comparable(expr_kind(typed, cond[2]), expr_kind(typed, cond[3])):
            raise Refused(7)
    elif cond[0] == 'between':
        of, low, high = (expr_kind(typed, e) for e in cond[1:])
        if not (comparable(of, low) and comparable(of, high)):
            raise Refused(7)
    elif cond[0] == 'isnull':
        expr_kind(typed, cond[1])
    else:
        for c in cond[1:]:
            check_cond_kinds(typed, c)


def _refs_in_order(typed, exprs):
    for e in exprs:
        for col in columns_of(e):
            typed.place(col)


def is_grouped(q):
    from .sql import has_agg
    return bool(q.groups) or q.having is not None or any(has_agg(it.expr) for it in q.items)


def _check_query(stmt, schema):
    q = stmt.query if isinstance(stmt, Explain) else stmt
    for f in q.froms:
        if f.table not in schema:
            raise Refused(3, name_text(f.table))
    names = [f.table if f.alias is None else f.alias for f in q.froms]
    twice = first_repeated(names)
    if twice is not None:
        raise Refused(12, name_text(twice))
    typed = Typed(stmt, [Source(n, f.table, schema[f.table]) for n, f in zip(names, q.froms)])
    _refs_in_order(typed, [it.expr for it in q.items])
    _refs_in_order(typed, cond_exprs(q.cond))
    for c in q.groups:
        typed.place(c)
    _refs_in_order(typed, cond_exprs(q.having))
    for k in q.keys:
        typed.key_position(k)
    if is_grouped(q):
        grouped = {typed.place(c) for c in q.groups}
        for e in typed.items() + cond_exprs(q.having):
            for col in columns_of(e, inside=False):
                j, c = typed.place(col)
                if (j, c) not in grouped:
                    raise Refused(14, name_text(typed.sources[j].columns[c].name))
    for e in typed.items():
        expr_kind(typed, e)
    check_cond_kinds(typed, q.cond)
    check_cond_kinds(typed, q.having)
    return typed


def _default_fits(column):
    if not fits(literal_kind(column.default), column.kind):
        raise Refused(7)


def check(stmt, schema):
    if isinstance(stmt, (Query, Explain)):
        return _check_query(stmt, schema)
    if isinstance(stmt, Create):
        if stmt.table in schema:
            raise Refused(4, name_text(stmt.table))
        twice = first_repeated([c.name for c in stmt.columns])
        if twice is not None:
            raise Refused(12, name_text(twice))
        for c in stmt.columns:
            _default_fits(c)
        return Typed(stmt, [])
    if stmt.table not in schema:
        raise Refused(3, name_text(stmt.table))
    columns = schema[stmt.table]
    names = [c.name for c in columns]
    typed = Typed(stmt, [Source(stmt.table, stmt.table, columns)])
    if isinstance(stmt, Drop):
        return typed
    if isinstance(stmt, Alter):
        if stmt.column.name in names:
            raise Refused(12, name_text(stmt.column.name))
        _default_fits(stmt.column)
        return typed
    if isinstance(stmt, Insert):
        for n in stmt.columns:
            if n not in names:
                raise Refused(5, name_text(n))
        twice = first_repeated(stmt.columns)
        if twice is not None:
            raise Refused(12, name_text(twice))
        listed = stmt.columns or names
        if any(len(row) != len(listed) for row in stmt.rows):
            raise Refused(8)
        kinds = [columns[names.index(n)].kind for n in listed]
        for row in stmt.rows:
            for cell, kind in zip(row, kinds):
                if not fits(literal_kind(cell), kind):
                    raise Refused(7)
        return typed
    # DELETE and UPDATE
    sets = stmt.sets if isinstance(stmt, Update) else []
    for n, _ in sets:
        if n not in names:
            raise Refused(5, name_text(n))
    _refs_in_order(typed, [e for _, e in sets])
    _refs_in_order(typed, cond_exprs(stmt.cond))
    twice = first_repeated([n for n, _ in sets])
    if twice is not None:
        raise Refused(12, name_text(twice))
    for n, e in sets:
        if not fits(expr_kind(typed, e), columns[names.index(n)].kind):
            raise Refused(7)
    check_cond_kinds(typed, stmt.cond)
    return typed
