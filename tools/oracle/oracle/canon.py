"""The canonical text of statements, as trees of sql.py."""
import re

from .cells import NIL, cell_text, day_text
from .sql import (Alter, Create, Delete, Drop, Explain, Insert, Update, supported_words, unsupported_words)

_BARE = re.compile(r'[a-z_][a-z0-9_]*')


def name_text(name):
    if _BARE.fullmatch(name) and name.upper() not in supported_words() | unsupported_words():
        return name
    return '"%s"' % name.replace('"', '""')


def literal_text(cell):
    kind, value = cell
    if kind == 'nil':
        return 'NULL'
    if kind == 'int':
        return str(value)
    if kind == 'text':
        return "'%s'" % value.replace("'", "''")
    if kind == 'day':
        return "DATE '%s'" % day_text(value)
    return cell_text(cell)


def type_text(column):
    if column.kind == 'text':
        return 'VARCHAR(%d)' % column.width if column.width else 'TEXT'
    return {'int': 'INT', 'day': 'DATE', 'huge': 'HUGE', 'bit': 'BIT', 'oid': 'OID'}[column.kind]


def coldef_text(column):
    s = '%s %s' % (name_text(column.name), type_text(column))
    if column.not_null:
        s += ' NOT NULL'
    if column.default != NIL:
        s += ' DEFAULT ' + literal_text(column.default)
    return s


def col_text(col):
    _, table, column = col
    if table is None:
        return name_text(column)
    return '%s.%s' % (name_text(table), name_text(column))


def expr_text(e):
    if e[0] == 'lit':
        return literal_text(e[1])
    if e[0] == 'col':
        return col_text(e)
    if e[0] == 'agg':
        return '%s(%s)' % (e[1], '*' if e[2] is None else expr_text(e[2]))
    return '%s %s %s' % (_arith_operand(e[2]), e[1], _arith_operand(e[3]))


def _arith_operand(e):
    return '(%s)' % expr_text(e) if e[0] == 'arith' else expr_text(e)


def cond_text(c):
    if c[0] == 'cmp':
        return '%s %s %s' % (_arith_operand(c[2]), c[1], _arith_operand(c[3]))
    if c[0] == 'between':
        return '%s BETWEEN %s AND %s' % tuple(_arith_operand(e) for e in c[1:])
    if c[0] == 'isnull':
        return '%s IS NULL' % _arith_operand(c[1])

    def operand(x):
        if c[0] == 'or' or x[0] in ('and', 'or', 'not'):
            return '(%s)' % cond_text(x)
        return cond_text(x)

    if c[0] == 'not':
        return 'NOT ' + operand(c[1])
    return '%s %s %s' % (operand(c[1]), c[0].upper(), operand(c[2]))


def query_text(q):
    s = 'SELECT '
    if q.distinct:
        s += 'DISTINCT '
    if not q.items:
        s += '*'
    else:
        s += ', '.join(expr_text(it.expr)
                       + ('' if it.alias is None else ' AS ' + name_text(it.alias))
                       for it in q.items)
    if q.froms:
        s += ' FROM ' + ', '.join(
            name_text(f.table) + ('' if f.alias is None else ' AS ' + name_text(f.alias))
            for f in q.froms)
    if q.cond is not None:
        s += ' WHERE ' + cond_text(q.cond)
    if q.groups:
        s += ' GROUP BY ' + ', '.join(col_text(c) for c in q.groups)
    if q.having is not None:
        s += ' HAVING ' + cond_text(q.having)
    if q.keys:
        s += ' ORDER BY ' + ', '.join(
            (str(k.at) if isinstance(k.at, int) else col_text(k.at))
            + ('' if k.ascending else ' DESC') for k in q.keys)
    if q.limit is not None:
        s += ' LIMIT %d' % q.limit
    return s


def print_stmt(stmt):
    """The canonical text, without the closing `;`."""
    if isinstance(stmt, Create):
        return 'CREATE TABLE %s (%s)' % (name_text(stmt.table),
                                         ', '.join(coldef_text(c) for c in stmt.columns))
    if isinstance(stmt, Drop):
        return 'DROP TABLE ' + name_text(stmt.table)
    if isinstance(stmt, Alter):
        return 'ALTER TABLE %s ADD COLUMN %s' % (name_text(stmt.table), coldef_text(stmt.column))
    if isinstance(stmt, Insert):
        s = 'INSERT INTO ' + name_text(stmt.table)
        if stmt.columns:
            s += ' (%s)' % ', '.join(name_text(c) for c in stmt.columns)
        return s + ' VALUES ' + ', '.join(
            '(%s)' % ', '.join(literal_text(c) for c in row) for row in stmt.rows)
    if isinstance(stmt, Delete):
        s = 'DELETE FROM ' + name_text(stmt.table)
        return s if stmt.cond is None else s + ' WHERE ' + cond_text(stmt.cond)
    if isinstance(stmt, Update):
        s = 'UPDATE %s SET %s' % (name_text(stmt.table), ', '.join(
            '%s = %s' % (name_text(n), expr_text(e)) for n, e in stmt.sets))
        return s if stmt.cond is None else s + ' WHERE ' + cond_text(stmt.cond)
    if isinstance(stmt, Explain):
        return 'EXPLAIN ' + query_text(stmt.query)
    return query_text(stmt)
