"""SQL text: pieces, tokens, the refusals of reading, the tree.

Trees are tuples:
  Expr  ('lit', cell) | ('col', table or None, column) | ('arith', op, l, r)
        | ('agg', f, of or None)           op in + - *, f in COUNT SUM MIN MAX
  Cond  ('cmp', op, l, r) | ('between', of, low, high) | ('not', c)
        | ('and', l, r) | ('or', l, r) | ('isnull', e)   op in = <> < <= > >=
"""
import re
from collections import namedtuple

from .cells import NIL, Int, Text, Day, Refused, read_day, decimal, I64_MIN, I64_MAX

Column = namedtuple('Column', 'name kind width not_null default')
Create = namedtuple('Create', 'table columns')
Drop = namedtuple('Drop', 'table')
Alter = namedtuple('Alter', 'table column')
Insert = namedtuple('Insert', 'table columns rows')
Delete = namedtuple('Delete', 'table cond')
Update = namedtuple('Update', 'table sets cond')
Query = namedtuple('Query', 'distinct items froms cond groups having keys limit')
Explain = namedtuple('Explain', 'query')
Item = namedtuple('Item', 'expr alias')
FromItem = namedtuple('FromItem', 'table alias')
SortKey = namedtuple('SortKey', 'at ascending')   # at: int position, or ('col', t, c)

_SUPPORTED = '''ADD ALTER AND AS ASC BETWEEN BIGINT BY COLUMN COUNT CREATE DATE DEFAULT DELETE DESC
DISTINCT DROP EXPLAIN FROM GROUP HAVING IN INNER INSERT INT INTEGER INTO IS JOIN LIMIT MAX MIN
NOT NULL ON OR ORDER SELECT SET SUM TABLE TEXT UPDATE VALUES VARCHAR WHERE'''.split()
_UNSUPPORTED = '''ALL ANALYZE ANY AVG BEGIN BLOB BOOLEAN CALL CASE CAST CHAR CHARACTER
CHECK CLOB COALESCE COMMIT CONSTRAINT COPY CROSS DECIMAL DECLARE DOUBLE EXCEPT EXISTS
EXTRACT FALSE FETCH FLOAT FOREIGN FULL FUNCTION GRANT ILIKE INDEX INTERSECT INTERVAL LEFT
LIKE MERGE NATURAL NUMERIC OFFSET OUTER OVER PREPARE PRIMARY PROCEDURE REAL REFERENCES
REVOKE RIGHT ROLLBACK SAVEPOINT SCHEMA SEQUENCE SMALLINT START TEMPORARY TIME TIMESTAMP TINYINT
TRANSACTION TRIGGER TRUE TRUNCATE UNION UNIQUE USING VIEW WITH'''.split()


def supported_words():
    return set(_SUPPORTED)


def unsupported_words():
    return set(_UNSUPPORTED)


# ---------------------------------------------------------------- pieces

BLANKS = ' \t\r\n'


def _skip_comment(text, i):
    """The end of the comment that begins at i, or None where it isn't closed;
    i itself where no comment begins there."""
    if text.startswith('--', i):
        j = text.find('\n', i)
        return len(text) if j < 0 else j
    if text.startswith('/*', i):
        j = text.find('*/', i + 2)
        return None if j < 0 else j + 2
    return i


def split(script):
    """The pieces that are statements.  `;` is left out of the piece."""
    pieces = []
    start = i = 0
    holds = False

    def close(end):
        piece = script[start:end]
        if holds:
            pieces.append(piece)

    n = len(script)
    while i < n:
        c = script[i]
        if c == ';':
            close(i)
            i += 1
            start = i
            holds = False
            continue
        if c in BLANKS:
            i += 1
            continue
        j = _skip_comment(script, i)
        if j is None:                       # an unclosed /*
            i = n
            continue
        if j > i:
            i = j
            continue
        holds = True
        if c in '\'"':
            j = script.find(c, i + 1)
            i = n if j < 0 else j + 1
            continue
        i += 1
    close(n)
    return pieces


# ---------------------------------------------------------------- tokens

Token = namedtuple('Token', 'type value start end')
# types: word (upper case), name (content), string (content), digits, sym
_SYMBOLS = ('<=', '>=', '<>', '!=', '||', '(', ')', ',', '.', '*', '+', '-', '=', '<', '>',
            '/', '%')
_WORD = re.compile(r'[A-Za-z_][A-Za-z0-9_]*')
_DIGITS = re.compile(r'[0-9]+')


class _LexError(Exception):
    def __init__(self, found):
        super().__init__('lex')
        self.found = found


def lex(text):
    out = []
    i, n = 0, len(text)
    known = supported_words() | unsupported_words()
    while i < n:
        c = text[i]
        if c in BLANKS:
            i += 1
            continue
        j = _skip_comment(text, i)
        if j is None:
            raise _LexError(bool(out))
        if j > i:
            i = j
            continue
        if c in '\'"':
            j = i + 1
            content = []
            while True:
                k = text.find(c, j)
                if k < 0:
                    raise _LexError(bool(out))
                content.append(text[j:k])
                if text.startswith(c, k + 1):
                    content.append(c)
                    j = k + 2
                    continue
                break
            value = ''.join(content)
            if c == '"' and value == '':
                raise _LexError(bool(out))
            out.append(Token('string' if c == "'" else 'name', value, i, k + 1))
            i = k + 1
            continue
        m = _WORD.match(text, i)
        if m:
            w = m.group()
            if w.upper() in known:
                out.append(Token('word', w.upper(), i, m.end()))
            else:
                out.append(Token('name', w.lower(), i, m.end()))
            i = m.end()
            continue
        m = _DIGITS.match(text, i)
        if m:
            if m.end() < n and (text[m.end()].isascii() and text[m.end()].isalpha()
                                or text[m.end()] == '_'):
                raise _LexError(bool(out))
            out.append(Token('digits', m.group(), i, m.end()))
            i = m.end()
            continue
        for s in _SYMBOLS:
            if text.startswith(s, i):
                out.append(Token('sym', s, i, i + len(s)))
                i += len(s)
                break
        else:
            raise _LexError(bool(out))
    return out


# ---------------------------------------------------------------- words that no statement has

_TYPES = ('INT', 'INTEGER', 'BIGINT', 'TEXT', 'DATE')


def _refuse_words(tokens):
    unsupported = unsupported_words()
    first = tokens[0]
    starts = first.type == 'word' and first.value in ('SELECT', 'EXPLAIN', 'DELETE', 'UPDATE')

    def is_sym(i, s):
        return 0 <= i < len(tokens) and tokens[i].type == 'sym' and tokens[i].value == s

    def is_word(i, w):
        return 0 <= i < len(tokens) and tokens[i].type == 'word' and tokens[i].value == w

    def main_select(i):
        return is_word(i, 'SELECT') and (i == 0 or i == 1 and is_word(0, 'EXPLAIN'))

    def digits_beside(i):
        t = tokens[i]
        for j in (i - 1, i + 1):
            if 0 <= j < len(tokens) and tokens[j].type == 'digits':
                return True
        return False

    for i, t in enumerate(tokens):
        if t.type == 'word':
            if t.value in unsupported:
                raise Refused(2, t.value)
            if t.value == 'SELECT' and not main_select(i):
                raise Refused(2, 'SUBQUERY')
            if t.value == 'DISTINCT' and not main_select(i - 1):
                raise Refused(2, 'DISTINCT')
        elif t.type == 'sym':
            if t.value == '/':
                raise Refused(2, 'DIVISION')
            if t.value == '%':
                raise Refused(2, 'MODULO')
            if t.value == '||':
                raise Refused(2, 'CONCAT')
            if t.value == '.':
                if digits_beside(i):
                    raise Refused(2, 'DECIMAL')
                if is_sym(i + 1, '*'):
                    raise Refused(2, 'QUALIFIED STAR')
        elif t.type == 'name':
            if starts and is_sym(i + 1, '('):
                raise Refused(2, 'FUNCTION')


# ---------------------------------------------------------------- nesting, and the tree

def _nesting(tokens):
    """The greatest number of levels at some token."""
    most = 0
    open_levels = []        # 1 + length of the run before each open '('
    total = 0
    run = 0
    for t in tokens:
        most = max(most, total + run)
        if t.type == 'sym' and t.value == '(':
            open_levels.append(1 + run)
            total += 1 + run
            run = 0
        elif t.type == 'sym' and t.value == ')':
            if open_levels:
                total -= open_levels.pop()
            run = 0
        elif t.type == 'sym' and t.value == '-' or t.type == 'word' and t.value == 'NOT':
            run += 1
        else:
            run = 0
    return most


class _NoDerivation(Exception):
    pass


_COND_SYMS = ('=', '<>', '!=', '<', '<=', '>', '>=')
_COND_WORDS = ('AND', 'OR', 'NOT', 'BETWEEN', 'IN', 'IS')


class Parser:
    """Recursive descent over the tokens.  Numbers are kept as they are;
    ranges are looked at with the limits alone."""

    def __init__(self, tokens):
        self.t = tokens
        self.i = 0
        self.numbers = []       # values that fall under `literal`
        self.lengths = []       # VARCHAR lengths
        self.close = self._match_parens()
        self.marks = [0]        # prefix count of tokens that only a condition holds
        for t in tokens:
            hit = (t.type == 'sym' and t.value in _COND_SYMS
                   or t.type == 'word' and t.value in _COND_WORDS)
            self.marks.append(self.marks[-1] + hit)

    def _match_parens(self):
        close, stack = {}, []
        for i, t in enumerate(self.t):
            if t.type == 'sym' and t.value == '(':
                stack.append(i)
            elif t.type == 'sym' and t.value == ')' and stack:
                close[stack.pop()] = i
        return close

    # -- tests of the next tokens
    def at_word(self, *words):
        return self.i < len(self.t) and self.t[self.i].type == 'word' \
            and self.t[self.i].value in words

    def at_sym(self, *syms):
        return self.i < len(self.t) and self.t[self.i].type == 'sym' \
            and self.t[self.i].value in syms

    def at_type(self, type_):
        return self.i < len(self.t) and self.t[self.i].type == type_

    def take(self):
        if self.i >= len(self.t):
            raise _NoDerivation
        t = self.t[self.i]
        self.i += 1
        return t

    def word(self, *words):
        if not self.at_word(*words):
            raise _NoDerivation
        return self.take().value

    def sym(self, *syms):
        if not self.at_sym(*syms):
            raise _NoDerivation
        return self.take().value

    def opt_word(self, *words):
        if self.at_word(*words):
            return self.take().value
        return None

    def opt_sym(self, *syms):
        if self.at_sym(*syms):
            return self.take().value
        return None

    def name(self):
        if not self.at_type('name'):
            raise _NoDerivation
        return self.take().value

    def digits(self):
        if not self.at_type('digits'):
            raise _NoDerivation
        return decimal(self.take().value)

    def commas(self, part):
        out = [part()]
        while self.opt_sym(','):
            out.append(part())
        return out

    # -- statements
    def statement(self):
        if self.at_word('CREATE'):
            s = self.create()
        elif self.at_word('DROP'):
            self.take()
            self.word('TABLE')
            s = Drop(self.name())
        elif self.at_word('ALTER'):
            self.take()
            self.word('TABLE')
            table = self.name()
            self.word('ADD')
            self.opt_word('COLUMN')
            s = Alter(table, self.coldef())
        elif self.at_word('INSERT'):
            s = self.insert()
        elif self.at_word('DELETE'):
            self.take()
            self.word('FROM')
            s = Delete(self.name(), self.where())
        elif self.at_word('UPDATE'):
            self.take()
            table = self.name()
            self.word('SET')
            sets = self.commas(self.set_)
            s = Update(table, sets, self.where())
        elif self.at_word('EXPLAIN'):
            self.take()
            s = Explain(self.query())
        else:
            s = self.query()
        if self.i != len(self.t):
            raise _NoDerivation
        return s

    def create(self):
        self.take()
        self.word('TABLE')
        table = self.name()
        self.sym('(')
        columns = self.commas(self.coldef)
        self.sym(')')
        return Create(table, columns)

    def coldef(self):
        name = self.name()
        w = self.word('INT', 'INTEGER', 'BIGINT', 'TEXT', 'DATE', 'VARCHAR')
        width = 0
        if w == 'VARCHAR':
            self.sym('(')
            width = self.digits()
            self.lengths.append(width)
            self.sym(')')
        kind = {'TEXT': 'text', 'VARCHAR': 'text', 'DATE': 'day'}.get(w, 'int')
        not_null = self.not_null()
        default = NIL
        if self.opt_word('DEFAULT'):
            default = self.literal()
            if not not_null:
                not_null = self.not_null()
        return Column(name, kind, width, not_null, default)

    def not_null(self):
        if not self.opt_word('NOT'):
            return False
        self.word('NULL')
        return True

    def insert(self):
        self.take()
        self.word('INTO')
        table = self.name()
        columns = []
        if self.opt_sym('('):
            columns = self.commas(self.name)
            self.sym(')')
        self.word('VALUES')
        rows = self.commas(self.row)
        return Insert(table, columns, rows)

    def row(self):
        self.sym('(')
        out = self.commas(self.literal)
        self.sym(')')
        return out

    def set_(self):
        name = self.name()
        self.sym('=')
        return (name, self.expr())

    def where(self):
        return self.cond(False) if self.opt_word('WHERE') else None

    def query(self):
        self.word('SELECT')
        distinct = self.opt_word('DISTINCT') is not None
        items = [] if self.opt_sym('*') else self.commas(self.item)
        if not self.opt_word('FROM'):
            return Query(distinct, items, [], None, [], None, [], None)
        froms = [self.source()]
        conds = []
        while True:
            if self.opt_sym(','):
                froms.append(self.source())
            elif self.at_word('INNER', 'JOIN'):
                if self.opt_word('INNER'):
                    pass
                self.word('JOIN')
                froms.append(self.source())
                self.word('ON')
                conds.append(self.cond(False))
            else:
                break
        w = self.where()
        if w is not None:
            conds.append(w)
        cond = None
        for c in conds:
            cond = c if cond is None else ('and', cond, c)
        groups, having, keys, limit = [], None, [], None
        if self.opt_word('GROUP'):
            self.word('BY')
            groups = self.commas(self.column)
        if self.opt_word('HAVING'):
            having = self.cond(True)
        if self.opt_word('ORDER'):
            self.word('BY')
            keys = self.commas(self.key)
        if self.opt_word('LIMIT'):
            limit = self.digits()
            self.numbers.append(limit)
        return Query(distinct, items, froms, cond, groups, having, keys, limit)

    def alias(self):
        if self.opt_word('AS'):
            return self.name()
        return self.name() if self.at_type('name') else None

    def source(self):
        name = self.name()
        return FromItem(name, self.alias())

    def item(self):
        e = self.expr_or_agg()
        return Item(e, self.alias())

    def key(self):
        if self.at_type('digits'):
            at = self.digits()
            self.numbers.append(at)
        else:
            at = self.column()
        w = self.opt_word('ASC', 'DESC')
        return SortKey(at, w != 'DESC')

    # -- expressions
    def expr_or_agg(self):
        if self.at_word('COUNT', 'SUM', 'MIN', 'MAX'):
            f = self.take().value
            self.sym('(')
            if f == 'COUNT' and self.opt_sym('*'):
                of = None
            else:
                of = self.expr()
            self.sym(')')
            return ('agg', f, of)
        return self.expr()

    def expr(self):
        e = self.term()
        while self.at_sym('+', '-'):
            op = self.take().value
            e = ('arith', op, e, self.term())
        return e

    def term(self):
        e = self.factor()
        while self.opt_sym('*'):
            e = ('arith', '*', e, self.factor())
        return e

    def factor(self):
        if self.at_sym('('):
            self.take()
            e = self.expr()
            self.sym(')')
            return e
        if self.at_sym('-'):
            if self.i + 1 < len(self.t) and self.t[self.i + 1].type == 'digits':
                return ('lit', self.literal())
            self.take()
            return ('arith', '-', ('lit', Int(0)), self.factor())
        if self.at_type('name'):
            return self.column()
        return ('lit', self.literal())

    def literal(self):
        if self.at_sym('-'):
            self.take()
            value = -self.digits()
            self.numbers.append(value)
            return Int(value)
        if self.at_type('digits'):
            value = self.digits()
            self.numbers.append(value)
            return Int(value)
        if self.at_type('string'):
            return Text(self.take().value)
        if self.at_word('DATE'):
            self.take()
            if not self.at_type('string'):
                raise _NoDerivation
            day = read_day(self.take().value)
            if day is None:
                raise _NoDerivation
            return Day(day)
        if self.opt_word('NULL'):
            return NIL
        raise _NoDerivation

    def column(self):
        name = self.name()
        if self.opt_sym('.'):
            return ('col', name, self.name())
        return ('col', None, name)

    # -- conditions
    def cond(self, having):
        c = self.conj(having)
        while self.opt_word('OR'):
            c = ('or', c, self.conj(having))
        return c

    def conj(self, having):
        c = self.unit(having)
        while self.opt_word('AND'):
            c = ('and', c, self.unit(having))
        return c

    def unit(self, having):
        if self.opt_word('NOT'):
            return ('not', self.unit(having))
        if self.at_sym('('):
            end = self.close.get(self.i)
            if end is None:
                raise _NoDerivation
            if self.marks[end] > self.marks[self.i]:
                self.take()
                c = self.cond(having)
                self.sym(')')
                return c
        return self.test(having)

    def operand(self, having):
        return self.expr_or_agg() if having else self.expr()

    def test(self, having):
        left = self.operand(having)
        if self.at_sym(*_COND_SYMS):
            op = self.take().value
            if op == '!=':
                op = '<>'
            return ('cmp', op, left, self.operand(having))
        if self.opt_word('IS'):
            negated = self.opt_word('NOT') is not None
            self.word('NULL')
            c = ('isnull', left)
            return ('not', c) if negated else c
        negated = self.opt_word('NOT') is not None
        if self.opt_word('BETWEEN'):
            low = self.operand(having)
            self.word('AND')
            c = ('between', left, low, self.operand(having))
        else:
            self.word('IN')
            self.sym('(')
            c = None
            for m in self.commas(lambda: self.operand(having)):
                e = ('cmp', '=', left, m)
                c = e if c is None else ('or', c, e)
            self.sym(')')
        return ('not', c) if negated else c


# ---------------------------------------------------------------- what is left out, and limits

def cond_exprs(cond):
    """The operands of a condition's tests, from the left; no recursion."""
    out, stack = [], [cond] if cond is not None else []
    while stack:
        c = stack.pop()
        if c[0] == 'cmp':
            out += [c[2], c[3]]
        elif c[0] == 'between':
            out += [c[1], c[2], c[3]]
        elif c[0] == 'isnull':
            out.append(c[1])
        elif c[0] == 'not':
            stack.append(c[1])
        else:
            stack += [c[2], c[1]]
    return out


def cond_nodes(cond):
    n, stack = 0, [cond] if cond is not None else []
    while stack:
        c = stack.pop()
        n += 1
        if c[0] == 'not':
            stack.append(c[1])
        elif c[0] in ('and', 'or'):
            stack += [c[1], c[2]]
    return n


def expr_nodes(e):
    """Literals, columns and operators; an aggregate itself is none of them."""
    n, stack = 0, [e]
    while stack:
        x = stack.pop()
        if x[0] == 'agg':
            if x[2] is not None:
                stack.append(x[2])
            continue
        n += 1
        if x[0] == 'arith':
            stack += [x[2], x[3]]
    return n


def columns_of(e, inside=True):
    """The column references below e from the left; those inside an aggregate
    only where `inside`."""
    out, stack = [], [e]
    while stack:
        x = stack.pop()
        if x[0] == 'col':
            out.append(x)
        elif x[0] == 'arith':
            stack += [x[3], x[2]]
        elif x[0] == 'agg' and x[2] is not None and inside:
            stack.append(x[2])
    return out


def has_column(e):
    return bool(columns_of(e))


def has_agg(e):
    return e[0] == 'agg'


def conds_of(stmt):
    if isinstance(stmt, Explain):
        stmt = stmt.query
    if isinstance(stmt, Query):
        return [stmt.cond, stmt.having]
    if isinstance(stmt, (Delete, Update)):
        return [stmt.cond]
    return []


def _refuse_forms(stmt):
    q = stmt.query if isinstance(stmt, Explain) else stmt
    if isinstance(q, Query) and not q.froms:
        raise Refused(2, 'SELECT WITHOUT FROM')
    for cond in conds_of(stmt):
        for e in cond_exprs(cond):
            if e[0] == 'arith' and has_column(e):
                raise Refused(2, 'ARITHMETIC IN WHERE')


def exprs_of(stmt):
    """Every expression of the statement, each counted for itself."""
    q = stmt.query if isinstance(stmt, Explain) else stmt
    out = []
    if isinstance(q, Query):
        out += [it.expr for it in q.items]
    if isinstance(q, Update):
        out += [e for _, e in q.sets]
    for cond in conds_of(stmt):
        out += cond_exprs(cond)
    return out


def _refuse_limits(stmt, tokens, text, parser):
    def limit(which, broken):
        if broken:
            raise Refused(11, which)

    size = len(text[tokens[0].start:tokens[-1].end].encode('utf-8'))
    limit('statement', size > 65536)
    limit('name', any(len(t.value.encode('utf-8')) > 64 for t in tokens if t.type == 'name'))
    limit('literal', any(not I64_MIN <= v <= I64_MAX for v in parser.numbers))
    limit('length', any(not 1 <= v <= 65535 for v in parser.lengths))
    limit('columns', isinstance(stmt, Create) and len(stmt.columns) > 64)
    q = stmt.query if isinstance(stmt, Explain) else stmt
    if isinstance(q, Query):
        limit('tables', len(q.froms) > 4)
        limit('items', len(q.items) > 32)
        limit('groups', len(q.groups) > 8)
        limit('keys', len(q.keys) > 8)
    limit('conditions', any(cond_nodes(c) > 128 for c in conds_of(stmt)))
    limit('expression', any(expr_nodes(e) > 64 for e in exprs_of(stmt)))


def parse(text):
    """A statement, or Refused with 1, 2 or 11."""
    try:
        tokens = lex(text)
    except _LexError:
        raise Refused(1) from None
    if not tokens:
        raise Refused(1)
    _refuse_words(tokens)
    if _nesting(tokens) > 512:
        raise Refused(11, 'nesting')
    parser = Parser(tokens)
    try:
        stmt = parser.statement()
    except _NoDerivation:
        raise Refused(1) from None
    _refuse_forms(stmt)
    _refuse_limits(stmt, tokens, text, parser)
    return stmt
