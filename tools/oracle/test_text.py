"""python3 test_text.py: tables made by hand of SQL and MAL texts and of the
limits, a script that is cut anywhere, small pools, and random broken texts."""
import os
import sys
import tempfile

sys.path.insert(0, os.path.dirname(os.path.abspath(__file__)))
import cases
from oracle import canon, engine, mal, sql
from oracle.cells import Refused
from randomsql import Gen
from selfcheck import tidy
from test_cases import run_case, sections

# text -> (number, word) or the canonical text
READS = [
    # no list of tokens
    ("SELECT @", (1, '')), ("SELECT 12a FROM t", (1, '')), ('SELECT "" FROM t', (1, '')),
    ("SELECT 'ab", (1, '')), ("SELECT a FROM t /* x", (1, '')), ("SELECT é FROM t", (1, '')),
    ("LEFT @", (1, '')), ("SELECT a | b FROM t", (1, '')),
    # the first token at which a rule applies
    ("FULL LEFT", (2, 'FULL')), ("SELECT a FROM t WHERE a IN (SELECT 1) UNION", (2, 'SUBQUERY')),
    ("SELECT a FROM t UNION SELECT 1", (2, 'UNION')), ("select COUNT(distinct a) from t",
                                                       (2, 'DISTINCT')),
    ("SELECT a / b % c FROM t", (2, 'DIVISION')), ("SELECT a % b / c FROM t", (2, 'MODULO')),
    ("SELECT a || b FROM t", (2, 'CONCAT')), ("SELECT 1.5 FROM t", (2, 'DECIMAL')),
    ("SELECT .5 FROM t", (2, 'DECIMAL')), ("SELECT t.* FROM t", (2, 'QUALIFIED STAR')),
    ("SELECT foo(a) FROM t", (2, 'FUNCTION')), ('DELETE FROM t WHERE "f"(a) = 1',
                                                (2, 'FUNCTION')),
    ("INSERT INTO t (a) VALUES (1)", "INSERT INTO t (a) VALUES (1)"),
    ("EXPLAIN EXPLAIN SELECT a FROM t", (2, 'SUBQUERY')), ("true", (2, 'TRUE')),
    ("SELECT a FROM t WHERE a LIKE 'x'", (2, 'LIKE')), ("SELECT CASE", (2, 'CASE')),
    ("DROP TABLE 1.5", (2, 'DECIMAL')),
    # no statement
    ("SELECT", (1, '')), ("SELECT a FROM", (1, '')), ("SELECT a FROM t WHERE", (1, '')),
    ("SELECT 1 WHERE 1 = 1", (1, '')), ("SELECT 1 LIMIT 3", (1, '')),
    ("INSERT INTO t VALUES (1 + 1)", (1, '')), ("INSERT INTO t VALUES ((1))", (1, '')),
    ("INSERT INTO t VALUES (- 1)", "INSERT INTO t VALUES (-1)"),
    ("INSERT INTO t VALUES (- - 1)", (1, '')), ("INSERT INTO t VALUES (+1)", (1, '')),
    ("SELECT DATE '1999-02-29' FROM t", (1, '')), ("SELECT DATE 'x' FROM t", (1, '')),
    ("SELECT DATE '0000-01-01' FROM t", (1, '')), ("SELECT DATE a FROM t", (1, '')),
    ("CREATE TABLE t ()", (1, '')), ("CREATE TABLE t (a INT NOT NULL NOT NULL)", (1, '')),
    ("CREATE TABLE t (a INT DEFAULT 1 NOT NULL DEFAULT 1)", (1, '')),
    ("SELECT a FROM t WHERE a", (1, '')), ("SELECT a FROM t WHERE (a = 1) = 1", (1, '')),
    ("SELECT a FROM t WHERE COUNT(*) = 1", (1, '')), ("SELECT COUNT(*) + 1 FROM t", (1, '')),
    ("SELECT a FROM t HAVING (COUNT(*)) > 1", (1, '')), ("SELECT SUM(*) FROM t", (1, '')),
    ("SELECT SUM(COUNT(a)) FROM t", (1, '')), ("SELECT a FROM t GROUP BY 1", (1, '')),
    ("SELECT a FROM t ORDER BY -1", (1, '')), ("SELECT a FROM t LIMIT -1", (1, '')),
    ("SELECT a FROM t ORDER BY a + 1", (1, '')), ("UPDATE t SET t.a = 1", (1, '')),
    ("SELECT a FROM t WHERE a IN ()", (1, '')), ("SELECT a FROM t JOIN u", (1, '')),
    ("SELECT a FROM t WHERE NOT", (1, '')), ("SELECT a FROM t WHERE a NOT = 1", (1, '')),
    ("SELECT add FROM t", (1, '')), ('SELECT "add" FROM t', 'SELECT "add" FROM t'),
    # what is left out, and limits
    ("SELECT 1", (2, 'SELECT WITHOUT FROM')), ("EXPLAIN SELECT *", (2, 'SELECT WITHOUT FROM')),
    ("SELECT a FROM t WHERE a + 1 < 2", (2, 'ARITHMETIC IN WHERE')),
    ("SELECT a FROM t WHERE 2 > -a", (2, 'ARITHMETIC IN WHERE')),
    ("SELECT a FROM t JOIN u ON t.a + 1 = u.a", (2, 'ARITHMETIC IN WHERE')),
    ("DELETE FROM t WHERE a * 2 = 4", (2, 'ARITHMETIC IN WHERE')),
    ("SELECT a FROM t GROUP BY a HAVING a + 1 > 2", (2, 'ARITHMETIC IN WHERE')),
    ("SELECT a FROM t GROUP BY a HAVING SUM(a + 1) > 2",
     "SELECT a FROM t GROUP BY a HAVING SUM(a + 1) > 2"),
    ("SELECT 99999999999999999999", (2, 'SELECT WITHOUT FROM')),
    ("SELECT a FROM t LIMIT 9223372036854775808", (11, 'literal')),
    ("SELECT a FROM t ORDER BY 9223372036854775808", (11, 'literal')),
    ("SELECT a FROM t LIMIT 9223372036854775807", "SELECT a FROM t LIMIT 9223372036854775807"),
    ("SELECT -9223372036854775808 FROM t", "SELECT -9223372036854775808 FROM t"),
    ("SELECT -(9223372036854775808) FROM t", (11, 'literal')),
    ("CREATE TABLE t (a VARCHAR(0))", (11, 'length')),
    ("CREATE TABLE t (a VARCHAR(65536))", (11, 'length')),
    ("CREATE TABLE t (a VARCHAR(99999999999999999999))", (11, 'length')),
    # canonical text
    ("create  table T (A int,b BigInt not null, c varchar(3), d date, e text)",
     "CREATE TABLE t (a INT, b INT NOT NULL, c VARCHAR(3), d DATE, e TEXT)"),
    ("CREATE TABLE t (a INT DEFAULT 1 NOT NULL, b TEXT DEFAULT NULL)",
     "CREATE TABLE t (a INT NOT NULL DEFAULT 1, b TEXT)"),
    ("ALTER TABLE t ADD c TEXT DEFAULT 'x' NOT NULL",
     "ALTER TABLE t ADD COLUMN c TEXT NOT NULL DEFAULT 'x'"),
    ('SELECT "A", "a", "sel""ect", "select" FROM "T"',
     'SELECT "A", a, "sel""ect", "select" FROM "T"'),
    ("SELECT a+b*c-d, (a+b)*c, -a, - 5, a - - 5, -(-a) FROM t x",
     "SELECT (a + (b * c)) - d, (a + b) * c, 0 - a, -5, a - -5, 0 - (0 - a) FROM t AS x"),
    ("SELECT DISTINCT t.a AS x, COUNT ( * ) y FROM t INNER JOIN u ON t.a=u.b, v WHERE a<5 AND "
     "b>6 OR NOT c BETWEEN 1 AND 2 GROUP BY t . a ORDER BY 1 ASC, x DESC LIMIT 007",
     "SELECT DISTINCT t.a AS x, COUNT(*) AS y FROM t, u, v WHERE t.a = u.b AND ((a < 5 AND b > 6)"
     " OR (NOT c BETWEEN 1 AND 2)) GROUP BY t.a ORDER BY 1, x DESC LIMIT 7"),
    ("DELETE FROM t WHERE a=1 AND b=2 AND c=3",
     "DELETE FROM t WHERE (a = 1 AND b = 2) AND c = 3"),
    ("DELETE FROM t WHERE a NOT IN (1,2,3)",
     "DELETE FROM t WHERE NOT (((a = 1) OR (a = 2)) OR (a = 3))"),
    ("DELETE FROM t WHERE a IN (1)", "DELETE FROM t WHERE a = 1"),
    ("DELETE FROM t WHERE a IS NOT NULL AND NOT NOT b != 3",
     "DELETE FROM t WHERE (NOT a IS NULL) AND (NOT (NOT b <> 3))"),
    ("DELETE FROM t WHERE a NOT BETWEEN 1 AND 2 AND s = 'it''s; -- x' -- ;\n",
     "DELETE FROM t WHERE (NOT a BETWEEN 1 AND 2) AND s = 'it''s; -- x'"),
    ("UPDATE t SET a=-a+1, s='x' WHERE DATE '1994-01-01' <= d",
     "UPDATE t SET a = (0 - a) + 1, s = 'x' WHERE DATE '1994-01-01' <= d"),
    ("SELECT/**/a--x\nFROM t", "SELECT a FROM t"),
    ("SELECT ((a)) FROM t WHERE ((a) = (1)) AND ((NULL IS NULL))",
     "SELECT a FROM t WHERE a = 1 AND NULL IS NULL"),
    ("SELECT - DATE '1994-01-01' FROM t", "SELECT 0 - DATE '1994-01-01' FROM t"),
]


def outcome(text):
    try:
        return canon.print_stmt(sql.parse(text))
    except Refused as r:
        return (r.no, r.word)


def sum_of(n):
    """An expression of n nodes (odd)."""
    return ' + '.join(['a'] * ((n + 1) // 2))


def conds(n, test='a = 1'):
    """A condition of n nodes (odd)."""
    return ' AND '.join([test] * ((n + 1) // 2))


LIMITS = [
    ('statement', "INSERT INTO t VALUES ('%s')" % ('x' * (65536 - 25)),
     "INSERT INTO t VALUES ('%s')" % ('x' * (65537 - 25))),
    ('name', 'DROP TABLE ' + 'n' * 64, 'DROP TABLE ' + 'n' * 65),
    ('name', 'DROP TABLE "%s"' % ('ä' * 32), 'DROP TABLE "%s"' % ('ä' * 33)),
    ('literal', 'INSERT INTO t VALUES (9223372036854775807)',
     'INSERT INTO t VALUES (9223372036854775808)'),
    ('literal', 'INSERT INTO t VALUES (-9223372036854775808)',
     'INSERT INTO t VALUES (-9223372036854775809)'),
    ('length', 'CREATE TABLE t (a VARCHAR(65535))', 'CREATE TABLE t (a VARCHAR(65536))'),
    ('columns', 'CREATE TABLE t (%s)' % ', '.join('c%d INT' % i for i in range(64)),
     'CREATE TABLE t (%s)' % ', '.join('c%d INT' % i for i in range(65))),
    ('tables', 'SELECT 1 FROM a, b, c, d', 'SELECT 1 FROM a, b, c, d, e'),
    ('items', 'SELECT %s FROM t' % ', '.join(['a'] * 32),
     'SELECT %s FROM t' % ', '.join(['a'] * 33)),
    ('groups', 'SELECT 1 FROM t GROUP BY ' + ', '.join(['a'] * 8),
     'SELECT 1 FROM t GROUP BY ' + ', '.join(['a'] * 9)),
    ('keys', 'SELECT 1 FROM t ORDER BY ' + ', '.join(['a'] * 8),
     'SELECT 1 FROM t ORDER BY ' + ', '.join(['a'] * 9)),
    ('conditions', 'SELECT 1 FROM t WHERE NOT ' + conds(127),
     'SELECT 1 FROM t WHERE ' + conds(129)),
    ('conditions', 'SELECT 1 FROM t JOIN u ON %s WHERE NOT %s' % (conds(63), conds(63)),
     'SELECT 1 FROM t JOIN u ON %s WHERE %s' % (conds(63), conds(65))),
    ('conditions', 'SELECT 1 FROM t HAVING NOT ' + conds(127, 'COUNT(*) = 1'),
     'SELECT 1 FROM t HAVING ' + conds(129, 'COUNT(*) = 1')),
    ('expression', 'SELECT %s FROM t' % sum_of(63), 'SELECT %s FROM t' % sum_of(65)),
    ('expression', 'SELECT SUM(%s) FROM t' % sum_of(63), 'SELECT SUM(%s) FROM t' % sum_of(65)),
    ('nesting', 'SELECT %s1%s FROM t' % ('(' * 512, ')' * 512),
     'SELECT %s1%s FROM t' % ('(' * 513, ')' * 513)),
    ('nesting', 'SELECT 1 FROM t WHERE %s1%s = 1' % ('(' * 512, ')' * 512),
     'SELECT 1 FROM t WHERE %s1%s = 1' % ('NOT (' * 256 + '(', ')' * 257)),
]

# MAL text -> 'ok', 'NoBlock', word of UnknownOp, or (plan error, instruction)
B = 'X := sql.bind("t", "a", "int"); '


def block(body, out='sql.output(X);'):
    return 'function user.f():void; %s%s end user.f;' % (body, out)


BLOCKS = [
    (block(B), 'ok'), (block('# c\n' + B), 'ok'),
    (block(B).replace('(', ' ( ').replace('.', ' . ').replace(';', ' ; '), 'ok'),
    (block(B + 'Y := calc.eq(5:hge, -5:hge);', 'sql.keep(Y); sql.output(X);'), 'ok'),
    (block(B + 'Y := calc.eq("1994-01-01":date, nil);'), 'ok'),
    (block(B + 'Y := calc.eq("1994-02-30":date, nil);'), 'NoBlock'),
    (block(B + 'Y := calc.eq("a\\\\\\"\\n", "\\x");'), 'NoBlock'),
    (block(B + 'Y := calc.eq("a\\\\\\"\\n", "b\nc");'), 'NoBlock'),
    (block(B + 'Y := calc.eq("a\\\\\\"\\n", "b");'), 'ok'),
    (block(B + B), 'NoBlock'), (block(B, 'sql.output(X)'), 'NoBlock'),
    (block(B).replace('end user.f', 'end user.g'), 'NoBlock'),
    (block(B).replace('function user', 'function admin'), 'NoBlock'),
    (block(B) + ' x', 'NoBlock'), ('', 'NoBlock'),
    (block(B + 'Y := calc.plus(9223372036854775808, 1);'), 'NoBlock'),
    (block(B + 'Y := algebra.markT(X, 18446744073709551615@0);'), 'ok'),
    (block(B + 'Y := algebra.markT(X, 18446744073709551616@0);'), 'NoBlock'),
    (block(B + 'Y := algebra.markT(X, 1@1);'), 'NoBlock'),
    (block(B, 'sql.order(1, true); sql.order(1, false); sql.limit(0); sql.output(X);'), 'ok'),
    (block(B, 'sql.limit(0); sql.order(1, true); sql.output(X);'), 'NoBlock'),
    (block(B, 'sql.order(0, true); sql.output(X);'), 'NoBlock'),
    (block(B, 'sql.order(4294967296, true); sql.output(X);'), ('WrongCount', 1)),
    (block(B, 'sql.order(4294967297, true); sql.output(X);'), 'NoBlock'),
    (block(B, 'sql.limit(18446744073709551615); sql.output(X);'), 'ok'),
    (block(B, 'sql.limit(18446744073709551616); sql.output(X);'), 'NoBlock'),
    (block(B + 'Y := foo.bar(Z); W := a.b();'), 'foo.bar'),
    (block(B + 'Y := aggr.select(X);'), 'aggr.select'),
    (block(B + 'Y := calc.plus(X, 1); Z := batcalc.plus(1, 1);'), 'ok'),
    (block(B + 'Y := algebra.reverse(Z); Z := foo(X);'), 'NoBlock'),
    (block('Y := algebra.reverse(X); ' + B), ('UnknownVar', 0)),
    (block(B + 'Y := algebra.reverse(X, Q);'), ('UnknownVar', 1)),
    (block(B + 'Y := algebra.reverse(X, X);'), ('WrongCount', 1)),
    (block(B + 'Y := algebra.reverse(5);'), ('KindsDiffer', 1)),
    (block(B + 'Y := algebra.reverse(nil);'), ('KindsDiffer', 1)),
    (block('X := sql.bind("t", nil, "int");'), ('KindsDiffer', 0)),
    (block('X := sql.bind("t", "a", "oid");'), ('KindsDiffer', 0)),
    (block(B + 'Y := algebra.join(X, X);'), ('KindsDiffer', 1)),
    (block(B + 'Y := algebra.select(X, "a", nil, true, true);'), ('KindsDiffer', 1)),
    (block(B + 'Y := algebra.select(X, nil, 1:hge, true, true);'), ('KindsDiffer', 1)),
    (block(B + 'Y := algebra.select(X, nil, 1, nil, nil);'), 'ok'),
    (block(B + 'Y := algebra.markT(X, 0);'), ('KindsDiffer', 1)),
    (block(B + 'Y := aggr.sum(X); Z := calc.lt(Y, 3);', 'sql.keep(Z); sql.output(X);'), 'ok'),
    (block(B, 'sql.keep(X); sql.output(X);'), ('KindsDiffer', 1)),
    (block(B, 'sql.keep(nil); sql.output(X);'), 'ok'),
    (block(B, 'sql.keep(Q); sql.output(X);'), ('UnknownVar', 1)),
    (block(B, 'sql.keep(Q);'), ('NoOutput', 0)), (block(B, ''), ('NoOutput', 0)),
]


def mal_outcome(text):
    try:
        p = mal.parse_mal(text)
    except mal.NoBlock:
        return 'NoBlock'
    except mal.UnknownOp as e:
        return e.args[0]
    except mal.PlanError as e:
        return (e.kind, e.at)
    assert mal.parse_mal(mal.print_mal(p)) == p
    return 'ok'


WORDS = ['SELECT', 'FROM', 'WHERE', 'a', 't', '(', ')', ',', '.', '*', '+', '-', '=', '<', '<>',
         '5', "'x'", 'NOT', 'AND', 'OR', 'IN', 'BETWEEN', 'NULL', 'IS', 'COUNT', 'SUM', 'GROUP',
         'BY', 'HAVING', 'ORDER', 'LIMIT', 'DISTINCT', 'DATE', "'1994-01-01'", '"Q"', 'AS',
         'JOIN', 'ON', ';', '--', '/*', '*/', "'", '"', '@', '9223372036854775808', 'EXPLAIN',
         'INSERT', 'INTO', 'VALUES', 'UPDATE', 'SET', 'DELETE', '/', '%', '||', 'LEFT']


def fuzz(seed):
    g = Gen(seed)
    r = g.r
    g.create()
    text = r.choice([g.query, g.query, g.write])()
    tokens = sql.lex(text)
    parts = [text[t.start:t.end] for t in tokens]
    for _ in range(r.randint(1, 4)):
        at = r.randrange(len(parts) + 1)
        x = r.random()
        if x < 0.4:
            parts.insert(at, r.choice(WORDS))
        elif x < 0.7 and parts:
            del parts[min(at, len(parts) - 1)]
        elif parts:
            parts[min(at, len(parts) - 1)] = r.choice(WORDS)
    text = ' '.join(parts)
    for piece in sql.split(text):
        try:
            stmt = sql.parse(piece)
        except Refused as e:
            assert e.no in (1, 2, 11), piece
            continue
        printed = canon.print_stmt(stmt)
        assert tidy(sql.parse(printed)) == tidy(stmt), piece


def main():
    bad = 0

    def need(ok, *what):
        nonlocal bad
        if not ok:
            bad += 1
            print(*what)

    for text, want in READS:
        need(outcome(text) == want, repr(text), outcome(text), 'not', want)
    for which, at, past in LIMITS:
        need(outcome(at)[0] != 11, 'limit', which, outcome(at))
        need(outcome(past) == (11, which), 'past limit', which, outcome(past))
    for text, want in BLOCKS:
        need(mal_outcome(text) == want, repr(text), mal_outcome(text), 'not', want)
    need(len(mal.blocks(block(B) + '# end user.f;\n' + block(B) + ' x')) == 3, 'blocks')
    need(mal.blocks(block(B + 'Y := calc.eq("end user.f;", nil);'))
         == [block(B + 'Y := calc.eq("end user.f;", nil);')], 'block with a text')
    # a script that is cut anywhere
    script = cases.LINEITEM
    ends = [i for i, c in enumerate(script) if c == ';']
    full = engine.replay_sessions(['a.sql'], [sql.split(script)], [], engine.Options())
    whole = full.transcripts[0]
    for n in range(0, len(script) + 1, 7):
        got = engine.replay_sessions(['a.sql'], [sql.split(script[:n])], [], engine.Options())
        m = sum(e < n for e in ends)
        need(got.transcripts[0][:m] == whole[:m], 'cut', n)
        need(len(got.transcripts[0]) in (m, m + 1), 'cut', n)
    # small pools: whatever the budget, the same replies
    for case in cases.CASES:
        if case.words[0] != 'replay' or 'pool' not in case.want:
            continue
        with tempfile.TemporaryDirectory() as d:
            want = sections(run_case(case, d)[2])
            words = case.words
            for budget in ('0', '64'):
                mine = [w for i, w in enumerate(words)
                        if w != '--budget' and words[i - 1] != '--budget']
                case.words = [mine[0], '--budget', budget] + mine[1:]
                need(sections(run_case(case, d)[2]) == want, 'small pool', case.shows)
            case.words = words
    for seed in range(6000):
        fuzz(seed)
    print('%d texts, %d limits, %d blocks, %d wrong' % (len(READS), len(LIMITS), len(BLOCKS),
                                                        bad))
    return 1 if bad else 0


if __name__ == '__main__':
    sys.exit(main())
