"""Worked cases as data: scripts with the outputs that the rules ask for, found by hand.

A Case has the words of the program (file names are keys of `files`), the
files, and what is wanted:
  full       the whole standard output
  head       the output up to the pool section
  printed    {(session, k): reply text after "k "}
  answers    {session: [records of its 1st rows reply, ..]}
  history    the history's number; `last` its last line
  pool       every pool line that isn't 0
  status     (status, at), nothing written
  check      a function of the output, for cases that ask for more than bytes
"""
class Case:
    def __init__(self, shows, words, files, **want):
        self.shows = shows
        self.words = words
        self.files = files
        self.want = want


T = 'CREATE TABLE t (a INT);'
FORM = ' SELECT a FROM t WHERE %s;'


def t_rows(*cells):
    return '%s INSERT INTO t VALUES %s;' % (T, ', '.join('(%d)' % c for c in cells))


def forms(*conditions):
    return ''.join(FORM % c for c in conditions)


CASES = []


def one(shows, script, options=(), schedule='', **want):
    """A case under replay with one script a.sql."""
    CASES.append(Case(shows, ['replay', *options, 'schedule', 'a.sql'],
                      {'a.sql': script, 'schedule': schedule}, **want))


def lines(*numbers):
    return ''.join('%d\n' % n for n in numbers)


def pool(text):
    """'entries 6, bytes 512' as a dict."""
    return {p.split()[0]: int(p.split()[1]) for p in text.split(',')}


NAMES = ('entries bytes peak looks exact within across miss taken there stale orphan nocredit '
         'noroom evicted dropped carried work events').split()


def pool_section(**given):
    return 'pool\n' + ''.join('%s %d\n' % (n, given.get(n, 0)) for n in NAMES)


# -- the smallest runs
one('an empty script', '',
    full='session 1 a.sql\nhistory 0\n' + pool_section())

QUERY = ' SELECT a FROM t WHERE a BETWEEN 2 AND 3;'
SMALL = t_rows(3, 1, 2) + QUERY
SMALL_HEAD = '''session 1 a.sql
1 ok
2 ok 3
3 rows 2
2
3
history 2
1 1 1 CREATE TABLE t (a INT);
2 1 2 INSERT INTO t VALUES (3), (1), (2);
'''
SMALL_POOL = 'entries 6, bytes 512, peak 512, looks 6, miss 6, taken 6, work 27, events 16'
one('one query from bytes to bytes', SMALL, head=SMALL_HEAD,
    pool=pool(SMALL_POOL))
one('EXPLAIN prints the optimised plan',
    t_rows(3, 1, 2) + ' EXPLAIN SELECT a FROM t WHERE a BETWEEN 2 AND 3;',
    printed={(1, 3): '''plan 9
function user.main():void;
    X_1 := sql.bind("t", "a", "int");
    X_2 := algebra.select(X_1, 2, 3, true, true);
    X_3 := algebra.mirror(X_2);
    X_4 := algebra.markT(X_3, 0@0);
    X_5 := algebra.reverse(X_4);
    X_6 := algebra.join(X_5, X_1);
    sql.output(X_6);
end user.main;
'''}, pool=pool('events 4'))

# -- cells
one('aggregates of an empty table', T + ' SELECT SUM(a), MIN(a), COUNT(*) FROM t;', printed={(1, 2): 'rows 1\n\\N,\\N,0\n'})
one('text cells: backslashes doubled, the empty text, Nil',
    "CREATE TABLE t (s TEXT, k INT); INSERT INTO t VALUES ('\\N', 1), ('', 2); "
    "SELECT s, k FROM t; SELECT MIN(s), COUNT(*) FROM t WHERE k > 5;",
    printed={(1, 3): 'rows 2\n,2\n\\\\N,1\n', (1, 4): 'rows 1\n\\N,0\n'})
one('an operator without a column overflows before any row',
    T + ' SELECT a + (9223372036854775807 + 1) FROM t;',
    printed={(1, 2): 'refused 10 overflow\n'})
one('an operator with a column overflows for kept rows alone',
    T + ' INSERT INTO t VALUES (3037000500), (2); SELECT a * a FROM t WHERE a < 10; '
    'SELECT a * a FROM t;',
    printed={(1, 3): 'rows 1\n4\n', (1, 4): 'refused 10 overflow\n'})
one('the ends of the 64-bit range',
    T + ' INSERT INTO t VALUES (-9223372036854775808); '
    'INSERT INTO t VALUES (9223372036854775808); SELECT -a FROM t;',
    printed={(1, 2): 'ok 1\n', (1, 3): 'refused 11 limit literal\n',
             (1, 4): 'refused 10 overflow\n'})

# -- ranges
one('spans < 5 and > 5 do not cover 4 to 6',
    t_rows(4, 5, 6) + forms('a < 5', 'a > 5', 'a BETWEEN 4 AND 6'),
    answers={1: [['4'], ['6'], ['4', '5', '6']]},
    pool=pool('entries 16, bytes 1224, peak 1224, looks 18, exact 2, miss 16, taken 16, '
              'work 66, events 42'))
one('a selection merged from two pieces',
    t_rows(5, 1, 8, 5, 9, 3) + forms('a BETWEEN 1 AND 6', 'a BETWEEN 4 AND 9',
                                     'a BETWEEN 2 AND 8'),
    printed={(1, 5): 'rows 4\n3\n5\n5\n8\n'},
    pool=pool('entries 16, bytes 1792, peak 1792, looks 18, exact 2, across 1, miss 15, '
              'taken 16, work 156, events 42'))
one('a selection within another', t_rows(1, 4, 6) + forms('a < 5', 'a < 3'), answers={1: [['1', '4'], ['1']]},
    pool=pool('entries 11, bytes 824, peak 824, looks 12, exact 1, within 1, miss 10, taken 11, '
              'work 41, events 29'))


def two(shows, a, b, schedule='', options=(), **want):
    CASES.append(Case(shows, ['replay', *options, 'schedule', 'a.sql', 'b.sql'],
                      {'a.sql': a, 'b.sql': b, 'schedule': schedule}, **want))


# -- results that others use, and writes
two('a second session finds every result', SMALL, QUERY,
    answers={1: [['2', '3']], 2: [['2', '3']]},
    pool=pool('entries 6, bytes 512, peak 512, looks 12, exact 6, miss 6, taken 6, work 27, '
              'events 24'))
two('an admission finds its key there', SMALL, QUERY, schedule=lines(1, 1, 1, 1, 2, 2),
    answers={1: [['2', '3']], 2: [['2', '3']]},
    pool=pool('entries 6, bytes 512, peak 512, looks 12, exact 5, miss 7, taken 6, there 1, '
              'work 30, events 25'))
READER = T + ' INSERT INTO t VALUES (1), (2); SELECT a FROM t WHERE a < 5;'
WRITER = 'INSERT INTO t VALUES (3);'
two('a carried bind has a fresh id, so the running query finds orphans', READER, WRITER,
    schedule=lines(1, 1, 1, 1, 1, 2), answers={1: [['1', '2']]}, history=3,
    last='3 2 1 INSERT INTO t VALUES (3);',
    pool=pool('entries 1, bytes 64, peak 64, looks 6, miss 6, taken 1, orphan 5, carried 1, '
              'work 24, events 17'))
two('a bind of an old version is stale', READER, WRITER, schedule=lines(1, 1, 1, 2),
    answers={1: [['1', '2']]},
    pool=pool('looks 6, miss 6, stale 1, orphan 5, work 24, events 17'))
one('DROP and CREATE give the table a new version',
    T + ' INSERT INTO t VALUES (1); SELECT a FROM t WHERE a < 5; DROP TABLE t; ' + T
    + ' INSERT INTO t VALUES (2); SELECT a FROM t WHERE a < 5;',
    answers={1: [['1'], ['2']]},
    pool=pool('entries 6, bytes 424, peak 424, looks 12, miss 12, taken 12, dropped 6, work 24, '
              'events 33'))
one('INSERT carries the six entries',
    SMALL + ' INSERT INTO t VALUES (2);' + QUERY,
    printed={(1, 5): 'rows 3\n2\n2\n3\n'},
    pool=pool('entries 6, bytes 576, peak 576, looks 12, exact 6, miss 6, taken 6, carried 6, '
              'work 41, events 25'))

# -- eviction, credits and budgets
THREE_TABLES = ('CREATE TABLE u (a INT); CREATE TABLE v (a INT); CREATE TABLE w (a INT); '
         'INSERT INTO u VALUES (1), (2); INSERT INTO v VALUES (1); INSERT INTO w VALUES (1); '
         'SELECT COUNT(*) FROM u; SELECT COUNT(*) FROM v; SELECT COUNT(*) FROM w; '
         'SELECT COUNT(*) FROM u;')
THREE_ANSWERS = {1: [['2'], ['1'], ['1'], ['2']]}
LRU_POOL = pool('entries 8, bytes 584, peak 584, looks 16, miss 16, taken 16, evicted 8, work 48, '
             'events 46')
BENEFIT_POOL = pool('entries 8, bytes 584, peak 584, looks 16, exact 4, miss 12, taken 12, '
                 'evicted 4, work 34, events 42')
one('eviction by least recent use', THREE_TABLES,
    options=('--budget', '584', '--evict', 'lru'), answers=THREE_ANSWERS, pool=LRU_POOL)
one('eviction by benefit', THREE_TABLES,
    options=('--budget', '584', '--evict', 'benefit'), answers=THREE_ANSWERS, pool=BENEFIT_POOL)
one('one credit per shape',
    t_rows(4, 6) + forms('a < 5', 'a > 5', 'a < 5', 'a > 5'),
    options=('--admit', 'credit', '--credits', '1'),
    answers={1: [['4'], ['6'], ['4'], ['6']]},
    pool=pool('entries 11, bytes 784, peak 784, looks 24, exact 8, miss 16, taken 11, orphan 4, '
              'nocredit 1, work 41, events 50'))
one('a budget of 0 bytes', SMALL, options=('--budget', '0'), head=SMALL_HEAD,
    pool=pool('looks 6, miss 6, orphan 5, noroom 1, work 27, events 16'))
one('a budget for the bind alone', SMALL, options=('--budget', '64'), head=SMALL_HEAD,
    pool=pool('entries 1, bytes 64, peak 64, looks 6, miss 6, taken 1, orphan 4, noroom 1, '
              'work 27, events 16'))

# -- SQL text, and refusals
one('an unsupported word leaves the session running',
    T + ' INSERT INTO t VALUES (1); SELECT t.a FROM t LEFT JOIN u ON t.a = u.a; '
    'INSERT INTO t VALUES (2);',
    printed={(1, 3): 'refused 2 unsupported LEFT\n', (1, 4): 'ok 1\n'}, history=3)
one('an unclosed string', T + " INSERT INTO t VALUES (1); INSERT INTO t VALUES ('ab",
    printed={(1, 1): 'ok\n', (1, 2): 'ok 1\n', (1, 3): 'refused 1 syntax\n'})
one('refusals of the check and of the rows',
    "CREATE TABLE p (s VARCHAR(2)); INSERT INTO p VALUES ('äb'); INSERT INTO p VALUES ('abc'); "
    "SELECT x FROM p; DROP TABLE q; CREATE TABLE p (s TEXT); INSERT INTO p VALUES (1); "
    "INSERT INTO p VALUES ('a', 'b');",
    printed={(1, 1): 'ok\n', (1, 2): 'ok 1\n', (1, 3): 'refused 9 text too long\n',
             (1, 4): 'refused 5 no such column x\n', (1, 5): 'refused 3 no such table q\n',
             (1, 6): 'refused 4 table exists p\n', (1, 7): 'refused 7 kinds differ\n',
             (1, 8): 'refused 8 wrong number of values\n'})
one('a join with GROUP BY, an ambiguous column, a column that is not grouped',
    "CREATE TABLE u (k INT, v INT); CREATE TABLE w (k INT, n TEXT); "
    "INSERT INTO u VALUES (1, 10), (2, 20), (1, 30); INSERT INTO w VALUES (1, 'x'), (3, 'y'); "
    "SELECT w.n, SUM(u.v) FROM u JOIN w ON u.k = w.k GROUP BY w.n; SELECT k FROM u, w; "
    "SELECT v, COUNT(*) FROM u GROUP BY k;",
    printed={(1, 5): 'rows 1\nx,40\n', (1, 6): 'refused 6 ambiguous column k\n',
             (1, 7): 'refused 14 not grouped v\n'})
LINEITEM = '''CREATE TABLE lineitem (l_orderkey BIGINT NOT NULL, l_quantity INTEGER NOT NULL, l_extendedprice BIGINT NOT NULL, l_discount INTEGER NOT NULL, l_shipdate DATE NOT NULL, l_comment VARCHAR(44));
INSERT INTO lineitem VALUES (1, 17, 2116823, 4, DATE '1996-03-13', 'a'), (2, 20, 1000000, 6, DATE '1994-05-01', 'b'), (3, 23, 500000, 5, DATE '1994-12-31', 'c'), (4, 24, 700000, 6, DATE '1994-06-01', 'd');
SELECT SUM(l_extendedprice * l_discount) AS revenue FROM lineitem WHERE l_shipdate >= DATE '1994-01-01' AND l_shipdate < DATE '1995-01-01' AND l_discount BETWEEN 5 AND 7 AND l_quantity < 24;
SELECT l_discount, COUNT(*) FROM lineitem GROUP BY l_discount HAVING COUNT(*) >= 1 ORDER BY 2 DESC, 1 LIMIT 2;
UPDATE lineitem SET l_quantity = l_quantity + 1 WHERE l_orderkey <> 1;
DELETE FROM lineitem WHERE l_quantity IN (17, 25);
SELECT l_orderkey, l_shipdate FROM lineitem;
'''
one('a lineitem table as users write it', LINEITEM,
    printed={(1, 1): 'ok\n', (1, 2): 'ok 4\n', (1, 3): 'rows 1\n8500000\n',
             (1, 4): 'rows 2\n6,2\n4,1\n', (1, 5): 'ok 3\n', (1, 6): 'ok 2\n',
             (1, 7): 'rows 2\n2,1994-05-01\n3,1994-12-31\n'},
    history_holds=[
        'UPDATE lineitem SET l_quantity = l_quantity + 1 WHERE l_orderkey <> 1;',
        'DELETE FROM lineitem WHERE (l_quantity = 17) OR (l_quantity = 25);'])


# -- two sessions: every interleaving; the oracle runs the sessions one after the other
def check_interleaved(out, events):
    """events: those of the log, (s, k, act name, numbers)."""
    replies = out.split('history ')[0]
    first = replies.split('session 2 b.sql\n')[0]
    second = replies.split('session 2 b.sql\n')[1]
    place = {(s, k, act): i for i, (s, k, act, _) in enumerate(events)}
    insert = place[(2, 1, 'write')]
    begin = place.get((1, 3, 'begin'))
    records = first.split('3 rows ')[1].split('\n')[1:-1]
    assert '1' in records
    accepted = '1 ok 1' in second
    assert ('2' in records) == (accepted and insert < begin)
    assert accepted or '1 refused 3 no such table t' in second
    if accepted:
        assert '2' in second.split('2 rows ')[1].split('\n')[1:-1]


CASES.append(Case(
    'two sessions under run, whatever the interleaving', ['run', '--events', 'a.sql',
                                                                 'b.sql'],
    {'a.sql': T + ' INSERT INTO t VALUES (1); SELECT a FROM t;',
     'b.sql': 'INSERT INTO t VALUES (2); SELECT a FROM t;'}, check=check_interleaved))

# -- statuses
SPACES = ' ' * 1048577


def status(shows, words, files, answer):
    CASES.append(Case(shows, words, files, status=answer))


status('words `run` alone', ['run'], {}, (1, 0))
status('seventeen files', ['run'] + ['a.sql'] * 17, {'a.sql': ''}, (1, 0))
status('a file of 1,048,577 bytes', ['run', 'a.sql'], {'a.sql': SPACES}, (4, 1))
status('a file that is not UTF-8', ['run', 'a.sql'], {'a.sql': b'\xff'}, (6, 1))
status('a schedule line for a session that is not there',
       ['replay', 'schedule', 'a.sql'], {'a.sql': SMALL, 'schedule': '1\n2\n'}, (7, 2))
status('a script of 257 statements', ['run', 'a.sql'], {'a.sql': T * 257}, (4, 1))

# -- the log
SMALL_LOG = '''log 16
1 1 1 write 0 0
2 1 2 write 0 3
3 1 3 begin 0
4 1 3 look 1 miss
5 1 3 admit 1 taken 1 64 0
6 1 3 look 2 miss
7 1 3 admit 2 taken 2 96 0
8 1 3 look 3 miss
9 1 3 admit 3 taken 3 96 0
10 1 3 look 4 miss
11 1 3 admit 4 taken 4 96 0
12 1 3 look 5 miss
13 1 3 admit 5 taken 5 80 0
14 1 3 look 6 miss
15 1 3 admit 6 taken 6 80 0
16 1 3 end 0
'''
SMALL_WITH_LOG = SMALL_HEAD + pool_section(**pool(SMALL_POOL)) + SMALL_LOG
one('the log of the smallest query', SMALL, options=('--events',), full=SMALL_WITH_LOG)


# -- generated scripts
def check_generated(out, events):
    assert out.startswith('generated 1\npool\n')
    got = pool_of(out)
    assert got['looks'] == 600
    assert got['events'] == 821 + 600 - got['exact']


def pool_of(out):
    tail = out[out.rindex('pool\n') + 5:].split('\n')
    return {p.split()[0]: int(p.split()[1]) for p in tail[:len(NAMES)]}


CASES.append(Case('the generated workload', ['generate', '1'], {}, check=check_generated))


# -- sixteen sessions
def check_drops(out, events):
    assert out.count('\n') and 'history 2\n' in out
    sessions = out.split('history ')[0].split('session ')[1:]
    drops = [s.split('\n', 1)[1] for s in sessions]
    assert drops[0].startswith('1 ok\n')
    drops[0] = drops[0][len('1 ok\n'):]
    done = [d for d in drops if d in ('1 ok\n', '2 ok\n')]
    refused = [d for d in drops if d[2:] == 'refused 3 no such table t\n']
    assert len(done) == 1 and len(refused) == 15


CASES.append(Case(
    'sixteen sessions drop one table', ['run'] + ['s%02d.sql' % i for i in range(1, 17)],
    {'s%02d.sql' % i: (T + ' ' if i == 1 else '') + 'DROP TABLE t;' for i in range(1, 17)},
    check=check_drops))

# -- NULL and ALTER
one('NULL in columns',
    'CREATE TABLE n (a INT, b INT NOT NULL); INSERT INTO n VALUES (NULL, 1), (2, 2); '
    'INSERT INTO n (a) VALUES (3); SELECT a, b FROM n; '
    'SELECT COUNT(*), COUNT(a), SUM(a) FROM n WHERE a IS NULL; SELECT b FROM n WHERE a = NULL; '
    'SELECT b FROM n WHERE NOT a < 2; UPDATE n SET b = a;',
    printed={(1, 1): 'ok\n', (1, 2): 'ok 2\n', (1, 3): 'refused 13 null in not null column\n',
             (1, 4): 'rows 2\n\\N,1\n2,2\n', (1, 5): 'rows 1\n1,0,\\N\n', (1, 6): 'rows 0\n',
             (1, 7): 'rows 1\n2\n', (1, 8): 'refused 13 null in not null column\n'})
one('versions per column, ALTER with a default',
    'CREATE TABLE t (a INT, b INT); INSERT INTO t VALUES (1, 10), (2, 20); '
    'SELECT a FROM t WHERE a < 5; UPDATE t SET b = b + 1; SELECT a FROM t WHERE a < 5; '
    "ALTER TABLE t ADD COLUMN c TEXT DEFAULT 'x' NOT NULL; SELECT a FROM t WHERE a < 5; "
    'SELECT c, b FROM t WHERE a < 5;',
    printed={(1, 8): 'rows 2\nx,11\nx,21\n'},
    pool=pool('entries 10, bytes 770, peak 770, looks 27, exact 17, miss 10, taken 10, work 66, '
              'events 49'))


# -- outputs that are checked
def audit_case(shows, output, answer):
    CASES.append(Case(shows, ['audit', 'output', 'a.sql'],
                      {'output': output, 'a.sql': SMALL}, full=answer + '\n'))


def changed(old, new):
    assert SMALL_WITH_LOG.count(old) == 1, old
    return SMALL_WITH_LOG.replace(old, new)


audit_case('an honest output', SMALL_WITH_LOG, 'yes')
audit_case('pool lines are free', changed('work 27', 'work 99'), 'yes')
audit_case('a changed answer', changed('2\n3\nhistory', '2\n4\nhistory'), 'no')
audit_case('a changed number of rows', changed('3 rows 2', '3 rows 1'), 'no')
audit_case('a history line removed',
           changed('2 1 2 INSERT INTO t VALUES (3), (1), (2);\n', ''), 'no')
audit_case('two log lines exchanged',
           changed('1 1 1 write 0 0\n2 1 2 write 0 3', '1 1 2 write 0 3\n2 1 1 write 0 0'), 'no')
audit_case('the end removed',
           changed('16 1 3 end 0\n', '').replace('log 16', 'log 15'), 'no')
audit_case('another file name', changed('session 1 a.sql', 'session 1 b.sql'), 'no')

# -- blocks of MAL
SETUP = T + ' INSERT INTO t VALUES (3), (1), (2);'
BLOCK = '''function user.main():void;
    X_1 := sql.bind("t", "a", "int");
    X_2 := algebra.select(X_1, 2, 3, true, true);
    X_3 := algebra.mirror(X_2);
    X_4 := algebra.markT(X_3, 0@0);
    X_5 := algebra.reverse(X_4);
    X_6 := algebra.join(X_5, X_1);
    sql.output(X_6);
end user.main;
'''
CASES.append(Case(
    'blocks over the tables of SETUP', ['mal', 'setup.sql', 'b.mal', 'c.mal'],
    {'setup.sql': SETUP, 'b.mal': BLOCK,
     'c.mal': 'function user.f():void; X := sql.bind("t", "a", "int"); Y := aggr.sum(X); '
              'sql.output(Y); end user.f;\nfunction user.g():void; '
              'X := sql.bind("t", "b", "int"); sql.output(X); end user.g;\n'},
    printed={(2, 1): 'rows 2\n2\n3\n', (3, 1): 'rows 1\n6\n', (3, 2): 'refused 27 no column t.b\n'}))
CASES.append(Case(
    'refusals of blocks', ['mal', 'setup.sql', 'b.mal'],
    {'setup.sql': SETUP,
     'b.mal': 'function user.main():void; X := sql.bind("t", "a", "int"); '
              'Y := batcalc.times(X, 9223372036854775807); sql.output(X); end user.main;\n'
              'function user.h():void; sql.output(X); end user.h;\n'
              'function user.k():void; end user.k;\n'
              'function user.m():void; X := foo.bar(1); sql.output(X); end user.m;\n'
              'nonsense'},
    printed={(2, 1): 'refused 10 overflow\n', (2, 2): 'refused 23 unknown variable 1\n',
             (2, 3): 'refused 26 no output\n', (2, 4): 'refused 22 unknown operator foo.bar\n',
             (2, 5): 'refused 21 no block\n'}))

# -- the cheapest cover, and weights
one('the cheapest cover',
    t_rows(3, 4, 6, 9) + forms('a BETWEEN 5 AND 8', 'a BETWEEN 1 AND 5', 'a BETWEEN 4 AND 9',
                               'a BETWEEN 2 AND 8'),
    printed={(1, 6): 'rows 3\n3\n4\n6\n'},
    pool=pool('entries 21, bytes 1704, peak 1704, looks 24, exact 3, across 1, miss 20, '
              'taken 21, work 119, events 55'))
one('an operator weight', THREE_TABLES,
    options=('--budget', '584', '--evict', 'weighted', '--weights', 'markT=100'),
    answers=THREE_ANSWERS,
    pool=pool('entries 8, bytes 584, peak 584, looks 16, exact 3, miss 13, taken 13, evicted 5, '
              'work 38, events 43'))
one('weights of 1 are benefit', THREE_TABLES,
    options=('--budget', '584', '--evict', 'weighted'), answers=THREE_ANSWERS, pool=BENEFIT_POOL)
