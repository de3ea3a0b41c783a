#!/usr/bin/env python3
"""analysts.py FOLDER ROWS QUESTIONS SESSIONS SEED: writes a workload of analysts into FOLDER.

  load01.sql ..      make a table t (a INT, b INT) and fill it with ROWS rows
  analyst1.sql ..    the questions, shared out among the sessions: ranges, and groups within ranges
  schedule           a turn for each statement of the loading scripts; the analysts follow, each to its end
  names              the scripts in the order of the schedule's numbers
  all.sql            the same statements for another database: loads first, then a question of each analyst in turn

The same words write the same files. A script has at most 1,048,576 bytes and 256 statements, and there are at most
16 of them, as recycle_sql asks; with 4 sessions that is enough for 1,000,000 rows."""
import os
import random
import sys

SCRIPT_BYTES = 1048000
STATEMENT_BYTES = 60000
SCRIPTS = 16


def loads(rng, rows):
    """The loading scripts, each a list of statements."""
    scripts, script, size = [], ['CREATE TABLE t (a INT, b INT);\n'], 31
    while rows:
        head = 'INSERT INTO t VALUES '
        parts, count = [], len(head) + 1
        while rows and count < STATEMENT_BYTES:
            part = '(%d,%d)' % (rng.randrange(100000), rng.randrange(1000))
            parts.append(part)
            count += len(part) + 1
            rows -= 1
        statement = head + ','.join(parts) + ';\n'
        if size + len(statement) > SCRIPT_BYTES:
            scripts.append(script)
            script, size = [], 0
        script.append(statement)
        size += len(statement)
    return scripts + [script]


def question(rng):
    low, width = rng.randrange(90000), rng.choice([500, 2000, 8000])
    kind = rng.randrange(4)
    if kind == 0:
        return 'SELECT COUNT(*), SUM(b) FROM t WHERE a BETWEEN %d AND %d;\n' % (low, low + width)
    if kind == 1:
        low = low // 10000 * 10000
        return 'SELECT COUNT(*), MIN(b), MAX(b) FROM t WHERE a BETWEEN %d AND %d;\n' % (low, low + 10000)
    if kind == 2:
        low = low // 5000 * 5000
        return ('SELECT b, COUNT(*) FROM t WHERE a >= %d AND a < %d GROUP BY b ORDER BY 2 DESC, 1 LIMIT 10;\n'
                % (low, low + 5000))
    return ('SELECT SUM(b) FROM t WHERE a BETWEEN %d AND %d AND b < %d;\n'
            % (low, low + width, rng.choice([100, 500])))


def main():
    if len(sys.argv) != 6:
        sys.exit(__doc__)
    folder = sys.argv[1]
    rows, questions, sessions, seed = map(int, sys.argv[2:])
    rng = random.Random(seed)
    os.makedirs(folder, exist_ok=True)
    loading = loads(rng, rows)
    if len(loading) + sessions > SCRIPTS:
        sys.exit('too many scripts: %d to load' % len(loading))
    analysts = [[question(rng) for _ in range(questions // sessions)] for _ in range(sessions)]
    names, schedule, together = [], [], []

    def write(name, text):
        with open(os.path.join(folder, name), 'w') as out:
            out.write(text)

    for number, script in enumerate(loading, 1):
        names.append('load%02d.sql' % number)
        write(names[-1], ''.join(script))
        schedule += [number] * len(script)
        together += script
    for number, script in enumerate(analysts, 1):
        names.append('analyst%d.sql' % number)
        write(names[-1], ''.join(script))
    for at in range(max(map(len, analysts))):
        together += [script[at] for script in analysts if at < len(script)]
    write('schedule', ''.join('%d\n' % session for session in schedule))
    write('all.sql', ''.join(together))
    write('names', ' '.join(names))


main()
