#!/usr/bin/env python3
"""shop.py FOLDER LINES QUESTIONS SEED: writes a shop's tables, with texts and days, and questions about them.

  load01.sql ..   make customers, orders, parts and lines, and fill them; lines has LINES rows, orders a quarter of these
  questions.sql   joins of two to four tables, groups by text and by day, ORDER BY with LIMIT
  in_order        an empty schedule
  names           the scripts in their order
  load.sql        what SQLite reads for the loading scripts, and all.sql for everything: the same without the word DATE

The same words write the same files. Texts repeat, as those of a shop do, and no text holds a blank."""
import datetime
import os
import random
import sys

SCRIPT_BYTES = 1048000
STATEMENT_BYTES = 60000
FIRST_DAY = datetime.date(2024, 1, 1)
DAYS = 700
CITIES = ['Aachen', 'Bergen', 'Cadiz', 'Delft', 'Essen', 'Florence', 'Ghent', 'Hamburg', 'Izmir', 'Jena', 'Krakow', 'Lyon']
SEGMENTS = ['building', 'furniture', 'machinery', 'household', 'vehicles']
STATES = ['open', 'paid', 'sent', 'back']
KINDS = ['brass_bolt', 'copper_wire', 'oak_board', 'steel_plate', 'tin_sheet', 'zinc_nail', 'glass_pane', 'felt_roll']
CARRIERS = ['air', 'mail', 'rail', 'ship', 'truck']


def day(number):
    return "DATE '%s'" % (FIRST_DAY + datetime.timedelta(number))


def rows_of(rng, lines):
    """(table, its columns, its rows as text) for each table."""
    orders, customers, parts = lines // 4, lines // 40, lines // 60
    yield 'customers', 'id INT, name VARCHAR(20), city VARCHAR(20), segment VARCHAR(12)', (
        "(%d,'customer_%06d','%s','%s')" % (n, n, rng.choice(CITIES), rng.choice(SEGMENTS)) for n in range(customers))
    yield 'parts', 'id INT, kind VARCHAR(20), weight INT', (
        "(%d,'%s',%d)" % (n, rng.choice(KINDS), rng.randrange(1, 500)) for n in range(parts))
    yield 'orders', 'id INT, customer INT, placed DATE, state VARCHAR(8)', (
        "(%d,%d,%s,'%s')" % (n, rng.randrange(customers), day(rng.randrange(DAYS)), rng.choice(STATES)) for n in range(orders))
    yield 'lines', 'order_id INT, part INT, amount INT, price INT, carrier VARCHAR(8), sent DATE', (
        "(%d,%d,%d,%d,'%s',%s)" % (rng.randrange(orders), rng.randrange(parts), rng.randrange(1, 51), rng.randrange(100, 10000),
                                   rng.choice(CARRIERS), day(rng.randrange(DAYS))) for _ in range(lines))


def statements(rng, lines):
    for table, columns, rows in rows_of(rng, lines):
        yield 'CREATE TABLE %s (%s);\n' % (table, columns)
        head = 'INSERT INTO %s VALUES ' % table
        parts, count = [], len(head)
        for row in rows:
            if count + len(row) + 2 > STATEMENT_BYTES:
                yield head + ','.join(parts) + ';\n'
                parts, count = [], len(head)
            parts.append(row)
            count += len(row) + 1
        yield head + ','.join(parts) + ';\n'


def question(rng):
    first = rng.randrange(0, DAYS - 120, 30)
    low, high = day(first), day(first + rng.choice([30, 60, 90]))
    kind = rng.randrange(6)
    if kind == 0:
        return ('SELECT carrier, COUNT(*), SUM(price) FROM lines WHERE sent BETWEEN %s AND %s GROUP BY carrier;\n' % (low, high))
    if kind == 1:
        return ('SELECT sent, SUM(amount) FROM lines WHERE amount > %d GROUP BY sent ORDER BY 2 DESC, 1 LIMIT 10;\n'
                % rng.choice([10, 20, 30]))
    if kind == 2:
        return ('SELECT city, COUNT(*), SUM(amount * price) FROM customers, orders, lines WHERE customers.id = customer'
                ' AND orders.id = order_id AND placed BETWEEN %s AND %s GROUP BY city ORDER BY 3 DESC, 1 LIMIT 5;\n' % (low, high))
    if kind == 3:
        return ("SELECT name, placed, price FROM customers, orders, lines WHERE customers.id = customer AND orders.id = order_id"
                " AND segment = '%s' AND placed BETWEEN %s AND %s ORDER BY 3 DESC, 1, 2 LIMIT 10;\n"
                % (rng.choice(SEGMENTS), low, high))
    if kind == 4:
        return ("SELECT kind, segment, SUM(amount) FROM customers, orders, lines, parts WHERE customers.id = customer"
                " AND orders.id = order_id AND parts.id = part AND state = '%s' GROUP BY kind, segment;\n" % rng.choice(STATES))
    return ("SELECT kind, MIN(sent), MAX(price) FROM lines, parts WHERE part = parts.id AND carrier IN ('%s', '%s') GROUP BY kind;\n"
            % tuple(rng.sample(CARRIERS, 2)))


def main():
    if len(sys.argv) != 5:
        sys.exit(__doc__)
    folder = sys.argv[1]
    lines, questions, seed = map(int, sys.argv[2:])
    rng = random.Random(seed)
    os.makedirs(folder, exist_ok=True)
    loading, size = [[]], 0
    for statement in statements(rng, lines):
        if size + len(statement) > SCRIPT_BYTES:
            loading.append([])
            size = 0
        loading[-1].append(statement)
        size += len(statement)
    if len(loading) > 15:
        sys.exit('too many scripts: %d to load' % len(loading))
    asked = [question(rng) for _ in range(questions)]
    names = ['load%02d.sql' % number for number in range(1, len(loading) + 1)] + ['questions.sql']

    def write(name, text):
        with open(os.path.join(folder, name), 'w') as out:
            out.write(text)

    for name, script in zip(names, loading + [asked]):
        write(name, ''.join(script))
    together = ''.join(map(''.join, loading))
    write('load.sql', together.replace('DATE \'', '\''))
    write('all.sql', (together + ''.join(asked)).replace('DATE \'', '\''))
    write('in_order', '')
    write('names', ' '.join(names))


main()
