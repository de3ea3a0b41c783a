"""python3 judge.py PROGRAM [seconds] [first seed] [--only MODE] [--with COMMANDS]:
runs a built program on random inputs and compares it with this implementation.

  replay  random scripts, schedule and options: the same bytes
  text    scripts of broken statements: the same bytes
  explain EXPLAIN of random queries: the same bytes
  run     random sessions with --events: whether it may have been printed
  words   random command lines: the same status
  mal     random blocks with --events: whether it may have been printed
  audit   outputs with changed lines, and with log lines removed, doubled or
          moved and numbered anew: the same yes or no

The last two only where the program has these commands: --with audit,mal.
A difference keeps its files in judge-MODE-SEED/ and ends the run with status 1."""
import os
import random
import shutil
import subprocess
import sys
import tempfile

sys.path.insert(0, os.path.dirname(os.path.abspath(__file__)))
import time
import cases
from oracle import engine, mal, meaning, served, sql
from oracle.__main__ import Status, top
from oracle.cells import Refused
from oracle.check import check
from oracle.settings import CURRENT
from randomsql import Gen
from selfcheck import BlockGen, option_words, random_run, small
from test_text import WORDS


def write(d, name, text):
    with open(os.path.join(d, name), 'wb') as f:
        f.write(text.encode('utf-8') if isinstance(text, str) else text)


def program(prog, words, d):
    """(status, bytes, standard error)"""
    p = subprocess.run([prog] + words, cwd=d, capture_output=True, timeout=300)
    return p.returncode, p.stdout, p.stderr


def oracle(words, d):
    here = os.getcwd()
    os.chdir(d)
    try:
        return 0, top(words).encode('utf-8'), b''
    except Status as e:
        return e.status, b'', b'status %d at %d\n' % (e.status, e.at)
    finally:
        os.chdir(here)


def same(prog, words, d):
    want, got = oracle(words, d), program(prog, words, d)
    if want == got:
        return None
    if words[:1] in (['run'], ['mal']) and want[0] == got[0] == 0:
        return None     # threads interleave as they do; the modes `run` and `mal` judge such outputs
    if want[0] != got[0] or want[0]:
        return 'status %s, %r; the oracle: %s, %r' % (got[0], got[2], want[0], want[2])
    a, b = want[1].split(b'\n'), got[1].split(b'\n')
    for i in range(max(len(a), len(b))):
        x, y = a[i:i + 1], b[i:i + 1]
        if x != y:
            return 'line %d: %r; the oracle: %r' % (i + 1, y, x)
    return 'standard error %r' % (got[2],)


def join_pieces(r, pieces):
    sep = r.choice([';', ';\n', ' ; -- c\n', ';/* ; */\n'])
    return sep.join(pieces) + r.choice(['', ';', ';\n'])


def replay(prog, seed, d):
    scripts, schedule, o = random_run(seed)
    r = random.Random(seed)
    for i, p in enumerate(scripts, 1):
        write(d, 's%d' % i, join_pieces(r, p))
    write(d, 'schedule', ''.join('%d\n' % s for s in schedule))
    words = ['replay'] + option_words(o) + ['schedule']
    return same(prog, words + ['s%d' % i for i in range(1, len(scripts) + 1)], d)


def explain(prog, seed, d):
    g = Gen(seed)
    pieces = [g.create() for _ in range(g.r.randint(1, 3))]
    pieces += ['EXPLAIN ' + g.query() for _ in range(30)]
    write(d, 'schedule', '')
    write(d, 'a', join_pieces(g.r, pieces))
    return same(prog, ['replay', 'schedule', 'a'], d)


def text(prog, seed, d):
    g = Gen(seed)
    r = g.r
    pieces = [g.create(), g.insert(3)]
    for _ in range(40):
        t = r.choice([g.query, g.query, g.write])()
        parts = [t[k.start:k.end] for k in sql.lex(t)]
        for _ in range(r.randint(1, 2)):
            at = r.randrange(len(parts) + 1)
            x = r.random()
            if x < 0.4:
                parts.insert(at, r.choice(WORDS))
            elif x < 0.7 and len(parts) > 1:
                del parts[min(at, len(parts) - 1)]
            else:
                parts[min(at, len(parts) - 1)] = r.choice(WORDS)
        pieces.append(r.choice([' ', '  ', '\n', '\t']).join(parts))
    write(d, 'schedule', '')
    write(d, 'a', ';'.join(pieces))
    return same(prog, ['replay', '--events', 'schedule', 'a'], d)


def check_served(prog, words, names, scripts, o, d, blocks_from=None):
    status, out, err = program(prog, words, d)
    if status:
        return 'status %d: %r' % (status, err)
    return served.served(names, scripts, o, out.decode('utf-8'), blocks_from)


def run(prog, seed, d):
    scripts, _, o = random_run(seed)
    names = ['s%d' % i for i in range(1, len(scripts) + 1)]
    for n, p in zip(names, scripts):
        write(d, n, ';'.join(p))
    words = ['run'] + option_words(o) + names
    words += ['--workers', str(random.Random(seed).randint(1, 4))]
    c = __import__('oracle.words', fromlist=['x']).read_words(words)
    return check_served(prog, words, names, scripts, c.options, d)


def blocks(prog, seed, d):
    g = Gen(seed)
    r = g.r
    setup = [g.create() for _ in range(r.randint(1, 2))] + [g.insert(5) for _ in range(2)]
    setup += [g.query() for _ in range(r.randint(0, 2))]
    db = {}
    for t in setup:
        try:
            stmt = sql.parse(t)
            if not isinstance(stmt, sql.Query):
                db, _ = meaning.effect(check(stmt, meaning.schema_of(db)), db)
        except Refused:
            pass
    b = BlockGen(r, db)
    if not b.columns:
        return None
    names = ['setup']
    files = []
    write(d, 'setup', ';'.join(setup))
    for f in range(r.randint(1, 3)):
        mine = []
        while len(mine) < r.randint(1, 5):
            p = b.plan()
            if small(p, db):
                mine.append(mal.print_mal(p))
        mine += r.sample(['function user.f():void; end user.f;', 'x', '',
                          'function user.f():void; X := a.b(); sql.output(X); end user.f;'], 1)
        names.append('f%d' % f)
        write(d, names[-1], ''.join(mine))
        files.append(mal.blocks(''.join(mine)))
    o = random_run(seed)[2]
    words = ['mal'] + option_words(o) + names
    c = __import__('oracle.words', fromlist=['x']).read_words(words)
    return check_served(prog, words, names, [setup] + files, c.options, d, 2)


def changed_line(r, out):
    """The output with one line removed, doubled, moved or with another word."""
    lines = out.split('\n')
    at = r.randrange(len(lines))
    x = r.random()
    if x < 0.3:
        del lines[at]
    elif x < 0.5:
        lines.insert(at, lines[r.randrange(len(lines))])
    elif x < 0.7 and at + 1 < len(lines):
        lines[at], lines[at + 1] = lines[at + 1], lines[at]
    else:
        words = lines[at].split(' ')
        words[r.randrange(len(words))] = r.choice(['0', '1', '2', '7', '01', 'a', ''])
        lines[at] = ' '.join(words)
    return '\n'.join(lines)


def changed_log(r, out):
    """The output with log lines removed, doubled and moved, and all of them numbered anew: no number
    shows the change, only what the events say."""
    front, _, log = out.rpartition('\nlog ')
    events = [line.split(' ', 1)[1] for line in log.split('\n')[1:-1]]
    for _ in range(r.choice([1, 1, 1, 2, 3])):
        if not events:
            break
        at = r.randrange(len(events))
        x = r.random()
        if x < 0.35:
            del events[at]
        elif x < 0.6:
            events.insert(r.randrange(len(events) + 1), events[at])
        elif x < 0.8:
            events.insert(r.randrange(len(events)), events.pop(at))
        elif at + 1 < len(events):
            events[at], events[at + 1] = events[at + 1], events[at]
    return '%s\nlog %d\n' % (front, len(events)) + ''.join(
        '%d %s\n' % (n, event) for n, event in enumerate(events, 1))


def audit_(prog, seed, d):
    scripts, schedule, o = random_run(seed)
    r = random.Random(seed)
    names = ['s%d' % i for i in range(1, len(scripts) + 1)]
    for n, p in zip(names, scripts):
        write(d, n, ';'.join(p))
    out = engine.replay_sessions(names, scripts, schedule, o).text()
    x = r.random()
    if x < 0.4:
        out = changed_line(r, out)
    elif x < 0.8:
        out = changed_log(r, out)
    write(d, 'out', out)
    return same(prog, ['audit', 'out'] + names, d)


def words(prog, seed, d):
    r = random.Random(seed)
    write(d, 'a', cases.SMALL)
    write(d, 'b', cases.QUERY)
    write(d, 'n', '1\n')
    parts = ['run', 'replay', 'generate', 'audit', 'mal', 'a', 'a', 'b', 'n', '-', '--', '-x',
             '--budget', '--budget=64', '--budget=x', '64', '00000000000000000064', '--evict',
             'lru', 'benefit', '--evict=weighted', '--weights=markT=3', '--weights', 'plus=1',
             'plus=1,plus=2', 'plus=0', 'foo=1', '--admit=credit', '--credits=0', '--credits',
             '--credits=5', '--events', '--events=1', '--workers=2', '--workers=17', '--help',
             '--version', '--bud=3', '1', '0']
    w = [r.choice(parts[:5])] if r.random() < 0.95 else []
    if r.random() < 0.6:
        w += {'run': ['a'], 'replay': ['n', 'a'], 'generate': [], 'audit': ['n', 'a'],
              'mal': ['a', 'b']}.get(w[0] if w else '', [])
    for _ in range(r.randint(0, 4)):
        w.insert(r.randint(min(1, len(w)), len(w)), r.choice(parts))
    if w and w[0] == 'generate' and oracle(w, d)[0] == 0 and seed % 20:
        return None
    return same(prog, w, d)


# with the command that each needs
MODES = {'replay': (replay, 'replay'), 'text': (text, 'replay'), 'explain': (explain, 'replay'),
         'run': (run, 'run'), 'mal': (blocks, 'mal'), 'audit': (audit_, 'audit'), 'words': (words, 'run')}


def main():
    argv = sys.argv[1:]
    only = None
    for option in ('--with', '--only'):
        if option in argv:
            i = argv.index(option)
            value = argv[i + 1]
            del argv[i:i + 2]
            if option == '--with':
                CURRENT.add(value)
            else:
                only = value
    if not argv or only not in (None, *MODES):
        sys.exit(__doc__)
    prog = os.path.abspath(argv[0])
    seconds = float(argv[1]) if len(argv) > 1 else 60
    seed = int(argv[2]) if len(argv) > 2 else 1
    end = time.time() + seconds
    done = {}
    while time.time() < end:
        for mode, (f, command) in MODES.items():
            if command not in CURRENT.commands or only not in (None, mode):
                continue
            d = tempfile.mkdtemp(prefix='judge')
            try:
                why = f(prog, seed, d)
            except subprocess.TimeoutExpired:
                why = 'no end after 300 seconds'
            if why is not None:
                keep = os.path.abspath('judge-%s-%d' % (mode, seed))
                shutil.rmtree(keep, ignore_errors=True)
                shutil.move(d, keep)
                print('%s, seed %d (files in %s): %s' % (mode, seed, keep, why))
                return 1
            shutil.rmtree(d)
            done[mode] = done.get(mode, 0) + 1
        seed += 1
    print('no difference:', done)
    return 0


if __name__ == '__main__':
    sys.exit(main())
