"""python3 test_cases.py [-v]: this implementation against every worked case."""
import os
import sys
import tempfile

sys.path.insert(0, os.path.dirname(os.path.abspath(__file__)))
import cases
from oracle import audit, engine
from oracle.__main__ import top, Status
from oracle.settings import CURRENT


def run_case(case, directory):
    """(status, at, text) of the case's words over its files."""
    for name, text in case.files.items():
        with open(os.path.join(directory, name), 'wb') as f:
            f.write(text if isinstance(text, bytes) else text.encode('utf-8'))
    here = os.getcwd()
    os.chdir(directory)
    try:
        return 0, 0, top(case.words)
    except Status as e:
        return e.status, e.at, ''
    finally:
        os.chdir(here)


def sections(text):
    """{(s, k): reply text without its number}, built from the output alone:
    a reply begins at the line that the count of the one before asks for."""
    front = text.split('history ')[0]
    out, s, k = {}, 0, 0
    for line in front.splitlines(keepends=True):
        head = line.split(' ')
        if line.startswith('session %d ' % (s + 1)):
            s, k = s + 1, 0
        elif head[0] == str(k + 1) and len(head) > 1 and \
                head[1].strip() in ('ok', 'rows', 'plan', 'refused'):
            k += 1
            out[(s, k)] = line.split(' ', 1)[1]
        else:
            out[(s, k)] += line
    return out


def problems(case, got):
    status, at, text = got
    want = case.want
    bad = []

    def need(ok, what):
        if not ok:
            bad.append(what)

    if 'status' in want:
        need((status, at) == want['status'], 'status %s' % ((status, at),))
        need(text == '', 'something written')
        return bad
    if status:
        return ['status %d at %d' % (status, at)]
    front = text.split('pool\n')[0]
    if 'full' in want:
        need(text == want['full'], 'output differs:\n' + text)
    if 'head' in want:
        need(front == want['head'], 'head differs:\n' + front)
    if 'printed' in want:
        got_ = sections(text)
        for at_, reply in want['printed'].items():
            need(got_.get(at_) == reply, 'reply %s is %r' % (at_, got_.get(at_)))
    if 'answers' in want:
        got_ = sections(text)
        for s, answers in want['answers'].items():
            mine = [r.split('\n')[1:-1] for (s2, _), r in sorted(got_.items())
                    if s2 == s and r.startswith('rows')]
            need(mine == answers, 'answers of session %d: %s' % (s, mine))
    history = text[text.index('history '):].split('pool\n')[0] if 'history ' in text else ''
    if 'history' in want:
        need(history.startswith('history %d\n' % want['history']), history)
    if 'last' in want:
        need(history.endswith('\n' + want['last'] + '\n'), history)
    for line in want.get('history_holds', ()):
        need(line in history, 'no line ' + line)
    if 'pool' in want:
        pool = cases.pool_of(text)
        for n in cases.NAMES:
            need(pool[n] == want['pool'].get(n, 0),
                 'pool %s is %d, not %d' % (n, pool[n], want['pool'].get(n, 0)))
    if 'check' in want:
        events = []
        if '--events' in case.words:
            events = audit.log_lines(text)[1]
        try:
            want['check'](text, events)
        except AssertionError as e:
            bad.append('check: %r' % (e,))
    return bad


def run(case):
    with tempfile.TemporaryDirectory() as d:
        return run_case(case, d)


def main():
    verbose = '-v' in sys.argv
    CURRENT.add('audit,mal')
    failed = 0

    def need(ok, *what):
        nonlocal failed
        if not ok:
            failed += 1
            print(*what)

    for case in cases.CASES:
        bad = problems(case, run(case))
        need(not bad, '%s:' % case.shows, '\n    '.join(bad))
        if verbose and not bad:
            print('%s: ok' % case.shows)
    # the greedy cover of the same range costs more
    CURRENT.cover = 'greedy'
    case = next(c for c in cases.CASES if c.shows == 'the cheapest cover')
    work = cases.pool_of(run(case)[2])['work']
    need(work == 121, 'work under the greedy cover:', work)
    CURRENT.cover = 'cheapest'
    # without a pool the replies and the history are the same
    CURRENT.pool = False
    case = next(c for c in cases.CASES if c.shows == 'one query from bytes to bytes')
    need(run(case)[2] == cases.SMALL_HEAD, 'without a pool')
    CURRENT.pool = True
    # the first draws of a generated workload, and two runs with the same bytes
    g1, g2 = engine.generated(1)
    need(g1[1].startswith('INSERT INTO g VALUES (7590), (1575), (4084), (2781), (5474)'), 'draws')
    need(len(g1) == 21 and len(g2) == 100, 'generated statements')
    need(engine.generate(1)[0] == engine.generate(1)[0], 'two generated runs differ')
    print('%d cases, %d failed' % (len(cases.CASES), failed))
    return 1 if failed else 0


if __name__ == '__main__':
    sys.exit(main())
