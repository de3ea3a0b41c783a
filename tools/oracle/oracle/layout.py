"""The printed output, as bytes."""
from .cells import cell_text, refusal_words
from .canon import print_stmt

POOL_LINES = ('entries bytes peak looks exact within across miss taken there stale orphan '
              'nocredit noroom evicted dropped carried work events').split()


def csv_record(fields):
    """A record as Rust's csv crate writes it by default."""
    if len(fields) == 1 and fields[0] == '':
        return '""\n'

    def field(s):
        if any(c in s for c in ',"\r\n'):
            return '"%s"' % s.replace('"', '""')
        return s
    return ','.join(map(field, fields)) + '\n'


def reply_text(k, reply):
    """A reply: ('done',) ('count', n) ('rows', rows) ('mal', text)
    ('refused', no, word)."""
    kind = reply[0]
    if kind == 'done':
        return '%d ok\n' % k
    if kind == 'count':
        return '%d ok %d\n' % (k, reply[1])
    if kind == 'rows':
        return '%d rows %d\n' % (k, len(reply[1])) + ''.join(
            csv_record([cell_text(c) for c in row]) for row in reply[1])
    if kind == 'mal':
        return '%d plan %d\n' % (k, reply[1].count('\n')) + reply[1]
    return '%d refused %d %s\n' % (k, reply[1], refusal_words(reply[1], reply[2]))


def sessions_text(names, transcripts):
    out = []
    for s, (name, replies) in enumerate(zip(names, transcripts), 1):
        out.append('session %d %s\n' % (s, name))
        out += [reply_text(k, r) for k, r in replies]
    return ''.join(out)


def history_text(log):
    """Events are (session, statement, act); a write is ('write', stmt, code,
    count)."""
    lines = [(s, k, act[1]) for s, k, act in log
             if act[0] == 'write' and act[2] == 0]
    return 'history %d\n' % len(lines) + ''.join(
        '%d %d %d %s;\n' % (i, s, k, print_stmt(stmt))
        for i, (s, k, stmt) in enumerate(lines, 1))


def pool_text(totals):
    return 'pool\n' + ''.join('%s %d\n' % (n, totals[n]) for n in POOL_LINES)


def event_text(act):
    kind = act[0]
    if kind == 'begin':
        return 'begin %d' % act[1]
    if kind == 'end':
        return 'end %d' % act[1]
    if kind == 'write':
        return 'write %d %d' % (act[2], act[3])
    if kind == 'look':
        _, instr, key, found = act
        if found[0] == 'miss':
            return 'look %d miss' % instr
        if found[0] == 'across':
            return 'look %d across %d' % (instr, len(found[1]))
        return 'look %d %s %d' % (instr, found[0], found[1])
    _, instr, key, result = act
    return 'admit %d %s' % (instr, ' '.join(str(x) for x in result))


def log_text(log):
    return 'log %d\n' % len(log) + ''.join(
        '%d %d %d %s\n' % (i, s, k, event_text(act)) for i, (s, k, act) in enumerate(log, 1))
