"""python -m oracle [options of the oracle] COMMAND ..

Options of the oracle, before the command:
  --with COMMANDS          commands to know besides run, replay and generate: audit, mal
  --no-pool                replies and history alone, nothing asked of a pool
  --plans plain            plans as they are before the optimisers
  --cover greedy           greedy covers of ranges in place of the cheapest

Its own command: `served OUTPUT COMMAND ..` looks at what `run` or `mal` printed with --events, given the
words of that command, in whatever order its sessions took turns: `yes`, or `no:` and the first reason."""
import sys

from . import audit, engine, mal, served, sql
from .settings import CURRENT
from .words import read_words

FILE_LIMIT = 1048576
OUTPUT_LIMIT = 16777216


class Status(Exception):
    def __init__(self, status, at):
        super().__init__(status, at)
        self.status = status
        self.at = at


def oracle_options(words):
    """Takes the options of the oracle from the front of the words."""
    words = list(words)
    while words and words[0] in ('--with', '--no-pool', '--plans', '--cover'):
        option = words.pop(0)
        if option == '--no-pool':
            CURRENT.pool = False
            continue
        value = words.pop(0)
        if option == '--with':
            CURRENT.add(value)
        elif option == '--plans':
            assert value in ('optimised', 'plain'), value
            CURRENT.plans = value
        else:
            assert value in ('greedy', 'cheapest'), value
            CURRENT.cover = value
    return words


def read_text(name, at, limit=FILE_LIMIT):
    try:
        with open(name, 'rb') as f:
            data = f.read(limit + 1)
    except OSError:
        raise Status(2, at) from None
    if len(data) > limit:
        raise Status(4, at)
    try:
        return data.decode('utf-8')
    except UnicodeDecodeError:
        raise Status(6, at) from None


def read_pieces(name, at, cut=sql.split):
    pieces = cut(read_text(name, at))
    if len(pieces) > 256:
        raise Status(4, at)
    return pieces


def top(words):
    """The bytes written; raises Status."""
    try:
        for w in words:
            w.encode('utf-8')
    except UnicodeEncodeError:
        raise Status(1, 0) from None
    if words[:1] == ['served'] and len(words) > 2:
        return check_served(words[1], words[2:])
    c = read_words(words)
    if c is None:
        raise Status(1, 0)
    if c.name == 'generate':
        return engine.generate(c.number)[0]
    if c.name == 'run':
        scripts = [read_pieces(f, i) for i, f in enumerate(c.files, 1)]
        return engine.replay_sessions(c.files, scripts, [], c.options).text()
    if c.name == 'replay':
        names = c.files[1:]
        scripts = [read_pieces(f, i) for i, f in enumerate(names, 1)]
        schedule, bad = engine.parse_schedule(read_text(c.files[0], 0), len(names))
        if schedule is None:
            raise Status(7, bad)
        return engine.replay_sessions(names, scripts, schedule, c.options).text()
    if c.name == 'audit':
        files = []
        for i, f in enumerate(c.files[1:], 1):
            text = read_text(f, i)
            if len(sql.split(text)) > 256:
                raise Status(4, i)
            files.append((f, text))
        output = read_text(c.files[0], 0, OUTPUT_LIMIT)
        return 'yes\n' if audit.honest(files, output) else 'no\n'
    setup = read_pieces(c.files[0], 1)
    files = [read_pieces(f, i, mal.blocks) for i, f in enumerate(c.files[1:], 2)]
    return engine.serve_blocks(c.files, setup, files, c.options).text()


def check_served(output, words):
    c = read_words(words)
    if c is None or c.name not in ('run', 'replay', 'mal') or not c.options.events:
        raise Status(1, 0)
    names = c.files[1:] if c.name == 'replay' else c.files
    if c.name == 'mal':
        scripts = [read_pieces(names[0], 1)]
        scripts += [read_pieces(f, i, mal.blocks) for i, f in enumerate(names[1:], 2)]
    else:
        scripts = [read_pieces(f, i) for i, f in enumerate(names, 1)]
    with open(output, 'rb') as f:
        text = f.read().decode('utf-8')
    why = served.served(names, scripts, c.options, text, 2 if c.name == 'mal' else None)
    return 'yes\n' if why is None else 'no: %s\n' % why


def main():
    sys.set_int_max_str_digits(0)
    try:
        text = top(oracle_options(sys.argv[1:]))
    except Status as e:
        print('status %d at %d' % (e.status, e.at), file=sys.stderr)
        return e.status
    try:
        sys.stdout.buffer.write(text.encode('utf-8'))
        sys.stdout.buffer.flush()
    except OSError:
        print('status 3 at 0', file=sys.stderr)
        return 3
    return 0


if __name__ == '__main__':
    import threading
    threading.stack_size(512 * 1024 * 1024)
    code = []
    t = threading.Thread(target=lambda: code.append(main()))
    t.start()
    t.join()
    sys.exit(code[0] if code else 70)
