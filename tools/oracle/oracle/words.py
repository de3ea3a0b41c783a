"""The words of the command line.  None where they are outside the
grammar (status 1)."""
import re

from .engine import Options
from .mal import operators
from .settings import CURRENT


class Command:
    def __init__(self, name, files, options, number=None):
        self.name = name
        self.files = files          # all file words in order
        self.options = options
        self.number = number


class _Outside(Exception):
    pass


def _number(text, low, high):
    if not re.fullmatch('[0-9]{1,20}', text):
        raise _Outside
    n = int(text)
    if not low <= n <= high:
        raise _Outside
    return n


def _weights(text):
    out = {}
    for part in text.split(','):
        name, eq, n = part.partition('=')
        if not eq or name not in operators() or name in out:
            raise _Outside
        out[name] = _number(n, 1, 1000)
    return out


def _options_of(name):
    if name in ('generate', 'audit'):
        return ()
    every = ('--budget', '--events', '--evict', '--admit', '--credits', '--weights')
    return every + ('--workers',) if name == 'run' else every


def _read(words):
    if not words or words[0] not in CURRENT.commands:
        raise _Outside
    name = words[0]
    known = _options_of(name)
    given, files = {}, []
    i = 1
    while i < len(words):
        w = words[i]
        i += 1
        if w == '--':
            if name == 'generate' and i < len(words):
                raise _Outside
            files += words[i:]
            break
        if not w.startswith('-') or w == '-':
            files.append(w)
            continue
        option, eq, value = w.partition('=')
        if option not in known or option in given:
            raise _Outside
        if option == '--events':
            if eq:
                raise _Outside
            value = True
        elif not eq:
            if i >= len(words):
                raise _Outside
            value = words[i]
            i += 1
            if value.startswith('-') and value != '-':
                raise _Outside
        given[option] = value
    if name == 'generate':
        if len(files) != 1:
            raise _Outside
        return Command(name, [], Options(), _number(files[0], 1, 1000000))
    extra = 1 if name in ('replay', 'audit') else 0
    low, high = (2, 16) if name == 'mal' else (1 + extra, 16 + extra)
    if not low <= len(files) <= high:
        raise _Outside
    o = Options()
    if '--workers' in given:
        o.workers = _number(given['--workers'], 1, 16)
    if '--budget' in given:
        o.budget = _number(given['--budget'], 0, 1099511627776)
    if '--credits' in given:
        o.credits = _number(given['--credits'], 1, 1000000)
    if '--evict' in given:
        if given['--evict'] not in ('lru', 'benefit', 'history', 'weighted'):
            raise _Outside
        o.evict = given['--evict']
    if '--admit' in given:
        if given['--admit'] not in ('all', 'credit'):
            raise _Outside
        o.admit = given['--admit']
    if '--weights' in given:
        o.weights = _weights(given['--weights'])
        if o.evict != 'weighted':
            raise _Outside
    o.events = '--events' in given
    return Command(name, files, o)


def read_words(words):
    try:
        return _read(words)
    except _Outside:
        return None
