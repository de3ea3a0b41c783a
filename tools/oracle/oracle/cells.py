"""Cells, their order, stated bytes and text."""
import datetime
import re

NIL = ('nil', None)
TRUE = ('bit', True)
FALSE = ('bit', False)

I64_MIN = -2 ** 63
I64_MAX = 2 ** 63 - 1
I128_MIN = -2 ** 127
I128_MAX = 2 ** 127 - 1
U64 = 2 ** 64

_RANK = {'nil': 0, 'int': 1, 'huge': 1, 'text': 2, 'day': 3, 'bit': 4, 'oid': 5}


def Int(v):
    return ('int', v)


def Huge(v):
    return ('huge', v)


def Text(v):
    return ('text', v)


def Day(v):
    return ('day', v)


def Bit(v):
    return TRUE if v else FALSE


def Oid(v):
    return ('oid', v)


def order(cell):
    """A Python key whose order is `compare`.  Texts compare by code points,
    which is the order of their UTF-8 bytes."""
    kind, value = cell
    if value is None:
        return (0, 0)
    return (_RANK[kind], value)


def cell_bytes(cell):
    kind, value = cell
    if kind == 'text':
        return 16 + len(value.encode('utf-8'))
    if kind == 'huge':
        return 16
    if kind == 'bit':
        return 1
    return 8


_EPOCH = datetime.date(1970, 1, 1).toordinal()
_DAY = re.compile(r'([0-9]{4})-([0-9]{2})-([0-9]{2})', re.ASCII)


def read_day(text):
    m = _DAY.fullmatch(text)
    if m is None:
        return None
    try:
        d = datetime.date(int(m.group(1)), int(m.group(2)), int(m.group(3)))
    except ValueError:
        return None
    return d.toordinal() - _EPOCH


def day_text(number):
    n = number + _EPOCH
    if 1 <= n <= datetime.date.max.toordinal():
        d = datetime.date.fromordinal(n)
        return '%04d-%02d-%02d' % (d.year, d.month, d.day)
    return str(number)


def cell_text(cell):
    kind, value = cell
    if kind == 'nil':
        return '\\N'
    if kind in ('int', 'huge'):
        return str(value)
    if kind == 'text':
        return value.replace('\\', '\\\\')
    if kind == 'day':
        return day_text(value)
    if kind == 'bit':
        return 'true' if value else 'false'
    return '%d@0' % value


def fits64(value):
    return I64_MIN <= value <= I64_MAX


class Overflow(Exception):
    """A value leaves the signed 64-bit range."""

    def __init__(self, work=0):
        super().__init__('overflow')
        self.work = work


class Refused(Exception):
    """One of the refusals of statements, by number, with its printed word."""

    def __init__(self, no, word=''):
        super().__init__(no, word)
        self.no = no
        self.word = word


REFUSALS = {
    1: 'syntax', 2: 'unsupported %s', 3: 'no such table %s', 4: 'table exists %s',
    5: 'no such column %s', 6: 'ambiguous column %s', 7: 'kinds differ',
    8: 'wrong number of values', 9: 'text too long', 10: 'overflow', 11: 'limit %s',
    12: 'name twice %s', 13: 'null in not null column', 14: 'not grouped %s',
    21: 'no block', 22: 'unknown operator %s', 23: 'unknown variable %s',
    24: 'kinds differ %s', 25: 'wrong number of arguments %s', 26: 'no output',
    27: 'no column %s',
}


def refusal_words(no, word):
    words = REFUSALS[no]
    return words % word if '%s' in words else words


def decimal(digits):
    """The value of a run of ASCII digits of any length (huge ones are cut:
    they are out of every range)."""
    d = digits.lstrip('0')
    if len(d) > 45:
        return 10 ** 45
    return int(d or '0')
