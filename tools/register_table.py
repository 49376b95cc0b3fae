"""docs/registers.toml, read: registers, words with their fields, names for numbers.

What cannot be so, as an unknown key or two fields of a register that overlap, is an error: `Wrong`.
"""

import pathlib
import tomllib
from collections.abc import Iterator, Mapping
from itertools import pairwise
from typing import Any, NamedTuple

TABLE = pathlib.Path(__file__).resolve().parent.parent / 'docs/registers.toml'
WORD_BYTES = 4
WORD_BITS = 32
# The accesses that a row of crates/model/specs/Registers.antt can have.
ROWS = {'shows': ('ro',), 'takes': ('ro',), 'pushes': ('wo',), 'holds': ('rw', 'wo'),
        'enables': ('rw',), 'acknowledges': ('rw',)}
ACCESSES = ('ro', 'rw', 'wo')


class Wrong(Exception):
    """What is wrong with the table."""


class Value(NamedTuple):
    """A name for a number of a field: what tools say of it, and what it means."""

    name: str
    number: int
    text: str
    meaning: str


class Field(NamedTuple):
    """Bits of a word. `page` is the register page's name, '' of a word that no register shows;
    `access` is '' where it is the register's; `values` is the name of their list, or ''."""

    name: str
    high: int
    low: int
    page: str
    text: str
    access: str
    values: str

    @property
    def mask(self) -> int:
        return (1 << self.high + 1) - (1 << self.low)

    @property
    def one_bit(self) -> bool:
        return self.high == self.low


class Word(NamedTuple):
    """`python` and `flags` are the names of classes, or ''."""

    name: str
    text: str
    python: str
    flags: str
    nameless: bool
    fields: tuple[Field, ...]


class Register(NamedTuple):
    """`count` is 0 where it is no memory. `shown` are its fields in docs/registers.svd, `cleared`
    has the bits that a written 1 clears."""

    name: str
    offset: int
    count: int
    access: str
    first: int
    variant: str
    row: str
    word: str
    text: str
    more: str
    shown: tuple[Field, ...]
    cleared: int

    @property
    def end(self) -> int:
        """The offset behind it."""
        return self.offset + WORD_BYTES * (self.count or 1)

    @property
    def offsets(self) -> range:
        return range(self.offset, self.end, WORD_BYTES)


class Table(NamedTuple):
    registers: tuple[Register, ...]
    words: Mapping[str, Word]
    values: Mapping[str, tuple[Value, ...]]

    def named_words(self) -> Iterator[Word]:
        """The words whose fields have names in code."""
        return (word for word in self.words.values() if word.fields and not word.nameless)

    def named_values(self) -> Iterator[tuple[str, tuple[Value, ...]]]:
        """The lists of names for numbers of fields that have more than one bit."""
        used = {field.values for word in self.words.values() for field in word.fields
                if not field.one_bit}
        return ((name, values) for name, values in self.values.items() if name in used)

    def of_word(self, name: str) -> list[Register]:
        """The registers whose bits are those of a word."""
        return [one for one in self.registers if one.word == name]


def taken(given: Mapping[str, Any], what: str, needed: Mapping[str, type],
          more: Mapping[str, Any] = {}) -> dict[str, Any]:
    """The keys of a table of the file: those that it must have, and those that it may have, by
    what they are where they are not given."""
    kinds = {**needed, **{key: type(value) for key, value in more.items()}}
    for key, value in given.items():
        if key not in kinds or type(value) is not kinds[key]:
            raise Wrong('%s: %s is no key of it, or not as it should be' % (what, key))
    for key in needed:
        if key not in given:
            raise Wrong('%s: no %s' % (what, key))
    return {**more, **given}


def span(bits: str, what: str) -> tuple[int, int]:
    """The highest and the lowest bit of '7:5' or '7'."""
    high, _, low = bits.partition(':')
    low = low or high
    if not (high.isdecimal() and low.isdecimal() and int(low) <= int(high) < WORD_BITS):
        raise Wrong('%s: bits %s' % (what, bits))
    return int(high), int(low)


def read_value(name: str, given: Mapping[str, Any]) -> Value:
    keys = taken(given, name, {'is': int, 'text': str}, {'more': ''})
    return Value(name, keys['is'], keys['text'], keys['more'] or keys['text'])


def read_field(name: str, what: str, given: Mapping[str, Any],
               values: Mapping[str, tuple[Value, ...]]) -> Field:
    keys = taken(given, what, {'bits': str, 'text': str}, {'page': '', 'access': '', 'values': ''})
    high, low = span(keys['bits'], what)
    if keys['access'] not in ('', *ACCESSES):
        raise Wrong('%s: access %s' % (what, keys['access']))
    if keys['values'] and keys['values'] not in values:
        raise Wrong('%s: no values %s' % (what, keys['values']))
    for value in values.get(keys['values'], ()):
        if not 0 <= value.number < 1 << high - low + 1:
            raise Wrong('%s: %s has more bits than the field' % (what, value.name))
    return Field(name, high, low, keys['page'], keys['text'], keys['access'], keys['values'])


def read_word(name: str, given: Mapping[str, Any],
              values: Mapping[str, tuple[Value, ...]]) -> Word:
    keys = taken(given, name, {'text': str},
                 {'python': '', 'flags': '', 'nameless': False, 'fields': {}})
    fields = tuple(read_field(field, '%s.%s' % (name, field), inside, values)
                   for field, inside in keys['fields'].items())
    if keys['flags'] and not all(field.one_bit for field in fields):
        raise Wrong('%s: a field of its flags has more than one bit' % name)
    return Word(name, keys['text'], keys['python'], keys['flags'], keys['nameless'], fields)


def shown_fields(name: str, access: str, word: Word, whole: str, bit: str,
                 cleared: int) -> Iterator[Field]:
    """The fields of a register as docs/registers.svd has them. Where a written 1 clears some, the
    others are read-only."""
    if whole or not word.fields:
        yield Field(name, WORD_BITS - 1, 0, name, whole or word.text, access, '')
        return
    used = 0
    for field in word.fields:
        own = field.access or access
        if cleared and not field.mask & cleared:
            own = 'ro'
        if not field.page or used & field.mask or access not in ('rw', own):
            raise Wrong('%s.%s: no name, or overlaps, or allows more than its register'
                        % (name, field.name))
        used |= field.mask
        yield field._replace(page=field.page.format(name), access=own,
                             text=bit.format(field.text))


def read_register(name: str, given: Mapping[str, Any], words: Mapping[str, Word]) -> Register:
    keys = taken(given, name, {'offset': int, 'access': str, 'variant': str, 'row': str,
                               'word': str, 'text': str},
                 {'count': 0, 'first': 0, 'more': '', 'bit': '{}', 'clears': '', 'whole': ''})
    if keys['word'] not in words:
        raise Wrong('%s: no word %s' % (name, keys['word']))
    if keys['access'] not in ROWS.get(keys['row'], ()):
        raise Wrong('%s: %s and %s' % (name, keys['row'], keys['access']))
    cleared = 0
    if keys['clears']:
        high, low = span(keys['clears'], name)
        cleared = (1 << high + 1) - (1 << low)
    if bool(cleared) != (keys['row'] == 'acknowledges'):
        raise Wrong('%s: what it clears does not fit its row' % name)
    shown = tuple(shown_fields(name, keys['access'], words[keys['word']], keys['whole'],
                               keys['bit'], cleared))
    if keys['first'] & ~sum(field.mask for field in shown):
        raise Wrong('%s: a first value outside its fields' % name)
    return Register(name, *(keys[key] for key in Register._fields[1:-2]), shown, cleared)


def of(given: Mapping[str, Any]) -> Table:
    """The table of a parsed file."""
    parts = taken(given, 'the table', {'register': dict, 'word': dict, 'values': dict})
    values = {name: tuple(read_value(value, inside) for value, inside in listed.items())
              for name, listed in parts['values'].items()}
    words = {name: read_word(name, inside, values) for name, inside in parts['word'].items()}
    registers = tuple(read_register(name, inside, words)
                      for name, inside in parts['register'].items())
    for one, after in pairwise(registers):
        if after.offset < one.end:
            raise Wrong('%s does not stand behind %s' % (after.name, one.name))
    for one in registers:
        if one.offset % WORD_BYTES or not 0 <= one.offset < one.end <= 1 << 16:
            raise Wrong('%s: offset 0x%x' % (one.name, one.offset))
    return Table(registers, words, values)


def load(path: pathlib.Path = TABLE) -> Table:
    """The table of a file."""
    try:
        return of(tomllib.loads(path.read_text(encoding='utf-8')))
    except (OSError, UnicodeDecodeError, tomllib.TOMLDecodeError) as error:
        raise Wrong('%s: %s' % (path, error)) from None
