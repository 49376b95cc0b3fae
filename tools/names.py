#!/usr/bin/env python3
"""Writes what docs/registers.toml has: names in the header and the bindings, docs/registers.svd.

    tools/names.py            says which files are not as docs/registers.toml has it
    tools/names.py --write    writes them anew

A file has its names between two lines, MARKS; what is outside of them is left. Exit status 0 where
all files are so, or have been written; 1 if not.
"""

import pathlib
import sys
from collections.abc import Callable, Iterator

import register_table
import svd
from register_table import Field, Register, Table, Word

ROOT = register_table.TABLE.parent.parent
HEADER = 'include/thymewax.h'
RUST_OFFSETS = 'bindings/rust/src/registers.rs'
RUST_FIELDS = 'bindings/rust/src/fields.rs'
PYTHON = 'bindings/python/thymewax/registers.py'
SVD = 'docs/registers.svd'
# What stands in the first and in the last line of what is written.
MARKS = ('Written by tools/names.py from docs/registers.toml: do not edit.',
         'End of what is written.')
ACCESS = {'ro': ' Read-only.', 'wo': ' Write-only.', 'rw': ''}


def small(text: str) -> str:
    """A text as a comment in C begins and ends."""
    return (text if text[1:2].isupper() else text[0].lower() + text[1:]).rstrip('.')


def sentence(text: str) -> str:
    return text[0].upper() + text[1:].rstrip('.') + '.'


def titled(word: Word, table: Table) -> str:
    """What a word is, and the registers that have it."""
    names = ', '.join(one.name for one in table.of_word(word.name))
    return word.text.rstrip('.') + (' (%s).' % names if names else '.')


def aligned(rows: list[tuple[str, str]]) -> Iterator[str]:
    """Lines of C with their comments in one column."""
    width = max(len(code) for code, _ in rows)
    return ('%-*s /* %s */' % (width, code, small(text)) for code, text in rows)


def c_name(word: Word, field: Field) -> str:
    return 'THYMEWAX_%s_%s' % (word.name.upper(), field.name.upper())


def rust_name(word: Word, field: Field) -> str:
    return '`%s::%s`' % (word.name, field.name.upper())


def python_name(word: Word, field: Field) -> str:
    return '`%s.%s`' % (word.python, field.name)


def c_lines(table: Table) -> Iterator[str]:
    yield ''
    yield '/* The registers, by their offsets; of a memory that of its first word. */'
    yield 'enum thymewax_register {'
    last = table.registers[-1]
    yield from aligned([
        ('    THYMEWAX_REG_%s = 0x%03x%s' % (one.name, one.offset, '' if one is last else ','),
         one.text + ACCESS[one.access]) for one in table.registers])
    yield '};'
    for word in table.named_words():
        yield ''
        yield '/* %s */' % titled(word, table)
        yield from aligned([
            ('#define %s 0x%08xu' % (c_name(word, field), field.mask), field.text)
            for field in word.fields])
    for name, values in table.named_values():
        yield ''
        yield '/* Numbers of %s. */' % users(name, table, c_name)
        yield from aligned([
            ('#define THYMEWAX_%s_%s %du' % (name.upper(), value.name, value.number), value.meaning)
            for value in values])
    yield ''


def users(values: str, table: Table, name: Callable[[Word, Field], str]) -> str:
    """The names of the fields that have a list of names for their numbers."""
    return ', '.join(name(word, field) for word in table.words.values() for field in word.fields
                     if field.values == values)


def rust_offset(one: Register) -> str:
    if one.count:
        return 'pub const %s: [u16; %d] = row(0x%03x);' % (one.name, one.count, one.offset)
    return 'pub const %s: u16 = 0x%03x;' % (one.name, one.offset)


def rust_offset_lines(table: Table) -> Iterator[str]:
    yield ''
    for one in table.registers:
        yield '/// %s%s' % (one.text, ACCESS[one.access])
        yield rust_offset(one)
    yield ''


def rust_field(field: Field) -> Iterator[str]:
    yield '    /// %s' % sentence(field.text)
    yield '    pub const %s: Field = Field::new(%d, %d);' % (
        field.name.upper(), field.high, field.low)


def rust_field_lines(table: Table) -> Iterator[str]:
    yield ''
    for word in table.named_words():
        yield '/// %s' % titled(word, table)
        yield 'pub mod %s {' % word.name
        yield '    use super::Field;'
        yield ''
        for field in word.fields:
            yield from rust_field(field)
        yield '}'
        yield ''
    for name, values in table.named_values():
        yield '/// Numbers of %s.' % users(name, table, rust_name)
        yield 'pub mod %s {' % name
        for value in values:
            yield '    /// %d: %s.' % (value.number, value.meaning)
            yield '    pub const %s: u8 = %d;' % (value.name, value.number)
        yield '}'
        yield ''


def python_class(name: str, base: str, text: str, members: list[tuple[str, str]]) -> Iterator[str]:
    yield ''
    yield ''
    yield 'class %s(%s):' % (name, base)
    yield '    """%s"""' % text
    yield ''
    yield from ('    %s = %s' % member for member in members)


def python_lines(table: Table) -> Iterator[str]:
    yield from python_class('Register', 'IntEnum', 'Offsets.', [
        (one.name, '0x%03x' % one.offset) for one in table.registers if not one.count])
    yield ''
    yield ''
    yield '# The offsets of memories.'
    memories = [one for one in table.registers if one.count]
    for one in memories:
        yield '%s = range(0x%03x, 0x%03x, %d)' % (
            one.name, one.offset, one.end, register_table.WORD_BYTES)
    yield 'MEMORIES = {%s}' % ', '.join("'%s': %s" % (one.name, one.name) for one in memories)
    for word in table.words.values():
        if word.flags:
            names = ', '.join(one.name for one in table.of_word(word.name))
            yield from python_class(word.flags, 'IntFlag', names + '.', [
                (field.page, '1 << %d' % field.low) for field in reversed(word.fields)])
    for name, values in table.named_values():
        text = 'Numbers of %s.' % users(name, table, python_name)
        yield from python_class(name.capitalize(), 'IntEnum', text, [
            (value.name, str(value.number)) for value in values])
    yield ''
    yield ''


BLOCKS = {
    HEADER: ('/* %s */', c_lines),
    RUST_OFFSETS: ('// %s', rust_offset_lines),
    RUST_FIELDS: ('// %s', rust_field_lines),
    PYTHON: ('# %s', python_lines),
}


def cut(name: str, text: str) -> tuple[str, str, str]:
    """A file before, between and behind its marks, which stay with the outer parts."""
    first, last = (BLOCKS[name][0] % mark + '\n' for mark in MARKS)
    if text.count(first) != 1 or text.count(last) != 1:
        raise register_table.Wrong('%s: not one %r and one %r'
                                   % (name, first.strip(), last.strip()))
    before, rest = text.split(first)
    between, behind = rest.split(last)
    return before + first, between, last + behind


def written(name: str, table: Table, old: str) -> str:
    """A file as it should be, from what it is."""
    if name == SVD:
        return svd.svd(table)
    before, _, behind = cut(name, old)
    return before + ''.join(line + '\n' for line in BLOCKS[name][1](table)) + behind


def stale(table: Table) -> Iterator[tuple[str, str]]:
    """The files that are not as they should be, each with what it should be."""
    for name in (*BLOCKS, SVD):
        old = (ROOT / name).read_text(encoding='utf-8')
        new = written(name, table, old)
        if new != old:
            yield name, new


def main() -> None:
    if sys.argv[1:] not in ([], ['--write']):
        sys.exit(__doc__)
    try:
        found = list(stale(register_table.load()))
    except register_table.Wrong as error:
        sys.exit('names: %s' % error)
    for name, text in found:
        if sys.argv[1:]:
            (ROOT / name).write_text(text, encoding='utf-8')
        print('%s: %s' % (name, 'written' if sys.argv[1:] else 'not as docs/registers.toml has it'))
    sys.exit(bool(found) and not sys.argv[1:])


if __name__ == '__main__':
    main()
