#!/usr/bin/env python3
"""Holds whatever names a register to docs/registers.toml, the one place for what a register is.

    registers.py            says what differs from the table, with its file

Offsets, access and first values, fields and their bits, names for numbers: in the definitions (Map.antt, Registers.antt)
and the code beside them, the rules, the header, the bindings, docs/registers.svd, the wording of the tools, the second
program and the plain engine of the benchmark. What tools/names.py writes must be there to the letter. Exit status 0 only
if nothing differs. registers_tried.py shows what it says of a register that stands in the table alone.
"""

import pathlib
import re
import sys
import xml.etree.ElementTree as ElementTree
from collections.abc import Callable, Iterator
from typing import Any

sys.path.insert(0, str(pathlib.Path(__file__).resolve().parents[2]))

from tests import ROOT
import names
import register_table
import svd
import wording
from register_table import Register, Table, Word

MAP = 'crates/registers/specs/Map.antt'
ROWS = 'crates/model/specs/Registers.antt'
CODE = 'crates/registers/src/lib.rt'
ARMS = ('crates/read/src/lib.rt', 'crates/write/src/lib.rt')
RULES = 'docs/RULES.md'
FORMATS = 'bindings/python/thymewax/formats.py'
WORDING = 'tools/wording.py'
SECOND = 'reference/src/engine.rs'
PLAIN = 'bench/src/plain/offset.rs'
ONES = 0xffffffff

# The text of a file of the repository, by its path.
Read = Callable[[str], str]
# What a file has, by name.
Facts = dict[str, object]


def read_file(path: str) -> str:
    return (ROOT / path).read_text(encoding='utf-8')


def compare(path: str, found: Facts, wanted: Facts) -> Iterator[str]:
    for name, value in wanted.items():
        if name not in found:
            yield f'{path}: lacks {name}'
        elif found[name] != value:
            yield f'{path}: {name} is {found[name]}, the table has {value}'
    yield from (f'{path}: {name} is not in the table' for name in found if name not in wanted)


def place(one: Register) -> str:
    """Where a register stands."""
    return f'0x{one.offset:03x} to 0x{one.end - 4:03x}' if one.count else f'0x{one.offset:03x}'


def kind_of(one: register_table.Register) -> str:
    """The variant of a register without the number that tells it from others of its kind."""
    return one.variant.partition('(')[0]


# ── Definitions and code ────────────────────────────────────────────────────────────────────────────────────────────

def bare(text: str) -> str:
    """A file of definitions without its comments."""
    return re.sub(r'[ \t]*--.*', '', text)


def once(path: str, text: str, pattern: str) -> str:
    """The one piece of a text that a pattern has."""
    found = re.findall(pattern, text, re.M)
    if len(found) != 1:
        raise register_table.Wrong(f'{path}: {pattern!r} stands {len(found)} times in it, not once')
    return found[0]


def mapped(text: str) -> Facts:
    """The registers of `named` and the memories of `offload`, as long as `in_memory` says."""
    body = once(MAP, text, r'^named =\n((?:[ \t]+\S.*\n)+)')
    found: Facts = {}
    for part in (part.strip() for part in body.split('∷')):
        if entry := re.fullmatch(r'(0x[0-9a-f]+) is (\w+)(?: (\d+))?', part):
            variant = f'{entry[2]}({entry[3]})' if entry[3] else entry[2]
            name = variant if variant not in found else f'a second {variant}'
            found[name] = entry[1]
        elif part != '[]':
            found[f'the entry {part!r}'] = 'of another form'
    last = int(once(MAP, text, r'^in_memory base o = leb base o && leb o \(base \+ (0x[0-9a-f]+)\) && eqb \(o % 4\) 0$'), 16)
    line = once(MAP, text, r'^offload o = (.*)$')
    for base, name in re.findall(r'cond \(in_memory (0x[0-9a-f]+) o\) \((\w+) \(\(o - \1\) / 4\)\)', line):
        found[name] = f'{base} to 0x{int(base, 16) + last:03x}'
    return found


def definitions(table: Table, read: Read) -> Iterator[str]:
    yield from compare(MAP, mapped(bare(read(MAP))), {one.variant: place(one) for one in table.registers})
    text = bare(read(ROWS))
    rows = {name: row for name, row in re.findall(r'^row \(?(\w+)(?: i\))? = (.+)$', text, re.M) if row != 'absent'}
    shown = dict(re.findall(r'^shown \(?(\w+)(?: [iq]\))? s = (.+)$', text, re.M))
    found: Facts = {}
    for name, row in rows.items():
        kind, _, rest = row.partition(' ')
        cell = re.match(r'\(?(\w*)', rest)[1]
        # A cell that shows 0 is write-only.
        accesses = register_table.ROWS.get(kind, ('?',))
        access = accesses[0] if kind != 'holds' else 'wo' if shown.get(cell) == '0' else 'rw'
        found[f'row {name}'] = f'{kind}, {access}'
    yield from compare(ROWS, found, {f'row {kind_of(one)}': f'{one.row}, {one.access}' for one in table.registers})


def code(table: Table, read: Read) -> Iterator[str]:
    text = read(CODE)
    variants = once(CODE, text, r'^pub enum Register \{\n((?:    .*\n)+)\}')
    found = re.findall(r'^    (\w+)(?:\(u32\))?,$', variants, re.M)
    yield from compare(f'{CODE}, enum Register', {name: '' for name in found if name != 'Unmapped'},
                       {kind_of(one): '' for one in table.registers})
    arms: Facts = {name: offset for offset, name in re.findall(r'^        (0x\w+) => Register::(\w+(?:\(\d+\))?),$', text, re.M)}
    memories = re.findall(r'^        (0x\w+)\.\.=(0x\w+) => \{\n.*\n +Register::(\w+)\(', text, re.M)
    arms.update({name: f'{first} to {last}' for first, last, name in memories})
    yield from compare(f'{CODE}, register_at', arms, {one.variant: place(one) for one in table.registers})
    for path in ARMS:
        found = re.findall(r'^        Register::(\w+)(?:\(i\))? =>', read(path), re.M)
        yield from compare(path, {name: '' for name in found if name != 'Unmapped'},
                           {kind_of(one): '' for one in table.registers})


# ── Rules, and programs that stay apart ─────────────────────────────────────────────────────────────────────────────

def rules(table: Table, read: Read) -> Iterator[str]:
    """The section on registers has a rule at each offset, and says how many there are."""
    section = read(RULES).split('\n## Registers\n')[1].split('\n## ')[0]
    found = re.findall(r'0x[0-9a-f]{3} to 0x[0-9a-f]{3}|(?<=[ (])0x[0-9a-f]{3}(?![0-9a-f])', section)
    for one in table.registers:
        if place(one) not in found:
            yield f'{RULES}: no rule on {one.name}, {place(one)}'
    offsets = {place(one) for one in table.registers}
    yield from (f'{RULES}: {other} is not in the table' for other in dict.fromkeys(found) if other not in offsets)
    said, count = once(RULES, section, r'\b(\d+) offsets'), sum(len(one.offsets) for one in table.registers)
    if int(said) != count:
        yield f'{RULES}: {said} offsets, the table has {count}'


def offsets_of(first: str, last: str | None) -> range:
    """Every offset of an arm or a pair of constants; the last one is missing where it is the first."""
    return range(int(first, 16), int(last or first, 16) + 4, 4)


def apart(table: Table, read: Read) -> Iterator[str]:
    """The second program and the plain engine have names of their own and may take several registers together; of both the
    offsets are asked for."""
    names_at = {offset: one.name for one in table.registers for offset in one.offsets}
    second = re.findall(r'^        (0x\w+)(?:\.\.=(0x\w+))? => Register::', read(SECOND), re.M)
    consts = dict(re.findall(r'^pub const (\w+): u16 = (0x\w+);$', read(PLAIN), re.M))
    plain = [(offset, consts.get(name + '_LAST')) for name, offset in consts.items() if not name.endswith('_LAST')]
    wanted: Facts = {f'0x{offset:03x}, {name}': '' for offset, name in names_at.items()}
    for path, places in ((SECOND, second), (PLAIN, plain)):
        found = [offset for first, last in places for offset in offsets_of(first, last)]
        yield from compare(path, {f'0x{offset:03x}, {names_at.get(offset, "no register")}': '' for offset in found}, wanted)


# ── What tools/names.py writes ──────────────────────────────────────────────────────────────────────────────────────

def header(table: Table, read: Read) -> Iterator[str]:
    text = names.cut(names.HEADER, read(names.HEADER))[1]
    found: Facts = dict(re.findall(r'\b(THYMEWAX_\w+) (?:= )?(0x[0-9a-f]+|\d+)u?\b', text))
    wanted: Facts = {f'THYMEWAX_REG_{one.name}': f'0x{one.offset:03x}' for one in table.registers}
    wanted |= {names.c_name(word, field): f'0x{field.mask:08x}' for word in table.named_words() for field in word.fields}
    wanted |= {f'THYMEWAX_{name.upper()}_{value.name}': str(value.number)
               for name, values in table.named_values() for value in values}
    yield from compare(names.HEADER, found, wanted)


def rust(table: Table, read: Read) -> Iterator[str]:
    found: Facts = {name: first or f'{offset}, {count} words' for name, count, offset, first in re.findall(
        r'^pub const (\w+): (?:\[u16; (\d+)\] = row\((\w+)\)|u16 = (\w+));$', read(names.RUST_OFFSETS), re.M)}
    yield from compare(names.RUST_OFFSETS, found, {
        one.name: f'0x{one.offset:03x}' + (f', {one.count} words' if one.count else '') for one in table.registers})
    found, module = {}, ''
    for line in read(names.RUST_FIELDS).splitlines():
        if opened := re.fullmatch(r'pub mod (\w+) \{', line):
            module = opened[1]
        elif const := re.fullmatch(r'    pub const (\w+): (?:Field = Field::new\((\d+), (\d+)\)|u8 = (\d+));', line):
            found[f'{module}::{const[1]}'] = const[4] or f'{const[2]}:{const[3]}'
    wanted: Facts = {names.rust_name(word, field).strip('`'): f'{field.high}:{field.low}'
                     for word in table.named_words() for field in word.fields}
    wanted |= {f'{name}::{value.name}': str(value.number) for name, values in table.named_values() for value in values}
    yield from compare(names.RUST_FIELDS, found, wanted)


def module_of(path: str, read: Read) -> dict[str, Any]:
    """What a module of the package for Python has."""
    found: dict[str, Any] = {'__name__': 'thymewax.' + pathlib.Path(path).stem}
    exec(compile(read(path), path, 'exec'), found)
    return found


def python_names(table: Table, read: Read) -> Iterator[str]:
    module = module_of(names.PYTHON, read)
    wanted: dict[str, Facts] = {'Register': {one.name: f'0x{one.offset:03x}' for one in table.registers if not one.count}}
    wanted |= {word.flags: {field.page: f'0x{field.mask:03x}' for field in word.fields}
               for word in table.words.values() if word.flags}
    wanted |= {name.capitalize(): {value.name: f'0x{value.number:03x}' for value in values}
               for name, values in table.named_values()}
    for name, members in wanted.items():
        found: Facts = {one.name: f'0x{one.value:03x}' for one in module.get(name, ())}
        yield from compare(f'{names.PYTHON}, {name}', found, members)
    yield from compare(names.PYTHON, {name: list(offsets) for name, offsets in module['MEMORIES'].items()},
                       {one.name: list(one.offsets) for one in table.registers if one.count})


def map_file(table: Table, read: Read) -> Iterator[str]:
    """docs/registers.svd, by register, field and name of a number."""
    accesses = {long: short for short, long in svd.ACCESS.items()}
    found: Facts = {}
    for node in ElementTree.fromstring(read(names.SVD)).iter('register'):
        name = node.findtext('name').removesuffix('[%s]')
        found[name] = ', '.join((node.findtext('addressOffset'), node.findtext('dim', '1'),
                                 accesses.get(node.findtext('access'), '?'), node.findtext('resetValue')))
        for field in node.iter('field'):
            inside = f'{name}.{field.findtext("name")}'
            found[inside] = f'{field.findtext("bitRange").strip("[]")} {accesses.get(field.findtext("access"), "?")}'
            found |= {f'{inside} {value.findtext("name")}': value.findtext('value')
                      for value in field.iter('enumeratedValue')}
    wanted: Facts = {}
    for one in table.registers:
        wanted[one.name] = f'0x{one.offset:03x}, {one.count or 1}, {one.access}, 0x{one.first:08x}'
        for field in one.shown:
            wanted[f'{one.name}.{field.page}'] = f'{field.high}:{field.low} {field.access}'
            wanted |= {f'{one.name}.{field.page} {value.name}': str(value.number)
                       for value in table.values.get(field.values, ())}
    yield from compare(names.SVD, found, wanted)


def to_the_letter(table: Table, read: Read) -> Iterator[str]:
    for name in (*names.BLOCKS, names.SVD):
        text = read(name)
        if names.written(name, table, text) != text:
            yield f'{name}: not as tools/names.py --write leaves it'


# ── What is written by hand ─────────────────────────────────────────────────────────────────────────────────────────

def wrong_class(word: Word, kind: Any) -> Iterator[str]:
    """Each field read by its name where all its bits are set, and where all others are; and made again."""
    for field in word.fields:
        if not hasattr(kind, field.name):
            yield f'lacks {word.python}.{field.name}'
            continue
        for bits in (field.mask, ONES ^ field.mask):
            got, wanted = int(getattr(kind.of(bits), field.name)), (bits & field.mask) >> field.low
            if got != wanted:
                yield f'{word.python}.{field.name} of 0x{bits:08x} is 0x{got:x}, the table has 0x{wanted:x}'
        if hasattr(kind, 'word') and field.access != 'ro' and kind.of(field.mask).word != field.mask:
            yield f'{word.python}.word has no {field.name}'


def formats(table: Table, read: Read) -> Iterator[str]:
    module = module_of(FORMATS, read)
    for word in table.words.values():
        if word.python and word.python not in module:
            yield f'{FORMATS}: lacks {word.python}'
        elif word.python:
            yield from (f'{FORMATS}: {text}' for text in wrong_class(word, module[word.python]))


def told(table: Table, read: Read) -> Iterator[str]:
    """The tools have words for what a register shows and takes."""
    for one in table.registers:
        if one.access != 'wo' and one.word not in wording.READ_WORDS:
            yield f'{WORDING}: no words for a read of {one.name}: {one.word}'
        if one.access != 'ro' and one.word not in wording.WRITTEN_WORDS and one.name not in wording.WRITTEN_TO:
            yield f'{WORDING}: no words for a write to {one.name}: {one.word}'


PARTS = (definitions, code, rules, header, rust, python_names, formats, map_file, told, apart, to_the_letter)


def differences(table: Table, read: Read = read_file) -> list[str]:
    """What differs from a table."""
    return [line for part in PARTS for line in part(table, read)]


def main() -> None:
    try:
        table = register_table.load()
        wrong = differences(table)
    except register_table.Wrong as error:
        wrong = [str(error)]
    print('\n'.join(wrong) if wrong else
          f'{len(table.registers)} registers and {len(table.words)} words are everywhere as docs/registers.toml has them')
    sys.exit(bool(wrong))


if __name__ == '__main__':
    main()
