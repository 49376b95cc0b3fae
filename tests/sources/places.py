#!/usr/bin/env python3
"""Holds the code to this: places of rings are found in the crate `ring`, and there without a division (`ring.place`).

    places.py

From the repository's root. It reads crates/*/src without comments, contracts and literals. A ring type is a struct with a
field `head`, or the struct that a field `heads` has. A function *has a head* where it names a ring type or a field or
parameter `head`, calls what takes or gives a ring type, is handed a head, or is called by what gives one. It *counts words*
where it names a struct that a ring is made of, and *passes an operation* where it takes or gives an enum with a case `Push`,
or a struct or another name of such.

- No division stands in `ring`, but for the round-up by four, nor in a function that has a head, counts words or passes an
  operation, nor in what is called by a function with a whole ring.
- Outside `ring`, a function that has a head computes nothing: it copies, compares and hands on.
- Outside `ring`, no slice that a ring lies in is indexed.

No other crate is named, so a later one is held to this by what its code says. Prints a line for each fault. If there is
none, each damage of places_damages.py is made to a copy, and must be seen where it is. Exit status 0 only if all is so.
"""

import pathlib
import re
import sys
from collections.abc import Iterator

sys.path.insert(0, str(pathlib.Path(__file__).resolve().parents[2]))

from tests.sources.code import Call, Function, blanks, source
from tests.sources.places_damages import DAMAGES

HOME = 'ring'
ROUND_UP = 'ring::words_for'
BY_FOUR = re.compile(r'[/%]\s*4\b')
DIVISION = re.compile(r'[/%]|>>|\b(?:\w+_)?(?:div|rem)(?:_\w+)?\s*\(')
# Not products: they find no place. `&` before a number is a mask, so a remainder.
COMPUTED = re.compile(r'\+|-(?!>)|\^|<<|&\s*\d|\bstd::num::|\b(?:wrapping|checked|saturating|overflowing)_\w+')
NUMBER = re.compile(r'[ui](?:\d+|size)')
NAMED = re.compile(r'[A-Z]\w*')
HEAD = r'(?:[a-z]\w*_)?head'
OF_HEADS = re.compile(rf'\.\s*{HEAD}s?\b(?!\s*\()')
BOUND = re.compile(r'\blet (?:mut )?(\w+) = ([^;]*);')
Fault = tuple[str, int, str]


def any_of(names: set[str]) -> str:
    """A pattern for one of these words; nothing matches where there are none."""
    return rf'\b(?:{"|".join(sorted(names)) or "(?!)"})\b'


class Code:
    def __init__(self, texts: dict[str, str]):
        self.sources = [source(path, text) for path, text in texts.items()]
        self.functions = [one for each in self.sources for one in each.functions]
        self.outside = [one for one in self.functions if one.crate != HOME]
        self.named: dict[str, list[Function]] = {}
        for one in self.functions:
            self.named.setdefault(one.name, []).append(one)
        structs = {name: fields for each in self.sources for name, fields in each.structs.items()}
        rings = {name for name, fields in structs.items() if any(re.fullmatch(HEAD, field) for field in fields)}
        several = {kind for fields in structs.values() for field, kind in fields.items() if field == 'heads'}
        made_of = {kind for name in rings for kind in structs[name].values() if NAMED.fullmatch(kind)}
        operations = {name for each in self.sources for name, cases in each.enums.items() if 'Push' in cases}
        operations |= {name for name, fields in structs.items() if operations & {*fields.values()}}
        operations |= {name for each in self.sources for name, kind in each.aliases.items()
                       if re.search(any_of(operations), kind)}
        self.ring, self.heads = any_of(rings), any_of(several)
        self.count, self.operation = any_of(made_of), any_of(operations)
        self.having = self.with_heads()

    def called(self, function: Function) -> Iterator[tuple[Call, Function]]:
        """The calls of a function with what each calls. The type of a value is not known: `value.name(..)` may be any method of
        that name."""
        for call in function.calls:
            for one in self.named.get(call.name, ()):
                if (one.crate, one.of) == (call.crate, call.of) or not call.crate and one.of or \
                        call.of == 'Self' and (one.crate, one.of) == (function.crate, function.of):
                    yield call, one

    def beneath(self, above: list[Function]) -> dict[Function, str]:
        """What these call outside `ring`, and what that calls, and so on, each with a caller."""
        found, left = {}, list(above)
        while left:
            caller = left.pop()
            for _, one in self.called(caller):
                if one.crate != HOME and one not in found:
                    found[one] = f'is called by {caller}'
                    left.append(one)
        return found

    def names(self, function: Function, kind: str) -> bool:
        """Whether a function names a type, or calls what takes or gives it."""
        return bool(re.search(kind, function.text)) or any(re.search(kind, one.types()) for _, one in self.called(function))

    def names_head(self, function: Function) -> bool:
        return bool(OF_HEADS.search(function.text) or self.names(function, f'{self.ring}|{self.heads}')
                    or any(re.fullmatch(HEAD, name) and NUMBER.fullmatch(kind) for name, kind in function.parameters))

    def handing(self, function: Function, given: set[str]) -> re.Pattern:
        """What a head looks like in a function: a field of a ring or of heads, or a name that was given one."""
        several = {name for name, kind in function.parameters if re.search(self.heads, kind)}
        gives = {one.name for _, one in self.called(function) if re.search(self.heads, one.result)}
        for name, value in BOUND.findall(function.text):
            if value in several or value.endswith('.heads') or re.match(rf'(?:\w+::)?{any_of(gives)}', value):
                several.add(name)
            elif re.fullmatch(rf'[\w.]+\.{HEAD}|(?:[\w.]+\.heads|{any_of(several)})\.\w+(?:\([^()]*\))?|'
                              rf'{any_of(given)}(?:\.\w+)?', value):
                given = given | {name}
        return re.compile(rf'\.{HEAD}s?\b|{any_of(several)}\s*(?:\.|$)|{any_of(given)}')

    def with_heads(self) -> dict[Function, str]:
        """The functions outside `ring` that have a head, and how."""
        found = {one: 'has a head' for one in self.outside if self.names_head(one)}
        giving = [one for one in self.outside if re.search(f'{self.ring}|{self.heads}', one.result)]
        found = {**self.beneath(giving), **found}
        given: dict[Function, set[str]] = {}
        left = list(found)
        while left:
            above = left.pop()
            head = self.handing(above, given.get(above, set()))
            for call, one in self.called(above):
                handed = {name for (name, kind), argument in zip(one.parameters, call.arguments)
                          if head.search(argument) and not re.search(self.heads, kind)}
                if one.crate != HOME and not handed <= given.setdefault(one, set()):
                    given[one] |= handed
                    found.setdefault(one, f'is handed a head by {above}')
                    left.append(one)
        return found

    def in_ring(self) -> Iterator[Fault]:
        for each in self.sources:
            if each.crate != HOME:
                continue
            rest = each.code
            for one in each.functions:
                allowed = BY_FOUR if str(one) == ROUND_UP else re.compile('(?!)')
                text = allowed.sub(lambda found: blanks(found[0]), one.text)
                yield from ((one.path, one.line_at(found.start()), f'{one} divides') for found in DIVISION.finditer(text))
                rest = rest.replace(one.text, blanks(one.text), 1)
            yield from ((each.path, rest.count('\n', 0, found.start()) + 1, f'{HOME} divides')
                        for found in DIVISION.finditer(rest))

    def above_ring(self) -> Iterator[Fault]:
        whole = [one for one in self.outside if self.names(one, self.ring)]
        passing = {one: 'passes an operation' for one in self.outside if re.search(self.operation, one.types())}
        counting = {one: 'counts words' for one in self.outside if re.search(self.count, one.text)}
        for one, why in {**passing, **counting, **self.beneath(whole), **self.having}.items():
            yield from ((one.path, one.line_at(found.start()), f'{one} {why} and divides')
                        for found in DIVISION.finditer(one.text))
        for one, why in self.having.items():
            yield from ((one.path, one.line_at(found.start()), f'{one} {why} and computes')
                        for found in COMPUTED.finditer(one.text))

    def lent(self) -> set[tuple[Function, str]]:
        """The slices that rings lie in, by function and name: those of `ring`, and what is handed to them."""
        found = {(one, name) for one in self.functions if one.crate == HOME
                 for name, kind in one.parameters if '[' in kind}
        grows = True
        while grows:
            handed = {(above, base[1]) for above in self.functions for call, one in self.called(above)
                      for (name, _), argument in zip(one.parameters, call.arguments)
                      if (one, name) in found and (base := re.match(r'(?:&\s*)?(?:mut\s+)?(\w+)', argument))}
            grows = not handed <= found
            found |= handed
        return found

    def indexed(self) -> Iterator[Fault]:
        for one, name in self.lent():
            # A part from the first word on, `[..n]`, is lent on and no place.
            places = re.finditer(rf'\b{name}\s*\[(?!\s*\.\.)', one.text) if one.crate != HOME else ()
            yield from ((one.path, one.line_at(found.start()), f'{one} indexes {name}, where a ring lies')
                        for found in places)

    def faults(self) -> list[Fault]:
        return sorted({*self.in_ring(), *self.above_ring(), *self.indexed()})


def unseen(texts: dict[str, str]) -> Iterator[str]:
    """Damages that are not seen where they are, and harmless changes that are taken for damages."""
    for what, path, old, new, expected in DAMAGES:
        text = texts.get(path, '')
        if text.count(old) != 1:  # an empty text has nothing once
            yield f'{what}: {path} has {text.count(old)} times {old!r}'
            continue
        first = text.count('\n', 0, text.index(old)) + 1
        found = Code({**texts, path: text.replace(old, new, 1)}).faults()
        here = [(at, line, said) for at, line, said in found if at != path or first <= line <= first + new.count('\n')]
        if bool(expected) != bool(found) or here != found or not all(expected in said for _, _, said in found):
            yield f'{what}: {expected or "no fault"} expected, found {found}'


def main() -> None:
    texts = {path.as_posix(): path.read_text() for path in sorted(pathlib.Path('crates').glob('*/src/**/*.rt'))}
    code = Code(texts)
    wrong = [f'{path}:{line}: {said}: {texts[path].splitlines()[line - 1].strip()}' for path, line, said in code.faults()]
    wrong = wrong or list(unseen(texts))
    seen = sum(bool(expected) for *_, expected in DAMAGES)
    print('\n'.join(wrong) if wrong else f'{len(code.having)} functions outside ring have a head: none computes or divides; '
          f'{seen} damages are seen, {len(DAMAGES) - seen} harmless changes let through')
    sys.exit(bool(wrong))


main()
