"""Writes value change dumps (IEEE 1364, section 18), which wave viewers read. Text is in variables
of the type string, which GTKWave 3.3 knows."""

from collections.abc import Callable, Iterable, Sequence
from typing import NamedTuple, TextIO

# Identifiers are printable characters: there are 94.
FIRST_CODE = '!'
# Types of variables: bits, a number that viewers show in decimal, text.
WIRE, INTEGER, STRING = 'wire', 'integer', 'string'

Value = int | str | None


class Signal(NamedTuple):
    """A variable: its scope, name, bits and type. The values of a string with `texts` are places in
    them. With `each` it is written at each time, so that equal values in a row are told apart."""

    scope: str
    name: str
    bits: int = 1
    kind: str = WIRE
    each: bool = False
    texts: Sequence[str] = ()

    @property
    def full(self) -> str:
        """The name that viewers have for it within its scope."""
        return self.name if self.kind != WIRE or self.bits == 1 else '%s [%d:0]' % (
            self.name, self.bits - 1)


def integer(scope: str, name: str) -> Signal:
    return Signal(scope, name, 32, INTEGER)


def string(scope: str, name: str, texts: Sequence[str] = (), each: bool = False) -> Signal:
    return Signal(scope, name, 1, STRING, each, texts)


def escaped(text: str) -> str:
    """Text as one word, as GTKWave reads it."""
    return text.replace('\\', '\\\\').replace(' ', '\\040')


def change(signal: Signal, code: str) -> Callable[[Value], str]:
    """What is written for a value of a signal. None is unknown: x, or no text."""
    if signal.kind == STRING:
        if not signal.texts:
            return lambda value: 's%s %s\n' % (escaped(value or ''), code)
        lines = {place: 's%s %s\n' % (escaped(text), code)
                 for place, text in enumerate(signal.texts)}
        return {None: 's %s\n' % code, **lines}.__getitem__
    form = '{:b}%s\n' % code if signal.bits == 1 else 'b{:b} %s\n' % code
    unknown = form.replace('{:b}', 'x')
    return lambda value: unknown if value is None else form.format(value)


class Dump:
    """A dump that is being written. Values are those of all signals, in their order."""

    def __init__(self, file: TextIO, top: str, comment: str, timescale: str,
                 signals: Iterable[Signal]) -> None:
        self._file = file
        self._codes = [(signal, chr(ord(FIRST_CODE) + place))
                       for place, signal in enumerate(signals)]
        self._changes = [(change(signal, code), signal.each) for signal, code in self._codes]
        self._last: Sequence[Value] = ()
        self._line('$version %s $end' % top, '$comment %s $end' % comment,
                   '$timescale %s $end' % timescale, '$scope module %s $end' % top)
        self._declare()
        self._line('$upscope $end', '$enddefinitions $end')

    def _line(self, *lines: str) -> None:
        self._file.writelines(line + '\n' for line in lines)

    def _declare(self) -> None:
        """Signals of one scope must stand together."""
        scope = None
        for signal, code in self._codes:
            if signal.scope != scope:
                if scope is not None:
                    self._line('$upscope $end')
                scope = signal.scope
                self._line('$scope module %s $end' % scope)
            self._line('$var %s %d %s %s $end' % (signal.kind, signal.bits, code, signal.full))
        self._line('$upscope $end')

    def first(self, values: Sequence[Value]) -> None:
        """All values at time 0."""
        self._line('#0', '$dumpvars')
        self._file.writelines(made(value) for (made, _), value in zip(self._changes, values))
        self._line('$end')
        self._last = values

    def at(self, time: int, values: Sequence[Value]) -> None:
        """The values at a later time; those that stayed are not written, but of `each`."""
        self._file.write('#%d\n' % time + ''.join([
            made(value) for (made, each), value, last in zip(self._changes, values, self._last)
            if each or value != last]))
        self._last = values

    def end(self, time: int) -> None:
        """Until when the last values last."""
        self._line('#%d' % time)
