"""Lines that are no calls: each fault makes one out of the text of a call."""

from tests.scripts.generator.moves import Moves
from tests.scripts.lines import ALL_DIGITS, SESSION_SET_UP, SET_UP

WRONG_DIGITS = [b'g', b'G', b'/', b':', b'@', b'`', b'x', b'+', b'-', b'_', b'.', b',',
                b'\x00', b'\x0b', b'\x0c', b'\x80', b'\xa0', b'\xff', b'\xc3\xa9',
                b'\xef\xbc\x91', b'\r', b'\t', b'\x7f']
UNKNOWN_LETTERS = [b'C', b'E', b'G', b'H', b'K', b'M', b'N', b'Q', b'U', b'Z', b'b', b'0',
                   b'\xd1', b'\x00', b'#', b';', b'']
LONG_SIZES = [60, 99, 100, 101, 255, 256, 257, 1000, 4095, 4096, 4097, 8192, 65535, 65536,
              65537, 100000]
# Sizes that a program may read its input by.
BUFFER_SIZES = [4096, 8192, 65536]


def replace_field(text, source, change):
    """Applies `change` to one field of the text; a letter alone gets a field."""
    fields = text.split(b' ')
    if len(fields) == 1:
        fields.append(b'0')
    place = 1 + source.below(len(fields) - 1)
    fields[place] = change(fields[place], place, fields[0])
    return b' '.join(fields)


def too_many_digits(text, source):
    extra = source.pick([1, 1, 1, 2, 8, 24])

    def change(field, place, letter):
        digits = ALL_DIGITS[letter.decode()]
        return field.rjust((digits[place - 1] if digits else 1) + extra, b'0')
    return replace_field(text, source, change)


def wrong_digit(text, source):
    def change(field, place, letter):
        at = source.below(len(field) + 1)
        keep = at + source.below(2)
        return field[:at] + source.pick(WRONG_DIGITS) + field[keep:]
    return replace_field(text, source, change)


def prefix(text, source):
    mark = source.pick([b'0x', b'0X', b'+', b'-', b'$'])
    return replace_field(text, source, lambda field, place, letter: mark + field)


def empty_field(text, source):
    return replace_field(text, source, lambda field, place, letter: b'')


def long_line(text, source):
    size = source.pick(LONG_SIZES)
    filler = source.pick([b' ', b'0', b'S', b'\r', b'\xfe', b'f']) * size
    return source.pick([text + b' ' + filler, filler + text, filler + b' ' + text,
                        b'W 0008 ' + filler + b'1', b'X ' + filler])


def after_letter(text, other):
    return text[:1] + other + text[1:]


FAULTS = [
    lambda text, source: text + b'\r',
    lambda text, source: after_letter(text, b'\r'),
    lambda text, source: b'\r' + text,
    lambda text, source: text + b'\t',
    lambda text, source: b'\t' + text,
    lambda text, source: text[:1] + b'\t' + (text[2:] or b'0'),
    lambda text, source: b' ' + text,
    lambda text, source: text + b' ',
    lambda text, source: text + b'  ',
    lambda text, source: after_letter(text, b' ') if b' ' in text else text + b'  0',
    lambda text, source: text[::-1].replace(b' ', b'  ', 1)[::-1] if b' ' in text else b'  ',
    lambda text, source: text[:1].lower() + text[1:],
    lambda text, source: text + b' 0',
    lambda text, source: text + b' ' + text,
    lambda text, source: text.rpartition(b' ')[0],
    lambda text, source: text[:1] + b' ',
    lambda text, source: text.replace(b' ', b'', 1) + (b'' if b' ' in text else text),
    lambda text, source: text + b'\x00',
    lambda text, source: source.pick(UNKNOWN_LETTERS) + text[1:] + b' 1 1',
    lambda text, source: text[1:],
    lambda text, source: text[2:].lower(),
    lambda text, source: source.pick([b'', b' ', b'\t', b'\r', b'\x00', b'\xff\xfe', b'# ' + text]),
    too_many_digits, too_many_digits, wrong_digit, wrong_digit, prefix, empty_field,
]


class NoCalls(Moves):
    """A tour of such lines."""

    def no_call_tour(self):
        """Each fault on a line of each letter, and lines at the edges of buffers."""
        for letter in self.script.letters:
            for fault in FAULTS:
                self.script.put(fault(self.script.any_text(letter), self.source))
        self.script.put(SET_UP.encode() if self.test else SESSION_SET_UP)
        self.script.put(long_line(b'R 0000', self.source))
        for size in BUFFER_SIZES:
            self.buffer_edges(size)

    def buffer_edges(self, size):
        """A line whose end after the edge looks like a call, one whose start before the edge does,
        and a call across the edge."""
        script = self.script
        script.put(b' ' * (-script.size % size) + b'R 0000')
        script.put(b' ' * ((-script.size - 7) % size))
        script.put(b'R 0000' + b'0' * size)
        script.put(b' ' * ((-script.size - 4) % size))
        script.put_showing()
