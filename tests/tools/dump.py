"""A value change dump, read by IEEE 1364's format with GTKWave's strings: nothing here knows the
tool. Only which signals have text or decimal numbers is stated."""

import re

from tests.shared.trial import Wrong, equal
from thymewax import Register

# Which register's field a signal shows.
LEVELS = {'cmd': Register.CMD_FIFO_ROOM, 'cmdr': Register.CMDR_FIFO_LEVEL,
          'sdo': Register.SDO_FIFO_ROOM, 'sdi': Register.SDI_FIFO_LEVEL,
          'ibi': Register.IBI_FIFO_LEVEL}
# Lanes in which each call is a change of its own.
EACH = {'access.call', 'access.register', 'access.script_line', 'access.words', 'answer.answer'}
TEXT = EACH | {'transfer.phase', 'transfer.kind'}
DECIMAL = {'access.section', 'answer.number', 'transfer.length', 'transfer.moved', 'bank.burst',
           *('level.' + name for name in LEVELS)}


class Wave:
    """A dump, read: type and bits of each variable by its full name, its values over time, and
    which of them were written at each."""

    def __init__(self, text):
        self.kinds, self.widths, self.names, self.times, self.written = {}, {}, {}, [], []
        self.timescale = re.search(r'\$timescale (.*?) \$end', text)[1]
        head, body = text.split('$enddefinitions $end\n')
        self.read_head(head)
        self.read_body(body.split('\n'))

    def read_head(self, head):
        scopes = []
        for keyword, rest in re.findall(r'\$(\w+)\s+(.*?)\$end', head, re.DOTALL):
            words = rest.split()
            if keyword == 'scope':
                scopes.append(words[1])
            elif keyword == 'upscope':
                scopes.pop()
            elif keyword == 'var':
                kind, width, code, name, *span = words
                full = '.'.join([*scopes, name])
                if code in self.names or not re.fullmatch('[!-~]+', code):
                    raise Wrong('variable %s: %s' % (full, rest))
                self.names[code], self.kinds[full], self.widths[full] = full, kind, int(width)
                short = full.removeprefix('thymewax.')
                wanted = ('string' if short in TEXT else 'integer' if short in DECIMAL else 'wire')
                equal('declarations', name, kind, wanted)
                equal('declarations', name, span, [] if width == '1' or kind != 'wire'
                      else ['[%d:0]' % (int(width) - 1)])
                equal('declarations', name, kind == 'wire' or width == (
                    '32' if kind == 'integer' else '1'), True)
            elif keyword not in ('version', 'comment', 'timescale'):
                raise Wrong('$%s' % keyword)
        equal('declarations', 'open scopes', scopes, [])

    def read_body(self, lines):
        """Each time must be above the one before. At time 0 every variable has a value."""
        values, last, written = {}, -1, set()
        for line in lines:
            if line.startswith('#'):
                self.keep(last, values, written)
                equal('times', line, int(line[1:]) > last, True)
                last, written = int(line[1:]), set()
            elif line in ('$dumpvars', '$end', ''):
                continue
            else:
                written.add(self.change(values, line))
        self.keep(last, values, written)

    def keep(self, time, values, written):
        if time < 0:
            return
        equal('times', 'values at %d' % time, len(values), len(self.names))
        self.times.append((time, dict(values)))
        self.written.append({name.removeprefix('thymewax.') for name in written})

    def change(self, values, line):
        """The variable whose value a line gives."""
        match = re.fullmatch(r'(b)([01]+|x) (\S+)|(s)(\S*) (\S+)|()([01x])(\S+)', line)
        if not match:
            raise Wrong('change %r' % line)
        form, value, code = (part for part in match.groups() if part is not None)
        name = self.names[code]
        text = self.kinds[name] == 'string'
        if not text and len(value) > self.widths[name] or form != (
                's' if text else '' if self.widths[name] == 1 else 'b'):
            raise Wrong('change %r of %s' % (line, name))
        values[name] = plain(value) if text else None if value == 'x' else int(value, 2)
        return name

    def lane(self, name):
        """The values of a variable from call 1 on, without the end."""
        return [values['thymewax.' + name] for _, values in self.times[1:-1]]


def plain(text):
    """Text without its escapes, which are those of C."""
    return re.sub(r'\\(\\|[0-7]{3})', lambda match: '\\' if match[1] == '\\' else chr(
        int(match[1], 8)), text)
