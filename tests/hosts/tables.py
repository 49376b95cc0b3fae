#!/usr/bin/env python3
"""The Python package as its user meets it: names held to the documents, hints, the library's
place and making, the example, the code of its README.

    tables.py

Needs archive and shared library (`python3 -m thymewax.build`). Exit status 0 only if all is as
expected.
"""

import inspect
import os
import pathlib
import re
import sys
import tempfile
import tomllib
import typing

sys.path.insert(0, str(pathlib.Path(__file__).resolve().parents[2]))

from tests import PACKAGE, ROOT
from tests.shared.trial import Wrong, equal, main, raises, run
import register_table
import thymewax
from thymewax import MEANINGS, Number, image, library, name_of

TABLE = register_table.load()
EXAMPLE = b'''command 00000210: done
command 00000411: done
a third one: 1, a word written to a full CMD or SDO was dropped
sent: a5 c3
receipt: error 0, 2 bytes, sync 0
receipt: error 0, 3 bytes, sync 1
received: 12 34 56
'''
PYTHON = sys.executable
NO_FOLDER = '/nonexistent'


def meanings():
    """The words of docs/ANSWERS.md."""
    text = (ROOT / 'docs/ANSWERS.md').read_text()
    rows = re.findall(r'^\| (\d+) \| ([^|]+) \|', text, re.MULTILINE)
    equal('meanings', 'docs/ANSWERS.md', [(number, meaning) for number, meaning in rows],
          [(str(number), meaning) for number, meaning in enumerate(MEANINGS)])


def numbers():
    """The names of enum thymewax_number, one for each meaning."""
    text = (ROOT / 'include/thymewax.h').read_text()
    body = re.search(r'^enum thymewax_number \{(.*?)^\};', text, re.MULTILINE | re.DOTALL)[1]
    rows = re.findall(r'THYMEWAX_(\w+) = (\d+)', body)
    equal('numbers', 'include/thymewax.h', [(one.name, str(int(one))) for one in Number], rows)
    equal('numbers', 'meanings', list(Number), list(range(len(MEANINGS))))
    equal('numbers', 'an answer', thymewax.Answer(0, 1).number == Number.DROPPED_FULL, True)


def offsets():
    """Every offset has the name that the table has there, or none."""
    names = {offset: '%s[%d]' % (one.name, place) if one.count else one.name
             for one in TABLE.registers for place, offset in enumerate(one.offsets)}
    for offset in range(0x10000):
        equal('offsets', offset, name_of(offset), names.get(offset))


def wide_fields():
    """A field that has more bits than its place makes no word."""
    for word in TABLE.words.values():
        kind = getattr(thymewax, word.python, None)
        for field in word.fields if hasattr(kind, 'word') else ():
            if field.name not in kind._fields or field.access == 'ro':
                continue
            most = field.mask >> field.low
            for number, error in ((most + 1, ValueError), (-1, ValueError), (1.0, TypeError)):
                wide = kind.of(0)._replace(**{field.name: number})
                raises('wide fields', wide, error, getattr, wide, 'word')


def hints():
    """Every public function and method has hints, and they can be read."""
    equal('hints', 'py.typed', (PACKAGE / 'thymewax/py.typed').is_file(), True)
    for path in sorted((PACKAGE / 'thymewax').glob('*.py')):
        if path.stem.startswith('__'):
            continue
        module = __import__('thymewax.' + path.stem, fromlist=['*'])
        for owner in [module, *(one for _, one in inspect.getmembers(module, inspect.isclass)
                                if one.__module__ == module.__name__)]:
            for name, function in vars(owner).items():
                function = getattr(function, '__func__', getattr(function, 'fget', function))
                own = getattr(function, '__module__', None) == module.__name__
                if inspect.isfunction(function) and own and name[0] != '_':
                    check_hints('%s.%s' % (owner.__name__, name), function)
    missing = [name for name in thymewax.__all__ if not hasattr(thymewax, name)]
    equal('hints', 'names that the package lacks', missing, [])


def check_hints(name, function):
    found = typing.get_type_hints(function)
    wanted = {*inspect.signature(function).parameters, 'return'} - {'self', 'cls'}
    equal('hints', name, set(found), wanted)


def project():
    with open(PACKAGE / 'pyproject.toml', 'rb') as file:
        given = tomllib.load(file)['project']
    equal('project', 'name and dependencies', (given['name'], given['dependencies']),
          ('thymewax', []))


def python(code, **variables):
    return run([PYTHON, '-c', code], PYTHONPATH=str(PACKAGE), **variables)


def without_library():
    """Traces and lines need no library; a model says how to make it."""
    code = 'import thymewax, thymewax.trace, thymewax.session; print(thymewax.trace.join(b""))'
    status, output, message = python(code, THYMEWAX_LIB_DIR=NO_FOLDER)
    equal('without library', 'import', (status, output[:6], message), (0, b"b'I3TR", b''))
    code = 'import thymewax\ntry: thymewax.Model.set_up()\nexcept OSError as e: print(e)'
    _, output, _ = python(code, THYMEWAX_LIB_DIR=NO_FOLDER)
    for part in (NO_FOLDER, 'tools/archive', 'python3 -m thymewax.build'):
        equal('without library', part, part.encode() in output, True)


def build():
    """A library made anew, elsewhere; what is missing is told."""
    archive = library.folder() / library.ARCHIVE
    if not archive.is_file():
        raise Wrong('no archive %s' % archive)
    with tempfile.TemporaryDirectory() as name:
        folder = pathlib.Path(name)
        (folder / library.ARCHIVE).symlink_to(archive.resolve())
        status, output, message = run([PYTHON, '-m', 'thymewax.build'], PYTHONPATH=str(PACKAGE),
                                      THYMEWAX_LIB_DIR=name)
        made = folder / library.LIBRARY
        equal('build', 'made', (status, output, message), (0, b'%s\n' % bytes(made), b''))
        code = 'import thymewax; print(thymewax.Model.set_up().read(0))'
        equal('build', 'used', python(code, THYMEWAX_LIB_DIR=name), (0, b'00000100 00\n', b''))
        os.utime(made, (0, 0))
        status, _, message = python(code, THYMEWAX_LIB_DIR=name)
        equal('build', 'older', (status, b'is older than libthymewax.a' in message), (1, True))
        made.write_bytes(b'no library')
        status, _, message = python(code, THYMEWAX_LIB_DIR=name)
        equal('build', 'no library', (status, b'cannot be used' in message), (1, True))
        (folder / 'empty.a').write_bytes(b'!<arch>\n')
        status, _, message = run([PYTHON, '-m', 'thymewax.build', '--archive', folder / 'empty.a'],
                                 PYTHONPATH=str(PACKAGE), THYMEWAX_LIB_DIR=name)
        equal('build', 'empty archive', (status, b'cannot be used' in message), (1, True))
        equal('build', 'nothing put in place', made.read_bytes(), b'no library')
    status, output, message = run([PYTHON, '-m', 'thymewax.build'], PYTHONPATH=str(PACKAGE),
                                  THYMEWAX_LIB_DIR=NO_FOLDER)
    equal('build', 'no archive', (status, output, message.count(b'\n')), (1, b'', 1))
    equal('build', 'no archive', b'tools/archive' in message, True)


def example():
    path = PACKAGE / 'examples/write_and_read.py'
    equal('example', path.name, run([PYTHON, path]), (0, EXAMPLE, b''))


def readme():
    """The code of the README prints what stands behind it."""
    text = (PACKAGE / 'README.md').read_text()
    pairs = re.findall(r'^```python\n(.*?)^```$.*?^```\n(.*?)^```$', text,
                       re.MULTILINE | re.DOTALL)
    equal('README', 'pieces of code', len(pairs), text.count('```python'))
    equal('README', 'any code', bool(pairs), True)
    for code, output in pairs:
        equal('README', code, python(code), (0, output.encode(), b''))


def image_words():
    """The places of an image's words, and how many there are, are those of the definition."""
    text = (ROOT / 'crates/image_model/specs/Image.antt').read_text()
    defined = {name.upper(): int(place) for name, place in re.findall(r'^at_(\w+) = (\d+)$', text, re.MULTILINE)}
    equal('image words', 'places', {word.name: int(word) for word in image.ImageWord}, defined)
    size, = re.findall(r'^size = (\d+)$', text, re.MULTILINE)
    equal('image words', 'size', image.IMAGE_WORDS, int(size))


if __name__ == '__main__':
    main('tables', [image_words, meanings, numbers, offsets, wide_fields, hints, project, without_library, build,
                    example, readme])
