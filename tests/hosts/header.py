#!/usr/bin/env python3
"""Holds include/thymewax.h to the archive, the sources and the compilers.

    header.py

Each prototype is a function of libthymewax.a and each of its functions has a prototype, with the
parameters that crates/thymewax and crates/thymewax_replay give it, by name and type. The archive
needs no name from outside. Version, words of an image and lengths of tables are those of the
definitions. Register offsets are those of docs/registers.svd, names of answers and their numbers
those of docs/ANSWERS.md, all of them. A program that calls every inline function beside the
archive's own, with all warnings as errors, compiles as C and C++ by each compiler that is there and
finds both the same. The example and the programs of docs/C.md print what they should, the example
also under valgrind. Damaged headers must be refused. The archive lies in target/staticlib or in the
folder THYMEWAX_LIB_DIR. Exit status 0 only if all of it holds, 1 if not.
"""

import os
import pathlib
import re
import shutil
import subprocess
import sys
import tempfile
import xml.etree.ElementTree as ElementTree

sys.path.insert(0, str(pathlib.Path(__file__).resolve().parents[2]))

from tests import ROOT
from tests.hosts.header_damages import DAMAGES
from tests.hosts.header_program import CALLS, program

LIBRARY = os.environ.get('THYMEWAX_LIB_DIR') or os.path.join(ROOT, 'target', 'staticlib')
ARCHIVE = os.path.join(LIBRARY, 'libthymewax.a')
HEADER = os.path.join(ROOT, 'include', 'thymewax.h')
SOURCES = [os.path.join(ROOT, 'crates', name, 'src', 'lib.rt') for name in ('thymewax', 'thymewax_replay')]
IMAGE = os.path.join(ROOT, 'crates', 'image_model', 'specs', 'Image.antt')
HOST = os.path.join(ROOT, 'crates', 'host_model', 'specs', 'Host.antt')
MAP = os.path.join(ROOT, 'docs', 'registers.svd')
ANSWERS = os.path.join(ROOT, 'docs', 'ANSWERS.md')
PAGE = os.path.join(ROOT, 'docs', 'C.md')
EXPECTED = os.path.join(ROOT, 'examples', 'c', 'lost_command.txt')

WARNINGS = '-Wall -Wextra -Wpedantic -Wconversion -Wsign-conversion -Wshadow -Werror'.split()
# A language: the ending of its sources, its standards, its own warnings.
C = ('.c', ('c99', 'c11', 'c17'), ['-Wstrict-prototypes'])
CPP = ('.cpp', ('c++11', 'c++17', 'c++20'), ['-Wold-style-cast'])
COMPILERS = {'gcc': C, 'clang': C, 'g++': CPP, 'clang++': CPP}
VALGRIND = ['valgrind', '-q', '--error-exitcode=9', '--leak-check=full']

# What a type of the source is in C, and the ending of a count's name.
TYPES = {'u32': 'uint32_t', 'u64': 'uint64_t', 'usize': 'size_t', 'u8': 'uint8_t'}
COUNTS = {'u32': 'words', 'u8': 'bytes'}
# What a parameter of the source is called in C, where that differs by more than a word break.
NAMES = {'i': 'section'}


def read(path):
    with open(path, encoding='utf-8') as file:
        return file.read()


def write(folder, name, text):
    path = os.path.join(folder, name)
    with open(path, 'w', encoding='utf-8') as file:
        file.write(text)
    return path


def run(command, **options):
    """A command's status and all it printed."""
    done = subprocess.run(command, stdout=subprocess.PIPE, stderr=subprocess.STDOUT, text=True, **options)
    return done.returncode, done.stdout


def bare(text):
    """The header without comments and preprocessor lines."""
    text = re.sub(r'/\*.*?\*/', '', text, flags=re.S)
    return re.sub(r'^#.*$', '', text, flags=re.M)


def joined(name):
    """A parameter's name without its word breaks."""
    return name.replace('_', '')


def prototypes(header):
    """The functions that the header declares: (type, parameters) by name, each parameter (type, name)."""
    found = {}
    for result, name, inside in re.findall(r'^(\w+) (\w+)\(([^()]*)\);', header, re.M):
        parameters = [] if inside == 'void' else inside.split(',')
        split = [re.fullmatch(r'(.*?)(\w*)', ' '.join(p.split())).groups() for p in parameters]
        found[name] = (result, [(kind.replace(' ', ''), joined(of)) for kind, of in split])
    return found


def in_c(name, kind):
    """The parameters that stand for one of the source: a slice is a pointer and a count, an array a
    pointer."""
    name = joined(NAMES.get(name, name))
    array_of = re.fullmatch(r'&mut \[(\w+); \d+\]', kind)
    if array_of:
        return [(TYPES[array_of[1]] + '*', name)]
    slice_of = re.fullmatch(r'&(mut )?\[(\w+)\]', kind)
    if not slice_of:
        return [(TYPES[kind], name)]
    mutable, item = slice_of.groups()
    const = '' if mutable else 'const'
    return [(const + TYPES[item] + '*', name), ('size_t', name + COUNTS[item])]


def exported(source):
    """The functions that the source exports, in the form of prototypes()."""
    found = {}
    for name, inside, result in re.findall(r'pub extern "C" fn (\w+)\(([^()]*)\)\s*->\s*(\w+)', source):
        parameters = []
        for parameter in filter(None, (p.strip() for p in inside.split(','))):
            parameters += in_c(*re.split(r'\s*:\s*', parameter))
        found[name] = (TYPES[result], parameters)
    return found


def listed(*options):
    """The lines of nm on the archive, each as its words."""
    status, text = run(['nm', *options, ARCHIVE])
    if status:
        sys.exit('header: nm cannot read %s' % ARCHIVE)
    return [line.split() for line in text.splitlines()]


def symbols():
    """The functions of the archive with the model's prefix."""
    return {words[2] for words in listed('-g', '--defined-only')
            if len(words) == 3 and words[1] == 'T' and words[2].startswith('thymewax_')}


def needed():
    """The names that the archive needs from outside."""
    return sorted({words[1] for words in listed('-u') if len(words) == 2})


def names(header, enum, prefix):
    """The values of an enum by their names, without the prefix."""
    body = re.search(r'enum %s \{(.*?)\};' % enum, header, re.S).group(1)
    return {name: int(value, 0) for name, value in re.findall(prefix + r'(\w+) = (\w+)', body)}


def registers():
    """The offsets of the register map by name; of an array, that of its first word."""
    return {register.findtext('name').replace('[%s]', ''): int(register.findtext('addressOffset'), 0)
            for register in ElementTree.parse(MAP).iter('register')}


def answers():
    """The numbers by the names that their rows give them."""
    return {name: int(number) for number, name in re.findall(r'^\| (\d+) \|.*\| `(\w+)` \|$', read(ANSWERS), re.M)}


def lengths():
    """The numbers that the header has from the definitions, by their names in the header."""
    image = read(IMAGE)
    flags, words = (int(re.search(r'eqb \(length k\.%s\) (\d+)' % table, image)[1])
                    for table in ('flags', 'commands'))
    return {'VERSION': int(re.search(r'^version = (\d+)$', read(HOST), re.M)[1]),
            'IMAGE_WORDS': int(re.search(r'^size = (\d+)$', image, re.M)[1]),
            'FLAG_BYTES': flags, 'OFFLOAD_WORDS': words}


def wrong_declarations(text):
    """What a header declares otherwise than archive, source and documents."""
    header = bare(text)
    declared, given = prototypes(header), exported('\n'.join(map(read, SOURCES)))
    found = ['%s: declared %s, exported %s' % (name, declared.get(name), given.get(name))
             for name in sorted({*declared, *given}) if declared.get(name) != given.get(name)]
    found += ['%s: in the header or in the archive only' % name for name in sorted(symbols() ^ set(declared))]
    found += ['THYMEWAX_%s is not %d' % (name, number) for name, number in lengths().items()
              if not re.search(r'^#define THYMEWAX_%s %d$' % (name, number), text, re.M)]
    offsets, svd = names(header, 'thymewax_register', 'THYMEWAX_REG_'), registers()
    found += ['register %s: %s in the header, %s in the map' % (name, offsets.get(name), svd.get(name))
              for name in sorted({*offsets, *svd}) if offsets.get(name) != svd.get(name)]
    numbers, rows = names(header, 'thymewax_number', 'THYMEWAX_'), answers()
    found += ['%s: %s in the header, %s in docs/ANSWERS.md' % (name, numbers.get(name), rows.get(name))
              for name in sorted({*numbers, *rows}) if numbers.get(name) != rows.get(name)]
    return found


def uncalled(text):
    """The inline functions that the program leaves out."""
    inline = re.findall(r'static inline [\w ]*\b(\w+)\(', bare(text))
    return ['%s: no test calls it' % name for name in inline if not re.search(r'\b%s\(' % name, program())]


def wrong_program(folder, compiler, standard):
    """What a compiler, or then the program, says against the header in a folder."""
    ending, _, warnings = COMPILERS[compiler]
    command = [compiler, '-std=' + standard, *WARNINGS, *warnings, '-I' + folder]
    alone = write(folder, 'alone' + ending, '#include "thymewax.h"\n#include "thymewax.h"\n')
    calls = write(folder, 'calls' + ending, program())
    made = os.path.join(folder, 'calls')
    for step in ([*command, '-c', alone, '-o', made], [*command, calls, '-L' + LIBRARY, '-lthymewax', '-o', made],
                 [made]):
        status, text = run(step)
        if status:
            return ['%s, %s: %s' % (compiler, standard, text)]
    return []


def faults(text, compilers):
    """What is wrong with a header, by each of some compilers and standards."""
    found = wrong_declarations(text) + uncalled(text)
    with tempfile.TemporaryDirectory() as folder:
        write(folder, 'thymewax.h', text)
        for compiler, standard in compilers:
            found += wrong_program(folder, compiler, standard)
    return found


def unseen_damages(text, compilers):
    """The damages that no check sees."""
    for old, _ in DAMAGES:
        if old not in text:
            yield 'the header has no %r to damage' % old
    for old, new in DAMAGES:
        if not faults(text.replace(old, new, 1), compilers):
            yield 'not seen: %r in place of %r' % (new, old)


def blocks(page):
    """The fenced blocks of a page as (language, text)."""
    return re.findall(r'^```(\w*)\n(.*?)^```$', page, re.M | re.S)


def wrong_page(folder):
    """Runs the lines of docs/C.md in an empty folder, on its programs and on the example."""
    page = blocks(read(PAGE))
    lines = [line for language, text in page if not language for line in text.splitlines()]
    programs = [(text, after) for (language, text), (_, after) in zip(page, page[1:]) if language == 'c']
    links = [line for line in lines if re.search(r'-o first$', line)]
    example = [line for line in lines if re.search(r'\blost_command\b', line)]
    if not programs or len(links) != 2 or len(example) != 2:
        return ['docs/C.md: a program, a line for C, one for C++ or those of the example are not there']
    found = []
    options = {'cwd': folder, 'env': {**os.environ, 'THYMEWAX': str(ROOT), 'THYMEWAX_LIB_DIR': os.path.abspath(LIBRARY)}}
    for text, expected in programs:
        write(folder, 'first.c', text)
        write(folder, 'first.cpp', text)
        for link in links:
            if run(['bash', '-c', link + ' && ./first'], **options) != (0, expected):
                found.append('docs/C.md: %s: the program does not print %r' % (link, expected))
    status, text = run(['bash', '-c', 'set -eo pipefail\n' + '\n'.join(example)], **options)
    return found + ['docs/C.md: the example: ' + text] * (status != 0)


def wrong_memory(folder):
    """The example under valgrind."""
    if not shutil.which(VALGRIND[0]):
        return ['valgrind is needed']
    status, text = run([*VALGRIND, os.path.join(folder, 'lost_command')])
    return ['valgrind: ' + text] * ((status, text) != (0, read(EXPECTED)))


def main():
    if len(sys.argv) != 1:
        sys.exit(__doc__)
    compilers = [(compiler, standard) for compiler, (_, standards, _) in COMPILERS.items()
                 if shutil.which(compiler) for standard in standards]
    of_one = [pair for pair in compilers if pair in (('gcc', 'c99'), ('g++', 'c++11'))]
    text = read(HEADER)
    found = ['the archive needs %s from outside' % name for name in needed()] + faults(text, compilers)
    if len(of_one) != 2:
        found.append('gcc and g++ are needed')
    with tempfile.TemporaryDirectory() as folder:
        found += wrong_page(folder) or wrong_memory(folder)
    found = found or list(unseen_damages(text, of_one))
    for fault in found:
        print('header: ' + fault)
    if found:
        sys.exit(1)
    print('header: %d functions, %d calls in %d builds, the programs of docs/C.md, %d damages refused'
          % (len(prototypes(bare(text))), len(CALLS), len(compilers), len(DAMAGES)))


if __name__ == '__main__':
    main()
