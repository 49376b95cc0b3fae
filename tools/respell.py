#!/usr/bin/env python3
"""Respells the names that this repository defines in specs/ and proofs/: words in snake case.

usage: tools/respell.py [--check] [FILE..]

Run once, at the top of a repository that port.py has turned. Names of Rust items, of the library and those that a check
makes stay; a name that would fall together with another one in a file where both stand gets '_lem'. What it renamed is
written to tools/respelled.txt, which a later run (for must-fail edits and documents that come over after it: FILE..) reads
in place of looking for names.
"""

import collections
import glob
import pathlib
import re
import sys

TABLE = pathlib.Path('tools/respelled.txt')
WORD = re.compile(r"(?<![A-Za-z0-9_'₀-₉-])[A-Za-z][A-Za-z0-9_'₀-₉]*(?:-[A-Za-z0-9_'₀-₉]+)*")
CAMEL = re.compile(r'[a-z][a-z0-9]*[A-Z]')
OWN = re.compile(r'use Rattle\.(\w+)\.(specs|proofs)')
LIBRARY = {'std', 'std_alloc', 'std_collections', 'std_heap', 'std_io', 'core', 'io', 'libc', 'os'}
# Names that a check makes stay as it writes them.
# Lemmas whose names port.py spelled as those of the definitions that they speak of.
MET = {
    'crates/lines/proofs/Grammar.antt': {'goes_on': 'goes_on_lem'},
    'crates/model/proofs/Events.antt': {'quiet_read': 'quiet_read_lem', 'quiet_write': 'quiet_write_lem'},
}
MADE = re.compile(r'(Need|Inv|InvT|Measure|MeasureT|After|Counts|Goes)-')


def spelled(word):
    """The word in snake case."""
    if CAMEL.match(word):
        word = re.sub(r'(?<=[a-z0-9])[A-Z]|(?<=[A-Z])[A-Z](?=[a-z])', lambda m: '_' + m.group(0), word).lower()
    return word.replace('-', '_')


def code(text):
    return re.sub(r'--.*', '', text)


def lemma_files():
    return sorted(glob.glob('crates/*/specs/*.antt') + glob.glob('crates/*/proofs/*.antt'))


def proof_files():
    return sorted(glob.glob('crates/*/proofs/*/*.antt'))


def imports(text):
    """Which names a file takes from where, as pairs of a module and a name."""
    for m in re.finditer(r'^(?:ghost )?use ([\w.+\'-]+)\.\{([^}]*)\}', text, re.M):
        for name in m.group(2).split(','):
            yield m.group(1), name.strip()


def own(module):
    m = re.match(r'Rattle\.(\w+)\.(?:specs|proofs)\b', module)
    return bool(m) and m.group(1) not in LIBRARY


def found():
    """The names to respell."""
    texts = {f: code(pathlib.Path(f).read_text()) for f in lemma_files() + proof_files()}
    foreign, names = set(), set()
    for text in texts.values():
        foreign |= {name for module, name in imports(text) if not own(module)}
    for f, text in texts.items():
        if f in lemma_files():
            for m in re.finditer(r"^[ \t]*(?:(?:abbrev|unfoldable|pub|field) )*([A-Za-z][\w'₀-₉-]*)(?: [^:=\n]*)? :(?= |$)", text, re.M):
                names.add(m.group(1))
            for m in re.finditer(r"[({]([A-Za-z][\w'₀-₉ -]*) :(?= )", text):
                names |= set(m.group(1).split())
        names |= {w for w in WORD.findall(text) if CAMEL.match(w) and '-' not in w}
        # a part of a name with holes, as ◌withValue◌
        names |= {w for w in re.findall(r"◌([a-z][A-Za-z0-9]*)◌", text) if CAMEL.match(w)}
    names = {n for n in names - foreign if spelled(n) != n and not MADE.match(n)}
    names -= {n for n in names if n.startswith('the-')}
    # A lemma that would meet another name in a file where both stand gets '_lem'; a definition may have the name of a
    # Rust function, and must not have that of a Rust variable.
    table = {n: spelled(n) for n in names}
    clash = set()
    for f, text in texts.items():
        words = set(WORD.findall(text)) | set(re.findall(r"◌([a-z][A-Za-z0-9]*)◌", text))
        seen = collections.defaultdict(set)
        for w in words:
            seen[table.get(w, w)].add(w)
        for new, olds in seen.items():
            if len(olds) > 1:
                clash |= {(o, new, f) for o in olds if o in table and '-' in o}
                if not any('-' in o for o in olds):
                    print('look:', f, *sorted(olds), file=sys.stderr)
    for f in glob.glob('crates/*/src/*.rt'):
        text = pathlib.Path(f).read_text()
        bound = set(re.findall(r"(?:let (?:mut )?|[(,]\s*(?:mut )?)([a-z][a-z0-9_]*)\s*[:=]", text))
        for w in set(re.findall(r"[A-Za-z][A-Za-z0-9_']*", text)):
            if w in table and table[w] in bound:
                print('look:', f, w, 'is a variable', file=sys.stderr)
    return table, clash


def respell(text, table, is_rust):
    def one(m):
        return table.get(m.group(0), m.group(0))

    # In Rust a dash is a minus, so only names without one, and whole imports.
    camel = {o: n for o, n in table.items() if '-' not in o}

    def names(code):
        if not is_rust or code.startswith('ghost use '):
            code = re.sub(r'(?<=◌)[a-z][A-Za-z0-9]*(?=◌)', one, code)
            return WORD.sub(one, code)
        return re.sub(r"(?<![A-Za-z0-9_'])[A-Za-z][A-Za-z0-9_']*", lambda m: camel.get(m.group(0), m.group(0)), code)

    def quoted(m):
        # The name of a rule, as `set-up.numbers`, is none of these names.
        return m.group(0) if re.fullmatch(r'`[a-z][a-z0-9-]*\.[a-z0-9-]+`', m.group(0)) else WORD.sub(one, m.group(0))

    lines = []
    for line in text.split('\n'):
        at = line.find('//' if is_rust else '--')
        at = len(line) if at < 0 else at
        # In a comment, which is prose, only what stands between backticks.
        lines.append(names(line[:at]) + re.sub(r'`[^`]*`', quoted, line[at:]))
    return '\n'.join(lines)


def main():
    words = [a for a in sys.argv[1:] if not a.startswith('--')]
    if TABLE.exists():
        table = dict(line.split() for line in TABLE.read_text().splitlines())
        clash = ()
    else:
        table, clash = found()
    lem = {o for o, new, f in clash}
    if '--check' in sys.argv:
        for o, new, f in sorted(clash):
            print(o, new, f)
        print(len(table), 'names,', len(lem), 'meet another')
        return
    for o in lem:
        table[o] = table[o] + '_lem'
    TABLE.write_text(''.join('%s %s\n' % p for p in sorted(table.items())))
    files = words or lemma_files() + proof_files() + sorted(glob.glob('crates/*/src/*.rt'))
    for f in files:
        path = pathlib.Path(f)
        before = text = path.read_text()
        for old, lemma in MET.get(f, {}).items():
            text = re.sub(r"(?<![\w'-])%s(?![\w'-])" % old, lemma, text)
        new = respell(text, table, f.endswith('.rt'))
        if new != before:
            path.write_text(new)


if __name__ == '__main__':
    main()
