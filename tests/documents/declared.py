"""What the repository declares: edits, functions, definitions, theorems, tests, rules; and what of it is cited and not
there. For the tests of documents, from the repository's root."""

import functools
import pathlib
import re

CRATES = {path.name: path for path in sorted(pathlib.Path('crates').iterdir()) if path.is_dir()}
EDITS = {f'{path.parent.parent.name}/{path.stem}': path
         for path in sorted(pathlib.Path('crates').glob('*/must-fail/*.edit'))}

FUNCTION = re.compile(r'^\s*(?:pub )?(?:extern "C" )?(?:fn|struct|enum|trait|type|const|mod) (\w+)', re.M)
DEFINITION = re.compile(r'^(?:pub |abbrev |unfoldable |data |record )*([^\s(){}:=]+)(?: \(.*| :.*)', re.M)
MEMBER = re.compile(r'^  (?:pub )?([^\s(){}:=]+(?: [^\s(){}:=]+)*) :', re.M)
THEOREM = re.compile(r'^(?:pub )?([^\s(){}:=]+) :', re.M)
RULE = re.compile(r'\*\*([a-z]+(?:-[a-z]+)*\.[a-z]+(?:-[a-z]+)*)\.?\*\*')
TABLE = pathlib.Path('docs/TRACEABILITY.md')
HEAD = '| rule | definition | code | law | must-fail edits | tests |'
TESTED = ('tests/**/*', 'bindings/rust/tests/*', 'bindings/rust/examples/*')


@functools.cache
def functions(crate: str) -> set[str]:
    """Functions, types and constants that a crate's code declares."""
    return {name for path in (CRATES[crate] / 'src').glob('**/*.rt') for name in FUNCTION.findall(path.read_text())}


@functools.cache
def specs(file: str) -> list[str]:
    """The crates that have a file of definitions of this name."""
    return [crate for crate, path in CRATES.items() if (path / 'specs' / f'{file}.antt').exists()]


@functools.cache
def definitions(crate: str, file: str) -> set[str]:
    """Definitions of a file, with the members of its types."""
    text = (CRATES[crate] / 'specs' / f'{file}.antt').read_text()
    members = {name for names in MEMBER.findall(text) for name in names.split()}
    return set(DEFINITION.findall(text)) | members


@functools.cache
def theorems(crate: str) -> set[str]:
    """What a crate's proofs prove."""
    return {name for path in (CRATES[crate] / 'proofs').glob('**/*.antt') for name in THEOREM.findall(path.read_text())}


@functools.cache
def tests_at(cited: str) -> list[pathlib.Path]:
    """The tests and examples whose path ends so."""
    return [path for pattern in TESTED for path in pathlib.Path().glob(pattern)
            if f'/{path.as_posix()}'.endswith(f'/{cited}')]


@functools.cache
def gate() -> str:
    """The scripts of the gate."""
    return '\n'.join(path.read_text() for path in sorted(pathlib.Path('.ci').iterdir()) if path.is_file())


def is_run(path: pathlib.Path) -> bool:
    """Whether the gate runs a test: cargo those of the crate for Rust, a script each other one by its name."""
    if path.parent.as_posix() == 'bindings/rust/tests':
        return True
    name = path.relative_to('tests').with_suffix('').as_posix() if path.parts[0] == 'tests' else path.stem
    return re.search(rf'(?<![\w-]){re.escape(name)}(?![\w-])', gate()) is not None


def plain(text: str):
    """A document's lines with their numbers, without those of fenced blocks."""
    fenced = False
    for number, line in enumerate(text.splitlines(), 1):
        if line.startswith('```'):
            fenced = not fenced
        elif not fenced:
            yield number, line


def rules() -> list[tuple[str, str, int]]:
    """The rules of docs/RULES.md in their order, each with its section and its line."""
    section, found = '', []
    for number, line in plain(pathlib.Path('docs/RULES.md').read_text()):
        if line.startswith('## '):
            section = line[3:]
        found += [(name, section, number) for name in RULE.findall(line)]
    return found


def rows():
    """The rows of the tables of rules: line, section, cells."""
    section, within = '', False
    for number, line in plain(TABLE.read_text()):
        if line.startswith('## '):
            section = line[3:]
        within = line == HEAD or within and line.startswith('|')
        if within and line != HEAD and not line.startswith('|---'):
            yield number, section, [cell.strip() for cell in line.strip('|').split('|')]


def names(text: str) -> list[str]:
    """`name`, `name, name` or `{name, name}`."""
    return text.strip('{}').split(', ')


def missing_definitions(cited: str):
    """Of `File: name, name`, or of `crate: File: name` where several crates have such a file."""
    *crate, file, listed = cited.split(': ')
    having = [one for one in specs(file) if crate in ([], [one])]
    if len(having) != 1:
        yield f'{"several crates have" if having else "no crate has"} such a file of definitions: {cited}'
        return
    for name in names(listed):
        if name not in definitions(having[0], file):
            yield f'crates/{having[0]}/specs/{file}.antt does not define {name}'


def missing_functions(cited: str):
    """Of `crate::name` or `crate::{name, name}`."""
    crate, _, listed = cited.partition('::')
    if crate not in CRATES or not listed:
        yield f'no function {cited}'
        return
    for name in names(listed.rpartition('::')[2]):
        if name not in functions(crate):
            yield f'{crate} declares no {name}'


def missing_theorems(cited: str):
    """Of `crate: name, name`."""
    crate, _, listed = cited.partition(': ')
    if crate not in CRATES or not listed:
        yield f'no theorem {cited}'
        return
    for name in names(listed):
        if name not in theorems(crate):
            yield f'{crate} proves no {name}'
