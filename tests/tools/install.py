#!/usr/bin/env python3
"""tools/install: what it puts under a prefix compiles, links and runs, by the options of pkg-config or,
where there is none, of the file for it. A prefix that it cannot use is one line and status 1, and
nothing of an install that fails is left behind.

    install.py

It runs in a copy of the folders that an install reads; the archive is that of target/staticlib, or of
the folder THYMEWAX_LIB_DIR. Exit status 0 only if all is as expected.
"""

import os
import pathlib
import resource
import shlex
import shutil
import subprocess
import sys
import tempfile

sys.path.insert(0, str(pathlib.Path(__file__).resolve().parents[2]))

from tests import ROOT
from tests.shared.trial import Wrong, equal, main

ARCHIVE = pathlib.Path(os.environ.get('THYMEWAX_LIB_DIR') or ROOT / 'target/staticlib') / 'libthymewax.a'
EXAMPLE = ROOT / 'examples/c/lost_command'
FILES = ['include/thymewax.h', 'lib/libthymewax.a', 'lib/pkgconfig/thymewax.pc']
MAKES = '#!/bin/sh\nmkdir -p target/staticlib\ncp %s target/staticlib/\n'
# Whom no mode lets write: root may write everywhere.
NOBODY = 65534 if os.geteuid() == 0 else None


def install(root, *arguments, **options):
    """Status and messages."""
    done = subprocess.run([root / 'tools/install', *arguments], cwd=root, check=False,
                          capture_output=True, text=True, **options)
    return done.returncode, done.stderr


def tree(folder):
    return sorted(str(path.relative_to(folder)) for path in folder.rglob('*'))


def files(prefix):
    return sorted(str(path.relative_to(prefix)) for path in prefix.rglob('*') if path.is_file())


def by_hand(prefix):
    """The options in the file for pkg-config."""
    text = (prefix / FILES[2]).read_text().replace('${prefix}', str(prefix))
    fields = dict(line.split(': ', 1) for line in text.splitlines() if ': ' in line)
    return shlex.split(fields['Cflags'] + ' ' + fields['Libs'])


def by_pkg_config(prefix):
    path = {**os.environ, 'PKG_CONFIG_PATH': str(prefix / 'lib/pkgconfig')}
    told = subprocess.run(['pkg-config', '--cflags', '--libs', 'thymewax'], env=path, check=True,
                          capture_output=True, text=True)
    return shlex.split(told.stdout)


def runs(work, prefix):
    """The example, compiled and linked by what is installed, prints what it should."""
    equal('files', prefix, files(prefix), FILES)
    for options in (by_hand, by_pkg_config) if shutil.which('pkg-config') else (by_hand,):
        program = work / 'program'
        subprocess.run(['cc', '-std=c99', EXAMPLE.with_suffix('.c'), *options(prefix), '-o', program],
                       check=True)
        printed = subprocess.run([program], check=True, capture_output=True, text=True).stdout
        equal('programs', options.__name__, printed, EXAMPLE.with_suffix('.txt').read_text())


def refuses(root, prefix, told, *arguments, **options):
    """One line with what is told, and everything as it was."""
    before = tree(root.parent)
    status, message = install(root, *arguments, prefix, **options)
    equal('refusals', prefix, (status, message.count('\n'), message[-1:]), (1, 1, '\n'))
    equal('refusals', message, told in message, True)
    equal('refusals', prefix, tree(root.parent), before)


def makes(root, text):
    """What stands for tools/archive."""
    (root / 'tools/archive').write_text(text)
    (root / 'tools/archive').chmod(0o755)


def without_archive(work, root):
    refuses(root, work / 'none', 'run tools/archive', '--made')
    makes(root, '#!/bin/sh\necho archive: not proved >&2\nexit 1\n')
    refuses(root, work / 'none', 'not proved')


def installed(work, root):
    makes(root, MAKES % shlex.quote(str(ARCHIVE)))
    for prefix in ('in/a folder', 'in/a folder', work / 'other'):
        equal('installs', prefix, install(root, prefix), (0, ''))
        runs(work, root / prefix)
    makes(root, '#!/bin/sh\nexit 1\n')
    equal('installs', 'made', install(root, '--made', work / 'made'), (0, ''))
    runs(work, work / 'made')


def unusable(work, root):
    (work / 'file').write_text('')
    refuses(root, work / 'file', 'file cannot be made', '--made')
    refuses(root, work / 'file/below', 'file cannot be made', '--made')
    refuses(root, '/proc/none', '/proc/none cannot be made', '--made')
    half = work / 'half'
    half.mkdir()
    (half / 'lib').write_text('')
    refuses(root, half, 'half/lib cannot be made', '--made')
    (half / 'lib').unlink()
    (half / FILES[2]).mkdir(parents=True)
    refuses(root, half, 'thymewax.pc is a folder', '--made')


def not_writable(work, root):
    for name in ('shut', 'shut/include'):
        (work / name).mkdir()
    (work / 'shut').chmod(0o555)
    (work / 'shut/include').chmod(0o555)
    refuses(root, work / 'shut', 'include cannot be written to', '--made', user=NOBODY)
    refuses(root, work / 'shut/new', 'new cannot be made', '--made', user=NOBODY)
    (work / 'shut').chmod(0o755)


def full(work, root):
    """A write that fails after others were done, as on a full disk. Python ignores the signal."""
    limit = ARCHIVE.stat().st_size - 1
    refuses(root, work / 'full', 'libthymewax.a cannot be written', '--made', restore_signals=False,
            preexec_fn=lambda: resource.setrlimit(resource.RLIMIT_FSIZE, (limit, limit)))


def usage(_, root):
    for arguments in ((), ('',), ('one', 'two'), ('--made',)):
        equal('usage', arguments, install(root, *arguments), (2, 'usage: install [--made] PREFIX\n'))


def every(folder):
    work = pathlib.Path(folder)
    work.chmod(0o755)
    root = work / 'root'
    (root / 'tools').mkdir(parents=True)
    shutil.copy(ROOT / 'tools/install', root / 'tools')
    shutil.copytree(ROOT / 'include', root / 'include')
    if not ARCHIVE.is_file():
        raise Wrong('there is no %s: run tools/archive' % ARCHIVE)
    for part in (usage, without_archive, installed, unusable, not_writable, full):
        part(work, root)


if __name__ == '__main__':
    with tempfile.TemporaryDirectory() as place:
        main('install', [every], place)
