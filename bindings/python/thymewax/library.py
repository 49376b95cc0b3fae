"""The shared library: where it lies, how it is made from the archive, its six functions."""

from __future__ import annotations

import ctypes
import functools
import os
import pathlib
import subprocess

ARCHIVE = 'libthymewax.a'
# Of layout and calls: the archive and the header have the same.
VERSION = 2
LIBRARY = 'libthymewax_python.so'
# A folder that has both, in place of the repository's target/staticlib.
FOLDER_VARIABLE = 'THYMEWAX_LIB_DIR'
MAKE_ARCHIVE = 'tools/archive'
_PACKAGES = pathlib.Path(__file__).resolve().parents[1]
MAKE_LIBRARY = 'PYTHONPATH=%s python3 -m thymewax.build' % _PACKAGES

Word = ctypes.c_uint32
Words = ctypes.POINTER(ctypes.c_uint32)
Bytes = ctypes.POINTER(ctypes.c_uint8)
_Size = ctypes.c_size_t
# An image and its length; flags, commands and payloads where they lie.
_KEPT = [Words, _Size, Bytes, Words, Words]
# Result and arguments, as in include/thymewax.h.
_PROTOTYPES = {
    'thymewax_version': (Word, []),
    'thymewax_image_words': (_Size, []),
    'thymewax_set_up': (Word, [*_KEPT, *[Word] * 11]),
    'thymewax_step': (ctypes.c_uint64, [*_KEPT, *[Words, _Size] * 2, *[Word] * 4]),
    'thymewax_replay': (Word, [*_KEPT, Words, _Size, ctypes.c_char_p, _Size, Word, _Size, Words,
                               _Size]),
    'thymewax_section': (Word, [ctypes.c_char_p, _Size, Word, Words, _Size]),
}


class LibraryMissing(OSError):
    """The shared library, or the archive it is made from, is not there or not fit for use."""


def folder() -> pathlib.Path:
    """Where archive and library lie: THYMEWAX_LIB_DIR, or target/staticlib of the repository."""
    named = os.environ.get(FOLDER_VARIABLE)
    if named:
        return pathlib.Path(named)
    for above in pathlib.Path(__file__).resolve().parents:
        if (above / 'crates.txt').is_file():
            return above / 'target' / 'staticlib'
    raise LibraryMissing('%s is not set, and %s is not in the repository: set it to the folder of '
                         '%s' % (FOLDER_VARIABLE, pathlib.Path(__file__).parent, LIBRARY))


def link(archive: pathlib.Path, library: pathlib.Path) -> None:
    """Makes the shared library. All of the archive goes in: nothing in the library calls it."""
    if not archive.is_file():
        raise LibraryMissing('no archive %s: make it with `%s`' % (archive, MAKE_ARCHIVE))
    # Beside its place first, so that a program which has the old one open keeps it whole.
    made = library.with_name(library.name + '.new')
    command = [os.environ.get('CC', 'cc'), '-shared', '-o', str(made), '-Wl,--whole-archive',
               str(archive), '-Wl,--no-whole-archive']
    try:
        done = subprocess.run(command, capture_output=True, text=True, check=False)
        if done.returncode:
            raise LibraryMissing('%s\n%s' % (' '.join(command), done.stderr.rstrip()))
        opened(made)
        made.replace(library)
    finally:
        made.unlink(missing_ok=True)


def opened(path: pathlib.Path) -> ctypes.CDLL:
    """The library at a path, with the types of its functions."""
    try:
        library = ctypes.CDLL(str(path.resolve()))
        for name, (result, arguments) in _PROTOTYPES.items():
            function = getattr(library, name)
            function.restype, function.argtypes = result, arguments
    except (OSError, AttributeError) as error:
        raise LibraryMissing('%s cannot be used: %s' % (path, error)) from None
    if library.thymewax_version() != VERSION:
        raise LibraryMissing('%s has version %d, not %d'
                             % (path, library.thymewax_version(), VERSION))
    return library


@functools.cache
def load() -> ctypes.CDLL:
    """The library, opened once. One that is older than the archive beside it is not used."""
    path, archive = folder() / LIBRARY, folder() / ARCHIVE
    if not path.is_file():
        before = '' if archive.is_file() else '`%s`, then ' % MAKE_ARCHIVE
        raise LibraryMissing('no library %s: make it with %s`%s`' % (path, before, MAKE_LIBRARY))
    if archive.is_file() and archive.stat().st_mtime_ns > path.stat().st_mtime_ns:
        raise LibraryMissing('%s is older than %s: make it anew with `%s`'
                             % (path, ARCHIVE, MAKE_LIBRARY))
    return opened(path)
