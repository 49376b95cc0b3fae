"""Makes the shared library from the archive.

    python3 -m thymewax.build [--archive FILE] [--output FILE]

The archive is libthymewax.a in THYMEWAX_LIB_DIR, else in target/staticlib of the repository;
`tools/archive` makes it. The library goes beside it. CC names the C compiler, else it is cc.
"""

from __future__ import annotations

import argparse
import pathlib
import sys

from . import library


def main() -> None:
    parser = argparse.ArgumentParser(prog='python3 -m thymewax.build',
                                     description='Makes the shared library from the archive.')
    parser.add_argument('--archive', type=pathlib.Path, metavar='FILE',
                        help='default: %s in the folder of %s, else in target/staticlib of the '
                        'repository' % (library.ARCHIVE, library.FOLDER_VARIABLE))
    parser.add_argument('--output', type=pathlib.Path, metavar='FILE',
                        help='default: %s in the same folder' % library.LIBRARY)
    chosen = parser.parse_args()
    try:
        archive = chosen.archive or library.folder() / library.ARCHIVE
        output = chosen.output or library.folder() / library.LIBRARY
        library.link(archive, output)
    except OSError as error:
        sys.exit('thymewax.build: %s' % error)
    print(output)


if __name__ == '__main__':
    main()
