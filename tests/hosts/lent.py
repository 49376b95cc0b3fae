"""Image and tables as the archive takes them, out of a row of words and back."""

import ctypes
import itertools

from tests.hosts.image_words import COMMANDS, DATA, FLAGS
from thymewax.image import TABLES
from thymewax.library import Word


def words(*numbers):
    """A piece of memory with these words."""
    return (Word * len(numbers))(*numbers)


def kept(row):
    """What every call takes first: an image, its length, and the tables. The tables are the last
    words of a row, whatever the length of the image before them."""
    image, tables = row[:-TABLES], iter(row[-TABLES:])
    flags, commands, data = (itertools.islice(tables, len(table))
                             for table in (FLAGS, COMMANDS, DATA))
    return (words(*image), len(image), (ctypes.c_uint8 * len(FLAGS))(*flags), words(*commands),
            words(*data))


def row_of(pieces):
    """The row that is lent."""
    image, _, *tables = pieces
    return [*image, *itertools.chain(*tables)]


def put(pieces, place, number):
    """Puts a number where a word of the row lies."""
    image, _, *tables = pieces
    for piece, places in zip((image, *tables), (range(FLAGS.start), FLAGS, COMMANDS, DATA)):
        if place in places:
            piece[place - places.start] = number
