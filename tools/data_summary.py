"""What stands at the end of an explained script about data words: how many went where; then each
that was not just sent or read, or every one."""

from collections import Counter
from collections.abc import Callable, Mapping, Sequence
from typing import TypeVar

from data_words import (Address, Dropped, Fate, Lost, Read, Removed, Sdi, SdiWord, Sdo, SdoWord,
                        Sent, Waiting)
from summary import print_some
from thymewax import Number
from wording import leading, numbered, source, whose

# What words are counted as, in the order of the counts.
SDO_FATES = {Dropped: 'dropped', Sent: 'sent', Removed: 'removed', Address: 'taken as addresses',
             Waiting: 'waiting', Lost: 'lost in resets'}
SDI_FATES = {Read: 'read', Waiting: 'waiting', Lost: 'lost in resets'}
WHY_DROPPED = {Number.DROPPED_FULL: 'SDO was full', Number.HELD_IN_RESET: 'held in reset'}
Word = TypeVar('Word', SdoWord, SdiWord)


def by_calls(calls: Sequence[int]) -> str:
    """The calls that sent the bytes of a word."""
    if calls[-1] - calls[0] < len(calls):
        return numbered('call', calls[0], calls[-1])
    return 'calls %s' % ', '.join(map(str, calls))


def sent(fate: Sent) -> str:
    count = len(fate.calls)
    told = 'sent by %s, %s of %s' % (
        by_calls(fate.calls), numbered('byte', fate.place, fate.place + count - 1),
        whose(fate.entry))
    return told if fate.whole else '%s %s; %s' % (leading(count), told, rest(fate))


def rest(fate: Sent) -> str:
    """Where the bytes went that were not sent of a word (`send.rest`)."""
    if fate.entry.finished:
        return 'the rest dropped by its finish, call %d' % fate.entry.finished
    if fate.entry.lost:
        return 'the rest lost by the reset of call %d' % fate.entry.lost
    return 'the write is open'


def sdo_line(one: SdoWord) -> str:
    match one.fate:
        case Dropped(number):
            told = 'dropped, %s' % WHY_DROPPED[Number(number)]
        case Sent():
            told = sent(one.fate)
        case Removed(entry, call):
            told = 'removed by the finish of call %d for %s' % (call, whose(entry))
        case Address(entry, call, wrong):
            told = 'taken as an address by call %d for %s%s' % (
                call, whose(entry), ', wrong parity' if wrong else '')
        case Lost(call):
            told = 'lost by the reset of call %d' % call
        case Waiting():
            told = 'waits in SDO'
    return 'call %d, %08x: %s' % (one.written, one.word, told)


def sdi_line(one: SdiWord) -> str:
    match one.fate:
        case Read(call):
            told = 'read by call %d' % call
        case Lost(call):
            told = 'lost by the reset of call %d' % call
        case Waiting():
            told = 'waits in SDI'
    return 'call %d, %08x: %s; %s' % (one.put, one.word, source(one.source), told)


def is_usual(fate: Fate) -> bool:
    """Whether a word was sent whole, taken as a right address, or read."""
    if isinstance(fate, Sent):
        return fate.whole
    if isinstance(fate, Address):
        return not fate.wrong
    return isinstance(fate, Read)


def print_words(what: str, words: Sequence[Word], fates: Mapping[type, str],
                line: Callable[[Word], str], every: bool) -> None:
    """How many words there are, and of each fate; then every word in order, or by its fate each
    that is not usual."""
    counts = Counter(type(one.fate) for one in words)
    shown = ['%s: %d' % (text, counts[fate]) for fate, text in fates.items()] if words else []
    print('; '.join(['%s: %d' % (what, len(words)), *shown]))
    if every:
        for one in words:
            print('  ' + line(one))
        return
    unusual = [one for one in words if not is_usual(one.fate)]
    for fate in fates:
        print_some([line(one) for one in unusual if isinstance(one.fate, fate)])


def print_data(sdo: Sdo, sdi: Sdi, every: bool) -> None:
    """The words that were written to SDO and those that the bus put into SDI."""
    print_words('data words written to SDO', sdo.words, SDO_FATES, sdo_line, every)
    print_words('data words put into SDI', sdi.words, SDI_FATES, sdi_line, every)
