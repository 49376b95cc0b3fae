"""A command that CMD took, and how far it is."""

from dataclasses import dataclass

from thymewax import Ccc, Command
from thymewax.formats import ENTDAA


@dataclass
class Entry:
    """A command, of a CCC perhaps the first word alone: its words, the calls that wrote, started
    and finished it, and the reset that lost it before its receipt was read."""

    words: list[int]
    written: int
    started: int = 0
    finished: int = 0
    lost: int = 0

    @property
    def whole(self) -> bool:
        return len(self.words) > Command.of(self.words[0]).ccc

    @property
    def payload(self) -> int:
        """The words that the payload of a write needs; ENTDAA is none."""
        first = Command.of(self.words[0])
        if first.read or first.ccc and Ccc.of(self.words[1]).code == ENTDAA:
            return 0
        return -(-first.length // 4)
