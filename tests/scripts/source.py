"""The random numbers of generated scripts and traces: the same seed gives the same numbers."""

# One step is state = state * MULTIPLIER + INCREMENT modulo 2 to the 64th.
MULTIPLIER = 6364136223846793005
INCREMENT = 1442695040888963407
STATE_MASK = (1 << 64) - 1


class Source:
    """Random numbers: the upper 32 bits of the state after each step."""

    def __init__(self, seed):
        self.state = seed & STATE_MASK

    def word(self):
        self.state = (self.state * MULTIPLIER + INCREMENT) & STATE_MASK
        return self.state >> 32

    def below(self, bound):
        return self.word() * bound >> 32

    def one_in(self, bound):
        return self.word() * bound >> 32 == 0

    def pick(self, items):
        return items[self.word() * len(items) >> 32]
