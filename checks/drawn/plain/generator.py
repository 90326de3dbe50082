"""The generator whose words draw an order: "A workload with an order" of docs/formats.md."""

MULTIPLIER = 6364136223846793005
SEED_INCREMENT = 11634580027462260723


def state_after(state, increment):
    return (state * MULTIPLIER + increment) % 2**64


def word_of(state):
    """PCG's XSH RR: the middle bits, turned to the right by the top five."""
    low = ((state >> 18) ^ state) >> 27 & 0xFFFFFFFF
    turn = state >> 59
    return (low >> turn | low << (32 - turn)) & 0xFFFFFFFF


def seed_words(seed):
    """Four words that a number comes to, each of the state after its step."""
    for _ in range(4):
        seed = state_after(seed, SEED_INCREMENT)
        yield word_of(seed)


class Generator:
    def __init__(self, seed):
        first, second, third, fourth = seed_words(seed)
        self.increment = third | fourth << 32 | 1
        self.state = state_after((first | second << 32) + self.increment, self.increment)

    def word(self):
        """The next word, of the state before its step."""
        word = word_of(self.state)
        self.state = state_after(self.state, self.increment)
        return word
