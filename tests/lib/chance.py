"""What is drawn by chance, the same in each run, on each machine and with each Python."""

MODULUS = 2147483647


class Chance:
    """A sequence of drawn numbers, which begins with a seed from 1 to 2147483646."""

    def __init__(self, seed):
        self.seed = seed

    def draw(self, count):
        """A number from 0 to count - 1."""
        self.seed = self.seed * 16807 % MODULUS
        return int(self.seed / MODULUS * count)

    def one_of(self, text, between=None):
        """One of the words of a text, or of what stands between these signs in it."""
        choices = text.split(between)
        return choices[self.draw(len(choices))]
