"""Numbers at random, the same for the same seed."""
import random


class Dice:
    def __init__(self, seed):
        self.random = random.Random(seed)

    def roll(self, below):
        """The next number, which is below this one."""
        return self.random.randrange(below)

    def is_one_of(self, many):
        """Whether the next number of so many is the first."""
        return self.roll(many) == 0

    def one_of(self, items):
        return items[self.roll(len(items))]

    def some_of(self, items, most):
        """At most so many of these."""
        return [self.one_of(items) for _ in range(self.roll(most + 1))]

    def align(self):
        """An alignment of at most 16 bytes."""
        return 1 << self.roll(5)

    def width(self, most):
        """The bytes of an integer: at most so many, and at most eight."""
        return min(self.one_of([1, 2, 4, 8]), most)

    def bytes(self, count):
        """So many bytes, each below 4 more often than not."""
        return bytes(self.roll(4 if self.is_one_of(2) else 256) for _ in range(count))
