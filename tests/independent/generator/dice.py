"""Choices that a number decides, the same with every Python: only random() of the generator is used, whose sequence is kept."""
import random


class Dice:
    """A source of choices."""

    def __init__(self, seed):
        self.source = random.Random(seed)

    def chance(self, part):
        """Returns True in so many cases of 1."""
        return self.source.random() < part

    def below(self, count):
        """Returns a number from 0 to below count."""
        return int(self.source.random() * count)

    def between(self, low, high):
        """Returns a number from low to high, both included."""
        return low + self.below(high - low + 1) if high > low else low

    def one_of(self, items):
        """Returns one of the items."""
        return items[self.below(len(items))]

    def shuffled(self, items):
        """Returns the items in another order."""
        left = list(items)
        for last in range(len(left) - 1, 0, -1):
            other = self.below(last + 1)
            left[last], left[other] = left[other], left[last]
        return left

    def some_of(self, items, count):
        """Returns so many of the items, or all if there are fewer, in any order."""
        return self.shuffled(items)[:count]

    def kept(self, items, part):
        """Returns the items without some: each stays in so many cases of 1."""
        return [item for item in items if self.chance(part)]
