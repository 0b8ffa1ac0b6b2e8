"""Choices from a fixed seed, the same on every machine.

Only Random.random() is used: its sequence for a seed is the one part of that module whose
stability Python documents.
"""
from random import Random


class Pick:
    def __init__(self, seed):
        self.source = Random(seed)

    def below(self, limit):
        """A number from 0 to limit - 1."""
        return int(self.source.random() * limit)

    def between(self, low, high):
        """A number from low to high, both included."""
        return low + self.below(high - low + 1)

    def chance(self, share):
        """True in that share of the calls."""
        return self.source.random() < share

    def one_of(self, items):
        return items[self.below(len(items))]
