"""Random numbers that are the same at each run and with every Python: splitmix64 from a fixed seed."""

MASK = 2**64 - 1


class Dice:
    def __init__(self, seed):
        self.state = seed & MASK

    def word(self):
        """64 random bits."""
        self.state = (self.state + 0x9E3779B97F4A7C15) & MASK
        z = self.state
        z = ((z ^ (z >> 30)) * 0xBF58476D1CE4E5B9) & MASK
        z = ((z ^ (z >> 27)) * 0x94D049BB133111EB) & MASK
        return z ^ (z >> 31)

    def below(self, n):
        """A whole number from 0 to n - 1."""
        return self.word() * n >> 64

    def between(self, low, high):
        """A whole number from low to high."""
        return low + self.below(high - low + 1)

    def part(self):
        """A float from 0 up to 1, that one left out."""
        return (self.word() >> 11) / 2.0**53

    def chance(self, percent):
        return self.below(100) < percent

    def pick(self, choices):
        return choices[self.below(len(choices))]

    def weighted(self, choices):
        """One of the keys of a dictionary, as often as its number says."""
        at = self.below(sum(choices.values()))
        for choice, weight in choices.items():
            if at < weight:
                return choice
            at -= weight
        raise AssertionError

    def shuffled(self, things):
        things = list(things)
        for i in range(len(things) - 1, 0, -1):
            j = self.below(i + 1)
            things[i], things[j] = things[j], things[i]
        return things
