"""The codes k3 and k7: their states, branches and code bits."""


class Code:
    def __init__(self, name, constraint, generators):
        self.name = name
        self.constraint = constraint
        self.generators = generators
        self.states = 2 ** (constraint - 1)

    def step(self, state, bit):
        """The next state and the two code bits."""
        register = bit * self.states + state
        first, second = ((register & generator).bit_count() % 2 for generator in self.generators)
        return register // 2, first, second


K3 = Code("k3", 3, (0o7, 0o5))
K7 = Code("k7", 7, (0o171, 0o133))
