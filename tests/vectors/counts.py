"""Path counts over the trellises of k3 and k7, by numpy; writes `count` and `paths` lines.

    count CODE START SYMBOLS PLAN STATE VALUE
    paths CODE SYMBOLS PLAN STATE VALUE

A code of constraint length K has 2^(K-1) states. Input bit u in state s makes the register
R = u * 2^(K-1) + s; each code bit is the parity of the ones common to R and a generator, and the
next state is R // 2. A symbol is 16 * first + second, each 0 to 7, or 8 for erased. A branch is
admitted when each value that is not erased is at most 3 against code bit 0 and at least 4 against 1.
One symbol takes the counts v to v times the 0/1 matrix of the admitted branches.

A plan's letter s puts the next symbol's matrix on a pile, j replaces the top two by their product,
and a applies the only matrix to the counts. A block has at most 32 symbols.

Each VALUE of `count` is worked out twice: by exact whole numbers, symbol by symbol, and by 64-bit
matrix products in the order of the plan. Each VALUE of `paths` is counted path by path when there
are at most 12 symbols, and by exact sums over the states otherwise.
"""
from itertools import product

import numpy as np

from pick import Pick
from plans import balanced, bracketed_by, left_nested, right_nested, single_steps
from trellis import K3, K7

BOUND = 2**32
ERASED = 8
LONGEST_BLOCK = 32
LONGEST_ENUMERATED = 12

pick = Pick(136)
bracketed = bracketed_by(pick)


def matrix(code, symbol):
    """Row i, column j: whether an admitted branch goes from i to j."""
    entries = np.zeros((code.states, code.states), dtype=np.uint64)
    for state, bit in product(range(code.states), range(2)):
        after, first, second = code.step(state, bit)
        if admitted(symbol // 16, first) and admitted(symbol % 16, second):
            entries[state, after] = 1
    return entries


def admitted(value, bit):
    return value == ERASED or (value <= 3 if bit == 0 else value >= 4)


# --- counting ---------------------------------------------------------------------------------


def by_single_steps(code, start, symbols):
    """The counts after the symbols, as exact whole numbers."""
    counts = np.array(start, dtype=object)
    for symbol in symbols:
        counts = counts @ matrix(code, symbol).astype(object)
    return [int(count) for count in counts]


def by_plan(code, start, symbols, plan):
    """The counts after the plan, modulo 2^32. Fails when the plan is not one for the symbols."""
    counts = np.array(start, dtype=np.uint64)
    left = list(symbols)
    pile = []
    for letter in plan:
        if letter == "s":
            pile.append((1, matrix(code, left.pop(0))))
        elif letter == "j":
            later_length, later = pile.pop()
            length, earlier = pile.pop()
            assert length + later_length <= LONGEST_BLOCK
            # 64-bit sums wrap, which leaves the remainder modulo 2^32 as it is
            pile.append((length + later_length, earlier @ later % np.uint64(BOUND)))
        else:
            ((_, block),) = pile
            counts = counts @ block % np.uint64(BOUND)
            pile = []
    assert not left and not pile
    return [int(count) for count in counts]


def by_enumeration(code, symbols, end):
    """How many input bit lists go from state 0 to the end over admitted branches only."""
    found = 0
    for bits in product(range(2), repeat=len(symbols)):
        state = 0
        for bit, symbol in zip(bits, symbols):
            state, first, second = code.step(state, bit)
            if not (admitted(symbol // 16, first) and admitted(symbol % 16, second)):
                break
        else:
            found += state == end
    return found


def by_sums(code, symbols, end):
    """The same number by sums over the states, one symbol after the other."""
    reached = {0: 1}
    for symbol in symbols:
        following = {}
        for state, number in reached.items():
            for bit in range(2):
                after, first, second = code.step(state, bit)
                if admitted(symbol // 16, first) and admitted(symbol % 16, second):
                    following[after] = following.get(after, 0) + number
        reached = following
    return reached.get(end, 0)


# --- plans ------------------------------------------------------------------------------------


SHAPES = (left_nested, right_nested, balanced, bracketed, bracketed, bracketed)


def blocks(length, longest=LONGEST_BLOCK):
    """Blocks of random lengths and shapes."""
    plan = ""
    while length > 0:
        block = pick.between(1, min(length, longest))
        plan += pick.one_of(SHAPES)(block) + "a"
        length -= block
    return plan


# --- symbols ----------------------------------------------------------------------------------


def erased(length):
    return [16 * ERASED + ERASED] * length


def noise(length, share):
    """Values without a path behind them; that share of them erased."""

    def value():
        return ERASED if pick.chance(share) else pick.below(8)

    return [16 * value() + value() for _ in range(length)]


def along_path(code, length, doublings, state=0):
    """Values that admit a random path from the state.

    As many are erased as make the counts double about so many times on the way: each symbol brings
    a free input bit, and each value that is not erased settles one. Few doublings keep a remainder
    modulo 2^32 that tells right from wrong; 32 and more leave 0.
    """
    share = 0.5 + doublings / (2 * length)

    def value(bit):
        return ERASED if pick.chance(share) else 4 * bit + pick.below(4)

    symbols = []
    for _ in range(length):
        state, first, second = code.step(state, pick.below(2))
        symbols.append(16 * value(first) + value(second))
    return symbols


# --- starts -----------------------------------------------------------------------------------


def random_start(code):
    return [pick.below(BOUND) for _ in range(code.states)]


def small_start(code):
    return [pick.below(10) for _ in range(code.states)]


def full_start(code):
    return [BOUND - 1] * code.states


# --- lines ------------------------------------------------------------------------------------


def listed(numbers):
    return ",".join(map(str, numbers)) or "-"


def reached_or_any(values):
    """A state with a count that is not 0, three times in four if there is one."""
    reached = [state for state, value in enumerate(values) if value]
    if reached and pick.chance(0.75):
        return pick.one_of(reached)
    return pick.below(len(values))


def put_count(code, start, symbols, plan, state=None):
    exact = by_single_steps(code, start, symbols)
    values = [value % BOUND for value in exact]
    assert by_plan(code, start, symbols, plan) == values
    if state is None:
        state = reached_or_any(values)
    print("count", code.name, listed(start), listed(symbols), plan or "-", state, values[state])


def put_paths(code, symbols, plan, state=None):
    start = [1] + [0] * (code.states - 1)
    values = by_plan(code, start, symbols, plan)
    if state is None:
        state = reached_or_any(values)
    if len(symbols) <= LONGEST_ENUMERATED:
        number = by_enumeration(code, symbols, state)
    else:
        number = by_sums(code, symbols, state)
    assert number % BOUND == values[state]
    print("paths", code.name, listed(symbols), plan or "-", state, number % BOUND or "absent")


def counts_k3():
    print("# count, k3: no symbols")
    put_count(K3, random_start(K3), [], "", 0)
    put_count(K3, random_start(K3), [], "", 3)

    print("# count, k3: one step with every accepted symbol, read at every state")
    for first, second, state in product(range(9), range(9), range(4)):
        put_count(K3, [1, 10, 100, 1000], [16 * first + second], "sa", state)

    print("# count, k3: blocks of 32, nested to the left, to the right, balanced, at random; single steps")
    plans = [shape(32) + "a" for shape in (left_nested, right_nested, balanced, bracketed)] + [single_steps(32)]
    for plan in plans:
        put_count(K3, random_start(K3), erased(32), plan)
        put_count(K3, full_start(K3), erased(32), plan)
        for doublings in (0, 5, 10):
            put_count(K3, random_start(K3), along_path(K3, 32, doublings, pick.below(4)), plan)

    print("# count, k3: 8 and 24 erased pairs; 40 of them, whose counts are multiples of 2^32")
    for length in (8, 24, 40):
        put_count(K3, random_start(K3), erased(length), single_steps(length))
        put_count(K3, random_start(K3), erased(length), 2 * (balanced(length // 2) + "a"))
        put_count(K3, random_start(K3), erased(length), blocks(length))

    print("# count, k3: single steps")
    for _ in range(20):
        length = pick.between(1, 80)
        put_count(K3, random_start(K3), along_path(K3, length, pick.below(20), pick.below(4)), single_steps(length))

    print("# count, k3: random blocks along a path")
    for _ in range(70):
        length = pick.between(1, 100)
        start = pick.one_of((random_start, random_start, small_start, full_start))(K3)
        put_count(K3, start, along_path(K3, length, pick.below(24), pick.below(4)), blocks(length))

    print("# count, k3: random blocks of values without a path behind them")
    for _ in range(25):
        length = pick.between(1, 24)
        put_count(K3, random_start(K3), noise(length, pick.one_of((0.5, 0.8, 0.9, 0.95))), blocks(length))


def counts_k7():
    print("# count, k7: up to 12 symbols")
    for length in (0, 1, 2, 3):
        put_count(K7, random_start(K7), erased(length), blocks(length))
    for shape in (left_nested, right_nested, balanced, bracketed):
        put_count(K7, random_start(K7), along_path(K7, 8, pick.below(4), pick.below(64)), shape(8) + "a")
    put_count(K7, random_start(K7), erased(12), balanced(12) + "a")
    put_count(K7, small_start(K7), along_path(K7, 12, 2, pick.below(64)), single_steps(12))
    put_count(K7, full_start(K7), along_path(K7, 12, 6, pick.below(64)), blocks(12))
    for _ in range(5):
        length = pick.between(4, 12)
        put_count(K7, random_start(K7), along_path(K7, length, pick.below(6), pick.below(64)), blocks(length))
    put_count(K7, random_start(K7), noise(6, 0.7), blocks(6))


def paths_k3():
    print("# paths, k3: no symbols")
    for state in range(4):
        put_paths(K3, [], "", state)

    print("# paths, k3: up to 12 symbols, counted one by one")
    for length in range(1, 13):
        put_paths(K3, erased(length), blocks(length))
        put_paths(K3, along_path(K3, length, -length), blocks(length))
        put_paths(K3, along_path(K3, length, pick.below(3)), blocks(length))
        put_paths(K3, along_path(K3, length, pick.below(10)), blocks(length))
        put_paths(K3, noise(length, 0.6), blocks(length))

    print("# paths, k3: erased pairs; 34 of them have 2^32 paths to each state")
    for length in (32, 33, 34, 35):
        for state in range(4):
            put_paths(K3, erased(length), blocks(length), state)
    put_paths(K3, erased(34), single_steps(34), 0)
    put_paths(K3, erased(34), balanced(32) + "a" + left_nested(2) + "a", 0)

    print("# paths, k3: more than 12 symbols, by sums over the states")
    for _ in range(30):
        length = pick.between(13, 200)
        put_paths(K3, along_path(K3, length, pick.below(36)), blocks(length))


def paths_k7():
    print("# paths, k7: no symbols")
    put_paths(K7, [], "", 0)
    put_paths(K7, [], "", 63)

    print("# paths, k7: up to 12 symbols, counted one by one")
    for length in range(1, 13):
        put_paths(K7, along_path(K7, length, pick.between(-length, 8)), blocks(length))
        put_paths(K7, erased(length), blocks(length))

    print("# paths, k7: erased pairs; 38 of them have 2^32 paths to each state")
    put_paths(K7, erased(37), single_steps(37), 0)
    put_paths(K7, erased(38), single_steps(38), 0)
    put_paths(K7, erased(38), single_steps(38), 37)

    print("# paths, k7: more than 12 symbols, by sums over the states")
    for length in (16, 24, 40, 64):
        put_paths(K7, along_path(K7, length, 12), blocks(length, 3))


counts_k3()
counts_k7()
paths_k3()
paths_k7()
