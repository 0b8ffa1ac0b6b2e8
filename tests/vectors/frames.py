"""Chooses the frames of the vectors; writes `KIND CODE SYMBOLS PLANS STATES` lines.

CODE is k3 or k7. SYMBOLS has two digits for each step, its soft values: 0 (surely 0) to 7 (surely 1),
8 for erased. PLANS are the deliveries, between commas: each takes as many symbols as it has letters s.
STATES are the end states to decode to, between commas. - stands for no symbols, and for the plan of
none.

KIND says how the symbols were chosen:

    short    up to 10 steps of any of the sorts below
    noisy    along a random path, with errors and doubts
    erased   the same with values erased, at random or by a pattern
    tied     mostly erased, or values of 3 and 4 alone: many paths of equal cost
    random   any values, without a path behind them
    full     4,096 steps, the most that a frame takes
"""
from itertools import product

from pick import Pick
from plans import balanced, bracketed_by, left_nested, right_nested, single_steps
from trellis import K3, K7

ERASED = 8
LONGEST_BLOCK = 32
LONGEST_FRAME = 4096
LONGEST_SHORT = 10

pick = Pick(32768)
bracketed = bracketed_by(pick)


# --- soft values ------------------------------------------------------------------------------


def along_path(code, length, noise):
    """The values of a random path: each sure at first, then moved by noise."""
    state = 0
    values = []
    for _ in range(length):
        state, first, second = code.step(state, pick.below(2))
        values += [noise(7 * first), noise(7 * second)]
    return values


def sure(value):
    return value


def flipped(share):
    """That share of the values turned round, and no doubt."""
    return lambda value: 7 - value if pick.chance(share) else value


def blurred(width):
    """Moved by about so much, and cut to 0 to 7."""

    def noise(value):
        moved = value + width * (pick.source.random() + pick.source.random() + pick.source.random() - 1.5)
        return min(7, max(0, int(moved + 0.5)))

    return noise


def noisy(code, length):
    noise = pick.one_of((sure, flipped(0.03), flipped(0.1), flipped(0.2), blurred(3), blurred(6), blurred(9), blurred(12)))
    return along_path(code, length, noise)


# which of the code bits are sent, over and over: rates 2/3, 3/4 and 5/6
PATTERNS = ("1101", "110110", "1101100110")


def erased(code, length):
    values = noisy(code, length)
    if pick.chance(0.4):
        sent = pick.one_of(PATTERNS)
        return [value if sent[place % len(sent)] == "1" else ERASED for place, value in enumerate(values)]
    share = pick.one_of((0.05, 0.2, 0.4, 0.6))
    return [ERASED if pick.chance(share) else value for value in values]


def tied(code, length):
    sort = pick.below(6)
    if sort == 0:
        return [ERASED] * (2 * length)
    if sort == 1:
        return [pick.one_of((3, 4)) for _ in range(2 * length)]
    if sort == 2:
        return [pick.one_of((3, 4, ERASED, ERASED)) for _ in range(2 * length)]
    if sort == 3:
        return [pick.one_of((0, 7)) if pick.chance(0.15) else ERASED for _ in range(2 * length)]
    if sort == 4:
        # a path that is sure, and now and then a pair without a word
        values = along_path(code, length, sure)
        for place in range(length):
            if pick.chance(0.3):
                values[2 * place : 2 * place + 2] = [ERASED, ERASED]
        return values
    # the same few symbols over and over
    again = [pick.below(9) for _ in range(2 * pick.between(1, 3))]
    return [again[place % len(again)] for place in range(2 * length)]


def random(code, length):
    least = pick.one_of((8, 9))
    return [pick.below(least) for _ in range(2 * length)]


SORTS = (noisy, erased, tied, random)


# --- plans ------------------------------------------------------------------------------------


SHAPES = (left_nested, right_nested, balanced, bracketed, bracketed)


def even_blocks(block):
    """Blocks of one length, all of one shape, and a shorter one at the end."""
    shape = pick.one_of(SHAPES)

    def plan(length):
        whole, rest = divmod(length, block)
        return (shape(block) + "a") * whole + (shape(rest) + "a" if rest else "")

    return plan


def any_blocks(longest):
    """Blocks of random lengths and shapes."""

    def plan(length):
        letters = ""
        while length > 0:
            block = pick.between(1, min(length, longest))
            letters += pick.one_of(SHAPES)(block) + "a"
            length -= block
        return letters

    return plan


# A join for k7 is some thousand times the work of a join for k3, so k7 has few: no more than this for each
# sort of symbols, and in one plan.
JOINS_OF_SORT = 800
JOINS_OF_PLAN = 70


class Joins:
    left = 0


def plan_of(code, length):
    ways = [single_steps, even_blocks(LONGEST_BLOCK), even_blocks(pick.between(2, 31)), any_blocks(LONGEST_BLOCK), any_blocks(5)]
    if code is K3:
        return pick.one_of(ways)(length)
    if pick.chance(0.8 if length > LONGEST_SHORT else 0.3):
        return single_steps(length)
    plan = pick.one_of(ways)(length)
    if plan.count("j") > min(JOINS_OF_PLAN, Joins.left):
        return single_steps(length)
    Joins.left -= plan.count("j")
    return plan


def deliveries(code, length):
    """One plan, or two to four; now and then one of no symbols."""
    if length == 0 or pick.chance(0.5):
        return plan_of(code, length) or "-"
    cuts = sorted(pick.between(0, length) for _ in range(pick.between(1, 3)))
    parts = [high - low for low, high in zip([0] + cuts, cuts + [length])]
    return ",".join(plan_of(code, part) or "-" for part in parts)


# --- end states -------------------------------------------------------------------------------


def some_states(code, count):
    """So many different states, in no order."""
    left = list(range(code.states))
    return [left.pop(pick.below(len(left))) for _ in range(min(count, code.states))]


def reached_first(code, length, count):
    """The same, three in four of them such that a path ends there."""
    chosen = []
    while len(chosen) < min(count, code.states):
        state = 0
        for _ in range(length):
            state, _, _ = code.step(state, pick.below(2))
        if pick.chance(0.25) or all(taken in chosen for taken in reached_from_0(code, length)):
            state = pick.below(code.states)
        if state not in chosen:
            chosen.append(state)
    return chosen


def reached_from_0(code, length):
    states = {0}
    for _ in range(min(length, code.constraint)):
        states = {code.step(state, bit)[0] for state in states for bit in range(2)}
    return states


# --- lines ------------------------------------------------------------------------------------


def put(kind, code, values, plans, states):
    print(kind, code.name, "".join(map(str, values)) or "-", plans, ",".join(map(str, states)))


def short():
    Joins.left = JOINS_OF_SORT
    for code, frames, states in ((K3, 10, 4), (K7, 4, 9)):
        for length in range(LONGEST_SHORT + 1):
            for sort in SORTS:
                for _ in range(frames if length else 1):
                    put("short", code, sort(code, length), deliveries(code, length), reached_first(code, length, states))
    # one step with every symbol, to every state
    for first, second in product(range(9), repeat=2):
        put("short", K3, [first, second], "sa", range(4))


def length_up_to(longest):
    """From 11 to the longest, the shorter ones oftener."""
    return pick.between(LONGEST_SHORT + 1, pick.one_of((longest // 8, longest // 4, longest // 2, longest)))


def middling():
    for sort in SORTS:
        for _ in range(450):
            length = length_up_to(400)
            put(sort.__name__, K3, sort(K3, length), deliveries(K3, length), some_states(K3, pick.one_of((1, 1, 2, 4))))
        Joins.left = JOINS_OF_SORT
        for _ in range(220):
            length = length_up_to(300)
            put(sort.__name__, K7, sort(K7, length), deliveries(K7, length), some_states(K7, pick.one_of((1, 1, 2, 3))))
        # to every state of k7
        for _ in range(3):
            length = pick.between(11, 40)
            put(sort.__name__, K7, sort(K7, length), deliveries(K7, length), some_states(K7, K7.states))


def full():
    for sort in SORTS:
        for plan in (single_steps, even_blocks(LONGEST_BLOCK), any_blocks(LONGEST_BLOCK)):
            put("full", K3, sort(K3, LONGEST_FRAME), plan(LONGEST_FRAME), some_states(K3, 2))
    parts = ",".join(any_blocks(LONGEST_BLOCK)(1024) for _ in range(4))
    put("full", K3, erased(K3, LONGEST_FRAME), parts, some_states(K3, 4))
    for sort in SORTS:
        put("full", K7, sort(K7, LONGEST_FRAME), single_steps(LONGEST_FRAME), some_states(K7, 2))
    put("full", K7, erased(K7, LONGEST_FRAME), even_blocks(2)(LONGEST_FRAME), some_states(K7, 2))


short()
middling()
full()
