"""Compares what several decoders answer for the same frames, and writes the vectors.

    python3 compare_frames.py FRAMES OSMO FEC ITPP

FRAMES has `KIND CODE SYMBOLS PLANS STATES` lines; the other files have a line of answers for each.
libosmocore's answers are the vectors, once these hold of every one:

    - its path leads from state 0 to the end state, and costs what it says;
    - IT++'s path does so too, at the same cost. So the bits are the same where only one path is best;
    - libfec's bits, where it has any, are the same;
    - up to 10 steps a search over all paths finds the same cost and the same bits: of the cheapest
      paths, the one with the 0 at the latest bit where they differ. Where it finds no path, none is
      answered.

The first line that fails ends the script, and nothing is written. What was compared goes to standard
error.
"""
import sys
from collections import Counter

ERASED = 8
LONGEST_SEARCHED = 10

# the bits of a state, and the generators
CODES = {"k3": (2, (0o7, 0o5)), "k7": (6, (0o171, 0o133))}


def step(code, state, bit):
    """The next state and the two code bits."""
    memory, generators = CODES[code]
    register = (bit << memory) + state
    return register // 2, [(register & generator).bit_count() % 2 for generator in generators]


BRANCHES = {code: [[step(code, state, bit) for bit in range(2)] for state in range(2 ** CODES[code][0])] for code in CODES}


def cost(value, bit):
    if value == ERASED:
        return 0
    return 7 - value if bit else value


def weigh(code, values, bits):
    """Where a path ends, and its cost."""
    assert len(bits) * 2 == len(values)
    state, total = 0, 0
    for place, bit in enumerate(bits):
        state, (first, second) = BRANCHES[code][state][int(bit)]
        total += cost(values[2 * place], first) + cost(values[2 * place + 1], second)
    return state, total


def search(code, values):
    """The best path to each state, as cost and bits, of all that there are."""
    length = len(values) // 2
    best = {}
    for path in range(2**length):
        # the last input bit is the highest, so a lower number has the 0 at the latest difference
        bits = "".join(str(path >> place & 1) for place in range(length))
        state, total = weigh(code, values, bits)
        if state not in best or total < best[state][0]:
            best[state] = total, bits
    return best


compared = Counter()


def agreed(code, values, answer, fec, itpp, best):
    """What one answer of libosmocore is wrong about, or nothing."""
    state, *found = answer.split(":")
    state = int(state)
    compared["libosmocore"] += 1
    if best is not None:
        compared["every path tried"] += 1
        if found != ["absent"]:
            found_best = int(found[0]), found[1].replace("-", "")
            if best.get(state) != found_best:
                return f"the search found {best.get(state)}"
        elif state in best:
            return f"the search found {best[state]}"
    if found == ["absent"]:
        compared["absent"] += 1
        return "" if best is not None else "no path, and no search for one"
    total, bits = int(found[0]), found[1].replace("-", "")
    if weigh(code, values, bits) != (state, total):
        return f"its path weighs {weigh(code, values, bits)}"
    if itpp != "?":
        compared["IT++"] += 1
        if weigh(code, values, itpp) != (state, total):
            return f"IT++'s path weighs {weigh(code, values, itpp)}"
        if itpp != bits:
            compared["more than one best path"] += 1
    if fec != "?":
        compared["libfec"] += 1
        if fec.replace("-", "") != bits:
            return f"libfec has {fec}"
    return ""


def main(frames, osmo, fec, itpp):
    files = [open(name).read().splitlines() for name in (frames, osmo, fec, itpp)]
    assert len({len(lines) for lines in files}) == 1, "a file has another number of lines"
    vectors = []
    for frame, *answers in zip(*files):
        kind, code, symbols, plans, states = frame.split(" ")
        values = [int(digit) for digit in symbols.replace("-", "")]
        best = search(code, values) if len(values) // 2 <= LONGEST_SEARCHED else None
        answers = [line.split(",") for line in answers]
        assert {len(line) for line in answers} == {len(states.split(","))}
        for state, answer, fec_bits, itpp_bits in zip(states.split(","), *answers):
            assert answer.startswith(state + ":")
            fault = agreed(code, values, answer, fec_bits, itpp_bits, best)
            if fault:
                sys.exit(f"{frame}\n  {answer}: {fault}")
        compared[f"{code} {kind}"] += len(answers[0])
        compared["frames"] += 1
        vectors.append(" ".join((kind, code, symbols, plans, ",".join(answers[0]))))
    print("\n".join(vectors))
    for name, number in sorted(compared.items()):
        print(number, name, file=sys.stderr)


main(*sys.argv[1:])
