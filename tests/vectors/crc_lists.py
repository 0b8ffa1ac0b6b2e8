"""Writes the bit lists whose CRC-32 is wanted, one a line, `-` for the empty list.

A line that begins with # names the lists below it. Each list stands once.
"""
from pick import Pick

pick = Pick(32)
seen = set()


def put(bits):
    if bits not in seen:
        seen.add(bits)
        print(bits or "-")


def bits_of(data):
    """The bits of the bytes, the lowest bit of each byte first."""
    return "".join(str(byte >> place & 1) for byte in data for place in range(8))


def random_bits(length):
    return "".join(str(pick.below(2)) for _ in range(length))


def published():
    print('# the bytes "123456789"')
    put(bits_of(b"123456789"))
    print("# the same bytes and their check CBF43926, lowest bit first")
    put(bits_of(b"123456789" + (0xCBF43926).to_bytes(4, "little")))
    print("# short texts that checks are usually tried on")
    for text in (
        b"a",
        b"abc",
        b"message digest",
        b"abcdefghijklmnopqrstuvwxyz",
        b"ABCDEFGHIJKLMNOPQRSTUVWXYZabcdefghijklmnopqrstuvwxyz0123456789",
        b"1234567890" * 8,
        b"The quick brown fox jumps over the lazy dog",
    ):
        put(bits_of(text))
    print("# 32 bytes: all 00, all FF, counting up from 00, counting down to 00")
    for data in (bytes(32), b"\xff" * 32, bytes(range(32)), bytes(range(31, -1, -1))):
        put(bits_of(data))


def short():
    for length in range(81):
        print(f"# {length} bits: zeros, ones, two random lists")
        put("0" * length)
        put("1" * length)
        put(random_bits(length))
        put(random_bits(length))


def one_bit_set():
    print("# one bit set among 40")
    for place in range(40):
        put("0" * place + "1" + "0" * (39 - place))


def long():
    print("# random lists of 81 to 2,000 bits, whole bytes")
    for length in [2000] + [8 * pick.between(11, 249) for _ in range(23)]:
        put(random_bits(length))
    print("# random lists of 81 to 2,000 bits, no whole bytes")
    for length in [1999] + [8 * pick.between(10, 248) + pick.between(1, 7) for _ in range(27)]:
        put(random_bits(length))


published()
short()
one_bit_set()
long()
