"""Reads bit lists, one a line, and gives those that are whole bytes, each with its bytes."""


def whole_bytes(lines):
    for line in lines:
        written = line.strip()
        if written.startswith("#"):
            continue
        bits = "" if written == "-" else written
        if len(bits) % 8 == 0:
            yield written, bytes(int(bits[at : at + 8][::-1], 2) for at in range(0, len(bits), 8))
