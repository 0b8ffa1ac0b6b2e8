"""CRC-32 by zlib, for the lists of whole bytes among those read; writes `crc BITS HEX` for each."""
import sys
import zlib

from crc_bytes import whole_bytes

for bits, data in whole_bytes(sys.stdin):
    print(f"crc {bits} {zlib.crc32(data):08X}")
