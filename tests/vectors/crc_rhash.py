"""CRC-32 by rhash, for the lists of whole bytes among those read; writes `crc BITS HEX` for each."""
import subprocess
import sys

from crc_bytes import whole_bytes

for bits, data in whole_bytes(sys.stdin):
    # %C is the CRC-32 in capitals
    answer = subprocess.run(["rhash", "--crc32", "-p", "%C", "-"], input=data, capture_output=True, check=True)
    print(f"crc {bits} {answer.stdout.decode('ascii').strip()}")
