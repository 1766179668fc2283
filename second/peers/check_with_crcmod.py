"""Check bits by crcmod: words in hexadecimal in, check bits in hexadecimal out."""

import sys

try:
    import crcmod
except ImportError:
    sys.exit(3)

# x^16 + x^15 + x^2 + 1, start zero, no reflection, no inversion.
remainder = crcmod.mkCrcFun(0x18005, initCrc=0, rev=False, xorOut=0)


def mirrored(byte):
    return int(f"{byte:08b}"[::-1], 2)


for line in sys.stdin:
    # crcmod starts with the highest bit of a byte, and D0 is the lowest.
    low_byte_first = int(line, 16).to_bytes(6, "little")
    print(f"{remainder(bytes(map(mirrored, low_byte_first))):04x}")
