#!/usr/bin/env python3
"""Writes a table of nested prototypes in little-endian order: nested.py [COUNT], with 1,000,000 where no number is given.

FUNC_PROTO k, for k from 1 to COUNT, has one parameter of type k + 1 and returns type 0; the last type is an INT.
The comparison of type 1 with itself starts each pair (k, k), and nests as deep.
"""

import struct
import sys

FUNC_PROTO_OF_ONE = 0x0D000001
INT = 0x01000000


def main():
    count = int(sys.argv[1]) if len(sys.argv) > 1 else 1_000_000
    types = bytearray()
    for k in range(1, count + 1):
        types += struct.pack("<5I", 0, FUNC_PROTO_OF_ONE, 0, 0, k + 1)
    types += struct.pack("<4I", 0, INT, 4, 32)
    header = struct.pack("<HBB5I", 0xEB9F, 1, 0, 24, 0, len(types), len(types), 1)
    sys.stdout.buffer.write(header + types + b"\0")


main()
