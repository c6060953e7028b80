"""Writes shifted.btf: base.btf with one string more before the others, which its types do not know of."""

import struct

with open("base.btf", "rb") as file:
    table = file.read()
length, _, _, offset, _ = struct.unpack_from("<5I", table, 4)
strings = b"\0moved" + table[length + offset :]
header = table[:20] + struct.pack("<I", len(strings))
with open("shifted.btf", "wb") as file:
    file.write(header + table[24 : length + offset] + strings)
