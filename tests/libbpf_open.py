"""Opens an object with libbpf 1: python3 tests/libbpf_open.py OBJECT

Writes the lines of libbpf's debug log about externs, and the status is 0 if the object was opened, 1 if libbpf refused
it, and 2 if libbpf is not installed. An object is opened without a privilege, and nothing is loaded.
"""

import ctypes
import platform
import re
import sys

# A list of variable arguments is passed as a pointer by this machine's calling convention.
MACHINE = "x86_64"
LONGEST = 4096


def main(path: str) -> int:
    """Returns the status."""
    try:
        libbpf, libc = ctypes.CDLL("libbpf.so.1"), ctypes.CDLL(None)
    except OSError:
        return 2
    if platform.machine() != MACHINE:
        return 2
    lines = []
    printed = ctypes.CFUNCTYPE(ctypes.c_int, ctypes.c_int, ctypes.c_char_p, ctypes.c_void_p)

    @printed
    def keep(_level, form, values):
        text = ctypes.create_string_buffer(LONGEST)
        libc.vsnprintf(text, ctypes.c_size_t(LONGEST), form, ctypes.c_void_p(values))
        lines.append(text.value.decode())
        return 0

    libbpf.libbpf_set_print(keep)
    libbpf.bpf_object__open_file.restype = ctypes.c_void_p
    opened = libbpf.bpf_object__open_file(path.encode(), None)
    for line in lines:
        if re.search(r"extern \(|failed to find", line):
            print(line, end="")
    return 0 if opened else 1


if __name__ == "__main__":
    sys.exit(main(sys.argv[1]))
