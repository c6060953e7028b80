#!/bin/sh
# Makes the objects of this folder, and writes the lists that tests/rows/objects.rows has.
# clang and readelf are those of Debian 12: clang 14.0.6, GNU readelf 2.40.
set -e
cd "$(dirname "$0")"
for target in bpfel bpfeb; do
    clang -target $target -O2 -c small.c -o small.$target.o
done
readelf -SsW small.bpfel.o
