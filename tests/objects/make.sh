#!/bin/sh
# Makes the objects of this folder, and the listings of them beside them.
# clang, llvm-strip and llvm-readelf are those of Debian 12 (14.0.6), bpftool is 7.1.
set -e
cd "$(dirname "$0")"
for target in bpfel bpfeb; do
    clang -target $target -g -O2 -c program.c -o program.$target.o
    llvm-strip -g program.$target.o
    llvm-readelf -SsW program.$target.o > program.$target.readelf
    bpftool btf dump file program.$target.o format raw > program.$target.raw
done
