# Of what `llvm-objdump -d -l -r` prints of an object, for each line of the source and for each relocation of types: the
# section of the program, the offset in bytes of the instruction, and the file and the line, or the kind and the type.
/^Disassembly of section / { section = substr($4, 1, length($4) - 1) }
/^; .*:[0-9]+$/ { line = $2 }
/^ *[0-9]+:\t/ {
    offset = 8 * $1
    if (line != "") print section, offset, line
    line = ""
}
/CO-RE </ { print section, offset, substr($3, 2, length($3) - 2), substr($4, 2, length($4) - 2) }
