"""The rows of tests/corpus: objects and tables of tests/corpus_data, command lines, and malformed fields.

The expected texts are written by hand: from the pages of docs and of bindings/man, for errors of the command line also
in the words of clap 4, and for the first lines of types from the files of bpftool.
"""

# The compiler, the machine with its byte order, and the source of each object.
SAMPLES = (
    "clang13.bpfel.kinds.o",
    "clang14.bpfel.kinds.o",
    "clang14.bpfeb.kinds.o",
    "clang14.bpfel.prog.o",
    "clang14.bpfeb.prog.o",
    "clang14.x86_64.kinds.o",
    "clang15.bpfel.kinds.o",
    "clang16.bpfel.kconfig.o",
    "clang19.bpfel.kinds.o",
    "clang19.bpfeb.kinds.o",
    "gcc12.bpfel.kinds.o",
    "gcc12.bpfeb.kinds.o",
    "gcc12.x86_64.kinds.o",
)

# The structures and unions of an object, and of a module, in the order in which pahole was asked for them.
NAMES = ("everything", "bits", "node", "number", "event", "task_struct")
MODULE_NAMES = ("port", "cell", "device", "tcphdr")

# The beginnings of lines of pahole 1.24, and the beginnings of the lines that replace them, which are as in C. pahole
# writes the lengths of an array of arrays in reverse order, the length of an array of functions after their parameters,
# a qualifier of a pointer before its type, and `single` for a floating-point number of any length.
STATED = (
    (b"\tint                        grid[3][2]; ", b"\tint                        grid[2][3]; "),
    (b"\tint                        grid[2][3]; ", b"\tint                        grid[3][2]; "),
    (b"\tvoid                       (*handlers)(int)[2]; ", b"\tvoid                       (*handlers[2])(int); "),
    (b"\tconst const void  *        fixed; ", b"\tconst void  * const        fixed; "),
    (b"\tsingle double              real; ", b"\tdouble                     real; "),
)

# The versions for which each object is rewritten. Each has features that the one before it lacks.
VERSIONS = ("4.18", "5.2", "5.8", "5.13", "6.0")

# The objects with externs: a DATASEC `.ksyms` or `.kconfig`. Before this one of the versions no kernel has DATASECs, and
# a rewrite for it has this status.
WITH_EXTERNS = ("clang14.bpfel.prog.o", "clang14.bpfeb.prog.o", "clang16.bpfel.kconfig.o")
FIRST_DATASECS = "5.2"
WITHOUT_EXTERNS = 4

# The objects with hidden functions and variables.
WITH_HIDDEN = ("clang14.bpfel.hidden.o", "clang14.bpfeb.hidden.o")

# A rewrite that is refused: the object, the first of the versions, and the error. No object has a section of this name,
# so a DATASEC of it has a size only after its table is finalized.
UNFINALIZED = ("clang16.bpfel.kconfig.o", "5.2", "Unable to determine the size of section `.kconfig`")

# The objects with relocations, and the tables that they are relocated for.
RELOCATED = (
    "clang14.bpfel.reloc.o",
    "clang14.bpfeb.reloc.o",
    "clang15.bpfel.reloc.o",
    "clang15.bpfeb.reloc.o",
    "clang16.bpfel.reloc.o",
    "clang16.bpfeb.reloc.o",
    "clang19.bpfel.reloc.o",
    "clang19.bpfeb.reloc.o",
    "clang14.bpfel.prog.o",
    "clang14.bpfeb.prog.o",
    "clang16.bpfel.kconfig.o",
)
KERNELS = ("kernel1", "kernel2", "kernel3")

# The split tables, all over base.btf.
MODULES = ("module1.btf", "module2.btf", "module3.btf")

# The object of a module, which has a distilled base too.
SPLIT_OBJECT = "distilled.x86_64.module.o"

# What selects types of a dump, and what the first line of each selected type of clang14.bpfel.prog.o matches.
SELECTED = (
    ("--ids 3..9", r"\[[3-8]\] "),
    ("--ids 3", r"\[3\] "),
    ("--ids 40..", r"\[4\d\] "),
    ("--ids ..29 --kind func_proto", r"\[(1?\d|2[0-8])\] FUNC_PROTO "),
    ("--kind DATASEC", r"\[\d+\] DATASEC "),
    ("--name event", r"\[\d+\] \w+ 'event' "),
)

# The words of a command that has to write the text of a file, and the file's name.
HEADERS = (
    ("clang14.bpfeb.kinds.o node", "clang14.bpfeb.kinds.o.node"),
    ("clang14.bpfeb.kinds.o node --kind struct", "clang14.bpfeb.kinds.o.node"),
    ("clang14.bpfeb.kinds.o --kind union", "clang14.bpfeb.kinds.o.union"),
    # A FUNC of this name, whose parameter is a pointer to a structure.
    ("clang14.bpfel.prog.o check", "clang14.bpfel.prog.o.check"),
    # No compiler writes a table with such names. This file is written by hand.
    ("names.btf", "names.btf.header"),
)

SPLIT = "names or ids are not in the table, as in split BTF, whose base --base names"
UNLINKED = "a variable is extern and not in the object: link it with the object that has it, as bpftool gen object does"
OTHER_BASE = (
    "the base seems to be of another kernel: a name of type 315 does not begin where a string begins, "
    "or its type is missing"
)

DISTILLED = "the table continues a distilled base, the section .BTF.base, which is not read"

# The words of a command on a file of tests/corpus_data that is refused, and the error.
REFUSED = (
    ("header clang14.bpfeb.kinds.o node opaque --kind struct", "no type has this name"),
    # A structure that contains itself, and two pointers that point to each other.
    ("header self.btf", "maximum depth reached resolving BTF type"),
    ("header loop.btf", "maximum depth reached resolving BTF type"),
    ("dump module1.btf", "names or ids are not in the table, as in split BTF, whose base --base names"),
    ("dump module2.btf", "names or ids are not in the table, as in split BTF, whose base --base names"),
    ("dump module3.btf", "names or ids are not in the table, as in split BTF, whose base --base names"),
    ("dump clang14.bpfel.prog.o --ids 99999", "no type has such an id, the last one is 49"),
    ("dump clang14.bpfel.prog.o --ids 0", "no type has such an id, the last one is 49"),
    ("dump module1.btf --base base.btf --ids 3", "no type has such an id, the last one is 320"),
    ("check module1.btf --kernel 5.4", SPLIT),
    ("sanitize module1.btf -o - --kernel 5.4", SPLIT),
    # A map of an object with which this one is to be linked.
    ("check clang14.bpfel.unlinked.o --kernel 6.1", UNLINKED),
    ("sanitize clang14.bpfel.unlinked.o -o - --kernel 6.1", UNLINKED),
    # The names of a module's types, over a base of the same types and other strings.
    ("header module1.btf --base shifted.btf", OTHER_BASE),
    ("layout module1.btf port --base shifted.btf", OTHER_BASE),
    ("check module1.btf --base shifted.btf --kernel 5.4", OTHER_BASE),
    ("sanitize module1.btf --base shifted.btf -o - --kernel 5.4", OTHER_BASE),
    ("dump distilled.x86_64.module.o --base base.btf", DISTILLED),
    ("sanitize distilled.x86_64.module.o --base base.btf -o - --kernel 5.4", DISTILLED),
)

# The files of the command lines below, of which a.o is standard input too, and their names in tests/corpus_data.
FILES = {
    "a.o": "clang14.bpfel.prog.o",
    "b.o": "clang14.bpfel.kinds.o",
    "kernel.btf": "kernel1.el.btf",
    "vmlinux": "base.btf",
    "m.btf": "module1.btf",
    "n.btf": "module2.btf",
    "other": "shifted.btf",
}

MISSING = "error: the following required arguments were not provided:\n  "
RANGE = "error: the value of --ids is no number, and no range A..B of two numbers\n"
GUARD = "#ifndef __VMLINUX_H__\n"

# The words of a command line, the status, and the beginnings of standard output and of standard error. Where a
# beginning is empty, nothing may be written.
COMMAND_LINES = (
    ("dump a.o", 0, "[1] PTR '(anon)' type_id=3\n[2] INT 'int' ", ""),
    ("dump - --ids 3..9", 0, "[3] ARRAY '(anon)' type_id=2 ", ""),
    ("dump - --ids ..9 --kind func_proto --name x", 1, "", "btfobj: -: no type has this name\n"),
    ("dump - --ids 3", 0, "[3] ARRAY '(anon)' type_id=2 ", ""),
    ("dump - --ids 3-9", 2, "", RANGE),
    ("dump - --ids 3..4294967296", 2, "", RANGE),
    ("dump - --ids a..b", 2, "", RANGE),
    ("dump - --ids 7..5", 2, "", "error: the range of --ids is empty: "),
    ("dump - --ids 7..7", 2, "", "error: the range of --ids is empty: "),
    ("dump - --kind POINTER", 2, "", "error: invalid value 'POINTER' for '--kind <KIND>'\n"),
    ("dump", 2, "", MISSING + "<FILE>...\n"),
    ("dump a.o b.o --ids 3", 0, "\nFile: a.o\n[3] ARRAY '(anon)' type_id=2 ", ""),
    ("dump c.o", 1, "", "btfobj: c.o: "),
    ("dump c.o b.o", 1, "\nFile: c.o\n\nFile: b.o\n[1] PTR ", "btfobj: c.o: "),
    ("dump m.btf --base vmlinux", 0, "[315] ", ""),
    ("dump m.btf --base other", 1, "[315] ENUM ", "btfobj: m.btf: the base seems to be of another kernel: "),
    ("relocate a.o --target m.btf --base other", 1, "", "btfobj: m.btf: the base seems to be of another kernel: "),
    ("relocate a.o --target m.btf --base vmlinux", 3, "section '.text'\n", ""),
    ("sanitize m.btf --base vmlinux -o m.new.btf --table-only --kernel 5.2", 0, "", ""),
    ("check n.btf --base vmlinux --kernel 5.4", 1, "Enum64: needed, and the kernel lacks it\n", ""),
    (
        "check n.btf --base vmlinux --kernel 5.4 --target kernel.btf",
        2,
        "",
        "error: --base is for the table of a module, which has no relocations for --target\n",
    ),
    ("check n.btf n.btf --base vmlinux --kernel 6.0", 0, "\nFile: n.btf\nEnum64: needed\n", ""),
    ("header a.o", 0, GUARD, ""),
    ("header m.btf port device --base vmlinux --kind struct", 0, GUARD, ""),
    ("header a.o --kind typedef", 0, GUARD, ""),
    ("header a.o --kind POINTER", 2, "", "error: invalid value 'POINTER' for '--kind <KIND>'\n"),
    ("header", 2, "", MISSING + "<FILE>\n"),
    ("layout a.o event", 0, "struct event {\n", ""),
    ("layout a.o node", 1, "", "btfobj: a.o: unknown BTF type `node`\n"),
    ("layout a.o", 2, "", MISSING + "<NAME>\n"),
    ("ext a.o", 0, "section '.text'\n\tfunction insn_off=0 ", ""),
    ("ext a.o a.o", 0, "\nFile: a.o\nsection '.text'\n\tfunction insn_off=0 ", ""),
    ("check a.o --kernel 5.4", 1, "DataSec: needed\n", ""),
    ("check a.o b.o --kernel 5.4", 1, "\nFile: a.o\nDataSec: needed\n", ""),
    ("check a.o --kernel 5.15.0-91-generic", 0, "DataSec: needed\n", ""),
    ("check a.o --kernel 6", 0, "DataSec: needed\n", ""),
    ("check a.o --kernel 4.17.3", 2, "", "error: the first version of Linux with BTF is 4.18\n"),
    ("check a.o --kernel new", 2, "", "error: the value of --kernel is no version "),
    ("check a.o", 2, "", MISSING + "<--kernel <VERSION>|--has <FEATURE>>\n"),
    ("check a.o --kernel 6.1 --target kernel.btf", 3, "DataSec: needed\n", ""),
    ("check a.o --target vmlinux", 2, "", MISSING + "<--kernel <VERSION>|--has <FEATURE>>\n"),
    ("check a.o --kernel 5.4 --has Func", 2, "", "error: the argument '--kernel <VERSION>' cannot be used with "),
    ("sanitize a.o -o 1.o --has Func,DataSec --fill-sized", 0, "", ""),
    ("sanitize a.o -o 2.o --kernel 6.0 --placeholder x", 1, "", "btfobj: a.o: unknown BTF type `x`\n"),
    ("sanitize a.o -o 3.o --kernel 6.0 --placeholder seen", 0, "", ""),
    ("sanitize a.o --kernel 6.0", 2, "", MISSING + "--output <OUT>\n"),
    ("sanitize a.o -o 5.o --kernel 5.1", 4, "", "btfobj: a.o: the new table has no DATASEC for the externs of the object,"),
    ("sanitize b.o -o 6.o --kernel 5.1", 0, "", "btfobj: b.o: the new table has no DATASEC, from which a loader "),
    ("sanitize a.o -o a.btf --kernel 4.18 --table-only", 0, "", ""),
    ("sanitize a.o b.o -o 4.o --kernel 6.0", 2, "", "error: unexpected argument 'b.o' found\n"),
    ("sanitize a.o -o 4.o --has Bpf", 2, "", "error: invalid value 'Bpf' for '--has <FEATURE>'\n"),
    # The table of the running kernel may be missing, and may have any types.
    ("relocate a.o", None, "section '.text'\n", "btfobj: /sys/kernel/btf/vmlinux: "),
    ("relocate a.o --target kernel.btf -o 5.o --fresh --keep-going", 3, "", ""),
    ("relocate a.o --target vmlinux --target m.btf --target n.btf", 3, "section '.text'\n", ""),
    ("relocate a.o --target vmlinux --allow-poison", 0, "section '.text'\n", ""),
    ("relocate a.o a.o --target vmlinux", 3, "\nFile: a.o\nsection '.text'\n", ""),
    # An error of one file goes before a poisoned instruction of another one.
    ("relocate a.o c.o --target vmlinux", 1, "\nFile: a.o\nsection '.text'\n", "btfobj: c.o: "),
    ("relocate c.o a.o --target vmlinux", 1, "\nFile: c.o\n\nFile: a.o\nsection '.text'\n", "btfobj: c.o: "),
    ("relocate a.o a.o --target vmlinux --json", 2, "", "error: -o and --json take one FILE\n"),
    ("relocate a.o a.o --target vmlinux -o 4.o", 2, "", "error: -o and --json take one FILE\n"),
    ("relocate a.o --target", 2, "", "error: a value is required for '--target <TABLE>' "),
    ("relocate a.o --kernel 5.4", 2, "", "error: unexpected argument '--kernel' found\n"),
    ("compat a.o b.o int event", 1, "int: compatible\nevent: not in the second file\n", ""),
    ("compat a.o b.o int", 0, "int: compatible\n", ""),
    ("compat a.o b.o", 2, "", MISSING + "<NAME>...\n"),
    ("copy", 2, "", "error: unrecognized subcommand 'copy'\n"),
    ("", 2, "", "Reads and rewrites the BTF of ELF objects, and BTF tables alone\n"),
    ("--help", 0, "Reads and rewrites the BTF of ELF objects, and BTF tables alone\n", ""),
    ("dump --help", 0, "Writes every type, ", ""),
    ("header --help", 0, "Writes the types as a C header, ", ""),
    ("layout --help", 0, "Writes the members of a structure or a union ", ""),
    ("ext --help", 0, "Writes the functions, lines and relocations of .BTF.ext, ", ""),
    ("check --help", 0, "Writes what the table needs of a kernel, ", ""),
    ("sanitize --help", 0, "Rewrites the table for a kernel, ", ""),
    ("relocate --help", 0, "Applies the CO-RE relocations of an object ", ""),
    ("compat --help", 0, "Says whether types of these names are compatible ", ""),
    ("--version", 0, "btfobj VERSION\n", ""),
)

# The objects of which malformed copies are made.
MALFORMED = ("clang14.bpfel.prog.o", "clang14.bpfeb.prog.o")

# A field in which all bits are set: the section whose header or bytes have it, or none for the file header; its offset
# and its number of bytes; and the beginning of the error.
FIELDS = (
    ("file", "", 0, 4, "neither an ELF object nor a BTF table"),
    ("file", "", 4, 1, "ELF class 255 is not supported"),
    ("file", "", 5, 1, "ELF data encoding 255 is not supported"),
    ("file", "", 6, 1, "this version of ELF is not supported"),
    ("file", "", 20, 4, "this version of ELF is not supported"),
    ("file", "", 40, 8, "the section header table is not in the file"),
    ("file", "", 52, 2, "the file header states a size of headers that is not 64"),
    ("file", "", 58, 2, "the file header states a size of headers that is not 64"),
    ("file", "", 60, 2, "the section header table is not in the file"),
    ("file", "", 62, 2, "section 1 has a name that is not in the string table"),
    ("section header", ".BTF", 0, 4, "section 12 has a name that is not in the string table"),
    ("section header", ".BTF", 24, 8, "section 12 is not in the file"),
    ("section header", ".BTF", 32, 8, "section 12 is not in the file"),
    ("section header", ".symtab", 40, 4, "the symbol table is malformed"),
    ("section header", ".symtab", 56, 8, "the symbol table is malformed"),
    ("section", ".symtab", 24, 4, "symbol 1 has a name that is not in the string table"),
    ("section", ".BTF", 4, 4, "error parsing BTF header"),
    ("section", ".BTF", 8, 4, "invalid BTF type info segment"),
    ("section", ".BTF", 16, 4, "error parsing BTF header"),
    ("section", ".BTF", 28, 4, "invalid BTF type kind `31`"),
    ("section", ".BTF.ext", 4, 4, "error parsing BTF header"),
    ("section", ".BTF.ext", 8, 4, "invalid BTF info"),
)
