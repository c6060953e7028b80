#!/bin/sh
# Makes the objects of this folder, and what other tools say of them. Run once, on Debian 12 for amd64, with clang 13.0.1,
# 14.0.6, 15.0.6, 16.0.6 and 19.1.7, gcc 12.2.0, gcc-bpf 12.2.0, pahole 1.24, bpftool 7.1.0, llvm-readelf
# 14.0.6, llvm-objdump 19.1.7 and libbpf 1.1.2 (libbpf-dev);
# `versions` has what each says of itself. Of llvm-readelf's lines the name, the offset and the size of each section that
# has a name are left.
set -eu
cd "$(dirname "$0")"
flags="-O2 -ffile-prefix-map=$PWD=."
for order in el eb; do
    clang-14 -g $flags -target bpf$order -c kinds.c -o clang14.bpf$order.kinds.o
    clang-14 -g $flags -target bpf$order -Wno-everything -c prog.c -o clang14.bpf$order.prog.o
    clang-19 -g $flags -target bpf$order -DENUM64 -c kinds.c -o clang19.bpf$order.kinds.o
    for version in 14 15 16 19; do
        matching=-DMATCHING
        [ $version = 14 ] && matching=
        clang-$version -g $flags -target bpf$order $matching -c reloc.c -o clang$version.bpf$order.reloc.o
    done
    for kernel in 1 2 3; do
        clang-14 -g -O2 -target bpf$order -DKERNEL=$kernel -c kernel.c -o kernel.o
        llvm-objcopy-14 --dump-section .BTF=kernel$kernel.$order.btf kernel.o
        rm kernel.o
    done
done
clang-13 -g $flags -target bpfel -c kinds.c -o clang13.bpfel.kinds.o
clang-15 -g $flags -target bpfel -DENUM64 -c kinds.c -o clang15.bpfel.kinds.o
clang-16 -g $flags -target bpfel -Wno-everything -DKCONFIG -c prog.c -o clang16.bpfel.kconfig.o
bpf-gcc -gbtf $flags -mlittle-endian -c kinds.c -o gcc12.bpfel.kinds.o
bpf-gcc -gbtf $flags -mbig-endian -c kinds.c -o gcc12.bpfeb.kinds.o
gcc -g $flags -gdwarf-4 -c kinds.c -o gcc12.x86_64.kinds.o
clang-14 -g $flags -gdwarf-4 -target x86_64-linux-gnu -c kinds.c -o clang14.x86_64.kinds.o
for object in gcc12.x86_64.kinds.o clang14.x86_64.kinds.o; do
    pahole -J "$object"
done
for object in *.o; do
    case $object in *.reloc.o)
        llvm-strip-14 --strip-debug --keep-section=.BTF --keep-section=.BTF.ext "$object"
        continue
    esac
    llvm-strip-14 --strip-debug --keep-section=.BTF --keep-section=.BTF.ext "$object"
    bpftool btf dump file "$object" format raw >"$object.bpftool" || rm "$object.bpftool"
    bpftool btf dump file "$object" format c >"$object.header" || rm "$object.header"
    llvm-readelf-14 --sections --wide "$object" | sed -n 's/^ *\[ *[0-9]*\] //p' |
        awk '$1 ~ /^[.a-z]/ { print $1, $4, $5 }' >"$object.readelf"
    for name in everything bits node number event task_struct; do
        pahole -F btf -C "$name" "$object" || true
    done >"$object.pahole" 2>/dev/null
done
# Of the header of an object, the declarations that one structure needs, and those that the unions need.
awk -v RS= -v ORS='\n\n' '/^#/ || / u(8|64);$/ || /^struct node/' clang14.bpfeb.kinds.o.header |
    sed '$d' >clang14.bpfeb.kinds.o.node
awk -v RS= -v ORS='\n\n' '/^#/ || / u(8|32);$/ || /^union number/' clang14.bpfeb.kinds.o.header |
    sed '$d' >clang14.bpfeb.kinds.o.union
# Of the header of an object, the declaration of the structure to which a parameter points.
awk -v RS= -v ORS='\n\n' '/^#/ || /^struct task_struct/' clang14.bpfel.prog.o.header |
    sed '$d' >clang14.bpfel.prog.o.check
# Tables that no compiler writes. names.btf.header is written by hand.
python3 hostile.py
for object in clang*.bpf*.o; do
    llvm-objdump-19 -d -l -r --no-show-raw-insn "$object" | awk -f lines.awk | LC_ALL=C sort >"$object.objdump"
done
# Programs in several sections, and kernels with several structures of one name, which are drawn.
python3 family.py 3
for programs in shared*.c; do
    object=clang14.bpfel.${programs%.c}.o
    clang-14 -g $flags -target bpfel -c "$programs" -o "$object"
    llvm-strip-14 --strip-debug --keep-section=.BTF --keep-section=.BTF.ext "$object"
done
for kernel in namesakes*.c; do
    clang-14 -g -O2 -target bpfel -c "$kernel" -o kernel.o
    llvm-objcopy-14 --dump-section .BTF="${kernel%.c}.el.btf" kernel.o
    rm kernel.o
done
rm shared*.c namesakes*.c
# Split tables over a base, and what other tools say of them.
gcc -g -c -fno-eliminate-unused-debug-types base.c -o base.o
pahole -J base.o
llvm-objcopy-14 --dump-section .BTF=base.btf base.o
for module in 1 2 3; do
    gcc -g -c -DMODULE=$module base.c -o module.o
    pahole -J --btf_base base.btf module.o
    llvm-objcopy-14 --dump-section .BTF=module$module.btf module.o
    bpftool -B base.btf btf dump file module$module.btf format raw >module$module.btf.bpftool
    bpftool -B base.btf btf dump file module$module.btf format c >module$module.btf.header
    for name in port cell device tcphdr; do
        pahole -F btf --btf_base base.btf -C $name module$module.btf || true
    done >module$module.btf.pahole 2>/dev/null
done
llvm-objcopy-14 --remove-section='.debug*' --add-section .BTF.base=module3.btf module.o distilled.x86_64.module.o
rm base.o module.o
python3 shifted.py
# An object that has to be linked with another one.
clang-14 -g $flags -target bpfel -c unlinked.c -o clang14.bpfel.unlinked.o
llvm-strip-14 --strip-debug --keep-section=.BTF --keep-section=.BTF.ext clang14.bpfel.unlinked.o
# What libbpf 1.1.2 does to an object, which has to be in the machine's byte order: here, and on s390x, which qemu-user
# emulates with the packages libbpf-dev:s390x, libelf-dev:s390x and zlib1g-dev:s390x in the folder of $S390X.
gcc -O1 core_log.c -Wl,--wrap=syscall -o core_log.el -l:libbpf.a -lelf -lz
s390x-linux-gnu-gcc -O1 core_log.c -Wl,--wrap=syscall -o core_log.eb -I"$S390X/usr/include" \
    -L"$S390X/usr/lib/s390x-linux-gnu" -L"$S390X/lib/s390x-linux-gnu" -l:libbpf.a -lelf -lz
export QEMU_LD_PREFIX=/usr/s390x-linux-gnu
export QEMU_SET_ENV=LD_LIBRARY_PATH=$S390X/usr/lib/s390x-linux-gnu:$S390X/lib/s390x-linux-gnu
for object in clang*.bpfe?.reloc.o clang*.bpfe?.prog.o clang*.bpfel.kconfig.o; do
    for kernel in 1 2 3; do
        case $object in
        *.bpfel.*) ./core_log.el "$object" kernel$kernel.el.btf ;;
        *) qemu-s390x ./core_log.eb "$object" kernel$kernel.eb.btf ;;
        esac | awk -f core_log.awk >"${object%.o}.kernel$kernel"
    done
done
for programs in 1 2 3 4 5 6 7 8 9 10 11 12; do
    for kernel in 1 2 3 4 5 6; do
        echo "== shared$programs namesakes$kernel"
        ./core_log.el clang14.bpfel.shared$programs.o namesakes$kernel.el.btf | awk -f core_log.awk
    done
done >namesakes.log
rm core_log.el core_log.eb
# What libbpf finds of the externs of an object when it opens it.
for object in clang14.bpfel.prog.o clang16.bpfel.kconfig.o; do
    python3 ../libbpf_open.py "$object" >"$object.externs"
done
# Hidden functions and variables, and their linkages in the table that libbpf gives to the kernel.
for order in el eb; do
    clang-14 -g $flags -target bpf$order -c hidden.c -o clang14.bpf$order.hidden.o
    llvm-strip-14 --strip-debug --keep-section=.BTF --keep-section=.BTF.ext clang14.bpf$order.hidden.o
done
gcc -O1 -rdynamic linkages.c -o linkages -ldl
./linkages clang14.bpfel.hidden.o >loaded.btf
bpftool btf dump file loaded.btf format raw |
    sed -n "s/^\[[0-9]*\] \(FUNC\|VAR\) '\(.*\)' .*linkage=/\1 \2 /p" >hidden.linkages
rm linkages loaded.btf
{
    for version in 13 14 15 16 19; do
        clang-$version --version | head -n 1
    done
    for tool in gcc bpf-gcc pahole bpftool llvm-readelf-14 llvm-objdump-19; do
        echo "$tool: $($tool --version | head -n 2 | tr '\n' ' ')"
    done
} >versions
