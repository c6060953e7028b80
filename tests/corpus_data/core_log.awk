# The lines of libbpf's debug log on relocations, as `btfobj relocate` writes them.
function end_line() {
    if (line != "")
        print line
    line = ""
}
# libbpf: sec 'xdp': found program 'first' at insn offset 0 (0 bytes), code size 9 insns (72 bytes)
/: found program / {
    prog = $6
    gsub(/'/, "", prog)
    section[prog] = $3
    sub(/:$/, "", section[prog])
    begin[prog] = $10
}
/relo #[0-9]+:/ {
    prog = $3
    gsub(/[':]/, "", prog)
    text = $0
    sub(/^.*relo #[0-9]+: /, "", text)
    if (text ~ /^</) {
        end_line()
        if (section[prog] != last)
            print "section " section[prog]
        last = section[prog]
        spec = text
        sub(/</, "", spec)
        sub(/>/, "", spec)
        found = spec ~ /^local_type_id/ ? "" : " -> no match"
    } else if (text ~ /^matching candidate/ && found == " -> no match") {
        sub(/^matching candidate #[0-9]+ <[a-z0-9_]+> /, "", text)
        match(text, /^\[[0-9]+\] [a-z0-9_]+ [A-Za-z0-9_<>]+/)
        found = " -> " substr(text, 1, RLENGTH)
    } else if (text ~ /mem_sz/) {
        sub(/^.* mem_sz /, "", text)
        line = line ", size " text
    } else if (text ~ /^patched insn/ || text ~ /^substituting insn/) {
        insn = text
        sub(/^[^#]*#/, "", insn)
        sub(/ .*/, "", insn)
        insn += begin[prog]
        result = "poisoned"
        if (text ~ /^patched/) {
            result = text
            sub(/^.* (off|imm|imm64) /, "patched ", result)
        }
        line = "\tinsn #" insn ": " spec found ": " result
    }
}
# libbpf refuses the object at the record after the last one that it patched.
/^not loaded$/ {
    end_line()
    line = "refused"
}
END { end_line() }
