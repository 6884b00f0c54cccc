# The blocks of the archive's code in a program: reads the names of the archive's functions, then the program's
# disassembly (objdump -d --no-show-raw-insn). Writes for each block its distance from latchpebble_round_page_up, and 1
# where a function begins, 0 elsewhere. A block begins where a function does, where a jump leads, and after a jump or a
# return (there a table of jumps leads, where nothing else does).
function value(digits,    n, i) {
    n = 0
    for (i = 1; i <= length(digits); i++) n = 16 * n + index("0123456789abcdef", substr(digits, i, 1)) - 1
    return n
}
NR == FNR { own[$1]; next }
/^[0-9a-f]+ <.*>:$/ {
    name = $2
    sub(/^</, "", name)
    sub(/>:$/, "", name)
    inside = begins = name in own
    after = padding = 0
    if (name == "latchpebble_round_page_up") base = value($1)
    next
}
inside && /^ +[0-9a-f]+:\t/ {
    place = value(substr($1, 1, length($1) - 1))
    code = $2
    if ((after == "end" || padding) && code ~ /^(nop|nopw|nopl|data16|int3|xchg|cs)$/) { padding = 1; next }
    padding = 0
    known[place]
    if (begins) block[place] = 1
    else if (after) block[place] += 0
    begins = 0
    after = ""
    if (code ~ /^(notrack|bnd)$/) code = $3
    if (code ~ /^j/) {
        after = code ~ /^jmp/ ? "end" : "branch"
        if ($3 ~ /^[0-9a-f]+$/) block[value($3)] += 0
    }
    if (code ~ /^ret/) after = "end"
}
END { for (place in block) if (place in known) print place - base, block[place] }
