# Finds the blocks of the library in a program. The first file has the names of the library's
# functions, one on a line; the second is the program as `objdump -d --no-show-raw-insn` prints it.
# Prints the address of each block and its place in its function, in the order of the program.
#
# A block starts where a function starts, where a jump leads, and behind a jump. Filling behind a
# jump that is always taken is no block.

NR == FNR { library[$0] = 1; next }

/^[0-9a-f]+ <.*>:$/ {
    name = substr($0, index($0, "<") + 1)
    sub(/>:$/, "", name)
    inside = name in library
    behind = inside ? "start" : ""
    next
}

inside && /^ *[0-9a-f]+:\t/ {
    at = $1
    sub(/:$/, "", at)
    is_filling = $2 ~ /^(nop|data16|xchg|int3|cs)/
    if (behind == "start" || behind == "may" || (behind == "must" && !is_filling)) starts[at] = 1
    if (!(behind == "must" && is_filling)) behind = ""
    order[++count] = at
    owner[at] = name
    if ($2 ~ /^(jmp|ret)/) behind = "must"
    else if ($2 ~ /^j/) behind = "may"
    if ($2 ~ /^j/ && $3 ~ /^[0-9a-f]+$/) starts[$3] = 1
}

END {
    for (i = 1; i <= count; i++)
        if (order[i] in starts) print order[i], owner[order[i]] ":" order[i]
}
