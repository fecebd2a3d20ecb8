# From `objdump -drw --no-show-raw-insn`: the bytes of stack that a call of each of the functions `names` takes at most, its return
# address among them, on one line. memcpy and memset count for their return address.
# A function's own are its pushes, and what it takes off the stack pointer: no less than the largest number that it adds again, as a
# prologue may subtract in a loop. Status 1 where the code has anything that this does not cover: another change of the stack
# pointer, an indirect call, recursion.

function hex(digits,    i, n) {
    for (i = 1; i <= length(digits); i++) n = 16 * n + index("123456789abcdef", substr(digits, i, 1))
    return n
}

function unknown(what) {
    print "stack.awk: " name ": " what >"/dev/stderr"
    bad = 1
}

/^[0-9a-f]+ <.*>:$/ {
    name = $2
    gsub(/^<|>:$/, "", name)
    own[name] = 8
    next
}

!/^ +[0-9a-f]+:\t/ { next }

{
    count = split($0, part, "\t")
    code = part[2]
    to = count > 3 ? part[count] : ""
    bare = code
    gsub(/\([^)]*\)/, "", bare)

    if (code ~ /^push /) own[name] += 8
    else if (code ~ /^(sub|add) +\$0x[0-9a-f]+,%rsp$/) {
        digits = code
        gsub(/^.*\$0x|,%rsp$/, "", digits)
        if (length(digits) > 6) unknown(code)
        else if (code ~ /^sub/) taken[name] += hex(digits)
        else if (added[name] < hex(digits)) added[name] = hex(digits)
    }
    else if (bare ~ /%(rsp|esp|sp|spl)/ && code !~ /^(cmp +|mov +%rsp,|add +%rsp,%r([abcd]x|[sd]i|bp|[0-9]+)$)/ || code ~ /^(leave|enter|push[^ ]|pop[^ ])/) unknown(code)

    if (code ~ /^(notrack |bnd )?call/ && to == "" || code ~ /call +\*/) unknown(code)
    if (code ~ /^(notrack |bnd )?(call|j)/ && to != "") {
        if (to !~ /-0x4$/) unknown(code " " to)
        sub(/-0x4$/, "", to)
        sub(/^\.text\./, "", to)
        calls[name] = calls[name] " " to
    }
}

function need(f, level,    to, count, i, n, deepest) {
    if (f == "memcpy" || f == "memset") return 8
    if (!(f in own) || level > 20) {
        name = f
        unknown(level > 20 ? "recursion" : "it is called and not here")
        return 0
    }
    count = split(calls[f], to, " ")
    for (i = 1; i <= count; i++)
        if (!(to[i] in seen)) seen[to[i]] = need(to[i], level + 1)
    for (i = 1; i <= count; i++)
        if (deepest < seen[to[i]]) deepest = seen[to[i]]
    n = taken[f] < added[f] ? added[f] : taken[f]
    return own[f] + n + deepest
}

END {
    count = split(names, each, " ")
    for (i = 1; i <= count; i++) line = line " " need(each[i], 0)
    print substr(line, 2)
    exit bad
}
