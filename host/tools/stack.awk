# The stack that each exported call takes at most, from the archive's own code: reads `objdump -dr --no-show-raw-insn`, prints NAME BYTES.
#
# A function's frame is its return address, all that it pushes and all that it takes off the stack pointer, as if nothing were given back. A call
# takes its frame and the most of those that it calls, memcpy and memset with their return address alone, and 128 bytes below the stack pointer, which
# code for x86-64 may use. Functions that call each other are those of the dry run: a decision runs an action or more and leads into a coast, and
# a coast that leads back into a decision has run one or more too; so of 64 actions there are 32 turns of each at most.
#
# What it does not know of the stack pointer it does not guess at: it says so, and ends with status 1.
BEGIN { TURNS = 32; BELOW = 128; failed = 0 }
function hex(digits,    k, n) {
    sub(/^0x/, "", digits)
    for (k = 1; k <= length(digits); k++) n = 16 * n + index("0123456789abcdef", substr(digits, k, 1)) - 1
    return n
}
function unknown() { print "stack.awk: " name ": not known: " $0 > "/dev/stderr"; failed = 1 }
function calls(callee) {
    sub(/^\.text\./, "", callee)
    sub(/[-+]0x[0-9a-f]+$/, "", callee)
    if ((name, callee) in edge) return
    edge[name, callee] = 1
    callees[name] = callees[name] " " callee
}

/^[0-9a-f]+ <.*>:$/ {
    name = $2
    gsub(/>:$|^</, "", name)
    names[++count] = name
    frame[name] = 8
    probe = 0
    last = ""
    next
}
# A relocation of a branch names a function; a jump there is as good as a call.
/R_X86_64_/ { if (last || /R_X86_64_PLT32/) calls($3); last = ""; next }
name == "" || $1 !~ /^[0-9a-f]+:$/ { next }
{
    word = $2
    last = ""
    operand = way = amount = $3
    sub(/.*,/, "", way)
    sub(/,.*/, "", amount)
}
word ~ /^push/ { frame[name] += 8; next }
word == "call" || word == "jmp" {
    if (operand ~ /^\*/) { if (word == "call") unknown(); next }
    last = word
    # A call of itself needs no relocation.
    if (word == "call" && $0 !~ /\+0x/) {
        target = $0
        gsub(/.*<|>.*/, "", target)
        calls(target)
    }
    next
}
# The stack is touched page by page on the way down: so far.
word == "mov" && operand == "%rsp,%r11" { probe = 1; next }
probe == 1 && word == "sub" && way == "%r11" { frame[name] += hex(substr(amount, 2)); probe = 2; next }
probe == 2 && word == "sub" && operand == "$0x1000,%rsp" { next }
probe == 2 && word == "cmp" { probe = 0; next }
way != "%rsp" || word ~ /^(cmp|test)/ { next }
word == "sub" && amount ~ /^\$0x/ { frame[name] += hex(substr(amount, 2)); next }
word == "add" && amount ~ /^\$0x[0-9a-f][0-9a-f]?[0-9a-f]?[0-9a-f]?[0-9a-f]?$/ { next }
{ unknown() }

# What a call of f takes; of functions that call each other, all of them by turns.
function cost(f,    k, g, n, list, most, c, sum) {
    if (f ~ /^(memcpy|memset)$/) return 8
    if (!(f in frame)) { print "stack.awk: no code of " f > "/dev/stderr"; failed = 1; return 0 }
    if (f in known) return known[f]
    most = 0
    if (reach[f, f]) {
        for (k = 1; k <= count; k++) {
            g = names[k]
            if (!reach[f, g] || !reach[g, f]) continue
            sum += frame[g]
            c = beyond(f, g)
            if (c > most) most = c
        }
        return known[f] = TURNS * sum + most
    }
    n = split(callees[f], list, " ")
    for (k = 1; k <= n; k++) {
        c = cost(list[k])
        if (c > most) most = c
    }
    return known[f] = frame[f] + most
}

# The most of what g calls and what does not lead back to f.
function beyond(f, g,    k, n, list, most, c) {
    n = split(callees[g], list, " ")
    for (k = 1; k <= n; k++) {
        if (reach[list[k], f]) continue
        c = cost(list[k])
        if (c > most) most = c
    }
    return most
}

# Whether a function leads to another, through any that is between.
function close_reach(    i, j, k, at) {
    for (at in edge) reach[at] = 1
    for (k = 1; k <= count; k++)
        for (i = 1; i <= count; i++) {
            if (!reach[names[i], names[k]]) continue
            for (j = 1; j <= count; j++) if (reach[names[k], names[j]]) reach[names[i], names[j]] = 1
        }
}
END {
    close_reach()
    for (i = 1; i <= count; i++) if (names[i] ~ /^nyokazerubi_/) {
        print names[i], cost(names[i]) + BELOW
        found = 1
        # The turns above are those of 64 actions; a body repeated may have a thousand times as many.
        if (names[i] ~ /^nyokazerubi_(plan_)?body/)
            for (k = 1; k <= count; k++) if (reach[names[i], names[k]] && reach[names[k], names[k]]) {
                print "stack.awk: " names[i] " leads to " names[k] ", which leads back to itself" > "/dev/stderr"
                failed = 1
            }
    }
    if (!found) { print "stack.awk: no exported call" > "/dev/stderr"; failed = 1 }
    exit failed
}
