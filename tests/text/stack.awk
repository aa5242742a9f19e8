# Of objdump -dr --no-show-raw-insn: the bytes of stack of each window call, a line each; exit status 1 if one cannot be told.
# A function takes its return address, what it pushes and reserves, and then the most of what its callees take and what it uses below the
# stack's end, where one that calls nothing may write.
function number(hex,    n, i) {
    for (i = 1; i <= length(hex); i++) n = n * 16 + index("0123456789abcdef", substr(hex, i, 1)) - 1
    return n
}
function depth(f,    callees, n, i, d, deepest) {
    if (!(f in own)) { complain(f " is not in the library"); return 0 }
    if (f in under) { complain(f " calls itself"); return 0 }
    if (f in unclear) complain(f " " unclear[f])
    under[f]
    deepest = below[f]
    n = split(calls[f], callees, "\n")
    for (i = 2; i <= n; i++) {
        d = depth(callees[i])
        if (d > deepest) deepest = d
    }
    delete under[f]
    return own[f] + deepest
}
function complain(why) { print why; bad = 1 }
# The stack's end moves by a number: 128 bytes are reserved as -128 are added.
function moved(operand, sign,    hex) {
    hex = substr(operand, 4, length(operand) - 8)
    if (operand !~ /^\$0x[0-9a-f]+,%rsp$/) unclear[f] = "reserves what is not told"
    else if (hex ~ /^ffffffff/ && sign < 0) own[f] += 4294967296 - number(substr(hex, 9))
    else if (hex !~ /^ffffffff/ && sign > 0) own[f] += number(hex)
}

called && !/R_X86_64_/ { unclear[f] = "calls what is not told"; called = 0 }
/^[0-9a-f]+ <.*>:$/ { f = substr($0, index($0, "<") + 1); sub(/>:$/, "", f); own[f] = 8; below[f] = 0; calls[f] = ""; next }
$2 == "R_X86_64_PLT32" { callee = $0; sub(/.*R_X86_64_PLT32[ \t]+(\.text\.)?/, "", callee); sub(/-0x4$/, "", callee); calls[f] = calls[f] "\n" callee; called = 0 }
$2 ~ /^R_X86_64_/ { next }
match($0, /-0x[0-9a-f]+\(%rsp/) {
    n = number(substr($0, RSTART + 3, RLENGTH - 8))
    if (n > below[f]) below[f] = n
}
$2 == "call" { called = 1 }
$2 == "push" { own[f] += 8 }
$2 == "sub" && /,%rsp$/ { moved($3, 1) }
$2 == "add" && /,%rsp$/ { moved($3, -1) }
$2 ~ /^(and|lea|mov|enter|leave)$/ && /(,%rsp|leave|enter)$/ { unclear[f] = "moves its stack's end" }
END {
    for (f in own) if (f ~ /^resource_manager_window_/) { found++; print f, depth(f) }
    if (found != 5) complain(found + 0 " calls of the dictionary window")
    exit bad
}
