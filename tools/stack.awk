# Reads a disassembled program (objdump -d) and prints how many bytes of stack each exported call takes with all that it calls.
# Rattle's own functions have a path with :: for a name. What C's library takes for moving or clearing memory is not counted.

function from_hex(text,    i, value) {
    value = 0
    for (i = 1; i <= length(text); i++) value = 16 * value + index("0123456789abcdef", substr(text, i, 1)) - 1
    return value
}

# The number after the dollar sign, and the name in angle brackets.
function amount(line) { sub(/.*\$0x/, "", line); sub(/,.*/, "", line); return from_hex(line) }
function target(line) { sub(/.*</, "", line); sub(/>.*/, "", line); return line }

# A function's own frame with its return address, and the deepest of what it calls, or of what it keeps below its frame, as a function that calls nothing may.
function depth(name,    i, below, deepest, list, count) {
    deepest = under[name]
    count = split(calls[name], list, "\n")
    for (i = 2; i <= count; i++) {
        below = depth(list[i])
        if (deepest < below) deepest = below
    }
    return frame[name] + 8 + deepest
}

/^[0-9a-f]+ <.*>:$/ { name = target($0); frame[name] = 0; under[name] = 0; calls[name] = ""; next }
/\tpush / { frame[name] += 8 }
# A large frame is taken page by page, down to an end that is worked out in %r11; any other number there is none of the stack's.
/\tsub +\$0x[0-9a-f]+,%r11$/ && before ~ /\tmov +%rsp,%r11$/ { frame[name] += amount($0); looped = 1 }
/\tsub +\$0x[0-9a-f]+,%rsp$/ { if (looped) looped = 0; else frame[name] += amount($0) }
/-0x[0-9a-f]+\(%rsp[,)]/ { match($0, /-0x[0-9a-f]+\(%rsp/); reach = from_hex(substr($0, RSTART + 3, RLENGTH - 8)); if (under[name] < reach) under[name] = reach }
/\tcall .*<.*::[^+]*>$/ { calls[name] = calls[name] "\n" target($0) }
{ before = $0 }
END { for (name in frame) if (name ~ /^marnipode_/) printf "%-32s %6d\n", name, depth(name) }
