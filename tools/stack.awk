# Prints how many bytes of stack the calls of a library take at most, and which takes them, by the frame of each function (clang's
# -fstack-usage) and who calls whom in its assembly. What has no such number fails: a frame of a size known only when it runs, a function
# without a frame's size, one that reaches itself, a call or jump by a pointer, an alias, and a call of what is neither the library's own nor
# named in `needs`, which the program has.
# awk -v needs="memcpy memset" -f tools/stack.awk CRATE.su CRATE.s

FILENAME ~ /\.su$/ {
    sub(/^[^:]*:/, "")
    split($0, part, "\t")
    frame[part[1]] = part[2]
    if (part[3] != "static")
        fail(part[1] " has a frame of no fixed size")
    next
}

# A function's label.
$1 ~ /:$/ && symbol($1) in frame { name = symbol($1) }

$1 == ".type" && /@function/ {
    sub(/,@function$/, "", $2)
    if (!(symbol($2) in frame))
        fail(symbol($2) " has no frame's size")
}

$1 == ".globl" || $1 == ".weak" { exported[symbol($2)] = 1 }

$1 == ".set" { fail(symbol($2) " is an alias") }

$1 ~ /^blr(a[ab]z?)?$/ { fail(name " calls by a pointer") }

# A jump by a pointer goes through a jump table, whose address was taken before it.
$1 == "adrp" && $3 ~ /^\.LJTI/ { tables[name]++ }

($1 ~ /^br(a[ab]z?)?$/ && tables[name]-- < 1) || ($1 == "ret" && $2 ~ /^x/) { fail(name " jumps by a pointer") }

# A call, or a jump to another function in the place of a return.
$1 ~ /^(bl?|b\.[a-z]+|cbn?z|tbn?z)$/ {
    target = $0
    sub(/[ \t]*\/\/.*/, "", target)
    sub(/.*[ \t]/, "", target)
    if (target !~ /^\.L/)
        calls[name] = calls[name] " " symbol(target)
}

END {
    for (name in exported)
        if ((bytes = deepest(name, " ")) > most || by == "" || (bytes == most && name < by)) {
            most = bytes
            by = name
        }
    if (!failed)
        print "at most " most " bytes of stack, by " by
    exit (failed > 0)
}

# Of a function, behind those that have called it.
function deepest(name, callers, list, count, i, bytes, below) {
    if (!(name in frame)) {
        if (!index(" " needs " ", " " name " "))
            fail(name " is called and is not in the library")
        return 0
    }
    if (index(callers, " " name " ")) {
        fail(name " reaches itself")
        return 0
    }
    count = split(calls[name], list, " ")
    for (i = 1; i <= count; i++)
        if ((bytes = deepest(list[i], callers name " ")) > below)
            below = bytes
    return frame[name] + below
}

# A name without quotes, and without colon or comma.
function symbol(text) {
    gsub(/^"|"?[:,]?$/, "", text)
    return text
}

function fail(why) {
    if (!failed++)
        print "stack: " why
}
