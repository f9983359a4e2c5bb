# Prints the numbers that the C header names, as the Rattle files have them: each name in quotes, and its number.
# awk -f tools/numbers.awk crates/layout/src/lib.rt crates/update/src/lib.rt crates/p2m/src/lib.rt crates/annex/src/lib.rt

# A number, or a product of numbers and of constants before it.
/^ *(pub )?const [A-Z0-9_]+: (usize|u64) = / {
    name = $0
    sub(/^ *(pub )?const /, "", name)
    sub(/:.*/, "", name)
    text = $0
    sub(/.* = /, "", text)
    gsub(/Self::|Layout::| as usize|;.*/, "", text)
    count = split(text, factor, / \* /)
    value[name] = 1
    for (i = 1; i <= count; i++)
        value[name] *= factor[i] in value ? value[factor[i]] : factor[i]
    if (text !~ /^[A-Z0-9_]+( \* [A-Z0-9_]+)*$/ || text ~ /[0-9]_/)
        value[name] = "is not read: " text
}

/^            Span::[A-Z][a-z]+ => [0-9]+,$/ {
    sub(/,$/, "", $3)
    value[$1] = $3
}

END {
    names = "ARENA_LEN ARENA_LEN STEPS STEPS MAP_LEN ENTRIES TABLE_COUNT TABLES BASE Span::Base SUPER Span::Super"
    count = split(names " ANNEX_MAX LONGEST", of, " ")
    for (i = 1; i < count; i += 2)
        print "\"S2_" of[i] "\" " value[of[i + 1]]
}
