# Prints the C prototype of each exported function of the Rattle files, one to a line, as a C preprocessor leaves it, and each struct
# that they may lend, with commas in the place of semicolons. A layout is lent as its numbers: the struct's fields stand in the order of
# the places that `layout_of` reads them at.
# awk -f tools/prototypes.awk crates/layout/src/lib.rt crates/layout_numbers/src/lib.rt crates/edge/src/lib.rt crates/s2/src/lib.rt

/^    pub const [A-Z_]+: (usize|u64) = (0x)?[0-9A-F]+;/ {
    sub(/:/, "", $3)
    sub(/;/, "", $6)
    constant_of["Layout::" $3] = value($6)
}

# The sum of a constant before it and a number.
/^    pub const [A-Z_]+: usize = Self::[A-Z_]+ as usize \+ [0-9]+;/ {
    sub(/:/, "", $3)
    sub(/Self/, "Layout", $6)
    constant_of["Layout::" $3] = constant_of[$6] + $10
}

/^pub fn layout_of\(x: &\[u64; Layout::NUMBERS\]\)/ { numbered = 1 }

# The numbers in their order, by the names that they are taken apart under.
numbered && /^        [a-z0-9_]+,$/ && !laid {
    sub(/,/, "", $1)
    place[$1] = count++
}

numbered && /^    Layout \{/ { laid = 1 }

# The image's presence and address.
numbered && laid && /image_of\([a-z]+, [a-z]+\),/ {
    sub(/.*\(/, "")
    sub(/\),/, "")
    split($0, of, ", ")
    field[place[of[1]]] = "has_image"
    field[place[of[2]]] = "guest_image_pa"
    next
}

numbered && laid && /^        [a-z0-9_]+(: [a-z]+ .*)?,$/ {
    sub(/[:,]+$/, "", $1)
    field[place[NF > 1 ? $2 : $1]] = $1
}

numbered && /^}/ {
    text = record("Layout") " {"
    for (at = 0; at < constant_of["Layout::NUMBERS"]; at++)
        text = text " " number("u64") " " field[at] ","
    print text " }"
    numbered = 0
}

/^#\[repr\(C\)\]/ { lent = 1 }

lent && /^pub struct/ { text = record($3) " {" }

lent && /^    pub / {
    sub(/:/, "", $2)
    sub(/,/, "", $3)
    text = text " " number($3) " " $2 ","
}

lent && /^}/ {
    print text " }"
    lent = 0
}

/^pub extern "C" fn/ { text = ""; exported = 1 }

exported {
    text = text $0
    if (/\) -> /) {
        print prototype(text)
        exported = 0
    }
}

function prototype(text, name, result, parameters, count, part, i, line) {
    match(text, /fn [a-z0-9_]+/)
    name = substr(text, RSTART + 3, RLENGTH - 3)
    match(text, /\) -> .*/)
    result = substr(text, RSTART + 5)
    parameters = substr(text, index(text, "(") + 1)
    sub(/\) -> .*/, "", parameters)
    # A type holds no comma, so that one ends a parameter.
    count = split(parameters, part, /, */)
    line = number(result) " " name "("
    for (i = 1; i <= count; i++)
        if (part[i] ~ /:/)
            line = line (i > 1 ? ", " : "") parameter(part[i])
    return line ")"
}

function parameter(text, pair, name, type, constant, length_of) {
    gsub(/^ +/, "", text)
    split(text, pair, /: /)
    name = pair[1]
    type = pair[2]
    if (type !~ /^&/)
        return number(type) " " name
    constant = type ~ /^&mut / ? "" : "const "
    sub(/^&(mut )?\[/, "", type)
    sub(/\]$/, "", type)
    # A slice of rows or structs: their count has the name of one of them.
    length_of = name
    sub(/s$/, "_count", length_of)
    if (type ~ /^\[/) {
        gsub(/[\[\]]/, "", type)
        split(type, pair, /; /)
        return constant number(pair[1]) " (*" name ")[" pair[2] "], size_t " length_of
    }
    if (type ~ /^[A-Z]/)
        return constant record(type) " *" name ", size_t " length_of
    if (type == "u64; Layout::NUMBERS")
        return constant record("Layout") " *" name
    if (type ~ /;/) {
        split(type, pair, /; /)
        return constant number(pair[1]) " " name "[" count_of(pair[2]) "]"
    }
    return constant number(type) " *" name ", size_t " name "_len"
}

# Of a number, hexadecimal after 0x.
function value(text, total, i) {
    if (text !~ /^0x/)
        return text + 0
    for (i = 3; i <= length(text); i++)
        total = total * 16 + index("123456789ABCDEF", substr(text, i, 1))
    return total
}

# A count, or the one that a name stands for.
function count_of(text) {
    return text in constant_of ? constant_of[text] : text
}

function number(type) {
    gsub(/[ {]/, "", type)
    if (type == "bool")
        return "_Bool"
    return type ~ /^u/ ? "uint" substr(type, 2) "_t" : "unknown " type
}

function record(type) {
    return "struct s2_" tolower(type)
}
