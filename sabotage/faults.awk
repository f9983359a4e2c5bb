# Seeds a fault in every comparison, every operation and every stored constant of an LLVM module, each behind a number: the library has the
# fault whose number the variable `fault` holds. Writes the module, and to the file `list` a line for each fault: its number, the function, which one
# of the function's faults it is, and the change. The numbers go on from `before`.

function seed(change) {
    number = ++before
    print number "\t" place "\t" ++of_place "\t" change >list
}

# RESULT is the other value where the fault is the one that is had, else the usual value.
function choose(result, type, usual, other) {
    print "  %fault." number ".had = load i64, ptr @fault, align 8"
    print "  %fault." number ".on = icmp eq i64 %fault." number ".had, " number
    print "  " result " = select i1 %fault." number ".on, " type " " other ", " type " " usual
}

# The same, where the other value is what another operation makes of the operands.
function alter(result, type, usual, operation, operands) {
    seed($3 ($3 == "icmp" ? " " $4 : "") " to " operation)
    print "  %fault." number ".other = " operation " " operands
    choose(result, type, usual, "%fault." number ".other")
}

function pairs(of, text, word, i) {
    split(text, word, " ")
    for (i = 1; i in word; i += 2) of[word[i]] = word[i + 1]
}

BEGIN {
    pairs(near, "eq ne ne eq ult ule ule ult")
    pairs(opposite, "ult uge ule ugt")
    pairs(instead, "add sub sub add mul add udiv mul urem udiv xor or")
}

/^define/ {
    place = $0
    sub(/^[^@]*@"?/, "", place)
    sub(/"?\(.*/, "", place)
    of_place = 0
}

# RESULT = icmp PREDICATE TYPE A, B
$2 == "=" && $3 == "icmp" {
    operands = substr($0, index($0, " " $4 " ") + length($4) + 2)
    print "  " $1 ".usual = icmp " $4 " " operands
    both = $4 in opposite
    alter(both ? $1 ".near" : $1, "i1", $1 ".usual", "icmp " near[$4], operands)
    if (both) alter($1, "i1", $1 ".near", "icmp " opposite[$4], operands)
    next
}

# RESULT = OPERATION TYPE A, B, with or without what may be assumed of its result
$2 == "=" && $3 in instead {
    usual = $0
    sub(/ = /, ".usual = ", usual)
    print usual
    operands = $0
    sub(/^.* = [a-z]+ (nuw )?(nsw )?/, "", operands)
    type = operands
    sub(/ .*/, "", type)
    alter($1, type, $1 ".usual", instead[$3], operands)
    next
}

# store TYPE CONSTANT, ptr PLACE
$1 == "store" && $3 ~ /^-?[0-9]+,$/ {
    constant = $3
    sub(/,$/, "", constant)
    seed("store " constant ", its lowest bit changed")
    print "  %fault." number ".other = xor " $2 " " constant ", 1"
    choose("%fault." number ".stored", $2, constant, "%fault." number ".other")
    $3 = "%fault." number ".stored,"
    print "  " $0
    next
}

{ print }

END { print "@fault = external global i64" }
