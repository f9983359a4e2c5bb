# Draws an annex page as a memory map: the page on standard input, an SVG picture on standard output. Input that is no page is refused with a
# sentence, and nothing is drawn. The picture is made of the page's bytes alone.
#     target/bin/s2annex <scenes/S.txt | awk -f tools/annex_map.awk >map.svg

BEGIN {
    runs = read_page()
    draw()
}

function refuse(what) {
    print "annex_map: no annex page: " what >"/dev/stderr"
    exit 1
}

# Reads standard input, and tells how many runs it lists. By od: awk itself would not tell how the last line ends.
function read_page(equals, i, line, count, ended) {
    equals = "======================================="
    for (i = 32; i < 127; i++) character[i] = sprintf("%c", i)
    while (("od -An -v -tu1" | getline) > 0)
        for (i = 1; i <= NF; i++) {
            if (ended) refuse("it goes on after 39 equals signs")
            if ($i in character) line = line character[$i]
            else if ($i != 10) refuse("line " count + 1 " has a byte that no page has")
            else if (line == equals) ended = 1
            else {
                read_run(++count, line)
                line = ""
            }
        }
    if (!ended) refuse("its last line is not 39 equals signs and a line feed")
    return count + 0
}

function read_run(i, line) {
    if (length(line) != 39) refuse("line " i " has " length(line) " bytes before its line feed, not 39")
    if (substr(line, 11, 1) substr(line, 22, 1) substr(line, 35, 1) substr(line, 38, 1) != "    ")
        refuse("line " i " does not have one space between its fields")
    first[i] = number(i, substr(line, 1, 10))
    last[i] = number(i, substr(line, 12, 10))
    output[i] = number(i, substr(line, 23, 12))
    access[i] = substr(line, 36)
    bytes[i] = last[i] + 1 - first[i]
    if (access[i] !~ /^R[OW] [X-]$/) refuse("line " i " does not end with RO or RW, and X or -")
    if (bytes[i] < 1) refuse("line " i " ends before it begins")
    if (first[i] % 4096 || bytes[i] % 4096 || output[i] % 4096) refuse("line " i " is not of whole pages of 4 KiB")
    if (last[i] >= 549755813888) refuse("line " i " has an address from 2^39 on")
    if (output[i] + bytes[i] > 281474976710656) refuse("line " i " has an output from 2^48 on")
    if (i > 1 && first[i] <= last[i - 1]) refuse("line " i " does not begin behind the line before it")
    if (i > 1 && !gap_before(i) && output[i] == output[i - 1] + bytes[i - 1] && access[i] == access[i - 1])
        refuse("line " i " and the line before it are one run")
}

# What upper-case hexadecimal digits say: up to 48 bits are exact in awk.
function number(i, digits, at, digit, total) {
    for (at = 1; at <= length(digits); at++) {
        digit = index("0123456789ABCDEF", substr(digits, at, 1))
        if (!digit) refuse("line " i " has a digit that is not upper-case hexadecimal")
        total = total * 16 + digit - 1
    }
    return total
}

# The addresses between a run and the one before it.
function gap_before(i) {
    return i > 1 ? first[i] - last[i - 1] - 1 : 0
}

# A box for each run, from the lowest address down. Many are drawn smaller: programs that draw stop at 32,767 points, and the longest page
# has a picture of some 31,600.
function draw(i, y, all, foot) {
    font = runs > 48 ? 11 : 13
    least_height = runs > 48 ? 26 : 38
    doubling_height = runs > 48 ? 1 : 4
    gap_height = runs > 48 ? 18 : 28
    left = 240
    right = 520
    middle = (left + right) / 2
    y = 146
    for (i = 1; i <= runs; i++) {
        if (gap_before(i)) y += gap_height
        top[i] = y
        y += height_of(bytes[i])
        all += bytes[i]
    }
    name_kinds()
    open_picture(760, y + 44)
    draw_heading(all)
    for (i = 1; i <= runs; i++) {
        if (gap_before(i)) draw_gap(top[i] - gap_height, gap_before(i))
        draw_run(i, top[i], height_of(bytes[i]))
    }
    foot = runs ? "Heights and gaps are not to scale. The page lists no other address." : "The page lists no address."
    label(middle, y + 26, 12, "middle", foot)
    print "</svg>"
}

# A box grows with each doubling of 4 KiB.
function height_of(bytes, height) {
    for (height = least_height; bytes > 4096; bytes /= 2) height += doubling_height
    return height
}

# What each access means, and its fill. The fills differ in lightness too, and what is executable is hatched.
function name_kinds() {
    split("RO -,RO X,RW -,RW X", kind, ",")
    meaning["RO -"] = "read"
    meaning["RO X"] = "read, execute"
    meaning["RW -"] = "read, write"
    meaning["RW X"] = "read, write, execute"
    fill["RO -"] = "#E3EEF8"
    fill["RO X"] = "#A9D6A0"
    fill["RW -"] = "#E08A3C"
    fill["RW X"] = "#A63A50"
    ink["RO -"] = ink["RO X"] = ink["RW -"] = "#000000"
    ink["RW X"] = "#FFFFFF"
}

function open_picture(width, height) {
    printf "<svg xmlns=\"http://www.w3.org/2000/svg\" width=\"%d\" height=\"%d\" viewBox=\"0 0 %d %d\"", width, height, width, height
    print " role=\"img\" font-family=\"sans-serif\">"
    print "<title>Memory map of an annex page</title>"
    print "<desc>Drawn by tools/annex_map.awk from the bytes of the page.</desc>"
    print "<defs><pattern id=\"hatched\" width=\"6\" height=\"6\" patternUnits=\"userSpaceOnUse\" patternTransform=\"rotate(45)\">"
    print "<rect width=\"6\" height=\"6\" fill=\"#FFFFFF\"/><rect width=\"3\" height=\"6\" fill=\"#222222\"/></pattern></defs>"
    printf "<rect width=\"%d\" height=\"%d\" fill=\"#FFFFFF\"/>\n", width, height
}

function draw_heading(all, bold, i, x) {
    bold = " font-weight=\"bold\""
    label(24, 34, 18, "start", "Memory map of an annex page", bold)
    label(24, 58, 13, "start", runs " " (runs == 1 ? "run" : "runs") " of addresses" (runs ? ", " in_units(all) " in all" : ""))
    split("24 158 344 516", x, " ")
    for (i = 1; i <= 4; i++) {
        draw_box(x[i], 76, 40, 18, kind[i])
        label(x[i] + 46, 89, 12, "start", meaning[kind[i]] " (" kind[i] ")")
    }
    if (!runs) return
    label(left - 12, 130, 13, "end", "address of the guest", bold)
    label(middle, 130, 13, "middle", "size and access", bold)
    label(right + 12, 130, 13, "start", "output address", bold)
}

function draw_run(i, y, height) {
    printf "<path d=\"M%d %dh600m0 %dh-600\" stroke=\"#CCCCCC\"/>\n", middle - 300, y, height
    draw_box(left, y, right - left, height, access[i])
    label(middle, y + height / 2 + 5, font, "middle", in_units(bytes[i]) ", " access[i], " font-weight=\"bold\" fill=\"" ink[access[i]] "\"")
    draw_ends(left - 12, y, height, "end", hexadecimal(first[i], 10), hexadecimal(last[i], 10))
    draw_ends(right + 12, y, height, "start", hexadecimal(output[i], 12), hexadecimal(output[i] + bytes[i] - 1, 12))
}

# The addresses of a run's first and last byte, beside the top and the bottom of its box.
function draw_ends(x, y, height, anchor, upper, lower, monospace, margin) {
    monospace = " font-family=\"monospace\""
    margin = least_height / 2 - font
    label(x, y + margin + 0.8 * font, font, anchor, upper, monospace)
    label(x, y + height - margin - 0.2 * font, font, anchor, lower, monospace)
}

function draw_gap(y, bytes) {
    printf "<path d=\"M%d %dv%dm%d 0v%d\" stroke=\"#777777\" stroke-dasharray=\"2 3\"/>\n", left, y, gap_height, right - left, -gap_height
    label(middle, y + gap_height / 2 + 4, font - 1, "middle", "gap of " in_units(bytes), " fill=\"#555555\"")
}

function draw_box(x, y, width, height, kind) {
    printf "<rect x=\"%d\" y=\"%d\" width=\"%d\" height=\"%d\" fill=\"%s\" stroke=\"#333333\"/>\n", x, y, width, height, fill[kind]
    if (kind ~ /X$/)
        printf "<rect x=\"%d\" y=\"%d\" width=\"%d\" height=\"%d\" fill=\"url(#hatched)\" stroke=\"#333333\"/>\n", x, y, 14, height
}

function label(x, y, size, anchor, text, attributes) {
    gsub(/&/, "\\&amp;", text)
    gsub(/</, "\\&lt;", text)
    gsub(/>/, "\\&gt;", text)
    printf "<text x=\"%d\" y=\"%d\" font-size=\"%d\" text-anchor=\"%s\"%s>%s</text>\n", x, y, size, anchor, attributes, text
}

# Bytes as GiB, MiB and KiB: exact, since they are whole pages.
function in_units(bytes, name, unit, i, count, text) {
    split("GiB MiB KiB", name, " ")
    unit = 1024 * 1024 * 1024
    for (i = 1; i <= 3; i++) {
        count = int(bytes / unit)
        bytes -= count * unit
        unit /= 1024
        if (count) text = text (text ? " " : "") count " " name[i]
    }
    return text
}

function hexadecimal(n, places, digit, text) {
    for (; places > 0; places--) {
        digit = n % 16
        text = substr("0123456789ABCDEF", digit + 1, 1) text
        n = (n - digit) / 16
    }
    return text
}
