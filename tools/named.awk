# Of each `name` on a page that a path stands behind, as in `a`, `b` (crates/CRATE) or (crates/CRATE/FOLDER/FILE), says if the file, or the
# crate's code, definitions and proofs, do not have it.

# all that stands in a file, or in a crate
function text_of(path, command, line) {
    if (path in text) return text[path]
    command = "cat " path " 2>/dev/null || find " path " -path '*/out' -prune -o -name '*.rt' -print -o -name '*.antt' -print | xargs cat"
    text[path] = "\n"
    while ((command | getline line) > 0) text[path] = text[path] line "\n"
    close(command)
    return text[path]
}

function look(names, path, count, part, i, name) {
    count = split(names, part, "`")
    for (i = 2; i <= count; i += 2) {
        name = part[i]
        sub(/^.*::/, "", name)
        if (name ~ /^[A-Za-z0-9_-]+$/ && text_of(path) !~ "[^A-Za-z0-9_-]" name "[^A-Za-z0-9_-]") {
            print FILENAME ": " FNR ": no " part[i] " in " path
            missed = 1
        }
    }
}

{
    rest = $0
    while (match(rest, /`[^`]+`((, | and )`[^`]+`)* \(crates\/[A-Za-z0-9_\/+.]*[A-Za-z0-9_]/)) {
        found = substr(rest, RSTART, RLENGTH)
        rest = substr(rest, RSTART + RLENGTH)
        path = found
        sub(/.* \(/, "", path)
        sub(/ \(crates.*/, "", found)
        look(found, path)
    }
}

END { exit missed }
