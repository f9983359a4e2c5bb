# Prints, for the files of definitions that are named, all files that their meaning rests on, with their lines: what a reader must believe.
# A type that is declared in code is named with its crate.

# crates/CRATE/specs/FILE.antt of an imported module, or the declared type; the library's own are not listed
function visit(module, parts, crate) {
    split(module, parts, ".")
    crate = parts[2]
    if (crate == "std") return
    if (parts[4] == "declared") declared[crate, parts[5]] = 1
    else file_of("crates/" crate "/specs/" parts[4] ".antt")
}

function file_of(file, line, words, count) {
    if (file in lines) return
    lines[file] = 0
    while ((getline line <file) > 0) {
        count++
        if (split(line, words, " ") > 1 && words[1] == "use" && words[2] ~ /^Rattle\./) pending[++last] = words[2]
    }
    close(file)
    if (!count) { print file " is not there" >"/dev/stderr"; exit 1 }
    lines[file] = count
}

BEGIN {
    for (i = 1; i < ARGC; i++) file_of(ARGV[i])
    for (next_one = 1; next_one <= last; next_one++) visit(pending[next_one])
    for (file in lines) { print lines[file] "\t" file | "sort -k2"; all += lines[file]; files++ }
    close("sort -k2")
    for (key in declared) { split(key, parts, SUBSEP); print "type\t" parts[1] "::" parts[2] | "sort"; types++ }
    close("sort")
    print files " files, " all " lines, and " types " declared types"
}
