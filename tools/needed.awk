# needed.awk -v crate=NAME crates.txt: how many crates are proved for NAME, itself among them; without a name, for all.
# With -v names=direct, the libraries that NAME's line lists, with -v names=below, all crates below NAME, each after those that it uses.
{ sub(/#.*/, "") }
/:/ {
    name = $1
    sub(/:.*/, "", name)
    needs[name] = substr($0, index($0, ":") + 1)
}
# The kit's libraries have no line, and are proved already.
function visit(name,    list, count, i) {
    if (!(name in needs) || name in visited) return
    visited[name]
    count = split(needs[name], list, " ")
    for (i = 1; i <= count; i++) visit(list[i])
    order[++total] = name
}
END {
    if (crate) visit(crate)
    else for (name in needs) visit(name)
    if (names == "direct") {
        count = split(needs[crate], list, " ")
        for (i = 1; i <= count; i++) print list[i]
    }
    else if (names == "below")
        for (i = 1; i < total; i++) print order[i]
    else
        print total
}
