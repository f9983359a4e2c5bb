#!/bin/sh
# proved.sh: prints a sum of the crates' files, and of the libraries and programs that stand in their folders out/. target/ci.sum keeps it as
# it is behind rt ci.
# proved.sh CRATE: whether rt ci has proved these very files, and has left the libraries below CRATE, or the program that CRATE is, as they
# stand: so that nothing below CRATE need be proved again.
set -eu
cd "$(dirname "$0")/.."
sums() {
    {
        rt version
        cat crates.txt
        find crates -path '*/out' -prune -o -type f -name '*.rt' -print -o -type f -name '*.antt' -print | LC_ALL=C sort | xargs sha256sum
        # A library's format holds the sums of its files.
        for folder in crates/*/out; do
            name=$(basename "${folder%/out}")
            cat "$folder/rlib/$name.rlib/format" "$folder/$name" 2>/dev/null || true
        done
    } | sha256sum
}
if [ $# = 0 ]; then
    sums
    exit
fi
[ -e target/ci.sum ] && [ "$(sums)" = "$(cat target/ci.sum)" ] || exit 1
[ ! -e "crates/$1/src/main.rt" ] || [ -x "crates/$1/out/$1" ] || exit 1
# rt ci marks no library with a stamp; one that rt check made is put back behind it, whatever it was made of.
for name in $(awk -v crate="$1" -v names=below -f tools/needed.awk crates.txt); do
    [ -e "crates/$name/out/rlib/$name.rlib/format" ] && [ ! -e "crates/$name/out/rlib/stamp" ] || exit 1
done
