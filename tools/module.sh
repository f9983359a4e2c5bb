#!/bin/sh
# module.sh CRATE [NAME]: proves a static library and writes its archive, target/staticlib/libNAME.a, as 'rt lib' does, and keeps the module
# that rattle hands to the toolchain's clang: target/module/NAME.ll. NAME is CRATE where it is not given. What rt ci has proved below the
# crate is not proved again. The folder target/module/bin has the toolchain's programs.
set -eu
crate=$1 name=${2:-$1}
cd "$(dirname "$0")/.."
root=$PWD
out=$root/target/module
guide=$(rt doc)
home=$(cd "$(dirname "$guide")" && pwd -P)
mkdir -p "$out" target/staticlib
kit=$(mktemp -d)
trap 'rm -rf "$kit"' EXIT

# The toolchain once more, by links, with a clang that keeps the module.
mkdir "$kit/bin"
ln -s "$home"/toolchain/bin/* "$kit/bin"
ln -s "$home/toolchain/lib" "$kit/lib"
clang=$home/toolchain/bin/clang
rm "$kit/bin/clang"
printf '#!/bin/sh\ncp module.bc "%s"\nexec "%s" "$@"\n' "$out/$name.bc" "$clang" >"$kit/bin/clang"
chmod +x "$kit/bin/clang"

# What the crate lists, and all below it, of this repository or of the kit.
set -- --crate-name "$crate" src/lib.rt --extern "std=$home/rlibs/std.rlib"
for dep in $(awk -v crate="$crate" -v names=direct -f tools/needed.awk crates.txt); do
    made=$root/crates/$dep/out/rlib
    [ -d "crates/$dep" ] || made=$home/rlibs
    set -- "$@" --extern "$dep=$made/$dep.rlib"
done
set -- "$@" -L "dependency=$home/rlibs"
for dep in $(awk -v crate="$crate" -v names=below -f tools/needed.awk crates.txt); do
    set -- "$@" -L "dependency=$root/crates/$dep/out/rlib"
done
set -- "$@" --antt-project "$home/rattle/logic/antt-project.json" --logic-built "$home/logic_built" --links "$crate="
if ! tools/proved.sh "$crate"; then
    (cd "crates/$crate" && rt check)
    set -- "$@" --incremental out/incremental
fi
(cd "crates/$crate" && "$home/bin/rattle" build "$@" --jobs 2 --crate-type staticlib --toolchain "$kit" --backend llvm -o "$root/target/staticlib/lib$name.a")
"$clang" --no-default-config -x ir "$out/$name.bc" -S -emit-llvm -O0 -Xclang -disable-llvm-passes -o "$out/$name.ll"
rm -f "$out/bin"
ln -s "${clang%/clang}" "$out/bin"
