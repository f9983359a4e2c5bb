#!/bin/sh
# aarch64.sh CRATE: compiles the module that tools/module.sh has kept for aarch64, by the toolchain's clang, into target/aarch64/libCRATE.a,
# and prints how much stack its calls take. It uses general registers alone and makes no unaligned access, as code at EL2 wants it. Nothing
# of this compilation is proved.
set -eu
crate=$1
cd "$(dirname "$0")/.."
bin=target/module/bin
out=target/aarch64
flags=$(cat tools/aarch64.flags)
# What the program has that links it.
needs="memcpy memset"
mkdir -p $out

# The module names a machine in these places alone.
sed -e '/^target /d' -e 's/ "target-cpu"="[^"]*"//' "target/module/$crate.ll" >"$out/$crate.ll"
$bin/clang $flags -O3 -Werror -Wno-override-module -fstack-usage -S -x ir "$out/$crate.ll" -o "$out/$crate.s"
$bin/clang $flags -Wno-unused-command-line-argument -c "$out/$crate.s" -o "$out/$crate.o"
rm -f "$out/lib$crate.a"
$bin/llvm-ar rcsD "$out/lib$crate.a" "$out/$crate.o"
# With that, nothing is undefined in it, and nothing in it is written.
$bin/ld.lld --no-warnings $(printf -- '--defsym=%s=0 ' $needs) --whole-archive "$out/lib$crate.a" -o /dev/null
if grep -nE '^[[:space:]]*\.(data|bss|comm|lcomm|local)|\.section[[:space:]]+"?\.(t?data|t?bss)' "$out/$crate.s"; then
    echo "lib$crate.a holds writable data"
    exit 1
fi
awk -v needs="$needs" -f tools/stack.awk "$out/$crate.su" "$out/$crate.s"
