#!/bin/sh
# Builds target/arm/judge.elf: the program at EL2, by the toolchain's clang and ld.lld, with the archive that board code links and that of the
# manual's translation as it is defined (tools/aarch64.sh). Nothing of this compilation is proved.
set -eu
cd "$(dirname "$0")/.."
out=target/arm
rm -rf $out
mkdir -p $out
bin=target/module/bin

arm=$(cat tools/aarch64.flags)
# What the second archive exports, as its source declares it.
{
    printf '#include <stddef.h>\n#include <stdint.h>\n'
    awk -f tools/prototypes.awk crates/layout/src/lib.rt crates/judge_translation/src/lib.rt | grep '(' | sed 's/$/;/'
} >$out/judge_translation.h
headers=$(${CC:-cc} -print-file-name=include)
for source in arm/*.c; do
    $bin/clang $arm -O2 -std=c11 -Wall -Wextra -Werror -fno-builtin -isystem "$headers" -Iinclude -I$out -c "$source" \
        -o "$out/$(basename "$source" .c).o"
done
$bin/clang $arm -c arm/start.S -o $out/start.o
$bin/ld.lld --gc-sections -T arm/link.ld $out/*.o target/aarch64/libs2.a target/aarch64/libjudge_translation.a -o $out/judge.elf

# The same calls by the archive of the machine that builds.
${CC:-cc} -std=c11 -O2 -Wall -Wextra -Werror -Iinclude -Iarm arm/here/here.c arm/words.c arm/scene.c arm/random.c \
    target/staticlib/libs2.a -o $out/here
