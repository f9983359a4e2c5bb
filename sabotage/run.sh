#!/bin/sh
# Seeds every fault in the compiled libraries, one at a time, and lets the comparison look for it. Those that it misses must be the ones that
# sabotage/missed.txt lists, each with its reason.
set -eu
cd "$(dirname "$0")/.."
out=target/sabotage
bin=target/module/bin
rm -rf $out
mkdir -p $out
${CC:-cc} -O2 -Wall -Wextra -Werror -c sabotage/fault.c -o $out/fault.o
: >$out/list
for crate in s2 probe; do
    awk -v list=$out/$crate.list -v before="$(wc -l <$out/list)" -f sabotage/faults.awk target/module/$crate.ll >$out/$crate.ll
    cat $out/$crate.list >>$out/list
    $bin/clang --no-default-config -O2 -fPIC -c -x ir $out/$crate.ll -o $out/$crate.o
    $bin/llvm-ar rcs $out/lib$crate.a $out/$crate.o $out/fault.o
done
cp target/staticlib/libprobe_windows.a $out
PROBE_DIR=$out CARGO_TARGET_DIR=$out/oracle cargo build --quiet --release --offline --manifest-path oracle/Cargo.toml -p judge

# With no fault there is no difference.
sabotage/ask.sh 0 | grep -q missed
cut -f 1 $out/list | xargs -P 2 -n 1 sabotage/ask.sh >$out/answers

# A fault that is missed, and one that is listed, by function, number and change.
awk -F '\t' 'NR == FNR { how[$1] = $2; next } how[$1] == "missed" { print $2 "\t" $3 "\t" $4 }' $out/answers $out/list | sort >$out/missed
grep -v '^#' sabotage/missed.txt | cut -f 1-3 | sort >$out/listed
diff $out/listed $out/missed || { echo "sabotage: faults are missed that are not listed, or listed that are not missed"; exit 1; }
awk -F '\t' '{ count[$2]++ } END {
    printf "sabotage: %d faults: %d noticed as a difference, %d by a panic, %d by a crash, %d do not end, %d missed, as listed\n",
        NR, count["difference"], count["panic"], count["crash"], count["endless"], count["missed"]
}' $out/answers
