#!/bin/sh
# program.sh NAME..: proves programs and builds them: target/bin/NAME. Behind rt ci, which has done both, they are copied.
set -eu
cd "$(dirname "$0")/.."
mkdir -p target/bin
for name; do
    tools/proved.sh "$name" || (cd "crates/$name" && rt run </dev/null >/dev/null)
    cp "crates/$name/out/$name" "target/bin/$name.new"
    mv "target/bin/$name.new" "target/bin/$name"
done
