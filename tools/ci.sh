#!/bin/sh
# ci.sh: rt ci, of the folder as it stands. It fails where rt does, and where an edit that must be refused could not be tried.
set -eu
cd "$(dirname "$0")/.."
tools/progress.sh target/ci.log rt ci
if ! grep -q '^rt: ok; ' target/ci.log || grep -qE '^rt: ok; .*, [0-9]+ bad' target/ci.log; then
    tail -n 2 target/ci.log
    exit 1
fi
tools/proved.sh >target/ci.sum
