#!/bin/sh
# ask.sh NUMBER: how the comparison notices the fault, as one line: its number, a word, and what it says first. A hunt that finds nothing takes
# some 27 seconds of the processor's time: one that is stopped at 100 does not end.
ulimit -t 100
{ said=$(FAULT=$1 target/sabotage/oracle/release/judge hunt 2>&1); } 2>/dev/null
case $? in
    0) how=missed ;;
    1) how=difference ;;
    101) how=panic ;;
    137 | 152) how=endless ;;
    *) how=crash ;;
esac
printf '%s\t%s\t%s\n' "$1" $how "$(echo "$said" | head -1)"
