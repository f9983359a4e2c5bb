#!/bin/sh
# progress.sh REPORT COMMAND...: runs a command that proves, and prints a line for each crate, edit and program as it is done; of what fails,
# all that was said. REPORT has the whole. It fails where the command does.
set -eu
report=$1
shift
cd "$(dirname "$0")/.."
kept=$(mktemp -d)
trap 'rm -rf "$kept"' EXIT
trap 'exit 1' INT TERM

# By the shell's own read: an awk may wait for more than the line that is there. What was said before a line is the prover's on one crate.
show() {
    said= crate=
    while IFS= read -r line; do
        case $line in
        'rt: chose '* | 'rt: '*': begins with what a check kept in '* | 'rt: running out/'* | 'rt: nothing has changed since '* | 'rt: ok; '*) ;;
        'crate '*': modules loaded='*)
            # Where nothing of it was checked, it had not changed.
            case $line in
            *' checked=0') crate= ;;
            *) crate=${line#crate } ;;
            esac
            said="$said$line
"
            ;;
        'logic=proved '*)
            [ -z "$crate" ] || echo "${crate%%:*} proved"
            said= crate=
            ;;
        'rt: '*' is kept: '*)
            line=${line#rt: }
            echo "${line%%:*} by an earlier run"
            said=
            ;;
        'rt: must-fail '*': refused, as it must be: '* | 'rt: must-fail '*': refused, as it must be')
            line=${line#rt: must-fail }
            echo "refused: ${line%%:*}"
            said=
            ;;
        'rt: '*' NOT PROVED'*)
            printf '%s%s\n' "$said" "$line"
            said=
            ;;
        'rt: '*' proved')
            echo "${line#rt: }"
            said=
            ;;
        'rt: '*)
            printf '%s\n' "${line#rt: }"
            ;;
        *)
            said="$said$line
"
            ;;
        esac
    done
    [ -e "$kept/well" ] || printf %s "$said"
}

# One at a time in this folder. The status of a pipe is that of its end, so the command's own is kept as a file.
{ flock crates.txt "$@" 2>&1 && : >"$kept/well"; } | tee "$kept/report" | show
mkdir -p "$(dirname "$report")"
mv "$kept/report" "$report"
[ -e "$kept/well" ]
