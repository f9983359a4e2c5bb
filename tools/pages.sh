#!/bin/sh
# Holds what the pages say to the files: every path, edit, crate and name is there; the definitions that must be believed, the edits and the
# described calls are as many; no array is written in verification; so much stack is taken; the board's register has its value; and S's annex
# page and its picture are as they are shown. And make help lists every target that is no step of another.
set -eu
cd "$(dirname "$0")/.."
# A note of docs/changes is of the project as its request left it, and is not held to what later ones make of it; docs/PORT.md and
# docs/DESIGN-PASS.md name what is gone.
docs=$(ls docs/*.md | grep -vE '/(PORT|DESIGN-PASS)\.md$')
pages="README.md NOTICE $docs crates/README.md oracle/README.md arm/README.md board/README.md"

# says PAGE TEXT: the page has the text.
says() {
    grep -qF -- "$2" "$1" || { echo "$1 does not say: $2"; exit 1; }
}

grep -ohP '(?<![/.])\b(crates|oracle|arm|board|sabotage|tools|scenes|docs|include)/[A-Za-z0-9_./-]*[A-Za-z0-9]' $pages | sort -u | grep -v NAME |
    while read -r path; do
        [ -e "$path" ] || { echo "no $path, which a page names"; exit 1; }
    done

# A theorem, definition, field or seeded fault that a page names has that name, where it is of several words; these are others' names.
others="qemu-aarch64 rust-version check_all frame_addr frame_ipa frame_pa row_26 super_ipa super_pa super_size"
grep -ohP '`\K[a-z]+([-_][A-Za-z0-9]+)+(?=`)' README.md $docs | sort -u | grep -vxF "$(printf '%s\n' $others)" |
    while read -r name; do
        grep -rqF --exclude-dir=target --exclude-dir=out -- "$name" crates oracle arm board/dervhalt-s2/Cargo.toml board/dervhalt-s2/src || { echo "nothing is called $name, which a page names"; exit 1; }
    done

# A name that a path stands behind is there.
awk -f tools/named.awk $pages

# The layers have each crate, and no other.
layers=$(grep '^|' crates/README.md | grep -o '`[a-z0-9_]*`' | tr -d '\`' | sort)
[ "$(sed -nE 's/^([a-z0-9_]+)( staticlib)?:.*/\1/p' crates.txt | sort)" = "$layers" ] || { echo "crates/README.md has other crates than crates.txt"; exit 1; }

believed() {
    awk -f tools/believed.awk "$@" | tail -1
}
statements="crates/s2/specs/Answers.antt crates/demand_2/specs/Demand2.antt crates/demand_3/specs/Demand3.antt
    crates/annex_walks/specs/Annex.antt crates/verify_theorems/specs/LiveSlots.antt crates/dump/specs/Dump.antt crates/annex_text/specs/Text.antt"
for statement in $statements; do
    says docs/TRUST.md "| [$statement](../$statement) | $(believed $statement) |"
done
says docs/TRUST.md "| all seven | | $(believed $statements) |"

# Each subject's files have as many lines, and together they are the files that the seven statements rest on.
subjects() {
    awk -F ' *[|] *' '$3 ~ /^`crates\/.*antt`$/ { gsub(/[`,]/, "", $3); print $4, $3 }' docs/TRUST.md
}
subjects | while read -r lines files; do
    [ "$(cat $files | wc -l)" = "$lines" ] || { echo "docs/TRUST.md has another count of lines of $files"; exit 1; }
done
listed=$(subjects | cut -d ' ' -f 2- | tr ' ' '\n' | sort)
[ "$(awk -f tools/believed.awk $statements | grep -o 'crates/.*' | sort)" = "$listed" ] ||
    { echo "docs/TRUST.md lists other files than the seven statements rest on"; exit 1; }

# No array is written in the code of verification (M-101): each bracket is of a lent slice or of an index into one, and of `areas` it asks
# for one area at a time.
verification() {
    cat crates/verify*/src/*.rt | awk '/^ *(requires|ensures) / { clause = 1 } /^ *\{$/ { clause = 0 } !clause' | grep -vE '^ *//|ghost use|^ *#'
}
if verification | sed -E "s/&('a )?\[(u64|u8)\]//g; s/\b(arena|base|sup)\[//g" | grep -F '['; then
    echo "verification has an array"
    exit 1
fi
if verification | grep -F 'areas::' | grep -vE 'areas::(Area;|live_area\()'; then
    echo "verification asks for more than one area"
    exit 1
fi

# A fault that is listed as missed is of a function that is there.
grep -v '^#' sabotage/missed.txt | cut -f 1 | sort -u | while read -r function; do
    grep -qrE "fn ${function##*::}\b" "crates/${function%%::*}/src" || { echo "no $function, which sabotage/missed.txt names"; exit 1; }
done

# Each edit that a page names is in the folder of the path before it.
named_edits() {
    grep -ohP 'crates/[a-z0-9_]+/must-fail/[a-z0-9_]+\.edit(, [a-z0-9_]+\.edit)*' $docs
}
named_edits | sort -u | while read -r named; do
    folder=${named%%/must-fail/*}/must-fail
    for edit in $(echo "${named#"$folder"/}" | tr -d ,); do
        [ -e "$folder/$edit" ] || { echo "no $folder/$edit, which a page names"; exit 1; }
    done
done
[ "$(named_edits | grep -o '\.edit' | wc -l)" = "$(grep -oh '[a-z0-9_]\.edit' $docs | wc -l)" ] ||
    { echo "a page names an edit without its folder"; exit 1; }

# The table of edits has each crate with its count, and no other.
counted=$(grep '^|' docs/SABOTAGE.md | grep -oP '`[a-z0-9_]+` [0-9]+(?=,| \|)' | tr -d '\`' | sort)
[ "$(for edits in crates/*/must-fail; do echo "$(basename "${edits%/must-fail}") $(ls "$edits" | wc -l)"; done | sort)" = "$counted" ] ||
    { echo "docs/SABOTAGE.md has other crates or counts of edits"; exit 1; }
says docs/SABOTAGE.md "There are $(ls crates/*/must-fail/*.edit | wc -l), in $(ls -d crates/*/must-fail | wc -l) crates"

definitions=$(grep -l '^file: specs' crates/*/must-fail/*.edit | wc -l)
contracts=$(grep -l '^file: src' crates/*/must-fail/*.edit | xargs grep -lE '^old: .*(≡|∷|\.old|\.new|\.now|\.entry|λ m|Some 0x8)' | wc -l)
code=$(($(ls crates/*/must-fail/*.edit | wc -l) - definitions - contracts))
says docs/SABOTAGE.md "$definitions alter a definition or a statement, $contracts a contract and $code code"

# S's annex page is the one that is shown, and its picture is drawn from it.
for page in README.md docs/STATEMENT.md; do
    sed -nE 's/^ *(([0-9A-F]{10} ){2}[0-9A-F]{12} R[OW] [X-]|={39})$/\1/p' $page | cmp -s - scenes/S.annex ||
        { echo "$page shows another page than scenes/S.annex"; exit 1; }
done
awk -f tools/annex_map.awk <scenes/S.annex | cmp -s - docs/annex-S.svg ||
    { echo "docs/annex-S.svg is not what tools/annex_map.awk draws of scenes/S.annex"; exit 1; }

# What make help lists.
for target in $(sed -n 's/^\.PHONY: run /run /p' Makefile); do
    grep -q "^$target:.* ## .* ## " Makefile || { echo "make help does not list $target"; exit 1; }
done

# Where the library has been made.
[ ! -s target/stack ] || says board/README.md "$(cat target/stack)"

# The value that board code is given.
vtcr=$(sed -n 's/^BaleenValue = .* Some //p' crates/vtcr/specs/RoundTrip.antt)
says board/dervhalt-s2/src/lib.rs "pub const VTCR_EL2: u64 = $vtcr;"
says include/dervhalt_s2.h "#define S2_VTCR_EL2 $(echo "$vtcr" | tr -d _)ull"
says board/README.md "VTCR_EL2 is $(echo "$vtcr" | tr -d _) "

# Each exported call has a contract, over `values` at exit; the step assigns to the arena once.
described=$(awk '/^(pub )?(extern "C" )?fn / { call = clause = 0 } /^pub extern "C" fn/ { calls++; call = 1 } /ensures/ && call { clause = 1 }
    clause && /values\.new/ { said++; call = clause = 0 } /^{/ { call = clause = 0 }
    END { if (calls == said) print calls " and " said }' crates/s2/src/lib.rt)
[ -n "$described" ] || { echo "an exported call is not described"; exit 1; }
says docs/SABOTAGE.md "$described"
[ "$(grep -c 'arena\[.*\] = ' crates/update/src/lib.rt)" = 1 ] || { echo "the step does not have one assignment to the arena"; exit 1; }
echo "pages: paths, names and counts are as they say"
