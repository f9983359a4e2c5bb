#!/bin/sh
# places.sh: counts the places of docs/DESIGN-PASS.md in crates/*/src and crates/*/proofs, a line for each command.
set -eu
cd "$(dirname "$0")/.."
src() { cat crates/*/src/*.rt; }
say() { printf '%-66s %s\n' "$1" "$2"; }
# Enums of two cases, of which one holds nothing, or a Refusal.
say '1 own enums of the shape of Option or Result' "$(src | awk '
    /^(pub )?enum / { n = 0; plain = 0; refused = 0; inside = 1; next }
    inside && /^    [A-Z]/ { n++; if (/^    [A-Za-z]+,/) plain++; if (/^    Refused\(/) refused++ }
    inside && /^}/ { if (n == 2 && (plain == 1 || refused)) count++; inside = 0 }
    END { print count + 0 }')"
say '1 answers passed on by hand, where ? serves' "$(src | grep -cE '^ +let (Verdict::Accepted|Exposure::Nothing|[A-Za-z]+::(Level|Granule|Size|Value|Named|Width|Regime|Perm|Going|Unfinished|Number)(\([a-z_]+\))?) = |=> (Walked|Exposed|Annexed)::Refused')"
say '1 flags with values beside them' "$(src | grep -cE '^ +(pub )?(present|fails): bool,')"
say '3 loops over a range of indices' "$(src | grep -cE '^ +for [a-z_]+ in .*\.\..* \{')"
say '3 loops that count by hand' "$(src | grep -cE '^ +while ')"
say '4 equality by codes or fields' "$(src | grep -cE 'fn (same|names)[a-z_]*\(|\.code\(\) (==|!=)|as u8 == ')"
say '4 conversions that are no From or TryFrom' "$(src | grep -cE 'fn (of|layout_of|level_of_kind|span_of_kind|entry_named)\(')"
say '5 clauses that stand in three or more contracts of one crate' "$(for crate in crates/*/; do cat $crate/src/*.rt | sed -nE 's/^ +requires( [a-z_0-9]+)? \{ (.*) \}$/\2/p' | sort | uniq -c | awk '$1 >= 3'; done | awk '{ n += $1 } END { print n + 0 }')"
say '6 buffers with a length beside them' "$(src | grep -cE 'out: &mut \[u8[^)]*\) -> usize|kept: usize,|^ +at: usize,|len: usize,')"
say '7 switches on a number' "$(src | grep -cE '^ +match (op|code|access|table|i|i / .*|x\[0\]|level|entry|kind) \{')"
say '8 answers' "$(find crates/*/proofs -name Answers.antt | wc -l) files, $(find crates/*/proofs -name Answers.antt | xargs cat | wc -l) lines"
say '8 invariants' "$(find crates/*/proofs -name Invariants.antt | wc -l) files"
say '8 other files of proofs' "$(find crates/*/proofs -name '*.antt' ! -name Answers.antt ! -name Invariants.antt ! -name Lib.antt | wc -l) files, $(find crates/*/proofs -name '*.antt' ! -name Answers.antt ! -name Invariants.antt ! -name Lib.antt | xargs cat | wc -l) lines"
