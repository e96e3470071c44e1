#!/bin/sh
# Counts, in src/ of every crate, the lines that older forms leave behind. Run it at the top of a checkout; -v prints the lines too.
# docs/DESIGN-PASS.md says what each count stands for, and which of the lines are places.
verbose=$1

count() {
    name=$1
    shift
    found=$("$@" | grep -vE '^[^:]+:[0-9]+: *//' || true)
    if [ -z "$found" ]; then number=0; else number=$(printf '%s\n' "$found" | wc -l); fi
    printf '%-28s %s\n' "$name" "$number"
    if [ "$verbose" = -v ] && [ -n "$found" ]; then printf '%s\n' "$found" | sed 's/^/    /'; fi
}

lines() { grep -nE "$1" crates/*/src/*.rt; }
loops_over_things() { lines '^ *for ' | grep -vE 'in [^"]*\.\.'; }

count 'numbers-as-errors'         lines 'Result<[^<>]*, *(u8|u16|u32|u64|usize)>|Refused\(u8|Option<\((u8|u32|u64|usize),'
count 'own-enums'                 lines '^(pub |pub\(crate\) )?enum '
count 'bool-in-a-signature'       lines '(: bool\b|-> bool|, bool\))'
count 'kinds-as-indices'          lines '(sort|number|kind|cause) as usize'
count 'loops-over-a-range'        lines '^ *(for _?[a-z]+ in [^"]*\.\.|while )'
count 'loops-over-things'         loops_over_things
count 'counted-by-hand'           lines '^ *[a-z_.]+ \+= 1;'
count 'impls-of-std-traits'       lines '^impl.* (fmt::Display|From<.*>|TryFrom<.*>|PartialEq|Debug|Clone|Copy|Iterator|FromStr) for'
count 'as-casts'                  lines ' as (u8|u16|u32|u64|usize|u128)\b'
count 'equality-or-print-by-hand' lines 'fn (same|same_layer|nearer|name|named|put_[a-z]+|show_[a-z]+|check_[a-z]+|kind_letter|registry_letter|from_store|judge_time)\b'
count 'table-stays-as-large'      lines '(capacity|size) (self|table)\.new ≡ (capacity|size) (self|table)\.old'
count 'place-is-inside'           lines '(i|r) < length (\(view self\.(now|old)\)\.records|\(chains table\.old\))'
count 'appends-a-text'            lines 'string_bytes out\.new ≡ string_bytes out\.old'
count 'link-to-a-place'           lines '(link|at|start|first|next) ≡ (before|slice_get) '
count 'vecs-and-arrays'           lines '(Vec<|: \[[A-Za-z0-9_<>]+; [A-Z0-9a-z_]+\]|^ *len: usize|ArrayVec<)'
count 'match-on-a-step'           lines 'match (call|phase|self|style|sort|command|\(opening)'
printf '%-28s %s\n' 'answers-files' "$(find crates -path '*/proofs/*' -not -path '*/out/*' -name Answers.antt | wc -l)"
printf '%-28s %s\n' 'lines-of-proofs' "$(find crates -path '*/proofs/*' -not -path '*/out/*' -name '*.antt' -exec cat {} + | wc -l)"
