#!/bin/bash
# Counts the lines of src/ at which docs/DESIGN-PASS.md looked, by one command for each kind of place.
# A line is no place yet: which of them are is told in that page.
cd "$(dirname "$0")/.." || exit 1
lines() { grep -rnE --include=*.rt "$@" crates/*/src; }
tell() { echo "$1 $(wc -l)"; }
lines '^ *(pub(\(crate\))? )?enum ' | tell '1 enums'
lines '^ *(pub )?[a-z_]+: bool,$' | tell '1 flags in structs'
lines '&mut .*-> bool' | tell '1 yes or no from what changes something'
lines '(kind|number): u8|numbered\(\)|\.number\(\)|\.value\(\)' | tell '1 numbers for kinds and refusals'
lines 'const [A-Z_0-9]+: u8 = [0-9]+;' | tell '1 constants that are a number for a kind'
lines -oh '^ *(pub(\(crate\))? )?fn [a-z_0-9]+' | awk '{print $NF}' | sort | uniq -d | tell '2 names of more than one function'
lines -A3 -e '-> u8$' | grep -E '^[^ ]*-[0-9]+- *0$' | tell '2 functions that answer 0'
lines '^ *(while|loop)\b|: loop|for [a-z_]+ in [(]?[0-9A-Za-z_]+ ?\.\.|for \([a-z_]+, .*enumerate' | tell '3 loops with a condition or a counter'
lines 'fn (is|equal|holds|name|number|numbered|value|told|[a-z]+_of|words)\(' | tell '4 comparisons and conversions'
lines ' as (u8|u16|u32|u64|u128|usize|char)\b' | tell '4 casts'
lines '^ *requires' | tell '5 requirements'
lines 'width: u16, height: u16|^ *height: u16,$' | tell '5 a width and a height side by side'
lines '\[[A-Za-z0-9:()., ]+; [0-9A-Z_]+\]' | tell '6 arrays of fixed length'
lines '^ *match (name|act|rule|ruler|kind|tag|step|window|self|page)\b' | tell '7 matches that may choose a step'
find crates -path '*/out' -prune -o -name Answers.antt -print0 | xargs -0 grep -hE '^pub ' | tell '8 answers'
find crates/*/proofs -maxdepth 1 -name '*.antt' -print0 | xargs -0 grep -hE '^(pub )?[a-z][A-Za-z0-9_-]* :' | tell '8 lemmas'
find crates/*/proofs -name '*.antt' -print0 | xargs -0 cat | tell '8 lines of proofs'
