#!/bin/bash
# Counts the places that docs/DESIGN-PASS.md speaks of, at a commit (or HEAD): tools/places.sh [-l] [COMMIT]. With -l it lists them.
list=; [ "$1" = -l ] && { list=1; shift; }
at=${1:-HEAD}
count() { # point, what, pattern
    found=$(git grep -nE "$3" "$at" -- 'crates/*/src/*.rt' | sed "s|^$at:||")
    printf '%s\t%s\t%s\n' "$1" "$2" "$(printf '%s' "$found" | grep -c .)"
    [ -n "$list" ] && printf '%s\n' "$found"
}
count 1a 'a refusal answered in an Option' 'Option<Refusal>( \{)?$'
count 1b 'an Option taken apart to hand its refusal up' 'if let Some\((fault|refusal)\) ='
count 1c 'own enums of the shape of Result' 'enum (Verdict|Finding) |enum Step '
count 1d 'flags beside values' '^ *pub\(crate\) (held|refuted|kept|up): bool'
count 1e 'bool beside a &mut that carries the value' 'fn .*&mut .*-> bool'
count 1f 'an answer known to be there, taken by match' '=> unreachable\(\)'
count 1g 'numbers for kinds' 'kind: i64'
count 2a 'tests over lists and limits, each crate its own' 'fn (all_within|in_order|is_point|many_within|between|excess|plus_product|with_price|number_at|limit_fault|limit_refusal|check_point)\b'
count 2b 'limits, each crate its own' 'const [A-Z_]*LIMIT: |const MOST_[A-Z]+: '
count 3a 'loops that count an index' '^ *for [a-z_]+ in \(?[a-z0-9_]+\.\.'
count 3b 'while and loop' '^ *(while|loop)\b'
count 4a 'types without comparison or Debug' '^#\[derive\(Clone, Copy\)\]|^#\[derive\(Drop\)\]'
count 4b 'equality by hand' 'fn (same|is_same)\b'
count 4c 'refusals printed by hand' 'refused \{number\}'
count 4d 'words of an enum by hand' '=> b?"[a-z ]+(\\n)?",?$'
count 5a 'the same fact asked in three or more contracts' 'requires.*(SlipNumbers|OfAll job|few \{ length members|Tame job|length block.now|small \{ unsigned_abs d |width \{ width ≤ 33)'
count 5b 'lists that travel together' 'g: Vec<i64>|curvature: &\[i32\]|curvature: Vec<i32>,$|p: &\[i64\], y: &\[i64\]'
count 6a 'fixed buffers in signatures and fields' '(->|: ).*\[(i64|f64|u8|\[f64; (33|LINE_PLACES)\]); ?([0-9]+|[A-Za-z_:]+)\]'
count 6b 'a buffer and a place in it' 'out: &mut \[u8\], at: usize'
count 7a 'switches on which step to run' 'may: bool'
