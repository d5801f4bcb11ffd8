#!/bin/sh
# Lists the places of the design pass, point by point, in a checkout's crates/*/src, and the answers in crates/*/proofs.
# With the option -c it prints the counts alone. docs/DESIGN-PASS.md says what became of each place.
only_counts=
[ "$1" = -c ] && { only_counts=1; shift; }
cd "${1:-$(dirname "$0")/..}" || exit 1

# a point, what its places are, and the extended regular expression that finds their lines
places() {
    found=$(grep -rnE --include='*.rt' "$3" crates/*/src)
    count=$(printf '%s' "$found" | grep -c .)
    printf '%s  %s: %s\n' "$1" "$2" "$count"
    [ -n "$only_counts" ] || [ -z "$found" ] || printf '%s\n' "$found" | sed 's/^/    /'
}

places 1a "own enums, of which those shaped like Option or Result are places" '^(pub )?enum '
places 1b "numbers that tell a state" 'u32::MAX|self\.held|room \+ 1'
places 1c "matches that hand None on" 'None => (return )?None\b'
places 1d "errors dropped and made anew" '\.is_err\(\)|let Ok\('
places 1e "flags beside a value" '[:(,] *more: bool'

places 2a "readings of a run of bytes, apart from the test" 'fn (blank_len|word_len|line_len|goes_on)\('
places 2b "readers of numbers, apart from type and limit" 'fn (number|number_u64|number_u32|number_i32|digits|negative|positive)\b'
places 2c "readings of one byte at an end" 'fn (strip_first|strip_last|after_plus|after_minus)\('
places 2d "halves of a tally" 'struct (FirstCounts|LastCounts)'
places 2e "a body apart from the laws of its call" 'fn (cut_word|cut_line|numbered_below|listed_in|event|kind|lead_in|start|step|sweep_sizes|add|made|last)\b'

places 3a "indices and counts kept by hand" '\b\w+ [-+]= [0-9]|for \w+ in [0-9]+\.\.'
places 3b "functions named next, of iterators too" 'fn next\b'

places 4a "equality by a function" 'same_bytes\('
places 4b "casts" ' as (u|i)(8|16|32|64|size)\b'
places 4c "conversions from text by a function" 'fn (line_kind|keyword|literal_word|mode_for)\('
places 4d "types that can be neither compared nor printed" '^ *#\[derive\((Clone, Copy|Drop)\)\]'
places 4e "printing in parts, and a value of zeros" 'impl fmt::Display for|^ +lines: 0,'

places 5a "the line's end and the words left, told apart" '\(end (words|self\.old|list)[a-z.]*\) \(left '
places 5b "a text and a place in it" 'piece: &\[u8\], at: usize|text: &\[u8\], n: usize'
places 5c "an id and its place" '^ +pub (id|place):'
places 5d "depths beside totals" '(depths|totals): &mut \['
places 5e "a premise told again" 'requires .*within '
printf '%s  %s: %s\n' 5f "clauses with one text in three functions or more" "$(
    grep -rhoE --include='*.rt' '(ensures|requires).*' crates/*/src | sed 's/^ensures [a-z]* {/ensures {/' | sort | uniq -c | awk '$1 >= 3' | wc -l)"

places 6a "memory with a length or a place beside" '^ +(pub )?(pub\(crate\) )?((cells|carry|line|nodes): &|start: usize)'

places 7a "a choice of what to run" 'match (mode|source)\b|enum (Source|Mode)\b|dyn |\bfn\('

answers=$(find crates/*/proofs -name Answers.antt -exec cat {} + | grep -cE '^pub [^ ]+ : goal')
lines=$(find crates/*/proofs -name '*.antt' -exec cat {} + | grep -c .)
printf '%s  %s: %s answers, %s lines in all\n' 8 "proofs" "$answers" "$lines"
