#!/usr/bin/env bash
# places.sh [DIR]: lists the places of the code that DESIGN-PASS.md counts, point by point.
# A line is a place to look at, not a fault.
set -u
cd "${1:-$(dirname "$0")/../..}" || exit 2
S=$(find crates/*/src -name '*.rt' | sort)
show() { # a title, a pattern
  printf '\n%s\n' "$1"
  grep -nE "$2" $S | sed -E 's/: +/: /'
  printf 'count: %s\n' "$(grep -hE "$2" $S | wc -l)"
}
show '1 enums' '^ *(pub(\([a-z]+\))? )?enum '
show '1 answers turned by hand' '(Some|None|Ok|Err|_)(\([a-z_]*\))? => (Some|None|Ok|Err|true|false)\b|(Some|Ok)\([a-z]+\) => [a-z]+ <'
show '1 numbers that mean none, flags beside values' 'LONGEST|let mut (best|most|over|least)\b|\b(level|overhead|over|most|limit|bounds\[task - 1\]) (== 0|> 0|< 1)|\b0 stands for'
show '1 numbers for kinds' '=> [0-9]+,'
printf '\n2 functions of one name\n'
grep -hoE '^ *(pub(\([a-z]+\))? )?fn [a-z_]+' $S | sed -E 's/.*fn //' | sort | uniq -c | awk '$1 > 1'
show '3 loops that count' '\bfor [a-z_]+ in [^{]*\.\.|\bwhile\b|\bloop \{'
show '3 items copied out of a reference' 'let [a-z_(), ]+ = \*[a-z]+;'
show '4 impls of traits, and makers' '^ *impl.* for |^ *(pub(\([a-z]+\))? )?fn (new|name_of|eq|fmt)\b'
show '5 facts: at most 32 rows' '^ *(requires|ensures).*≤ 32'
show '5 facts: within, closed, sound, a place of a row' '^ *requires.*(Within |Closed |Sound |Names |place <)'
show '5 a test and its table as two parameters' '^ *(table: &Table<Row>,|(pub(\([a-z]+\))? )?fn .*test: &T, table: &Table)'
show '6 a length beside arrays' 'fn .*\brows: usize|^ *rows: usize,|\blen: usize,'
show '6 arrays of 32' ': (&|&mut )?\[[a-zA-Z0-9]+; 32\]'
show '7 switches on a step' 'match (carry|end|measured|self)\b'
printf '\n8 proofs: lines, and answers\n'
for c in table bounds orders worked; do
  printf '%s %s %s\n' "$c" "$(find crates/$c/proofs crates/$c/specs -name '*.antt' -print0 | xargs -0 cat | wc -l)" "$(grep -rhE '^pub [a-z0-9_+-]+ : goal' crates/$c/proofs | wc -l)"
done
