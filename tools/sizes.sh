#!/bin/sh
# Prints, for each crate in the order of crates.txt, how many lines of code, of definitions and of proofs it has, and how
# many must-fail edits.
cd "$(dirname "$0")/.." || exit 1
lines() {
    find "crates/$1/$2" -name "*.$3" -exec cat {} + 2>/dev/null | wc -l
}
printf '| Crate | Code | Definitions | Proofs | Edits |\n|---|---:|---:|---:|---:|\n'
sed -n 's/^\([a-z_]*\):.*/\1/p; s/^\([a-z_]*\) .*:.*/\1/p' crates.txt | while read -r crate; do
    edits=$(find "crates/$crate/must-fail" -name '*.edit' 2>/dev/null | wc -l)
    printf '| `%s` | %d | %d | %d | %d |\n' "$crate" "$(lines "$crate" src rt)" "$(lines "$crate" specs antt)" "$(lines "$crate" proofs antt)" "$edits"
done
all() {
    find crates -path "*/$1/*.$2" -not -path '*/out/*' -exec cat {} + | wc -l
}
printf '| all | %d | %d | %d | %d |\n' "$(all src rt)" "$(all specs antt)" "$(all proofs antt)" "$(find crates -name '*.edit' | wc -l)"
