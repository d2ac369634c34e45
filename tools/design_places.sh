#!/bin/sh
# Prints, for each point of docs/DESIGN-PASS.md, the lines of src/ in which its places are looked for. With `-c` only
# how many there are.
cd "$(dirname "$0")/.." || exit 1
show() {
    if [ "$count" ]; then
        printf '%s %s\n' "$1" "$(cat | wc -l)"
    else
        sed "s/^/$1 /"
    fi
}
[ "$1" = -c ] && count=1
src=crates/*/src
# 1: own enums; answers of a flag; numbers that stand for "none"; kinds as numbers; an Option or Result passed on by hand
grep -rnE '^\s*(pub(\(crate\))? )?enum ' $src | show 1a
grep -rnE 'fn .*-> (io::Result<)?bool' $src | show 1b
grep -rnE '^\s+(0|[A-Z]+)$|else \{ 0 \}' $src | show 1c
grep -rnE 'kind: u8|_KIND|put_bytes\(out, at, &\[' $src | show 1d
grep -rnE '=> (return )?(Some|Ok|Err|None|Solved::[A-Z][a-z]+)\b|=> (true|false),' $src | show 1e
grep -rnE -A1 'let (Some|Ok)\(.*\) = .* else \{' $src | grep 'return' | show 1f
# 2: functions of one name in more than one place; lists of one call written out
grep -rhoE '\bfn [a-z_0-9]+' $src | sort | uniq -c | awk '$1 > 1' | show 2a
grep -rnE '^\s+ArrayVec::new\(x\),$' $src | show 2b
# 3: loops over a range of numbers, and loops without a list
grep -rnE 'for [a-z_]+ in .*\.\.|while |loop \{' $src | show 3
# 4: impls by hand, comparisons by parts, constructors and conversions, casts
grep -rnE '^\s*impl.* for ' $src | show 4a
grep -rnE '==.*&&.*==|\.bits ==|if let [A-Z][a-z]+::' $src | show 4b
grep -rnE 'fn new\(\)|fn (from|into)_[a-z]+' $src | show 4c
grep -rnE ' as (u8|u16|u32|u64|usize)\b' $src | show 4d
# 5: facts that stand in more than two clauses; functions of more than four parameters
grep -rhoE 'requires( [a-z_]+)? \{.*\}' $src | sed -E 's/requires( [a-z_]+)? //' | sort | uniq -c | awk '$1 > 2' | show 5a
grep -rhoE 'ensures( [a-z_]+)? \{.*\}' $src | sed -E 's/ensures( [a-z_]+)? //' | sort | uniq -c | awk '$1 > 2' | show 5b
awk '/^ *(pub(\([a-z]+\))? )?fn [a-z_0-9]+(<.*>)?\($/ { n = 0; at = FILENAME ":" FNR ": " $0; on = 1; next }
    on && /^ *\)/ { if (n > 4) print at " " n; on = 0 } on { n++ }' $(find crates -path '*/src/*.rt') | show 5c
# 6: fields that are arrays, and lengths
grep -rnE '^\s+(pub(\(crate\))? )?[a-z_]+: (\[|ArrayVec)[^:]*,$' $src | grep -v '::new\|; [0-9A-Z]*\],\?$.*:.*\[[a-z0]' | show 6a
grep -rnE 'len: usize' $src | show 6b
# 7: functions as values, and trait objects
grep -rnE '\bdyn\b|impl Fn|Fn(Mut|Once)?\(|\|[a-z_, ]*\| ' $src | grep -v 'ghost\|ensures\|requires' | show 7
