#!/bin/sh
# Lists the lines of crates/*/src that may be places of the design pass (docs/DESIGN-PASS.md), point by
# point, and sizes of the proofs. A line is a place to look at, not a verdict. Run from the root.
set -eu
lines() { git grep -nE "$1" -- 'crates/*/src/*.rt' 'crates/*/src/**/*.rt' | grep -vE ':[0-9]+: *//' || true; }
proofs() { git ls-files 'crates/*/proofs/*.antt'; }
echo '1 enums, flags, numbers for kinds'
lines '\benum |: bool|\b(layer|cause|kind|front|full|short|j|key): *(u8|usize)\b'
echo '2 functions of one name'
git grep -hoE '\bfn [a-z_0-9]+' -- 'crates/*/src/*.rt' 'crates/*/src/**/*.rt' | sort | uniq -c | awk '$1 >= 2'
echo '3 loops over an index'
lines '\b(while|loop)\b|\bfor [a-z_]+ in .*\.\.'
echo '4 conversions and printing by hand'
lines ' as u8|as char|\.number\(\)|Err\(e\) => Err\(e\)|fn [a-z]+_of\(word|Err\(_\) => (None|false)|\{cause\}|from_be_bytes'
echo '5 clauses that stand three times or more'
git grep -hoE '(requires|ensures) ?[a-z_]* \{.*\}' -- 'crates/*/src/*.rt' 'crates/*/src/**/*.rt' | sed -E 's/^(requires|ensures) [a-z_]* /\1 /' | sort | uniq -c | sort -rn | awk '$1 >= 3'
echo '6 lengths and places beside bytes'
lines '\b(len|at|n|end): usize|bytes: \[u8'
echo '7 matches on what to do'
lines '\bmatch (self|feed|rule|direction|mode|function|way|call)\b'
echo '8 lines of proofs, files of answers, of invariants, of lemmas'
proofs | xargs cat | wc -l
proofs | grep -c '/Answers.antt'
proofs | grep -c '/Invariants.antt'
proofs | grep -vcE '/(Answers|Invariants|Lib).antt'
