#!/usr/bin/env bash
# Shows that the borrow checker refuses code that reads the output while the guard stands.
# Such code never reaches the prover, so it cannot be a planted bug of the gate.
set -eu
root=$(cd "$(dirname "$0")/.." && pwd)
copy=$(mktemp -d)
trap 'rm -rf "$copy"' EXIT
mkdir "$copy/crates"
cp -r "$root/crates/base" "$root/crates/scheme" "$copy/crates/"
printf 'base:\nscheme: base\n' >"$copy/crates.txt"
cd "$copy"
sed -i 's/^    guard\.released = /    let _peek = page.len();\n&/' crates/scheme/src/guard.rt
words='error\[borrow-e0502\]: cannot borrow `\*page` as immutable because it is also borrowed as mutable'
if (cd crates/scheme && rt check) 2>&1 | grep -q "$words"; then
    echo "refused, as it must be: the output is read while the guard stands"
else
    echo "NOT refused: the output is read while the guard stands"
    exit 1
fi
