#!/usr/bin/env bash
# The digests that the program digests has to print, made by sha256sum and sha512sum:
#     tools/digests.sh > crates/digests/stdout
set -eu
set +o pipefail
for n in $(seq 0 300) 100000; do
    for sum in sha256sum sha512sum; do
        printf '%d %s\n' "$n" "$(yes yardolive | head -c "$n" | "$sum" | cut -d ' ' -f 1)"
    done
done
