#!/usr/bin/env bash
# Holds the port against the crate on many pages, kind by kind.
#
#     oracle/compare.sh ORACLE PORT [TIMES]
#
# ORACLE is the assembled program, PORT the port's program `replay`. Each random kind is run TIMES times (1 if not
# given), with other seeds, and each fixed list once. Prints a line for each run, and ends with status 1 if any of them
# shows a disagreement.
set -euo pipefail
oracle=$1 port=$2 times=${3:-1}
folder=$(mktemp -d)
trap 'rm -rf "$folder"' EXIT
failed=0

# one run: the kind, the seed and how many requests
run() {
    "$oracle" gen "$2" "$3" "$1" 2>/dev/null > "$folder/requests"
    "$port" < "$folder/requests" > "$folder/answers"
    paste "$folder/requests" "$folder/answers" | "$oracle" judge > "$folder/verdict" || failed=1
    awk -v kind="$1" -v seed="$2" '
        / requests$/ { n = $1 } / accepted by both/ { a = $1 } / refused by both$/ { r = $1 }
        / for the same cause/ { s = $1 } / known: port / && !/UNKNOWN/ { k += $1 } / UNKNOWN: / { u += $1 }
        / bad pages$/ { b = $1 } / refused 10 where/ { t = $1 } / DISAGREEMENTS$/ { d = $1 }
        END { printf "%-8s seed %-4s %9d pages: %9d accepted, %9d refused (%d same cause, %d known other, %d unknown), %7d bad pages, %7d refused for the binding rule, %d disagreements\n", kind, seed, n, a, r, s, k, u, b, t, d }
    ' "$folder/verdict"
    grep -E '^(request|  port|  oracle)|UNKNOWN' "$folder/verdict" | cut -c 1-400 | head -20 || true
}

for kind in traps limits deep; do run "$kind" 0 10000000; done
for alphabet in $(seq 0 28); do run rows "$alphabet" 60000; done
for seed in $(seq 1 "$times"); do
    for kind in rules chains parts damaged soup; do run "$kind" "$seed" 100000; done
done
exit "$failed"
