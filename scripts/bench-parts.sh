#!/usr/bin/env bash
# Prints how long it takes to part a script of 65,536 lines, in which the eight clients ask in turn, and to take all
# commands: the processor time of `pm_cases` for 40 such scripts, less that for the same scripts where nothing is
# parted, each the least of nine runs.
set -eu
cd "$(dirname "$0")/../crates/pm_cases"
work=$(mktemp -d)
trap 'rm -rf "$work"' EXIT

if ! echo 'part values' | rt run > "$work/out" 2> "$work/err"; then
    cat "$work/out" "$work/err" >&2
    exit 1
fi
rounds=40
TIMEFORMAT='%U %S'
for step in long asked; do
    { echo 'part values'; for _ in $(seq "$rounds"); do echo "$step 65536"; done; } > "$work/$step"
    for _ in 1 2 3 4 5 6 7 8 9; do
        { time out/pm_cases < "$work/$step" > "$work/told"; } 2>> "$work/times-$step"
    done
done
awk -v rounds="$rounds" '
    FNR == 1 { files++ }
    FNR == 1 || $1 + $2 < least[files] { least[files] = $1 + $2 }
    END { printf "%.2f ms a script of 65,536 lines\n", (least[1] - least[2]) / rounds * 1e3 }' \
    "$work/times-long" "$work/times-asked"
