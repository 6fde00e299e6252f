#!/usr/bin/env bash
# Proves the program and every crate below it, crates side by side on all processors, builds it, and leaves it at ./pmos.
# What an earlier run proved and what has not changed is not proved again.
set -euo pipefail
cd "$(dirname "$0")/.."

top=$PWD
work=$(mktemp -d)
trap 'rm -rf "$work"' EXIT
processors=$(nproc)

# The crates of the repository on which a crate stands, from its line of crates.txt.
below() {
    sed -n "s/^$1\( [^:]*\)*: *//p" crates.txt | tr ' ' '\n' | while read -r name; do
        if [ -d "crates/$name" ]; then echo "$name"; fi
    done
}

# All crates below pmos, and pmos.
wanted=(pmos)
for ((i = 0; i < ${#wanted[@]}; i++)); do
    for name in $(below "${wanted[i]}"); do
        case " ${wanted[*]} " in *" $name "*) ;; *) wanted+=("$name") ;; esac
    done
done

minutes=$(((120 + processors - 1) / processors + 5))
echo "Proving and building ${#wanted[@]} crates on $processors processors: about $minutes minutes the first time."

# A crate can begin once all below it are done.
can_begin() {
    local lower
    for lower in $(below "$1"); do [ -e "$work/$lower.done" ] || return 1; done
}

# Proves one crate. The program is built too, by a run; without words it says how it is used, and ends with 1.
prove() {
    if [ "$1" = pmos ]; then
        (cd crates/pmos && rm -f out/pmos && { rt run || true; } && [ -x out/pmos ])
    else
        (cd "crates/$1" && rt lib)
    fi >"$work/$1.log" 2>&1 && touch "$work/$1.done" || touch "$work/$1.failed"
}

SECONDS=0
waiting=("${wanted[@]}")
at_work=()
while [ ${#waiting[@]} -gt 0 ] || [ ${#at_work[@]} -gt 0 ]; do
    later=()
    for name in "${waiting[@]}"; do
        if [ ${#at_work[@]} -lt "$processors" ] && can_begin "$name"; then
            prove "$name" &
            at_work+=("$name")
            echo "$((SECONDS / 60)):$(printf %02d $((SECONDS % 60))) $name"
        else
            later+=("$name")
        fi
    done
    waiting=("${later[@]}")
    sleep 1
    still=()
    for name in "${at_work[@]}"; do
        if [ -e "$work/$name.failed" ]; then
            tail -40 "$work/$name.log"
            echo "$name was not proved."
            wait
            exit 1
        fi
        [ -e "$work/$name.done" ] || still+=("$name")
    done
    at_work=("${still[@]}")
done

cp crates/pmos/out/pmos "$top/pmos"
echo "Done in $((SECONDS / 60)) minutes and $((SECONDS % 60)) seconds: ./pmos"
