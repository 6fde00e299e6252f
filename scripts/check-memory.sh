#!/usr/bin/env bash
# Out of memory is answered with its evidence. A value `NoMemory` is made in one file, of what the standard library
# answers where an allocation was refused, or of a count at its end. The compiler sees to that by a private field; what it
# can not see is looked for here, outside the crates of cases:
#
# - `AllocError` and `AllocFailed` stand in types alone. Nothing builds one, but for the functions that say what another
#   library's answer means, which are listed below.
# - `NoMemory::uncountable` is called in the places that are listed below, each with the number that it counts.
#
# What `rt` builds under `crates/NAME/out`, with the standard library's own files in it, is not looked at. What is found
# is printed with its file and line, and then the status is 1. It tries itself on planted faults first.
set -uo pipefail
cd "$(dirname "$0")/.." || exit 1
export LC_ALL=C

# The functions that take a library's own answer: `clap`, the standard library's words of the command line, and a table of
# `atomic_table`, which hands its slots back and no error.
builders='crates/pm_passes/src/memory.rt
crates/pm_words/src/memory.rt
crates/pmos/src/memory.rt'

# The counts that come to an end: the file, and what it counts.
counts='crates/pm_evac/src/first_rows.rt train
crates/pm_mutate/src/births/placing.rt youngest
crates/pm_remset/src/trees.rt self.count
crates/pm_reopen/src/opened_cars.rt last.number
crates/pm_reopen/src/rebuild/trains.rt trains.youngest()
crates/pm_seats/src/shared.rt LAST_NUMBER
crates/pm_shadow/src/table.rt len as u64
crates/pm_snap/src/table.rt given
crates/pm_snap/src/table.rt self.used as u64'

# check FOLDER: looks through its crates.
check() {
    (
        cd "$1" || exit 1
        # shellcheck disable=SC2046
        awk -v builders="$builders" -v counts="$counts" '
            function found(what) {
                print FILENAME ":" FNR ": " what
                faults++
            }
            # The line without its comment and its texts.
            function code(line) {
                gsub(/"([^"\\]|\\.)*"/, "\"\"", line)
                sub(/\/\/.*$/, "", line)
                return line
            }
            # What is left of the line where the two names do not stand as types.
            function without_types(line) {
                gsub(/From<Alloc(Error|Failed<[A-Za-z<>, ]*>)>/, "", line)
                gsub(/: *Alloc(Error|Failed<[A-Za-z<>, ]*>)/, "", line)
                gsub(/, *AllocError *\)? *>/, "", line)
                gsub(/, *AllocFailed<[A-Za-z<>, ]*> *>/, "", line)
                return line
            }
            BEGIN {
                n = split(builders, list, "\n")
                for (i = 1; i <= n; i++) builds[list[i]] = 1
                n = split(counts, list, "\n")
                for (i = 1; i <= n; i++) may_count[list[i]] = 1
            }
            FILENAME == "crates/pm_types/src/no_memory.rt" { next }
            {
                line = code($0)
                if (match(line, /uncountable\(/)) {
                    rest = substr(line, RSTART + RLENGTH)
                    # What is counted ends at the bracket that closes the call.
                    depth = 1
                    for (i = 1; i <= length(rest) && depth > 0; i++) {
                        c = substr(rest, i, 1)
                        if (c == "(") depth++
                        if (c == ")") depth--
                    }
                    what = substr(rest, 1, i - 2)
                    if (!((FILENAME " " what) in may_count)) found("a count that is not listed: " what)
                }
                if (line ~ /Alloc(Error|Failed) +as /) found("another name for AllocError or AllocFailed")
                if (line ~ /^ *use std::alloc::/) next
                if (line ~ /AllocFailed *\{/) found("AllocFailed is built or taken apart")
                else if (without_types(line) ~ /Alloc(Error|Failed)/ && !(FILENAME in builds)) found("AllocError or AllocFailed is no type here")
            }
            END { exit faults > 0 }
        ' $(find crates -name out -prune -o -path 'crates/*/src/*' -name '*.rt' -print | grep -vE '^crates/(pm_case|pm_[a-z]*_cases)' | sort)
    )
}

# Each planted fault is found, and a file without one is not complained of.
try() {
    local work status=0 line
    work=$(mktemp -d) || return 1
    mkdir -p "$work/crates/pm_planted/src"
    plant() {
        printf 'use std::alloc::{AllocError, AllocFailed};\n\n%s\n' "$1" >"$work/crates/pm_planted/src/lib.rt"
        check "$work" >/dev/null
    }
    for line in 'fn grow(e: AllocError) -> Result<(), AllocError> { Err(e) } // AllocError' \
        'fn lay(value: u8, e: AllocError) -> Result<(), (u8, AllocError)> { Err((value, e)) }'; do
        plant "$line" || {
            echo "check-memory: a type is taken for a fault: $line"
            status=1
        }
    done
    for line in '    Err(AllocError)?;' 'Err((value, AllocError))' 'Err(AllocFailed { value })' 'let e = AllocError;' \
        'return Err(NoMemory::uncountable(u64::MAX));' 'Err(NoMemory::from(AllocError))' \
        'use std::alloc::{AllocError as Refused, Global};'; do
        if plant "$line"; then
            echo "check-memory: not found: $line"
            status=1
        fi
    done
    mkdir -p "$work/crates/pm_planted/out/below/src"
    mv "$work/crates/pm_planted/src/lib.rt" "$work/crates/pm_planted/out/below/src/lib.rt"
    plant 'let found = 1;' || {
        echo "check-memory: a file that was built is looked at"
        status=1
    }
    rm -rf "$work"
    return "$status"
}

try || exit 1
check . || exit 1
echo "out of memory is answered with its evidence"
