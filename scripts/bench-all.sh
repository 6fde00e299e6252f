#!/usr/bin/env bash
# Makes the figures of docs/BENCHMARKS.md again, one measurement after another; the first failure ends it. It takes some
# tens of minutes, on a machine on which nothing else may run meanwhile.
#
# 'scripts/build.sh' builds the program; PMOS names another one. Needs rt, python3, dd, sha256sum and GNU time.
set -euo pipefail
cd "$(dirname "$0")/.."

for bench in bench bench-collect bench-young bench-digest bench-remembered bench-table bench-parts; do
    echo "== scripts/$bench.sh"
    "scripts/$bench.sh"
    echo
done
