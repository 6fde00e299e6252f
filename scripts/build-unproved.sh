#!/usr/bin/env bash
# Builds the program without any proof, in about a minute, and leaves it at the path that is given. It is slow, and for a
# look only: 'scripts/build.sh' proves and builds.
#
# 'rt try' builds a program for one run, and removes it then. So it gets a long script to read, and the program is copied
# while that run goes on.
set -euo pipefail
cd "$(dirname "$0")/.."
[ $# = 1 ] || { echo "usage: scripts/build-unproved.sh FILE"; exit 1; }
case $1 in /*) file=$1 ;; *) file=$PWD/$1 ;; esac

work=$(mktemp -d)
trying=
finish() {
    [ -z "$trying" ] || kill -- "-$trying" 2>/dev/null || true
    wait 2>/dev/null || true
    rm -rf "$work"
}
trap finish EXIT

mkdir "$work/try"
# 4,000,000 lines; no newline goes through a pipe that closes early.
awk 'BEGIN { for (i = 0; i < 4000000; i++) print "0 new 1 0 -" }' >"$work/long.script"
set -m
(cd crates/pmos && TMPDIR=$work/try exec rt try -- run "$work/none" serial <"$work/long.script") >"$work/log" 2>&1 &
trying=$!
set +m

while kill -0 "$trying" 2>/dev/null; do
    found=$(find "$work/try" -type f -name program -perm -u+x -size +0 2>/dev/null | head -n 1 || true)
    if [ -n "$found" ] && cp "$found" "$work/pmos" 2>/dev/null && "$work/pmos" init "$work/tried" 2>/dev/null; then
        mv "$work/pmos" "$file"
        exit 0
    fi
    rm -f "$work/tried"
    sleep 0.2
done
cat "$work/log"
echo "The program was not built."
exit 1
