#!/usr/bin/env bash
# Makes a store, runs the first script on it and then the second. Then it shows what a crash leaves: the third script ends
# with a copy that is written and not settled, and the second one finds the copy of before; and a copy of the file that was
# taken before the first settle holds the empty copy. A standby gets the copy that settled, is given nothing more by a second
# ship, and replies as the store does.
# The collector frees what is not reachable. Then come a list from which an element is taken out, with the reports of its
# store, two clients, four clients in three modes, objects that die young, a watch whose bound is reached, and a trial of a
# script that is made from a seed. It takes the program that was proved and built, where there is one, and else builds one without proof.
set -euo pipefail
cd "$(dirname "$0")/.."

work=$(mktemp -d)
trap 'rm -rf "$work"' EXIT

unproved=''
if [ -x pmos ]; then
    pmos=$PWD/pmos
    echo "The program is ./pmos, which scripts/build.sh proved and built."
elif [ -x crates/pmos/out/pmos ]; then
    pmos=$PWD/crates/pmos/out/pmos
    echo "The program is crates/pmos/out/pmos, which rt proved and built."
else
    pmos=$work/pmos
    unproved=yes
    echo "Building the program without proof, in about a minute; scripts/build.sh proves and builds it."
    scripts/build-unproved.sh "$pmos"
fi

show() {
    echo
    echo "The script, $1:"
    sed 's/^/    /' "$1"
    echo "The replies of 'pmos run $2 ${3-serial}':"
    "$pmos" run "$work/$2" "${3-serial}" <"$1" | sed 's/^/    /'
}
report() {
    echo
    echo "The report of the store, 'pmos inspect $1':"
    "$pmos" inspect "$work/$1" | sed 's/^/    /'
}

"$pmos" init "$work/store.pmos"
echo
echo "'pmos init store.pmos' made a store of $(wc -c <"$work/store.pmos") bytes."
cp "$work/store.pmos" "$work/before.pmos"
show examples/first.script store.pmos
show examples/second.script store.pmos
echo
echo "A run that ends with a copy half written, as a crash would leave it:"
show examples/third.script store.pmos
echo
echo "The store holds the copy that settled, whole:"
show examples/second.script store.pmos
echo
echo "On the copy of the file that was taken before the first settle:"
show examples/second.script before.pmos
echo
echo "A standby: a second store gets the copy that settled, 'pmos ship store.pmos standby.pmos': its number, and how many"
echo "pages were written. The same again has nothing to write. On the standby the replies are those of the store:"
"$pmos" init "$work/standby.pmos"
for _ in 1 2; do
    "$pmos" ship "$work/store.pmos" "$work/standby.pmos" | sed 's/^/    /'
done
show examples/second.script standby.pmos
echo
echo "The collector, on the store that holds the copy:"
show examples/fourth.script store.pmos
report store.pmos
echo
echo "Its copy as lines of text, 'pmos dump store.pmos':"
"$pmos" dump "$work/store.pmos" | sed 's/^/    /'
echo "Why object 2 is kept, 'pmos why store.pmos 2':"
"$pmos" why "$work/store.pmos" 2 | sed 's/^/    /'
echo
echo "A list, and an element that is taken out of it:"
"$pmos" init "$work/list.pmos"
show examples/list.script list.pmos
report list.pmos
show examples/taken-out.script list.pmos
report list.pmos
echo
echo "Two clients:"
"$pmos" init "$work/clients.pmos"
show examples/clients.script clients.pmos
echo
echo "Four clients make 500 objects each, beside 3,000 steps of the collector, on three stores: one after another, by threads"
echo "that take turns, and by threads with passes. Each reply line is there, in whichever order; the end lines tell the steps,"
echo "the collections and how many objects stand:"
for client in 0 1 2 3; do
    for _ in $(seq 500); do
        echo "$client new 1 0 0$client"
    done
    echo "$client root c$client 1"
done >"$work/four.script"
echo '! gc 3000' >>"$work/four.script"
for mode in serial threads seats; do
    "$pmos" init "$work/$mode.pmos"
    "$pmos" run "$work/$mode.pmos" "$mode" <"$work/four.script" >"$work/$mode.replies"
    printf '    %-8s %s replies, %s\n' "$mode" "$(grep -c '^[0-3] ' "$work/$mode.replies")" "$(tail -n 1 "$work/$mode.replies")"
done
echo
echo "With a nursery: two of five objects die young. The last line tells that none is young, and that three came in:"
"$pmos" init "$work/young.pmos"
show examples/young.script young.pmos young
echo
if [ -n "$unproved" ]; then
    echo "A watch whose bound is reached, examples/bound.script, takes the proved program a few seconds and this one half an hour."
else
    echo "A watch whose bound is reached: the collector completes more collections than the bound says, so none of the two"
    echo "objects that were garbage when the watch was set is left, and 'old' is 0."
    "$pmos" init "$work/bound.pmos"
    show examples/bound.script bound.pmos
fi
echo
echo "A script that is made from seed 1, of one turn, 'pmos make 1 1':"
"$pmos" make 1 1 | sed 's/^/    /'
echo "It is run on a new store, 'pmos trial new.pmos 1 1', which tells the SHA-256 of the replies:"
"$pmos" init "$work/new.pmos"
"$pmos" trial "$work/new.pmos" 1 1 | sed 's/^/    /'
