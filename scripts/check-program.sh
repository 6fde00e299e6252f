#!/usr/bin/env bash
# Runs the program on real files and streams: closed streams, a full device, files that cannot be had, two runs at
# once, a pipe that closes early, a run that is killed behind a settle, a standby, a script that is too long, little memory,
# what README shows, an installation, and the report, a script that is made and a trial beside what other programs
# find. It prints a table of what was wanted and what came, and ends with 0 where they are the same on every line. What the
# machine lacks is skipped, and its line says so.
#
# It takes the program that 'rt ci' or 'rt run' built, or the one that PMOS names; where there is neither, it builds one
# without proof.
set -uo pipefail
cd "$(dirname "$0")/.." || exit 1

work=$(mktemp -d) || exit 1
started=()
finish() {
    for id in "${started[@]}"; do kill "$id" 2>/dev/null; done
    wait 2>/dev/null
    rm -rf "$work"
}
trap finish EXIT
trap 'exit 1' INT TERM HUP
chmod 755 "$work"

failed=0
unproved=''
row() {
    local mark=ok
    case $3 in
    "$2") ;;
    skipped*) mark=- ;;
    *) mark=BAD failed=1 ;;
    esac
    printf '%-3s  %-34s  %-36s  %s\n' "$mark" "$1" "$2" "$3"
}
lacks() { ! command -v "$1" >/dev/null; }

if [ -n "${PMOS-}" ] && [ -x "$PMOS" ]; then
    echo "The program is $PMOS."
    cp "$PMOS" "$work/pmos"
elif [ -x crates/pmos/out/pmos ]; then
    echo "The program is crates/pmos/out/pmos, which rt proved and built."
    cp crates/pmos/out/pmos "$work/pmos"
elif lacks rt; then
    echo "Skipped: there is no crates/pmos/out/pmos, and no rt to build one."
    exit 0
else
    echo "The program is built without proof, since there is no crates/pmos/out/pmos."
    unproved=yes
    scripts/build-unproved.sh "$work/pmos"
fi
pmos=$work/pmos
if ! [ -f "$pmos" ]; then
    echo "There is no program to check."
    exit 1
fi
chmod 755 "$pmos"

# What an ordinary run makes.
cat >"$work/settle.script" <<'SCRIPT'
0 new 1 2 cafe
0 root a 1
0 save
0 settle
SCRIPT
printf '0 find 1 a\n0 data 1\n' >"$work/find.script"
"$pmos" init "$work/made" && cp "$work/made" "$work/settled" &&
    "$pmos" run "$work/settled" serial <"$work/settle.script" >"$work/settle.replies" &&
    cp "$work/settled" "$work/found" && "$pmos" run "$work/found" serial <"$work/find.script" >"$work/find.replies"
came=$?
row "an ordinary run" "0 ok 1,ok,begun 1,saved 1,0 0 1,ok 1,cafe,0 0 1" \
    "$came $(cat "$work/settle.replies" "$work/find.replies" | cut -d' ' -f2- | paste -sd,)"

# What README shows: each line behind a dollar is run in an empty folder, and prints what stands below it.
mkdir "$work/shown"
awk '/^```/ { if (++fences == 2) exit; next } fences == 1' README.md >"$work/shown.wanted"
(
    cd "$work/shown" || exit 1
    PATH=$work:$PATH
    while IFS= read -r line; do
        printf '$ %s\n' "$line"
        eval "$line" </dev/null
    done < <(sed -n 's/^\$ //p' "$work/shown.wanted")
) >"$work/shown.came" 2>&1
lines=$(grep -c '^\$ ' "$work/shown.wanted")
if cmp -s "$work/shown.wanted" "$work/shown.came"; then
    came="$lines lines as written"
else
    came=$(diff "$work/shown.wanted" "$work/shown.came" | sed -n '2,3p' | paste -sd,)
fi
[ "$lines" -gt 0 ] || came="nothing shown"
row "what README shows" "$lines lines as written" "$came"

# An installation in an empty folder: three files, of which the program runs, the page is the one of the documents, and bash
# completes a word. Nothing of it is left then.
mkdir "$work/prefix"
PMOS=$pmos scripts/install.sh "$work/prefix" >"$work/out" 2>&1
came="$? $(find "$work/prefix" -type f | wc -l) files $(grep -c '^Installed ' "$work/out") told"
"$work/prefix/bin/pmos" inspect "$work/settled" >"$work/out" </dev/null 2>&1
came+=", $? $(head -n 1 "$work/out")"
cmp -s docs/pmos.1 "$work/prefix/share/man/man1/pmos.1" || came+=", another page"
came+=", $(bash -c 'source "$1" && COMP_WORDS=(pmos run f t) && COMP_CWORD=3 && _pmos && echo "${COMPREPLY[@]}"' \
    bash "$work/prefix/share/bash-completion/completions/pmos" 2>&1)"
scripts/install.sh --remove "$work/prefix" >"$work/out" 2>&1
came+=", $? $(find "$work/prefix" -type f | wc -l) files $(grep -c '^Removed ' "$work/out") told"
row "an installation" "0 3 files 3 told, 0 store 1 2 1, threads, 0 0 files 3 told" "$came"

# Tells which of the stores above a file is, byte for byte.
is_which() {
    if cmp -s "$1" "$work/made"; then
        echo made
    elif cmp -s "$1" "$work/settled"; then
        echo settled
    else
        echo other
    fi
}

# Runs the program with these streams closed.
without() {
    local closed=$1
    shift
    (
        case $closed in *0*) exec 0<&- ;; esac
        case $closed in *1*) exec 1>&- ;; esac
        case $closed in *2*) exec 2>&- ;; esac
        exec "$pmos" "$@"
    )
}

for closed in none 0 1 2 01 02 12 012; do
    store=$work/store.$closed
    without "$closed" init "$store" </dev/null >"$work/out" 2>"$work/err"
    came="init $?"
    without "$closed" run "$store" serial <"$work/settle.script" >"$work/out" 2>"$work/err"
    came+=", run $?"
    without "$closed" run "$store" serial <"$work/find.script" >"$work/again" 2>"$work/err.again"
    came+=", $? $(is_which "$store")"
    case $closed in
    *0*) wanted="init 0, run 3, 3 made" ;;
    *1*) wanted="init 0, run 4, 4 settled" ;;
    *) wanted="init 0, run 0, 0 settled" ;;
    esac
    row "streams closed: $closed" "$wanted" "$came"
    case $closed in none | 2)
        cmp -s "$work/out" "$work/settle.replies" && cmp -s "$work/again" "$work/find.replies"
        row "  its replies" "the same" "$([ $? = 0 ] && echo the same || echo others)"
        ;;
    esac
done

# The text on standard error.
without 1 run "$work/made" serial <"$work/find.script" 2>"$work/err"
row "output closed: the text" "4 pmos: write fault" "$? $(cat "$work/err")"

fresh() { rm -f "$work/store" && cp "$work/made" "$work/store"; }

if [ -c /dev/full ]; then
    fresh
    "$pmos" run "$work/store" serial <"$work/settle.script" >/dev/full 2>/dev/null
    row "output on a full device" "4 settled" "$? $(is_which "$work/store")"
else
    row "output on a full device" "4 settled" "skipped: no /dev/full"
fi

mkdir "$work/folder"
"$pmos" init "$work/folder" 2>/dev/null
came=$?
"$pmos" run "$work/folder" serial <"$work/find.script" 2>/dev/null
came+=" $?"
"$pmos" inspect "$work/folder" 2>/dev/null
came+=" $?"
"$pmos" trial "$work/folder" 1 1 2>/dev/null
row "a folder as FILE" "5 5 5 5" "$came $?"
"$pmos" init "$work/nowhere/store" 2>/dev/null
row "FILE in a folder that is missing" "5" "$?"

# The report.
cp "$work/settled" "$work/store"
"$pmos" inspect "$work/store" >"$work/out" </dev/null
row "the report of a store" "0 settled, store 1 2 1,train 1 1,car 1 1 0 57 1 0,train 2 0,total 2 1 1" \
    "$? $(is_which "$work/store"), $(paste -sd, "$work/out")"
"$pmos" inspect "$work/missing" >"$work/out" 2>"$work/err"
came="$? $(cat "$work/out" "$work/err")"
[ -f "$work/missing" ] && came+=", a file of $(wc -c <"$work/missing") bytes"
row "the report of a missing FILE" "6 pmos: not a store, a file of 0 bytes" "$came"
rm -f "$work/missing"

# The dump, and a path.
"$pmos" dump "$work/store" >"$work/out" </dev/null
row "the dump of a store" "0 settled, pmos dump 1 2,object 1 2 cafe 0 0,root a 1,end" \
    "$? $(is_which "$work/store"), $(paste -sd, "$work/out")"
"$pmos" why "$work/store" 1 >"$work/out" </dev/null
came="$? $(cat "$work/out")"
"$pmos" why "$work/store" 2 >"$work/out" </dev/null
row "why, of an object and of none" "0 root a 1, 0 none, settled" "$came, $? $(cat "$work/out"), $(is_which "$work/store")"

# A dump that is restored, to a FILE that is not there, and dumped again; to one that has a byte; and what is no dump.
"$pmos" dump "$work/store" >"$work/dump" </dev/null
"$pmos" restore "$work/restored" <"$work/dump" >"$work/out" 2>&1
came="$?$(cat "$work/out")"
"$pmos" dump "$work/restored" >"$work/out" </dev/null
came+=" $? $(cmp -s "$work/dump" "$work/out" && echo the same), $("$pmos" inspect "$work/restored" </dev/null | head -n 1)"
row "a dump is restored and dumped again" "0 0 the same, store 1 2 1" "$came"
rm -f "$work/restored"
printf 'x' >"$work/restored"
"$pmos" restore "$work/restored" <"$work/dump" 2>"$work/err"
came="$? $(cat "$work/err") $(cat "$work/restored")"
rm -f "$work/restored"
printf 'pmos dump 1 2\nobject 1 1 - 7\nend\n' | "$pmos" restore "$work/restored" 2>"$work/err"
came+=", ${PIPESTATUS[1]} $(cat "$work/err")"
[ -e "$work/restored" ] && came+=", a file"
row "restore, to a byte, and what is no dump" "6 pmos: not empty 1 x, 2 pmos: dump line 2 limit" "$came"
head -c 268435457 /dev/zero | "$pmos" restore "$work/restored" 2>"$work/err"
came="${PIPESTATUS[1]} $(cat "$work/err")"
[ -e "$work/restored" ] && came+=", a file"
row "restore, of a byte over 256 MiB" "2 pmos: script too long" "$came"

# A standby. It lacks the car and the catalog of the first store, which come to lie on the same pages, so that both files
# are the same then; the second ship has nothing to write. The standby replies as the first store does.
fresh_standby() { rm -f "$work/standby" && cp "$work/made" "$work/standby"; }
ship() { "$pmos" ship "$@" </dev/null >"$work/out" 2>"$work/err"; }
cp "$work/settled" "$work/store"
fresh_standby
ship "$work/store" "$work/standby"
came="$? $(cat "$work/out" "$work/err")"
ship "$work/store" "$work/standby"
came+=", $? $(cat "$work/out" "$work/err"), $(is_which "$work/store") $(is_which "$work/standby")"
row "a store is shipped, twice" "0 shipped 1 2, 0 shipped 1 0, settled settled" "$came"
"$pmos" run "$work/standby" serial <"$work/find.script" >"$work/out"
row "  the replies of the standby" "0 the same" "$? $(cmp -s "$work/out" "$work/find.replies" && echo the same || echo others)"
fresh_standby
ship "$work/standby" "$work/store"
row "a standby that is ahead" "6 pmos: standby ahead 1 0, made settled" \
    "$? $(cat "$work/out" "$work/err"), $(is_which "$work/standby") $(is_which "$work/store")"

# A file is one store alone: it is locked as the first store, so it cannot be had as the other one. A file that is missing is
# made by the first call of its disk, and has no byte then. A folder is no file.
ship "$work/store" "$work/store"
row "a store is shipped to itself" "5 pmos: standby disk fault, settled" "$? $(cat "$work/out" "$work/err"), $(is_which "$work/store")"
ship "$work/store" "$work/missing"
came="$? $(cat "$work/out" "$work/err")"
[ -f "$work/missing" ] && came+=", a file of $(wc -c <"$work/missing") bytes"
row "OTHER is missing" "6 pmos: standby not a store, a file of 0 bytes" "$came"
rm -f "$work/missing"
ship "$work/missing" "$work/standby"
came="$? $(cat "$work/out" "$work/err")"
[ -f "$work/missing" ] && came+=", a file of $(wc -c <"$work/missing") bytes"
row "FILE is missing" "6 pmos: not a store, a file of 0 bytes, made" "$came, $(is_which "$work/standby")"
rm -f "$work/missing"
ship "$work/store" "$work/folder"
came="$? $(cat "$work/out" "$work/err")"
ship "$work/folder" "$work/standby"
row "OTHER, FILE is a folder" "5 pmos: standby disk fault, 5 pmos: disk fault, settled made" \
    "$came, $? $(cat "$work/out" "$work/err"), $(is_which "$work/store") $(is_which "$work/standby")"
for words in "$work/store" "$work/store $work/standby $work/standby" "-s $work/standby" "$work/store -s"; do
    # shellcheck disable=SC2086
    ship $words
    echo "$? $(cat "$work/out" "$work/err") $(is_which "$work/store") $(is_which "$work/standby")"
done | uniq >"$work/ends"
row "ship, of one file, three, an option" "1 pmos: usage settled made" "$(paste -sd, "$work/ends")"
if [ -c /dev/full ]; then
    "$pmos" ship "$work/store" "$work/standby" </dev/null >/dev/full 2>"$work/err"
    row "ship: a full device" "4 pmos: write fault, settled" "$? $(cat "$work/err"), $(is_which "$work/standby")"
else
    row "ship: a full device" "4 pmos: write fault, settled" "skipped: no /dev/full"
fi

# A script that is made, beside the one that this short program makes by the same rule.
if lacks python3 || lacks sha256sum; then
    row "a script that is made" "the same" "skipped: no python3 or no sha256sum"
else
    drawn() {
        python3 - "$1" <<'PYTHON'
import sys
state, lines = 7, []
def draw(limit):
    global state
    state = (state * 69069 + 1) % 2**32
    return state // 65536 % limit
for turn in range(1, int(sys.argv[1]) + 1):
    register, data, value, index, named = draw(64), draw(65536), draw(64), draw(4), draw(8)
    lines += [f"0 new {register} 4 {data:04x}", f"0 store {register} {index} {value}"]
    if named == 0:
        lines.append(f"0 root n{draw(16)} {register}")
    lines.append("! gc 3")
    if turn % 1000 == 0:
        lines += ["0 save", "0 settle"]
lines += ["0 save", "0 settle", "0 watch", "0 close", "! gc 1000"]
print("\n".join(lines))
PYTHON
    }
    for turns in 8001 12000 16000; do
        drawn "$turns" >"$work/made.script"
        "$pmos" make 7 "$turns" >"$work/out"
        row "a script of $turns turns that is made" "0 the same" \
            "$? $(cmp -s "$work/out" "$work/made.script" && echo the same || echo another)"
    done

    # A trial of it tells the digest of the replies that a run of it writes, and the same lines behind them.
    fresh
    seconds=$SECONDS
    "$pmos" trial "$work/store" 7 16000 >"$work/trial"
    came=$?
    [ $((SECONDS - seconds)) -le 5 ] || [ -n "$unproved" ] || came+=" slowly"
    cp "$work/store" "$work/tried"
    fresh
    "$pmos" trial "$work/store" 7 16000 >"$work/again"
    came+=" $?"
    cmp -s "$work/trial" "$work/again" && cmp -s "$work/store" "$work/tried" || came+=" others"
    fresh
    "$pmos" run "$work/store" serial <"$work/made.script" >"$work/out"
    {
        echo "digest $(head -n -2 "$work/out" | sha256sum | cut -d' ' -f1)"
        tail -n 2 "$work/out"
    } >"$work/wanted"
    cmp -s "$work/trial" "$work/wanted" && cmp -s "$work/store" "$work/tried" && came+=" as a run"
    row "a trial, twice, and a run" "0 0 as a run" "$came"
fi
if [ -c /dev/full ]; then
    "$pmos" make 1 1 >/dev/full 2>/dev/null
    came=$?
    "$pmos" inspect "$work/settled" >/dev/full 2>/dev/null
    came+=" $?"
    fresh
    "$pmos" trial "$work/store" 1 1 >/dev/full 2>/dev/null
    row "make, inspect, trial: a full device" "4 4 4" "$came $?"
    "$pmos" dump "$work/settled" >/dev/full 2>/dev/null
    came=$?
    "$pmos" why "$work/settled" 1 >/dev/full 2>/dev/null
    row "dump, why: a full device" "4 4" "$came $?"
fi

# A file that may only be read, also where this script runs as root.
fresh
chmod 444 "$work/store"
if lacks python3; then
    row "a FILE that may not be written" "5 made" "skipped: no python3"
else
    python3 - "$pmos" run "$work/store" serial <<'PYTHON' 2>/dev/null
import os, subprocess, sys
def leave_root():
    if os.getuid() == 0:
        os.setgroups([]); os.setgid(65534); os.setuid(65534)
try:
    looked = subprocess.run([sys.argv[1], "inspect", sys.argv[3]], preexec_fn=leave_root, stdout=subprocess.DEVNULL)
    ran = subprocess.run(sys.argv[1:], input=b"0 new 1 0 -\n", preexec_fn=leave_root)
    if looked.returncode != ran.returncode:
        sys.exit(98)
except (OSError, subprocess.SubprocessError):
    sys.exit(99)
sys.exit(ran.returncode if ran.returncode >= 0 else 128 - ran.returncode)
PYTHON
    came=$?
    if [ "$came" = 99 ]; then
        row "a FILE that may not be written" "5 made" "skipped: root cannot be left"
    else
        row "a FILE that may not be written" "5 made" "$came $(is_which "$work/store")"
    fi
fi

# A store that is made long: a file of 1 GiB, of which the pages behind the header are few. It is opened, and a page that
# is damaged is told, in little time and with little memory: no more is read than the pages that are named.
if ! truncate -s 1G "$work/grown" 2>/dev/null; then
    row "a store of 1 GiB" "0 1, ok,cafe" "skipped: no file of 1 GiB"
else
    cp "$work/settled" "$work/long.store" && truncate -s 1G "$work/long.store"
    # A build without proof takes too much memory itself.
    kibibytes=65536
    [ -n "$unproved" ] && kibibytes=unlimited
    seconds=$SECONDS
    (ulimit -d "$kibibytes" && exec "$pmos" run "$work/long.store" serial) <"$work/find.script" >"$work/out" 2>/dev/null
    came="$? $(cut -d' ' -f2- <"$work/out" | paste -sd,)"
    # The object's car stands on page 3: a byte of the car's head that is another.
    printf 'X' | dd of="$work/long.store" bs=1 seek=$((3 * 16384)) conv=notrunc 2>/dev/null
    (ulimit -d "$kibibytes" && exec "$pmos" run "$work/long.store" serial) <"$work/find.script" 2>&1 >"$work/out" |
        cut -d' ' -f1-4 >"$work/err"
    came+=", ${PIPESTATUS[0]} $(cat "$work/err")"
    [ $((SECONDS - seconds)) -le 10 ] || came+=", slowly"
    row "a store of 1 GiB" "0 ok 1,cafe,0 0 1, 6 pmos: damaged page 3" "$came"
    rm -f "$work/long.store"
fi
rm -f "$work/grown"

# More replies than a pipe holds.
{
    cat "$work/settle.script"
    printf '0 new 2 0 '
    printf 'ab%.0s' {1..4000}
    printf '\n'
    printf '0 data 2\n%.0s' {1..100}
} >"$work/long.script"

# A run whose replies nobody reads yet keeps the store open: a second run has to leave it.
if lacks mkfifo; then
    row "two runs at once, and init" "0, 5 5, settled" "skipped: no mkfifo"
else
    fresh
    mkfifo "$work/pipe"
    "$pmos" run "$work/store" serial <"$work/long.script" >"$work/pipe" &
    first=$!
    started+=("$first")
    exec 7<"$work/pipe"
    IFS= read -r _ <&7
    cp "$work/store" "$work/during"
    "$pmos" run "$work/store" serial <"$work/settle.script" >"$work/out" 2>/dev/null
    second=$?
    cmp -s "$work/store" "$work/during" || second+=" changed"
    "$pmos" init "$work/store" 2>/dev/null
    second+=" $?"
    [ -s "$work/out" ] && second+=" replies"
    cat <&7 >/dev/null
    exec 7<&-
    wait "$first"
    row "two runs at once, and init" "0, 5 5, settled" "$?, $second, $(is_which "$work/store")"
    started=()
fi

# What was acknowledged is told: the reply stands in the output while the run still makes its steps, and the store that is
# left when it is killed there has the copy.
{
    cat "$work/settle.script"
    echo '! gc 4294967295'
} >"$work/told.script"
fresh
"$pmos" run "$work/store" serial <"$work/told.script" >"$work/out" 2>/dev/null &
first=$!
started+=("$first")
for _ in $(seq 300); do
    grep -q '^0 saved 1$' "$work/out" && break
    sleep 0.1
done
came=$(paste -sd, "$work/out")
kill -KILL "$first" 2>/dev/null
wait "$first" 2>/dev/null
started=()
row "a settle is told before the run ends" "0 ok 1,0 ok,0 begun 1,0 saved 1 settled" "$came $(is_which "$work/store")"

# By workers, which take turns or have passes, the lines of each client keep their order, and nothing else does.
for client in 0 1 2 3 4 5 6 7; do
    echo "$client new 1 0 0$client"
    echo "$client root c$client 1"
    echo "$client find 2 c$client"
    echo "$client data 2"
done >"$work/threads.script"
printf '! gc 500\n! flush 20\n' >>"$work/threads.script"
for mode in threads seats; do
    fresh
    "$pmos" run "$work/store" "$mode" <"$work/threads.script" >"$work/out"
    came=$?
    wrong=""
    for client in 0 1 2 3 4 5 6 7; do
        [ "$(grep "^$client " "$work/out" | sed 's/ok [1-8]$/ok ID/' | paste -sd,)" = "$client ok ID,$client ok,$client ok ID,$client 0$client" ] ||
            wrong="$wrong $client"
    done
    row "eight clients, $mode" "0 32 end 500 none" \
        "$came $(grep -c '^[0-7] ' "$work/out") $(tail -n 1 "$work/out" | cut -d ' ' -f 1,2) ${wrong:-none}"

    fresh
    "$pmos" run "$work/store" "$mode" <"$work/settle.script" >"$work/out" 2>/dev/null
    came=$?
    row "a copy that settles, $mode" "0 0 ok 1,0 ok,0 begun 1,0 saved 1 settled" \
        "$came $(head -n 4 "$work/out" | paste -sd,) $(is_which "$work/store")"
done

# With a nursery an object that nothing leads to at a sweep never comes into a car; a copy has what its names reach; and no
# line asks for a watch.
fresh
"$pmos" run "$work/store" young <examples/young.script >"$work/out" 2>"$work/err"
came=$?
row "what dies young" "0 11 end 0 0 3,young 0 3" "$came $(grep -c '^0 ok' "$work/out") $(tail -n 2 "$work/out" | paste -sd,)"
fresh
"$pmos" run "$work/store" young last <"$work/settle.script" >"$work/out" 2>/dev/null
came=$?
row "a copy that settles with a nursery" "0 0 ok 1,0 ok,0 begun 1,0 saved 1,end 0 0 1,young 0 1 settled" \
    "$came $(paste -sd, "$work/out") $(is_which "$work/store")"
fresh
printf '0 new 1 0 -\n0 watch\n' | "$pmos" run "$work/store" young >"$work/out" 2>"$work/err"
came=$?
row "a watch in a run with a nursery" "2 pmos: script line 2 word made" "$came $(cat "$work/out" "$work/err") $(is_which "$work/store")"

# A word behind FILE and MODE says to which train an object moves. If it is no PLACE, or stands elsewhere, nothing is done.
counted() { sort "$1" | uniq -c | awk '{ times = $1; $1 = ""; print times " times" $0 }' | paste -sd,; }
for place in first middle last; do
    fresh
    "$pmos" run "$work/store" serial "$place" <"$work/settle.script" >"$work/out"
    echo "$? $(cmp -s "$work/out" "$work/settle.replies" && is_which "$work/store")"
    fresh
    "$pmos" run "$work/store" threads "$place" <"$work/settle.script" >"$work/out"
    echo "$? $(is_which "$work/store")"
done >"$work/ends"
row "a PLACE, serial and in threads" "6 times 0 settled" "$(counted "$work/ends")"
fresh
for words in "run $work/store serial First" "run $work/store serial lasts" "run $work/store serial 1" \
    "run $work/store threads middle first" "run $work/store last serial" "run $work/store last" \
    "inspect $work/store last" "init $work/none last" "trial $work/store 1 1 last"; do
    # shellcheck disable=SC2086
    "$pmos" $words <"$work/settle.script" >"$work/out" 2>"$work/err"
    echo "$? $(cat "$work/out" "$work/err") $(is_which "$work/store")"
done >"$work/ends"
[ -e "$work/none" ] && echo "a file is made" >>"$work/ends"
row "a PLACE that is none" "9 times 1 pmos: usage made" "$(counted "$work/ends")"

# An object that three trains name. Each opening opens a train, and what is born goes into it: so after four runs trains 1,
# 2, 3 and 4 have one car each, and that has one object. Those of the trains 2, 3 and 4 have names, and each has a field
# that holds object 1, which has no name any more. The fifth run opens train 5, and makes three events:
#  1. The oldest train that has a car, train 1, is selected. It is not the open one.
#  2. No change is queued, and fields of other trains name object 1. So train 1 is not given up, and its car begins to be
#     emptied. There is no anchor, so object 1 becomes it, and its train is picked now: of trains 2, 3 and 4, whose objects
#     name it. No name and no register does, so the open train is not among them. The first is train 2, the middle one is
#     at place 3 / 2 = 1, from 0, which is train 3, and the last is train 4.
#  3. No source names an object that has moved, and the anchor lies in the car: it moves to that train, and there it goes
#     into the last car, as it fits.
# So in the copy that settles then the car of that train has two objects, and car 1 none. The report opens that copy: car 1
# is gone, and the trains that still have objects are numbered from 1 on: the cars 2, 3 and 4 are in the trains 1, 2 and 3.
# An object of one field takes 29 bytes, object 1 takes 17, and a car's head 14. Each car remembers the name of its own
# object, and that of object 1 the fields of the two others as well; the third field lies in that car itself.
cp "$work/made" "$work/base"
grown=''
printf '0 new 1 0 -\n0 root a 1\n0 save\n0 settle\n' | "$pmos" run "$work/base" serial >"$work/out" || grown+="first "
for line in '0 root b 2' '0 root c 2' '0 root d 2\n0 unroot a'; do
    printf '0 find 1 a\n0 new 2 1 -\n0 store 2 0 1\n%b\n0 save\n0 settle\n' "$line" |
        "$pmos" run "$work/base" serial >"$work/out" || grown+="$line "
done
# The report of the store, beside what is wanted: 'as wanted', or the report.
reported() {
    "$pmos" inspect "$work/store" </dev/null >"$work/report$1"
    echo "$? $(cmp -s "$work/report$1" "$work/wanted" && echo as wanted || paste -sd, "$work/report$1")"
}
differing() { for place in first middle last; do cksum <"$work/report.$place"; done | sort -u | wc -l; }
one="1 0 43 1 0" two="2 0 60 3 0"
for place in '' first middle last; do
    case $place in
    middle) cars=("$one" "$two" "$one") ;;
    last) cars=("$one" "$one" "$two") ;;
    *) cars=("$two" "$one" "$one") ;;
    esac
    printf '%s\n' "store 5 5 3" "train 1 1" "car 2 ${cars[0]}" "train 2 1" "car 3 ${cars[1]}" "train 3 1" "car 4 ${cars[2]}" \
        "train 4 0" "total 4 3 4" >"$work/wanted"
    cp "$work/base" "$work/store"
    # shellcheck disable=SC2086
    printf '! gc 3\n0 save\n0 settle\n' | "$pmos" run "$work/store" serial $place >"$work/out"
    came="$grown$? $(tail -n 1 "$work/out")"
    row "three trains: ${place:-no PLACE}" "0 end 3 0 4, 0 as wanted" "$came, $(reported ".$place")"
done
row "  reports that differ" "3" "$(differing)"

# The same in one run. A train takes 1,024 births, so objects 1, 1,025, 2,049 and 3,073 are born in the trains 1 to 4. The
# last three have names, and fields that hold object 1, which has neither a name nor a register once all registers are
# empty. A car takes 962 objects of 17 bytes, or one of 29 and 961 of 17: the trains 1, 2 and 3 have the cars 1 and 2, 3
# and 4, 5 and 6, of 962 and 62 objects, and train 4 has car 7. Of events there are:
#  - one that selects train 1, which is not the open one;
#  - 967 that apply the changes in the queue of car 1: of register 2, which is given object 1; of register 3, which is
#    given 961 objects of that car and then one of car 2; of three fields; and of register 2, which is emptied;
#  - 63 that apply those of car 2, of register 3: it is given 62 objects there and then one of train 2;
#  - one that begins with car 1, and notes object 1 as the anchor, for the train that is picked of 2, 3 and 4;
#  - one that moves it to that train's last car: 4, 6 or 7.
# No object is gone. The report finds 961 objects in car 1, and the rest as above.
{
    echo '0 new 2 0 -'
    for register in 4 5 6; do
        printf '0 new 3 0 -\n%.0s' {1..1023}
        echo "0 new $register 1 -"
    done
    printf '0 store %s 0 2\n' 4 5 6
    printf '0 root a 4\n0 root b 5\n0 root c 6\n0 close\n! gc 1033\n0 save\n0 settle\n'
} >"$work/trains.script"
rest="62 0 1068 0 0" more="63 0 1085 3 0"
for place in first middle last; do
    case $place in
    first) cars=("$more" "$rest" "$one") ;;
    middle) cars=("$rest" "$more" "$one") ;;
    last) cars=("$rest" "$rest" "$two") ;;
    esac
    printf '%s\n' "store 1 3074 3" "train 1 2" "car 1 961 0 16351 0 0" "car 2 $rest" \
        "train 2 2" "car 3 962 0 16380 1 0" "car 4 ${cars[0]}" "train 3 2" "car 5 962 0 16380 1 0" "car 6 ${cars[1]}" \
        "train 4 1" "car 7 ${cars[2]}" "train 5 0" "total 5 7 3073" >"$work/wanted"
    fresh
    "$pmos" run "$work/store" serial "$place" <"$work/trains.script" >"$work/out"
    came="$? $(tail -n 1 "$work/out")"
    row "1,024 births a train: $place" "0 end 1033 0 3073, 0 as wanted" "$came, $(reported ".$place")"
done
row "  reports that differ" "3" "$(differing)"

fresh
"$pmos" run "$work/store" serial <"$work/long.script" 2>/dev/null | true
row "a pipe that closes early" "4 settled" "${PIPESTATUS[0]} $(is_which "$work/store")"

fresh
head -c 314572800 /dev/zero | tr '\0' '0' | "$pmos" run "$work/store" serial >"$work/out" 2>/dev/null
row "a script of 300 MB" "2 made" "${PIPESTATUS[2]} $(is_which "$work/store")"

# More and more memory, from what the program needs to start: it ends for want of memory with a first part of the
# replies, over and over, and at last it is whole.
wanted="7 with a first part, then 0 settled"
if [ -n "$unproved" ]; then
    row "little memory" "$wanted" "skipped: this build takes too much itself"
else
    fresh
    "$pmos" run "$work/store" serial <"$work/long.script" >"$work/whole"
    came='' ended=0 replied=0
    starts() { (ulimit -d "$1" && exec "$pmos") 2>/dev/null; [ $? = 1 ]; } 2>/dev/null
    kibibytes=96
    until starts "$kibibytes" || [ "$kibibytes" -ge 65536 ]; do kibibytes=$((kibibytes + 32)); done
    for _ in $(seq 400); do
        fresh
        (ulimit -d "$kibibytes" && exec "$pmos" run "$work/store" serial) <"$work/long.script" >"$work/out" 2>/dev/null
        end=$?
        case $end in
        0) cmp -s "$work/out" "$work/whole" || end="0 with other replies" ;;
        7)
            ended=$((ended + 1))
            [ -s "$work/out" ] && replied=$((replied + 1))
            cmp -s -n "$(wc -c <"$work/out")" "$work/out" "$work/whole" || end="7 with other replies"
            ;;
        esac
        [ "$end" = 7 ] && [ "$(is_which "$work/store")" != other ] || break
        kibibytes=$((kibibytes + 32))
    done
    if [ "$end" = 0 ] && [ "$ended" = 0 ]; then
        came="skipped: the limit is not kept here"
    elif [ "$end" = 0 ]; then
        came="7 with a first part, then 0 $(is_which "$work/store")"
    else
        came="$end $(is_which "$work/store") at $kibibytes KiB"
    fi
    row "little memory" "$wanted" "$came"
    echo "     ($ended runs ended with 7, $replied of them with replies)"
fi

# Sizes that no case reaches. What is wanted is worked out from the rules of scripts and reports. A build without proof is
# too slow for them.
sizes=(copies steps bound comments names births cars trains)
if [ -n "$unproved" ] || lacks python3; then
    for size in "${sizes[@]}"; do row "size: $size" "" "skipped: python3 and a proved program are needed"; done
else
    # Writes the script of a size to standard output.
    script_of() {
        python3 - "$@" <<'PYTHON'
import sys
size, lines = sys.argv[1], []
if size == "copies":
    lines = ["0 new 1 0 00", "0 root a 1"]
    for copy in range(1100):
        lines += [f"0 put 1 0 {copy % 256:02x}", "0 save", "0 settle"]
elif size == "steps":
    lines = ["0 new 1 0 00", "0 root a 1", "0 watch", "! gc 10000001"]
elif size == "comments":
    lines = ["#" + "x" * 4_999_999] * 40 + ["0 new 1 0 -"]
elif size == "names":
    lines = ["0 new 1 0 -"] + [f"0 root n{name} 1" for name in range(4097)] + ["0 save", "0 settle"]
elif size == "births":
    lines = [f"0 new {birth % 1024} 0 {birth:04x}" for birth in range(2049)] + ["0 data 0", "0 data 1023", "0 watch"]
elif size == "cars":
    # Two objects of 4,096 bytes and 255 fields fill a car: 17 + 255 * 12 + 4096 bytes each.
    data = "ab" * 4096
    for number in range(10200):
        lines += [f"0 new 1 255 {data}"] + (["0 store 1 0 2"] if number else []) + ["0 copy 2 1"]
    lines += ["0 root last 1", "0 save", "0 put 1 0 ff", "0 settle"]
print("\n".join(lines))
PYTHON
    }
    # Runs a script on the store, and leaves what it wrote.
    run_size() { script_of "$@" | "$pmos" run "$work/store" serial >"$work/out" 2>"$work/err"; }

    fresh
    run_size copies
    came="$? $(tail -n 2 "$work/out" | head -n 1)"
    printf '0 find 1 a\n0 data 1\n0 save\n' | "$pmos" run "$work/store" serial >"$work/out"
    row "1,100 copies in one run" "0 0 saved 1100, 0 0 4b,0 begun 1101" "$came, $? $(sed -n 2,3p "$work/out" | paste -sd,)"

    fresh
    run_size steps
    row "10,000,001 events" "0 end 10000001 1111111 1,watch 1 bound 1052676 done 1111111 old 0" \
        "$? $(tail -n 2 "$work/out" | paste -sd,)"

    # The first collection takes 15 events, each further one nine: 1 + (14,800,000 - 15) / 9 of them are completed.
    fresh
    "$pmos" run "$work/store" serial <examples/bound.script >"$work/out"
    row "a watch's bound is reached" "0 end 14800000 1644443 1,watch 1 bound 1052676 done 1644443 old 0" \
        "$? $(tail -n 2 "$work/out" | paste -sd,)"

    fresh
    run_size comments
    row "a script of 200 MB" "0 0 ok 1,end 0 0 1" "$? $(paste -sd, "$work/out")"

    fresh
    run_size names
    came="$? $(sed -n '4097,4098p' "$work/out" | paste -sd,)"
    row "4,096 names, and the report" "0 0 ok,0 too-many-roots, 0 store 1 2 4096" \
        "$came, $("$pmos" inspect "$work/store" >"$work/out"; echo $?) $(head -n 1 "$work/out")"

    # The births of a train are 1,024, so they lie in three trains; 1,023 may still be born in the open one. The bound
    # is 3 * (2049 + 1023 + 2)^2.
    fresh
    run_size births
    row "2,049 births" "0 0800,07ff end 0 0 2049 watch 1 bound 28348428 done 0 old 2049" \
        "$? $(sed -n '2050,2051p' "$work/out" | cut -d' ' -f2 | paste -sd,) $(tail -n 2 "$work/out" | paste -sd' ')"

    # 5,100 cars, each on a page: a page of the catalog has room for 286 of them.
    fresh
    run_size cars
    came="$? $(tail -n 2 "$work/out" | head -n 1)"
    printf '0 find 1 last\n0 data 1\n' | "$pmos" run "$work/store" serial >"$work/out"
    came+=", $? $(tail -n 2 "$work/out" | head -n 1 | cut -c1-6)"
    row "5,100 cars, changed during a copy" "0 0 saved 1, 0 0 abab, total 11 5100 10200" \
        "$came, $("$pmos" inspect "$work/store" | tail -n 1)"

    # Each opening opens a train, and what is born in it stays there. So this takes a thousand runs, a minute or more.
    if [ -z "${LONG-}" ]; then
        row "1,001 trains" "0 total 1001 1000 1000" "skipped: LONG is not set"
    else
        fresh
        came=0
        for number in $(seq 1000); do
            printf '0 new 1 0 -\n0 root n%d 1\n0 save\n0 settle\n' "$number" |
                "$pmos" run "$work/store" serial >"$work/out" 2>"$work/err" || came=$?
        done
        row "1,001 trains" "0 total 1001 1000 1000" "$came $("$pmos" inspect "$work/store" | tail -n 1)"
    fi
fi

exit "$failed"
