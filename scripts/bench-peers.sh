#!/usr/bin/env bash
# Runs the same scripts through pmos and through SQLite (scripts/peer-sqlite.c: a table of objects, one of fields and one of
# names), and prints beside one another: seconds of the clock and of the processors, memory at the highest, and the bytes
# of the file. Each is the best of five rounds. The replies have to be the same but for `watch` and the last lines.
#
#     scripts/bench-peers.sh [PICTURE]     also writes a picture of the processors' seconds, as SVG
#
# 'scripts/build.sh' builds the program; PMOS names another one. Needs python3, GNU time, cc and SQLite's header and
# library; where one is missing it says so and ends with 0.
set -euo pipefail
cd "$(dirname "$0")/.."

pmos=${PMOS:-$PWD/pmos}
[ -x "$pmos" ] || { echo "run scripts/build.sh first: it builds $pmos"; exit 1; }
for tool in cc python3 /usr/bin/time; do
    command -v "$tool" >/dev/null || { echo "Skipped: there is no $tool."; exit 0; }
done
work=$(mktemp -d)
trap 'rm -rf "$work"' EXIT
cc -O2 scripts/peer-sqlite.c -lsqlite3 -o "$work/peer" 2>"$work/err" || { echo "Skipped: SQLite's header or library is not there."; exit 0; }

python3 - "$pmos" "$work" "${1-}" <<'PYTHON'
import os, random, re, subprocess, sys

pmos, work, picture = sys.argv[1:]
ROUNDS = 5


def mixed(count):
    """Lines of all kinds, by eight clients."""
    draw = random.Random(11)
    number = draw.randrange
    hexes = lambda most: draw.randbytes(number(most)).hex() or "-"
    kinds = [
        (18, lambda: f"new {number(32)} {number(1, 9)} {hexes(64)}"),
        (20, lambda: f"store {number(32)} {number(4)} {number(32)}"),
        (17, lambda: f"load {number(32)} {number(32)} {number(4)}"),
        (5, lambda: f"copy {number(32)} {number(32)}"),
        (5, lambda: f"put {number(32)} {number(16)} {hexes(16)}"),
        (5, lambda: f"data {number(32)}"),
        (4, lambda: f"clear {number(32)} {number(4)}"),
        (4, lambda: f"drop {number(32)}"),
        (4, lambda: f"root n{number(200)} {number(32)}"),
        (2, lambda: f"unroot n{number(200)}"),
        (5, lambda: f"find {number(32)} n{number(200)}"),
        (1, lambda: f"swap {number(32)} {number(4)} {number(32)} {number(32)}"),
        (6, lambda: f"id {number(32)}"),
    ]
    weights = [it[0] for it in kinds]
    lines = []
    for _ in range(count - 2):
        if number(20) == 0:
            lines.append(f"! gc {number(1, 24)}")
        else:
            lines.append(f"{number(8)} {draw.choices(kinds, weights)[0][1]()}")
    return [*lines, "0 save", "0 settle"]


def chain(count):
    """Objects of 200 bytes, each of which holds the one before it; the last one has a name."""
    hexes = "ab" * 200
    lines = []
    for at in range(count):
        lines.append(f"0 new {at % 2} 1 {hexes}")
        if at:
            lines.append(f"0 store {at % 2} 0 {(at + 1) % 2}")
    return [*lines, f"0 root last {(count - 1) % 2}", "0 save", "0 settle"]


def remove(store):
    for end in ("", "-wal", "-shm"):
        if os.path.exists(store + end):
            os.remove(store + end)


def measured(words, text, prepare, store):
    best = None
    for _ in range(ROUNDS):
        prepare()
        ran = subprocess.run(["/usr/bin/time", "-f", "%e %U %S %M", *words], input=text, capture_output=True)
        if ran.returncode:
            sys.exit(f"{words}: {ran.stderr.decode()}")
        clock, user, system, memory = re.findall(rb"^([\d.]+) ([\d.]+) ([\d.]+) (\d+)$", ran.stderr, re.M)[-1]
        came = float(clock), float(user) + float(system), int(memory) / 1024
        best = came if best is None else tuple(map(min, best, came))
    size = sum(os.path.getsize(store + end) for end in ("", "-wal") if os.path.exists(store + end))
    return *best, size / 1e6, ran.stdout


def replies(out):
    return [it for it in out.decode().splitlines() if not it.startswith(("end ", "watch "))]


def both(name, lines):
    text = "".join(it + "\n" for it in lines).encode()
    store, base = f"{work}/store.pmos", f"{work}/store.db"

    def fresh():
        remove(store)
        subprocess.run([pmos, "init", store], check=True)

    ours = measured([pmos, "run", store, "serial"], text, fresh, store)
    theirs = measured([f"{work}/peer", base], text, lambda: remove(base), base)
    same = replies(ours[4]) == replies(theirs[4])
    for who, it in (("pmos", ours), ("SQLite", theirs)):
        print(f"{name:34}  {who:6}  {it[0]:7.2f} s  {it[1]:7.2f} s  {it[2]:7.1f} MB  {it[3]:7.2f} MB")
    if not same:
        sys.exit(f"{name}: other replies")
    return name, ours[1], theirs[1]


def draw(rows, path):
    """A picture with two bars a row."""
    width, left, step = 640, 250, 52
    most = max(max(it[1:]) for it in rows)
    parts = [f'<svg xmlns="http://www.w3.org/2000/svg" width="{width}" height="{step * len(rows) + 46}" font-family="sans-serif" font-size="13">']
    parts.append('<rect width="100%" height="100%" fill="white"/>')
    for at, (name, *times) in enumerate(rows):
        top = 12 + at * step
        parts.append(f'<text x="{left - 10}" y="{top + 22}" text-anchor="end">{name}</text>')
        for place, (time, color) in enumerate(zip(times, ("#1b6ca8", "#c9782a"))):
            length = max(1, time / most * (width - left - 80))
            parts.append(f'<rect x="{left}" y="{top + place * 18}" width="{length:.0f}" height="15" fill="{color}"/>')
            parts.append(f'<text x="{left + length + 6:.0f}" y="{top + 12 + place * 18}">{time:.2f} s</text>')
    top = 12 + len(rows) * step
    for place, (word, color) in enumerate((("pmos", "#1b6ca8"), ("SQLite", "#c9782a"))):
        parts.append(f'<rect x="{left + place * 90}" y="{top + 4}" width="12" height="12" fill="{color}"/>')
        parts.append(f'<text x="{left + 18 + place * 90}" y="{top + 15}">{word}</text>')
    with open(path, "w") as out:
        out.write("\n".join([*parts, "</svg>", ""]))


print(f"{'':34}  {'':6}  {'clock':>9}  {'processors':>9}  {'memory':>10}  {'file':>10}")
rows = [both(f"{count:,} lines of all kinds", mixed(count)) for count in (16384, 65536)]
rows += [both(f"{count:,} objects of 200 bytes", chain(count)) for count in (7000, 28000)]
if picture:
    draw(rows, picture)
PYTHON
