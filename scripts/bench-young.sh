#!/usr/bin/env bash
# Runs the same scripts with a nursery and without one, `pmos run FILE young` beside `pmos run FILE serial`, and prints
# beside one another: the last lines of both, and the processors' seconds and the memory at the highest. Each is the best of
# five rounds, which take turns. The replies have to be the same but for the last lines.
#
#     scripts/bench-young.sh
#
# Then 256 objects are born, of which registers hold 64, and a sweep is made, a hundred times over, beside 1,000 old objects
# and beside 100,000 of them. What opening takes is not counted. The same with no object held tells what 64 that come in cost.
#
# 'scripts/build.sh' builds the program; PMOS names another one. Needs python3 and GNU time; where one is missing it says so
# and ends with 0.
set -euo pipefail
cd "$(dirname "$0")/.."

pmos=${PMOS:-$PWD/pmos}
[ -x "$pmos" ] || { echo "run scripts/build.sh first: it builds $pmos"; exit 1; }
for tool in python3 /usr/bin/time; do
    command -v "$tool" >/dev/null || { echo "Skipped: there is no $tool."; exit 0; }
done
work=$(mktemp -d)
trap 'rm -rf "$work"' EXIT

python3 - "$pmos" "$work" <<'PYTHON'
import os, random, resource, subprocess, sys

pmos, work = sys.argv[1:]
ROUNDS = int(os.environ.get("ROUNDS", "5"))
LINES = 65536


def births(lines):
    """Births into one register; each tenth object gets one of 16 names, in turn."""
    text = []
    born = 0
    while len(text) < lines:
        text.append("0 new 1 4 " + "ab" * 32)
        born += 1
        if born % 10 == 0 and len(text) < lines:
            text.append(f"0 root n{born // 10 % 16} 1")
    return text


def mixed(count):
    """Lines of all kinds, by eight clients: those of scripts/bench-peers.sh."""
    draw = random.Random(11)
    number = draw.randrange
    hexes = lambda most: draw.randbytes(number(most)).hex() or "-"
    kinds = [
        (18, lambda: f"new {number(32)} {number(1, 9)} {hexes(64)}"),
        (20, lambda: f"store {number(32)} {number(4)} {number(32)}"),
        (17, lambda: f"load {number(32)} {number(32)} {number(4)}"),
        (5, lambda: f"copy {number(32)} {number(32)}"),
        (5, lambda: f"put {number(32)} {number(16)} {hexes(16)}"),
        (5, lambda: f"data {number(32)}"),
        (4, lambda: f"clear {number(32)} {number(4)}"),
        (4, lambda: f"drop {number(32)}"),
        (4, lambda: f"root n{number(200)} {number(32)}"),
        (2, lambda: f"unroot n{number(200)}"),
        (5, lambda: f"find {number(32)} n{number(200)}"),
        (1, lambda: f"swap {number(32)} {number(4)} {number(32)} {number(32)}"),
        (6, lambda: f"id {number(32)}"),
    ]
    weights = [it[0] for it in kinds]
    lines = []
    for _ in range(count - 2):
        if number(20) == 0:
            lines.append(f"! gc {number(1, 24)}")
        else:
            lines.append(f"{number(8)} {draw.choices(kinds, weights)[0][1]()}")
    return [*lines, "0 save", "0 settle"]


def named_at_once(lines):
    """Each object gets a name as soon as it is born, so that it comes in at once."""
    text = []
    for index in range(lines // 2):
        text += ["0 new 1 4 " + "ab" * 32, f"0 root n{index % 16} 1"]
    return text


def old_objects(count):
    """So many objects in chains of a thousand, each with a name at its last."""
    text = []
    for index in range(count):
        text.append(f"0 new {1 + index % 2} 1 aa")
        if index % 1000:
            text.append(f"0 store {1 + index % 2} 0 {2 - index % 2}")
        if index % 1000 == 999:
            text.append(f"0 root c{index // 1000} {1 + index % 2}")
    return text


def rounds(times, held):
    """So many times 256 objects are born, registers hold so many of them, a sweep is made, and the registers are emptied."""
    text = []
    for _ in range(times):
        text += [f"1 new {index if index < held else held} 0 -" for index in range(256)]
        text += [f"1 drop {held}", "! young", "1 close"]
    return text


def fresh():
    store = f"{work}/store.pmos"
    if os.path.exists(store):
        os.remove(store)
    subprocess.run([pmos, "init", store], check=True)
    return store


def run(mode, store, lines):
    """Replies, last lines, processors' seconds and kilobytes of one run."""
    text = "".join(it + "\n" for it in lines).encode()
    before = resource.getrusage(resource.RUSAGE_CHILDREN)
    ran = subprocess.run(["/usr/bin/time", "-f", "%M", "-o", f"{work}/memory", pmos, "run", store, mode], input=text, capture_output=True)
    after = resource.getrusage(resource.RUSAGE_CHILDREN)
    if ran.returncode:
        sys.exit(f"{mode}: status {ran.returncode}: {ran.stderr.decode()}")
    seconds = after.ru_utime + after.ru_stime - before.ru_utime - before.ru_stime
    memory = int(open(f"{work}/memory").read().split()[-1])
    out = ran.stdout.decode().splitlines()
    at = next(index for index, it in enumerate(out) if it.startswith("end "))
    return out[:at], out[at:], seconds, memory


def beside(name, lines):
    best = {}
    for _ in range(ROUNDS):
        came = {mode: run(mode, fresh(), lines) for mode in ("serial", "young")}
        if came["serial"][0] != came["young"][0]:
            sys.exit(f"{name}: the replies differ")
        for mode, (_, tail, seconds, memory) in came.items():
            _, least, lowest = best.get(mode, (tail, seconds, memory))
            best[mode] = tail, min(least, seconds), min(lowest, memory)
    for mode in ("serial", "young"):
        tail, seconds, memory = best[mode]
        print(f"{name:34}  {mode:7}  {seconds:7.3f} s  {memory / 1024:8.1f} MiB  {' / '.join(tail)}")


def a_round(old):
    """Microseconds of a round beside so many old objects, with 64 objects held and with none."""
    TIMES = 100
    lines = old_objects(old)
    store = fresh()
    for at in range(0, len(lines), 60000):
        run("serial", store, [*lines[at : at + 60000], "0 save", "0 settle"])
    kept = open(store, "rb").read()
    best = {}
    for _ in range(ROUNDS):
        for times, held in ((0, 0), (TIMES, 0), (TIMES, 64)):
            open(store, "wb").write(kept)
            took = run("young", store, rounds(times, held))[2]
            best[times, held] = min(best.get((times, held), took), took)
    none, many = ((best[TIMES, held] - best[0, 0]) / TIMES * 1e6 for held in (0, 64))
    print(f"{f'a round beside {old:,} old objects':34}  {many:7.0f} us, with none held {none:7.0f} us")


beside("births into one register", births(LINES))
beside("lines of all kinds", mixed(LINES))
beside("births named at once", named_at_once(LINES))
a_round(1000)
a_round(100000)
PYTHON
