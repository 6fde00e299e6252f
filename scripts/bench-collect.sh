#!/usr/bin/env bash
# Measures the collector on real files, each row at a small size and a larger one, and prints what is wanted beside what
# came:
#
# - mixed commands on heaps of 10,000 and of 30,000 objects;
# - 4,000,000,000 events that do nothing; births and names with three events between;
# - events where one object is held by 20,000 fields, where many cars have changes waiting, where many objects die young,
#   and where all of a graph lives, five times over.
#
# 'scripts/build.sh' builds the program; PMOS names another one. Needs python3.
set -euo pipefail
cd "$(dirname "$0")/.."

pmos=${PMOS:-$PWD/pmos}
[ -x "$pmos" ] || { echo "run scripts/build.sh first: it builds $pmos"; exit 1; }
work=$(mktemp -d)
trap 'rm -rf "$work"' EXIT

python3 - "$pmos" "$work" <<'PYTHON'
import os, subprocess, sys, time

pmos, work = sys.argv[1:]
store, kept = f"{work}/store.pmos", f"{work}/kept.pmos"

def run(text, rounds=9):
    """The best of the rounds in seconds, and the numbers of the end line."""
    best = None
    for _ in range(rounds):
        if os.path.exists(store):
            os.remove(store)
        subprocess.run([pmos, "init", store], check=True)
        start = time.perf_counter()
        ran = subprocess.run([pmos, "run", store, "serial"], input=text, stdout=subprocess.PIPE, stderr=subprocess.PIPE)
        seconds = time.perf_counter() - start
        if ran.returncode:
            sys.exit(f"status {ran.returncode}: {ran.stderr.decode()}")
        best = seconds if best is None else min(best, seconds)
    end = [line for line in ran.stdout.decode().split("\n")[-80:] if line.startswith("end ")][-1]
    return best, [int(word) for word in end.split()[1:]]

def text(lines):
    return ("\n".join(lines) + "\n").encode()

def heap(count):
    """A list of objects, each of which holds the one before it; the last one has a name."""
    lines = []
    for i in range(count):
        lines.append(f"0 new {i % 2} 2 cafe")
        if i:
            lines.append(f"0 store {i % 2} 0 {(i + 1) % 2}")
    lines.append(f"0 root last {(count - 1) % 2}")
    return lines

def opened(text, rounds=15):
    """The best of the rounds in seconds, of a run on the store that was kept."""
    best = None
    for _ in range(rounds):
        with open(kept, "rb") as source, open(store, "wb") as target:
            target.write(source.read())
        start = time.perf_counter()
        ran = subprocess.run([pmos, "run", store, "serial"], input=text, stdout=subprocess.PIPE, stderr=subprocess.PIPE)
        seconds = time.perf_counter() - start
        if ran.returncode:
            sys.exit(f"status {ran.returncode}: {ran.stderr.decode()}")
        best = seconds if best is None else min(best, seconds)
    return best

print("mixed commands, on a heap of so many objects: microseconds for each")
for count in (10000, 30000):
    run(text(heap(count) + ["0 save", "0 settle"]), 1)
    os.replace(store, kept)
    each = ["0 find 1 last", "0 load 2 1 0", "0 put 2 0 ff", "0 copy 3 2", "0 data 3", "0 new 4 1 cafe", "0 store 4 0 2", "0 drop 4"]
    asked = each * 8000
    without = opened(text([]))
    both = opened(text(asked))
    print(f"  {count:6d}  {(both - without) / len(asked) * 1e6:8.2f}")

print("events that do nothing: seconds")
for count in (400000000, 4000000000):
    seconds, end = run(text([f"! gc {count}"]), 1)
    print(f"  {count:11d}  {seconds:8.2f}   (the larger in 60 at most)")

print("births and names, with three events between and without: microseconds a line")
for lines in (16384, 65536):
    plain = [f"0 new {i // 2 % 1024} 1 cafe" if i % 2 == 0 else f"0 root n{i // 2 % 4096} {i // 2 % 1024}" for i in range(lines)]
    between = []
    for i in range(0, lines - 2, 3):
        between += plain[i // 3 * 2 : i // 3 * 2 + 2] + ["! gc 3"]
    one, _ = run(text(plain[: len(between)]))
    two, end = run(text(between))
    print(f"  {lines:6d}  {two / len(between) * 1e6:8.2f}  {one / len(between) * 1e6:8.2f}   (twice at most)")

def events(name, small, large):
    print(f"{name}: microseconds an event")
    for size, (made, asked) in (small, large):
        without, _ = run(text(made))
        both, end = run(text(made + [f"! gc {asked}"]))
        print(f"  {size:6d}  {(both - without) / asked * 1e6:8.3f}   {asked} events, {end[1]} collections, {end[2]} objects stand")

def held(count):
    lines = ["0 new 1 0 cafe"]
    for i in range(count // 200):
        lines.append(f"0 new 2 200 -")
        lines += [f"0 store 2 {k} 1" for k in range(200)]
        lines.append(f"0 root n{i} 2")
    return lines, 8 * count

def waiting(cars):
    lines = []
    for i in range(cars):
        lines += [f"0 new {i % 1024} 1 " + "00" * 4096, "0 new 1 1 " + "00" * 4096, "0 new 2 1 " + "00" * 4096, f"0 root n{i % 4096} 2"]
    return lines, 12 * cars

def young(count):
    return ["0 new 1 1 cafe"] * count, 6 * count

def live(count):
    return heap(count), 5 * 12 * count

events("one object held by so many fields", (5000, held(5000)), (20000, held(20000)))
events("cars with changes waiting", (250, waiting(250)), (1000, waiting(1000)))
events("births that die young", (15000, young(15000)), (60000, young(60000)))
events("a graph that lives, collected again and again", (10000, live(10000)), (30000, live(30000)))
PYTHON
