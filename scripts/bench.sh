#!/usr/bin/env bash
# Measures the program on real files, at n and 4n, and prints what is wanted beside what came:
#
# - a store of 7,000 and of 28,000 objects of 200 bytes that are all reached: the first save and settle, and opening, each
#   beside `dd` and `sha256sum` of as many pages; memory beside the bytes of the objects;
# - a second settle after one `put`: how many pages it writes, and how long it takes beside the first;
# - shipping them to a new standby, beside `cp` and two `sha256sum`; again; and after one `put`;
# - the report of these stores, their dump, a store that is restored of it, and why their first object is kept, which is a
#   path through all of them;
# - scripts of 16,384 and of 65,536 lines of mixed commands;
# - a large run of four clients, and 64,000 mixed commands by 1, 2, 4 and 8 clients, each serially, in threads that take turns
#   and by workers with passes;
# - a script that is made, and a trial of it, of 4,000 and of 16,000 turns.
#
# 'scripts/build.sh' builds the program; PMOS names another one. Needs python3, dd, sha256sum and GNU time.
set -euo pipefail
cd "$(dirname "$0")/.."

pmos=${PMOS:-$PWD/pmos}
[ -x "$pmos" ] || { echo "run scripts/build.sh first: it builds $pmos"; exit 1; }
work=$(mktemp -d)
trap 'rm -rf "$work"' EXIT

python3 - "$pmos" "$work" <<'PYTHON'
import os, re, subprocess, sys, time

pmos, work = sys.argv[1:]
PAGE = 16384
ROUNDS = 5

def measured(words, text=b"", prepare=None):
    """The best of the rounds: seconds of the clock and of the processors, and bytes of memory at the highest."""
    seconds, busy, memory = [], [], []
    for _ in range(ROUNDS):
        if prepare:
            prepare()
        with open(f"{work}/replies", "wb") as out:
            start = time.perf_counter()
            ran = subprocess.run(["/usr/bin/time", "-f", "%M %U %S", *words], input=text, stdout=out, stderr=subprocess.PIPE)
            seconds.append(time.perf_counter() - start)
        if ran.returncode:
            sys.exit(f"{words}: {ran.stderr.decode()}")
        most, user, system = re.findall(rb"^(\d+) ([\d.]+) ([\d.]+)$", ran.stderr, re.M)[-1]
        busy.append(float(user) + float(system))
        memory.append(int(most) * 1024)
    return min(seconds), min(busy), min(memory)

def timed(words, text=b"", prepare=None):
    """The same without the time of the processors."""
    seconds, _, memory = measured(words, text, prepare)
    return seconds, memory

def run(store, mode="serial"):
    return [pmos, "run", store, mode]

def removed(store):
    if os.path.exists(store):
        os.remove(store)

def fresh(store):
    removed(store)
    subprocess.run([pmos, "init", store], check=True)

def copied(kept, store):
    with open(kept, "rb") as source, open(store, "wb") as target:
        target.write(source.read())

store, kept = f"{work}/store.pmos", f"{work}/kept.pmos"
empty, empty_memory = timed(run(store), b"", lambda: fresh(store))
print(f"an empty script on an empty store: {empty:.3f} s, {empty_memory >> 10} KiB")

def objects(count):
    """Each object holds the one before it; the last one has a name."""
    hexes = "ab" * 200
    lines = []
    for i in range(count):
        lines.append(f"0 new {i % 2} 1 {hexes}\n")
        if i:
            lines.append(f"0 store {i % 2} 0 {(i + 1) % 2}\n")
    lines.append(f"0 root last {(count - 1) % 2}\n")
    return "".join(lines).encode()

print("objects of 200 bytes, all reached")
for count in (7000, 28000):
    made = objects(count)
    without, graph = timed(run(store), made, lambda: fresh(store))
    both, memory = timed(run(store), made + b"0 save\n0 settle\n", lambda: fresh(store))
    copied(store, kept)
    pages = os.path.getsize(kept) // PAGE - 3
    dd, _ = timed(["dd", f"if={kept}", f"of={work}/copy", f"bs={PAGE}", f"count={pages}", "conv=fsync"])
    sha, _ = timed(["sha256sum", f"{work}/copy"])
    opening, opened = timed(run(kept))
    report, _ = timed([pmos, "inspect", kept])
    dump, dumped = timed([pmos, "dump", kept])
    text = os.path.getsize(f"{work}/replies")
    with open(f"{work}/replies", "rb") as replies:
        told = replies.read()
    restore, restored = timed([pmos, "restore", store], told, lambda: removed(store))
    if subprocess.run([pmos, "dump", store], stdout=subprocess.PIPE, check=True).stdout != told:
        sys.exit("a restored store has another dump")
    why, walked = timed([pmos, "why", kept, "1"])
    put = b"0 find 1 last\n0 put 1 0 ff\n"
    once, _ = timed(run(store), put, lambda: copied(kept, store))
    again, _ = timed(run(store), put + b"0 save\n0 settle\n", lambda: copied(kept, store))
    grown = os.path.getsize(store) // PAGE - 3 - pages
    standby, shipped = f"{work}/standby.pmos", f"{work}/shipped.pmos"
    ship = [pmos, "ship", kept, standby]
    ships, most = timed(ship, b"", lambda: fresh(standby))
    copied(standby, shipped)
    same, _ = timed(ship)
    later, _ = timed([pmos, "ship", store, standby], b"", lambda: copied(shipped, standby))
    with open(f"{work}/replies", "rb") as replies:
        line_told = replies.read().decode().strip()
    plain, _ = timed(["sh", "-c", f"cp {kept} {work}/copy && sha256sum {kept} && sha256sum {work}/copy"])
    first, second = both - without, again - once
    data = count * 200
    print(f"  {count:6d} objects, {pages} pages; dd with fsync {dd:.3f} s, sha256sum {sha:.3f} s")
    print(f"    making them {without:.3f} s; first save and settle {first:.3f} s, {first / (dd + sha):.1f} of dd and sha256sum (3 at most)")
    print(f"    opening {opening - empty:.3f} s, {(opening - empty) / (dd + sha):.1f} of dd and sha256sum (3 at most)")
    print(f"    the report {report - empty:.3f} s, which opens the store too")
    print(f"    the dump {dump - empty:.3f} s, {(dump - empty) / (report - empty):.1f} of the report (2 at most); a text of {text / data:.1f} of the objects' bytes, and {(dumped - opened - text) / data:.1f} more than opening and the text (1.5 at most)")
    print(f"    restoring it {restore - empty:.3f} s, {(restore - empty) / (report - empty):.1f} of the report and {(restore - empty) / first:.1f} of the first save and settle (3 and 1.5 at most); {(restored - empty_memory) / text:.1f} bytes for one of the text (2.5 at most)")
    print(f"    why the first object is kept, a path of {count} steps, {why - empty:.3f} s, {(why - empty) / (opening - empty):.1f} of opening; {(walked - opened) / count:.0f} bytes an object more than opening")
    print(f"    second save and settle after one put {second:.3f} s, {second / first:.2f} of the first (0.10 at most); the file grew by {grown} pages")
    print(f"    shipping it to a new standby {ships:.3f} s, {ships / plain:.1f} of cp and two sha256sum (2 at most), {(most - empty_memory) / (opened - empty_memory):.1f} times the memory of opening it; again {same:.3f} s; after the put, which wrote '{line_told}', {later:.3f} s")
    print(f"    memory {(memory - empty_memory) / data:.1f} of the objects' bytes with the copy, {(graph - empty_memory) / data:.1f} without (5 at most), {(opened - empty_memory) / data:.1f} opened")

def line(i):
    first = i // 8
    client, register, name = first % 8, first % 1024, first % 4096
    return (f"{client} new {register} 2 cafe", f"{client} root n{name} {register}", f"{client} copy 1023 {register}",
            f"{client} store {register} 0 1023", f"{client} load 1022 {register} 0", f"{client} put {register} 0 ff",
            f"{client} find {register} n{name}", f"{client} data {register}")[i % 8]

print("mixed commands: lines, seconds, KiB")
for count in (16384, 65536):
    text = "".join(line(i) + "\n" for i in range(count)).encode()
    seconds, memory = timed(run(store), text, lambda: fresh(store))
    print(f"  {count:6d}  {seconds:6.3f} s  {memory >> 10:6d}")

def large():
    """Four clients, each 2,000 rounds of four commands; 50,000 steps of the collector and 100 flush events."""
    lines = []
    for _ in range(2000):
        for c in range(4):
            lines += [f"{c} new 2 1 -", f"{c} store 2 0 1", f"{c} copy 1 2", f"{c} root l{c} 1"]
        lines.append("! gc 25")
    for c in range(4):
        lines += [f"{c} unroot l{c}", f"{c} close"]
    return lines + ["0 save", "! flush 100", "0 settle"]

def commands(clients):
    """64,000 commands of so many clients, eight of one behind another."""
    return [re.sub("^[0-7]", str(i // 8 % clients), line(i)) for i in range(64000)]

MODES = ("serial", "threads", "seats")
print("by workers beside serially: seconds of the clock, of the processors, KiB; what an event takes more, in nanoseconds")
for name, lines, events in (
    ("a large run of four clients", large(), 32010 + 50000 + 100),
    *((f"{clients} client{'s' * (clients > 1)}", commands(clients), 64000) for clients in (1, 2, 4, 8)),
):
    text = "".join(line + "\n" for line in lines).encode()
    told = {mode: measured(run(store, mode), text, lambda: fresh(store)) for mode in MODES}
    for mode, (clock, busy, memory) in told.items():
        more = [(told[mode][i] - told["serial"][i]) / events * 1e9 for i in (0, 1)]
        beside = "" if mode == "serial" else f"  an event {more[0]:.0f} ns more by the clock, {more[1]:.0f} ns by the processors"
        print(f"  {name:28}  {mode:8}  {clock:6.3f} s  {busy:6.3f} s  {memory >> 10:6d}{beside}")
    clock, memory = told["seats"][0] / told["threads"][0], (told["seats"][2] - told["threads"][2]) / 2**20
    print(f"    with passes {clock:.2f} of the clock of turns (1.1 at most), {memory:.1f} MiB more (1 at most), {told['seats'][0] / told['serial'][0]:.1f} of the serial run")

print("scripts that are made from a seed, and trials of them on a new store: turns, seconds, KiB")
for turns in (4000, 16000):
    made, _ = timed([pmos, "make", "7", str(turns)])
    tried, memory = timed([pmos, "trial", store, "7", str(turns)], b"", lambda: fresh(store))
    print(f"  {turns:6d}  made {made:.3f} s (0.1 at most)  tried {tried:.3f} s (2 at most)  {memory >> 10:6d}")
PYTHON
