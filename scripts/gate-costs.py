#!/usr/bin/env python3
"""What the gate costs, crate by crate and part by part.

    scripts/gate-costs.py watch FILE        notes each check of the prover that runs, until it is stopped; then a table
    scripts/gate-costs.py table FILE..      the table of what was noted
    scripts/gate-costs.py chain FILE..      the longest chain of crates, each of which waits for the one before it
    scripts/gate-costs.py ways              how many ways `rt ci` goes by itself, by crates.txt

Run `watch` beside `rt ci` on a machine that does nothing else:

    scripts/gate-costs.py watch /tmp/costs.json & rt ci; kill %1; wait

It looks at /proc once a second. A process of the prover says in its command line which crate it is for and whether it
reads the crate with its tests, and in its folder whether it tries a must-fail edit. `rt ci` itself has a row too. What
a process had used when it was last seen is what it cost, in processor seconds, user and system. Only what a run proves is
seen: some kits keep what an earlier run passed, and then that costs nothing.

What `rt ci` does itself grows with the ways that lead through crates.txt from a crate to each lower one. Before its first
check it looks at each name that a clause of a crate imports, and goes each time through all ways that lead from the crate
to a lower one: 88 million took two minutes of one processor, 180 million 4.3. And before and behind the proof of a library
it reads, on each such way, every file of the crate at its end: 37 million files would take most of an hour. A crate that is
cut in two gives each crate above it more ways, and each library less in a line takes ways off: `ways` tells how many.
"""
import glob
import json
import os
import re
import signal
import sys
import time

TICK = os.sysconf("SC_CLK_TCK")
PARTS = ("proof", "tests", "edits")


def text_of(path):
    with open(path, "rb") as it:
        return it.read().decode(errors="replace")


def check_of(pid):
    """Returns (start, crate, part, processor seconds) of a check that a gate runs, or None for any other process."""
    words = text_of(f"/proc/{pid}/cmdline").split("\0")
    where = os.readlink(f"/proc/{pid}/cwd")
    fields = text_of(f"/proc/{pid}/stat").rpartition(") ")[2].split()
    if [os.path.basename(it) for it in words[1:3]] == ["rt", "ci"]:
        # (without its children, which are the checks)
        return fields[19], "rt itself", "proof", sum(int(it) for it in fields[11:13]) / TICK
    if os.path.basename(words[0]) != "rattle" or "--crate-name" not in words:
        return None
    seconds = sum(int(it) for it in fields[11:15]) / TICK
    part = "edits" if "/rt-edit-" in where else "tests" if "--test" in words else "proof"
    return fields[19], words[words.index("--crate-name") + 1], part, seconds


def watch(file):
    seen, ended = {}, []
    for number in (signal.SIGTERM, signal.SIGINT):
        signal.signal(number, lambda *_: ended.append(True))
    while not ended:
        for path in glob.glob("/proc/[0-9]*"):
            pid = os.path.basename(path)
            try:
                found = check_of(pid)
            except (OSError, ValueError, IndexError):
                continue
            if found:
                seen[f"{pid} {found[0]}"] = found[1:]
        time.sleep(1)
    with open(file, "w", encoding="utf-8") as out:
        json.dump(list(seen.values()), out)


def sums_of(files):
    """Returns the seconds of each part of each crate."""
    sums = {}
    for file in files:
        with open(file, encoding="utf-8") as it:
            for crate, part, seconds in json.load(it):
                sums.setdefault(crate, dict.fromkeys(PARTS, 0.0))[part] += seconds
    return sums


def print_table(sums):
    rows = sorted(sums.items(), key=lambda it: -sum(it[1].values()))
    rows.append(("all", {part: sum(row[part] for row in sums.values()) for part in PARTS}))
    print("| Crate | Proof | Tests | Edits | All |\n|---|---|---|---|---|")
    for crate, row in rows:
        print("|", " | ".join([crate, *[f"{row[part]:.0f}" for part in PARTS], f"{sum(row.values()):.0f}"]), "|")


def crates():
    """Returns the libraries that each crate stands on, by its name."""
    below = {}
    for line in text_of("crates.txt").split("\n"):
        name, colon, names = line.partition("#")[0].partition(":")
        if colon:
            below[name.split()[0]] = names.split()
    return below


def names_of(crate):
    """Returns how many names the clauses of a crate import, and how many files it has."""
    count = 0
    for path in glob.glob(f"crates/{crate}/src/**/*.rt", recursive=True):
        found = re.findall(r"ghost use [^;{]*(?:\{[^}]*\})?", text_of(path))
        count += 1 + sum(it.count(",") + 1 for it in found)
    return count


def print_ways():
    below, ways, files = crates(), {}, {}

    def ways_of(crate):
        if crate not in ways:
            ways[crate] = 1 + sum(ways_of(it) for it in below[crate] if it in below)
        return ways[crate]

    def files_of(crate):
        """Returns how many files stand at the ends of all ways from the crate."""
        if crate not in files:
            own = [it for it in glob.glob(f"crates/{crate}/**/*", recursive=True) if it.endswith((".rt", ".antt"))]
            files[crate] = len(own) + sum(files_of(it) for it in below[crate] if it in below)
        return files[crate]

    rows = sorted(((names_of(it) * ways_of(it), it) for it in below), reverse=True)
    for count, crate in rows[:12]:
        print(f"{count / 1e6:9.1f} million  {crate}: {names_of(crate)} names, {ways_of(crate)} ways")
    print(f"{sum(it[0] for it in rows) / 1e6:9.1f} million  in all")
    libraries = [it for it in below if not os.path.isfile(f"crates/{it}/src/main.rt")]
    print(f"{sum(files_of(it) for it in libraries) / 1e6:9.1f} million  files that the libraries are read from, twice")


def print_chain(sums):
    below = crates()
    best = {}

    def chain(crate):
        if crate not in best:
            before = max((chain(it) for it in below[crate] if it in below), key=lambda it: it[0], default=(0.0, []))
            own = sums.get(crate, {}).get("proof", 0.0)
            best[crate] = (before[0] + own, [*before[1], (crate, own)])
        return best[crate]

    longest = max((chain(it) for it in below), key=lambda it: it[0])
    for crate, own in longest[1]:
        print(f"{own:7.0f} s  {crate}")
    print(f"{longest[0]:7.0f} s  in all")


def main(words):
    if len(words) == 2 and words[0] == "watch":
        watch(words[1])
        print_table(sums_of(words[1:]))
    elif len(words) > 1 and words[0] == "table":
        print_table(sums_of(words[1:]))
    elif len(words) > 1 and words[0] == "chain":
        print_chain(sums_of(words[1:]))
    elif words == ["ways"]:
        print_ways()
    else:
        sys.exit(__doc__)


if __name__ == "__main__":
    main(sys.argv[1:])
