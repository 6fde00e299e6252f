#!/usr/bin/env python3
"""Compares dumps and paths with a reader that was written from docs/MANUAL.md alone.

    scripts/try-dumps.py [SEED [COUNT]]

Draws COUNT dumps from the seed, sound ones and spoiled ones, and has the part `values` of `pm_cases` read each: what it
tells has to be what this reader finds, a fault with its line and its cause. Then it draws stores by `pmos make`, dumps
each, and asks why each identity is kept: the dump has to be sound, each path has to lead to its object and be as short as
the shortest one, and `none` has to come exactly where there is none. It ends with 0 where all agree.

It takes the programs that `rt ci` built in crates/pm_cases and crates/pmos.
"""

import pathlib
import random
import re
import subprocess
import sys
import tempfile

ROOT = pathlib.Path(__file__).resolve().parent.parent
NAME = re.compile(r"[a-z0-9._-]{1,64}\Z")
NUMBER = re.compile(r"(0|[1-9][0-9]*)\Z")
MOST = 2**32


class Bad(Exception):
    """Why a line is bad."""


def number(word):
    if not NUMBER.match(word):
        raise Bad("form")
    return int(word)


def identity(word):
    found = number(word)
    if found == 0:
        raise Bad("form")
    return found


def read_object(words):
    """The identity, the fields and the bytes of an object's line."""
    if len(words) < 4:
        raise Bad("form")
    ident, count = identity(words[1]), number(words[2])
    hexes = "" if words[3] == "-" else words[3]
    if words[3] != "-" and not re.match(r"([0-9a-fA-F]{2})+\Z", hexes):
        raise Bad("form")
    if len(words) - 4 != count:
        raise Bad("form")
    return ident, [number(it) for it in words[4:]], bytes.fromhex(hexes)


class Reader:
    """Reads a dump line by line."""

    def __init__(self):
        self.next = None
        self.objects = []
        self.roots = []
        self.ended = False

    def line(self, words):
        if self.ended:
            raise Bad("form")
        if self.next is None:
            if len(words) != 4 or words[:3] != ["pmos", "dump", "1"]:
                raise Bad("form")
            found = identity(words[3])
            if found > MOST:
                raise Bad("limit")
            self.next = found
        elif words[0] == "object" and not self.roots:
            ident, fields, found = read_object(words)
            if self.objects and ident <= self.objects[-1][0]:
                raise Bad("order")
            if ident >= self.next or len(fields) > 255 or len(found) > 4096 or any(it >= self.next for it in fields):
                raise Bad("limit")
            self.objects.append((ident, fields, found))
        elif words[0] == "root":
            if len(words) != 3 or not NAME.match(words[1]):
                raise Bad("form")
            ident = identity(words[2])
            if self.roots and words[1].encode() <= self.roots[-1][0].encode():
                raise Bad("order")
            if ident >= self.next or len(self.roots) == 4096:
                raise Bad("limit")
            self.roots.append((words[1], ident))
        elif words == ["end"]:
            self.ended = True
        else:
            raise Bad("form")


def read(text):
    """The reader that read the text, or the line that is bad and why."""
    reader = Reader()
    pieces = text.split("\n")
    whole, rest = pieces[:-1], pieces[-1]
    for at, line in enumerate(whole):
        try:
            reader.line(line.split(" "))
        except Bad as why:
            return at + 1, str(why)
    if rest or not reader.ended:
        return len(whole) + 1, "form"
    listed = {it[0] for it in reader.objects}
    for at, (_, fields, _) in enumerate(reader.objects):
        if any(it and it not in listed for it in fields):
            return at + 2, "dangling"
    for at, (_, ident) in enumerate(reader.roots):
        if ident not in listed:
            return len(reader.objects) + at + 2, "dangling"
    return reader


def told(text):
    found = read(text)
    if isinstance(found, tuple):
        return f"line {found[0]} {found[1]}"
    fields = sum(len(it[1]) for it in found.objects)
    size = sum(len(it[2]) for it in found.objects)
    return f"next {found.next} objects {len(found.objects)} fields {fields} bytes {size} names {len(found.roots)}"


# ---- drawn dumps


def drawn_dump(draw):
    """The lines of a sound dump."""
    ids = sorted(draw.sample(range(1, 40), draw.randrange(12)))
    top = draw.choice([(ids or [0])[-1] + 1, 40, MOST])
    lines = [f"pmos dump 1 {top}"]
    for ident in ids:
        fields = [str(draw.choice([0, *ids])) for _ in range(draw.choice([0, 1, 2, 5]))]
        size = draw.choice([0, 0, 1, 3])
        hexes = "".join(draw.choice(["{:02x}", "{:02X}"]).format(draw.randrange(256)) for _ in range(size)) or "-"
        lines.append(" ".join(["object", str(ident), str(len(fields)), hexes, *fields]))
    if ids:
        names = {"".join(draw.choice("a0._-z") for _ in range(draw.randrange(1, 4))) for _ in range(draw.randrange(6))}
        lines += [f"root {it} {draw.choice(ids)}" for it in sorted(names)]
    return [*lines, "end"]


def spoil_word(draw, line):
    words = line.split(" ")
    at = draw.randrange(len(words))
    words[at] = draw.choice(["", "0", "1", "01", "+1", "-", "40", "41", str(MOST), str(MOST + 1), "9" * 40, "object", "root", "end", "aa", "abc", "A"])
    return " ".join(words)


def spoil(draw, lines):
    """The lines with one thing changed."""
    lines = list(lines)
    at = draw.randrange(len(lines))
    way = draw.randrange(7)
    if way == 0:
        del lines[at]
    elif way == 1:
        lines.insert(at, lines[draw.randrange(len(lines))])
    elif way == 2:
        other = draw.randrange(len(lines))
        lines[at], lines[other] = lines[other], lines[at]
    elif way == 3:
        lines[at] += draw.choice([" ", " 0", " 1"])
    elif way == 4 and lines[at]:
        cut = draw.randrange(len(lines[at]))
        lines[at] = lines[at][:cut] + lines[at][cut + 1 :]
    else:
        lines[at] = spoil_word(draw, lines[at])
    return lines


def try_dumps(draw, count):
    """How many dumps are told otherwise."""
    kept = []
    for _ in range(count):
        lines = drawn_dump(draw)
        for _ in range(draw.choice([0, 1, 1, 2, 3])):
            lines = spoil(draw, lines) or ["end"]
        text = "\n".join(lines)
        cut = draw.randrange(10) == 0
        step = text.replace("\n", " / ")
        # (spaces at the ends of lines may spell other lines in a case)
        if step.split(" / ") == lines:
            kept.append((("cut " if cut else "read ") + step, told(text if cut else text + "\n")))
    program = ROOT / "crates/pm_cases/out/pm_cases"
    steps = ["part values", *(s for s, _ in kept)]
    _, *came = subprocess.run([program], input="\n".join(steps) + "\n", text=True, capture_output=True, check=True).stdout.splitlines()
    differ = [(s, w, c) for (s, w), c in zip(kept, came, strict=True) if w != c]
    for step, want, got in differ[:5]:
        print(f"{step}\n  wanted {want}\n  came {got}")
    sound = sum(w.startswith("next") for _, w in kept)
    print(f"{len(kept)} dumps, {sound} of them sound: {len(differ)} told otherwise")
    return len(differ)


# ---- paths


def distances(dump):
    """How many lines the shortest path to each identity has."""
    held = {ident: fields for ident, fields, _ in dump.objects}
    far = {ident: 1 for _, ident in dump.roots}
    waiting = list(far)
    for ident in waiting:
        for to in held[ident]:
            if to and to not in far:
                far[to] = far[ident] + 1
                waiting.append(to)
    return far


def leads(dump, lines, ident):
    """Whether the lines are those of a path to the identity."""
    held = {it[0]: it[1] for it in dump.objects}
    words = [it.split(" ") for it in lines]
    if not words or words[0][0] != "root" or (words[0][1], int(words[0][2])) not in dump.roots:
        return False
    here = int(words[0][2])
    for word, index, to in words[1:]:
        if word != "field" or int(index) >= len(held[here]) or held[here][int(index)] != int(to):
            return False
        here = int(to)
    return here == ident


def try_store(pmos, work, seed, turns):
    """How many identities of a drawn store are answered otherwise."""
    store = f"{work}/store"
    pathlib.Path(store).unlink(missing_ok=True)
    script = subprocess.run([pmos, "make", str(seed), str(turns)], text=True, capture_output=True, check=True).stdout
    subprocess.run([pmos, "init", store], check=True)
    subprocess.run([pmos, "run", store, "serial"], input=script, text=True, capture_output=True, check=True)
    text = subprocess.run([pmos, "dump", store], text=True, capture_output=True, check=True).stdout
    dump = read(text)
    if isinstance(dump, tuple):
        print(f"the dump of seed {seed}: line {dump[0]} {dump[1]}")
        return 1, 0
    far = distances(dump)
    wrong = sum(it[0] not in far for it in dump.objects)
    asked = sorted(draw_ids(dump))
    for ident in asked:
        lines = subprocess.run([pmos, "why", store, str(ident)], text=True, capture_output=True, check=True).stdout.splitlines()
        is_right = lines == ["none"] if ident not in far else leads(dump, lines, ident) and len(lines) == far[ident]
        wrong += not is_right
    return wrong, len(asked)


def draw_ids(dump):
    """Some identities of objects, and some that are none's."""
    draw = random.Random(dump.next)
    ids = [it[0] for it in dump.objects]
    return {*draw.sample(ids, min(len(ids), 40)), *draw.sample(range(1, dump.next + 5), min(dump.next, 20)), MOST - 1}


def try_paths(seed, stores):
    wrong = asked = 0
    with tempfile.TemporaryDirectory() as work:
        for at in range(stores):
            found = try_store(str(ROOT / "crates/pmos/out/pmos"), work, seed + at, 300 + 100 * at)
            wrong, asked = wrong + found[0], asked + found[1]
    print(f"{stores} stores, {asked} identities: {wrong} answered otherwise")
    return wrong


def main():
    words = [int(it) for it in sys.argv[1:]]
    seed, count = [*words, *[1, 20000][len(words) :]]
    draw = random.Random(seed)
    wrong = try_dumps(draw, count) + try_paths(seed, 20)
    sys.exit(1 if wrong else 0)


main()
