#!/usr/bin/env bash
# Refuses the program memory, once in each run and at each place in turn, on real files. It takes its memory by calls of
# the C library. A shared object of a few lines, which this script compiles, counts those calls and refuses the one whose
# number it is told. For each number from 1 until nothing is left to refuse the run has to end as the contracts say; where a
# thread is refused, it goes on without it:
#
# - with status 0 or 7, or with 5 where the refusal fell into a call that opens a file;
# - with a first part of the replies of the run that is refused nothing, and with all of them on status 0;
# - with the text of its status on standard error, and nothing else there;
# - with a store that opens again, and is one of those that the same script leaves: the copy before it or after it, whole,
#   and the one after it wherever `saved` was told.
#
# Of four clients it tells how many lack replies: where one worker is refused memory those with passes go on, and those that
# take turns stop.
#
# Then it does the same to `pm_cases`, which runs the program over a disk and a sink in memory: what they are refused is a
# call of theirs that fails, so status 5 comes only where the disk was refused some, and 4 only where the sink was; the
# journal is a first part of that of the run that is refused nothing; the tally is of the engine's kind, with so many entries;
# and where the run ends with 5 or 7 its replies, and nothing else, are written and finished. A line that begins with `?` is
# what the cases themselves were refused, and is passed over.
#
# And it does so to an engine with a nursery, by the part `young` of the cases: the call that is refused some answers
# `no memory`, and each behind it that the store has to be opened again; what entered is a first part of what that call would
# have let in, and each of it is in a car; entries and events are those before it; and behind a command or a sweep nothing is
# young.
#
# And it does so to workers with passes, by the part `lock`: where want of memory is told just one worker has something left,
# since the others go on, or no event was made; and the store opens with the last copy that was told as saved.
#
# It prints a line for each row: how many numbers, how often each status and each store came. It ends with 0 where all
# are as they should be. It takes the program that 'scripts/build.sh' left at ./pmos, the one that 'rt ci' built, or the one
# that PMOS names. Where there is none, or no C compiler, it says so and ends with 0.
set -uo pipefail
cd "$(dirname "$0")/.." || exit 1

pmos=${PMOS-}
for place in "$PWD/pmos" "$PWD/crates/pmos/out/pmos"; do
    [ -n "$pmos" ] || { [ -x "$place" ] && pmos=$place; }
done
[ -n "$pmos" ] && [ -x "$pmos" ] || { echo "Skipped: there is no program; scripts/build.sh builds it."; exit 0; }
for tool in cc python3; do
    command -v "$tool" >/dev/null || { echo "Skipped: there is no $tool."; exit 0; }
done
work=$(mktemp -d) || exit 1
trap 'rm -rf "$work"' EXIT

cat >"$work/refuse.c" <<'C'
#define _GNU_SOURCE
#include <errno.h>
#include <fcntl.h>
#include <stdlib.h>
#include <stdio.h>
#include <sys/syscall.h>
#include <unistd.h>

extern void *__libc_malloc(size_t), *__libc_calloc(size_t, size_t), *__libc_realloc(void *, size_t), *__libc_memalign(size_t, size_t);

/* Counted from the first line of main's start on: what the loader takes before is no concern of the program. */
static _Atomic long calls;
static long refused;
static int is_counting;

__attribute__((constructor)) static void begin(void) {
    const char *number = getenv("REFUSED_CALL");
    refused = number ? atol(number) : 0;
    is_counting = 1;
}

__attribute__((destructor)) static void tell(void) {
    const char *path = getenv("CALLS_FILE");
    char text[32];
    is_counting = 0;
    int length = snprintf(text, sizeof text, "%ld\n", calls);
    int file = path ? open(path, O_WRONLY | O_CREAT | O_TRUNC, 0600) : -1;
    if (file >= 0 && write(file, text, length) == length) close(file);
}

/* A program with threads in it ends so, and runs no destructor. */
void _exit(int status) {
    tell();
    syscall(SYS_exit_group, status);
    __builtin_unreachable();
}

static int is_refused(void) {
    if (!is_counting || ++calls != refused) return 0;
    errno = ENOMEM;
    return 1;
}

void *malloc(size_t size) { return is_refused() ? NULL : __libc_malloc(size); }
void *calloc(size_t count, size_t size) { return is_refused() ? NULL : __libc_calloc(count, size); }
void *realloc(void *old, size_t size) { return is_refused() ? NULL : __libc_realloc(old, size); }
void *aligned_alloc(size_t align, size_t size) { return is_refused() ? NULL : __libc_memalign(align, size); }
int posix_memalign(void **to, size_t align, size_t size) {
    if (is_refused()) return ENOMEM;
    *to = __libc_memalign(align, size);
    return *to ? 0 : ENOMEM;
}
C
cc -O2 -shared -fPIC -o "$work/refuse.so" "$work/refuse.c" || { echo "The shared object was not compiled."; exit 1; }

python3 - "$pmos" "$work" "$PWD/crates/pm_cases/out/pm_cases" <<'PYTHON'
import collections, os, re, shutil, subprocess, sys, time

pmos, work, cases = sys.argv[1:]
store, calls_file = f"{work}/store.pmos", f"{work}/calls"
MOST = 3000
TEXTS = {0: "", 5: "pmos: disk fault\n", 7: "pmos: no memory\n"}
valgrind = shutil.which("valgrind") if "VALGRIND" in os.environ else None


def ended(words, text=b"", number=None, under=(), program=pmos):
    """Runs a program, with this call for memory refused; answers status, output, errors and how many calls it made."""
    told = dict(os.environ, CALLS_FILE=calls_file)
    if number is not None:
        told |= {"LD_PRELOAD": f"{work}/refuse.so", "REFUSED_CALL": str(number)}
    if os.path.exists(calls_file):
        os.remove(calls_file)
    ran = subprocess.run([*under, program, *words], input=text, capture_output=True, env=told)
    calls = int(open(calls_file).read()) if os.path.exists(calls_file) else -1
    return ran.returncode, ran.stdout, ran.stderr.decode(errors="replace"), calls


def held(path):
    """What a store holds, as the program tells it, or the text of its refusal."""
    status, out, errors, _ = ended(["inspect", path])
    return out if status == 0 else errors.encode()


def script(text):
    return "".join(line + "\n" for line in text.split(" / ")).encode()


def made():
    if os.path.exists(store):
        os.remove(store)
    if ended(["init", store])[0]:
        sys.exit("a store could not be made")
    return open(store, "rb").read()


def after(kept, *texts):
    """The bytes of a store after runs of these scripts."""
    open(store, "wb").write(kept)
    for text in texts:
        if ended(["run", store, "serial"], script(text))[0]:
            sys.exit(f"a run failed: {text}")
    return open(store, "rb").read()


empty = made()
first = "0 new 1 2 cafe / 0 root a 1 / 0 save / 0 settle"
moves = "0 new 1 1 aa / 0 root a 1 / 0 new 2 0 bb / ! gc 6 / 0 store 1 0 2 / ! gc 60 / 0 load 3 1 0"
beside = "0 new 1 0 00 / 0 root a 1 / 0 save / ! flush 1 / 0 put 1 0 ff / ! flush 9 / 0 id 1 / 0 settle"
young = "0 new 1 1 aa / 0 root a 1 / 0 save / 0 new 2 0 bb / 0 store 1 0 2 / 0 settle / 0 new 3 0 cc / ! young"
second = "0 find 1 a / 0 put 1 0 ff / 0 save / 0 settle"
copied = after(empty, first)

ROWS = [
    ("a first copy", empty, ["run", store, "serial"], first),
    ("a collection through an old address", empty, ["run", store, "serial"], moves),
    ("a copy beside a running client", empty, ["run", store, "serial"], beside),
    ("a copy in threads", empty, ["run", store, "threads"], beside),
    ("a copy by workers with passes", empty, ["run", store, "seats"], beside),
    ("a nursery", empty, ["run", store, "young"], young),
    ("opening a copy", copied, ["run", store, "serial"], "0 find 1 a / 0 data 1"),
    ("a second copy", copied, ["run", store, "serial"], second),
    ("init", None, ["init", store], ""),
    ("inspect", copied, ["inspect", store], ""),
    ("make 7 20", None, ["make", "7", "20"], ""),
    ("trial of seed 7 and 20 turns", empty, ["trial", store, "7", "20"], ""),
]
bad = 0


def begin(kept):
    if os.path.exists(store):
        os.remove(store)
    if kept is not None:
        open(store, "wb").write(kept)


def row(name, kept, words, text):
    global bad
    lines = script(text) if text else b""
    begin(kept)
    before = held(store) if kept is not None else None
    status, whole, errors, calls = ended(words, lines, 0)
    if status or errors:
        sys.exit(f"{name}: status {status} with nothing refused: {errors}")
    last = held(store) if os.path.exists(store) else None
    statuses, stores, wrong, begun = collections.Counter(), collections.Counter(), [], time.time()
    number = 0
    while number <= MOST:
        number += 1
        begin(kept)
        under = [valgrind, "-q", "--error-exitcode=99", "--log-file=/dev/null"] if valgrind and number % 10 == 0 else []
        status, out, errors, came = ended(words, lines, number, under)
        now = held(store) if os.path.exists(store) else None
        which = "none" if now is None else "after" if now == last else "before" if now == before else "other"
        statuses[status] += 1
        stores[which] += 1
        faults = []
        if status not in TEXTS:
            faults.append(f"status {status}")
        elif errors != TEXTS[status]:
            faults.append(f"status {status} with the text {errors!r}")
        if not whole.startswith(out):
            faults.append("other replies")
        if status == 0 and out != whole:
            faults.append("status 0 without all replies")
        # A file that is being made may hold nothing of a store yet.
        if which == "other" and words[0] != "init":
            faults.append("a store of neither copy")
        if which == "none" and last is not None and words[0] != "init":
            faults.append("no store")
        if b" saved " in out and which != "after":
            faults.append("what was told as saved is not there")
        # Once `id` was answered all pages of this copy are written, so `settle` needs no memory any more.
        if name.startswith("a copy beside") and status == 7 and out.count(b"\n") >= whole.count(b"\n") - 2:
            faults.append("want of memory in a settle of a copy that was written whole")
        if faults:
            wrong.append(f"{name}: call {number} refused: {'; '.join(faults)}")
        if came < number:
            # Nothing was left to refuse.
            if status != 0:
                wrong.append(f"{name}: status {status} with nothing left to refuse")
            break
    else:
        wrong.append(f"{name}: over {MOST} calls for memory")
    if not statuses[7]:
        wrong.append(f"{name}: no want of memory was told")
    # A file is opened three times at most: the null device, the file, and its folder.
    if statuses[5] > 3:
        wrong.append(f"{name}: {statuses[5]} failures of the device")
    bad |= bool(wrong)
    told = ", ".join(f"{status}: {count}" for status, count in sorted(statuses.items()))
    kinds = ", ".join(f"{which}: {count}" for which, count in sorted(stores.items()))
    print(f"{'BAD' if wrong else 'ok':3}  {name:38}  {number:5} calls  {told:28}  {kinds:32}  {time.time() - begun:.1f} s")
    for it in wrong[:8]:
        print(f"     {it}")


# ---- workers

EACH = 40
FOUR = "".join(f"{client} new {register} 1 aa\n" for register in range(1, EACH + 1) for client in range(4)) + "! gc 20\n"


def workers_row(name, mode):
    """Four clients. Where one worker is refused memory, those with passes go on, so no second client lacks a reply; and those
    that take turns stop. Where the run finds no memory before its first event, there is no reply."""
    global bad
    short, wrong, begun = collections.Counter(), [], time.time()
    for number in range(1, MOST + 1):
        begin(empty)
        status, out, errors, came = ended(["run", store, mode], FOUR.encode(), number)
        lacking = sum(out.count(f"\n{client} ".encode()) + out.startswith(f"{client} ".encode()) < EACH for client in range(4))
        if status not in TEXTS or errors != TEXTS[status]:
            wrong.append(f"{name}: call {number} refused: status {status} with the text {errors!r}")
        elif status == 0 and lacking:
            wrong.append(f"{name}: call {number} refused: status 0 without all replies")
        elif status == 7:
            short["nothing" if not out else lacking] += 1
            if mode == "seats" and out and lacking > 1:
                wrong.append(f"{name}: call {number} refused: {lacking} clients lack replies")
        if came < number:
            break
    else:
        wrong.append(f"{name}: over {MOST} calls for memory")
    if mode == "seats" and not short[1]:
        wrong.append(f"{name}: no client lacked a reply alone")
    if mode == "threads" and not sum(short[lacking] for lacking in (2, 3, 4)):
        wrong.append(f"{name}: no two clients lacked a reply")
    bad |= bool(wrong)
    line = ", ".join(f"{lacking}: {count}" for lacking, count in sorted(short.items(), key=str))
    print(f"{'BAD' if wrong else 'ok':3}  {name:38}  {number:5} calls  {f'clients short {line}':62}  {time.time() - begun:.1f} s")
    for it in wrong[:8]:
        print(f"     {it}")


# ---- a disk and a sink in memory


def told(out):
    """Of one run of a case: its status, what was refused to its disk and its sink, the reply lines of its journal, how many
    entries the tally of an engine tells, without a nursery and with one, and how many bytes were written and finished; or
    none, where the cases themselves were refused memory."""
    lines = out.decode(errors="replace").splitlines()
    if any(it.startswith("?") for it in lines):
        return None
    tallies = r"(?:no tally|tally: (\d+) entries.*)\n(?:no tally of a nursery|tally of a nursery: (\d+) entries.*)"
    numbers = r"status (\d+)\nwritten (\d+)\nfinished (\d+)\njournal \d+\nrefused (\d+) (\d+)"
    found = re.search(rf"(?m)^{tallies}\n{numbers}$", "\n".join(lines))
    if not found:
        return None
    end = [at for at, it in enumerate(lines) if it.startswith("refused ")][0]
    counted = [it and int(it) for it in found.group(1, 2)]
    status, written, finished, disk, sink = (int(it) for it in found.groups()[2:])
    return status, disk, sink, lines[end + 1 :], counted, (written, finished)


def case_row(name, mode, text):
    global bad
    case = f"part program\ncase {name}\ndisk new\nwords run store.pmos {mode}\ndo {text}\nshow tally young status written finished journal refused entries\n".encode()
    status, out, _, _ = ended([], case, 0, program=cases)
    whole = told(out)
    if status or not whole or whole[0]:
        sys.exit(f"{name}: {out!r} with nothing refused")
    statuses, passed, wrong, begun = collections.Counter(), 0, [], time.time()
    for number in range(1, MOST + 1):
        status, out, errors, came = ended([], case, number, program=cases)
        one = told(out)
        # (what is refused to the reading of the cases ends the program with a text of its own)
        if status not in (0, 1):
            wrong.append(f"{name}: call {number} refused: the program ended with {status}: {errors}")
        elif one is None:
            passed += 1
        else:
            statuses[one[0]] += 1
            faults = []
            if one[0] not in (0, 4, 5, 7):
                faults.append(f"status {one[0]}")
            if one[0] == 5 and not one[1]:
                faults.append("status 5, and the disk was refused nothing")
            if one[0] == 4 and not one[2]:
                faults.append("status 4, and the sink was refused nothing")
            if mode in ("serial", "young") and one[3] != whole[3][: len(one[3])]:
                faults.append("another journal")
            if one[0] == 0 and one[3] != whole[3]:
                faults.append("status 0 without the whole journal")
            if (one[4][mode == "young"] or 0) != len(one[3]) or one[4][mode != "young"] is not None:
                faults.append(f"a tally of {one[4]} entries")
            # What is written is the replies of the journal, and no line behind them; all is finished.
            replies = sum(len(it) + 1 for it in one[3])
            if one[0] in (5, 7) and one[5] != (replies, replies):
                faults.append(f"{one[5]} written and finished, of {replies}")
            if faults:
                wrong.append(f"{name}: call {number} refused: {'; '.join(faults)}")
        if came < number:
            break
    else:
        wrong.append(f"{name}: over {MOST} calls for memory")
    for it in (7, 5, 4):
        if not statuses[it]:
            wrong.append(f"{name}: status {it} never came")
    bad |= bool(wrong)
    line = ", ".join(f"{status}: {count}" for status, count in sorted(statuses.items()))
    print(f"{'BAD' if wrong else 'ok':3}  {name:38}  {number:5} calls  {line:28}  {f'passed over: {passed}':32}  {time.time() - begun:.1f} s")
    for it in wrong[:8]:
        print(f"     {it}")


# ---- an engine with a nursery, in memory

# Behind what is tried: a call of each kind.
FURTHER = "0 id 1 / 0 new 5 0 dd / 0 root b 5 / 0 find 6 b / ! young / ! gc 1 / ! flush 1 / 0 save / 0 settle / 0 unsave / 0 close"
TALLY = re.compile(r"(\d+) entries, (\d+) events, \d+ steps, \d+ completed, (\d+) standing, (\d+) young, \d+ entered$")
FORTY = [it for n in range(39) for it in ("0 new 1 1 -", "0 store 1 0 0", "0 copy 0 1")]
YOUNG_ROWS = [
    ("a sweep", "0 new 1 2 aa / 0 new 2 1 bb / 0 store 1 0 2 / 0 store 1 1 1 / 0 copy 3 2 / 0 new 4 0 cc / 0 drop 4 / ! young".split(" / "), 0),
    ("a sweep at a birth", [f"0 new {n} 0 -" for n in range(256)] + ["0 new 300 0 -"], 256),
    ("forty objects that a name lets escape", ["0 new 0 1 -", *FORTY, "0 root a 0"], 118),
    ("forty that a store into a car does", ["0 new 9 1 -", "0 root a 9", "0 new 0 1 -", *FORTY, "0 store 9 0 0"], 120),
    ("forty that a store of a car's does", ["0 new 9 1 -", "0 root a 9", "0 new 0 1 -", "0 copy 2 0", *FORTY, "0 store 2 0 9"], 121),
]


def nursery_told(lines, number):
    """A run over a nursery, with this call for memory refused: the status, the errors, the number of calls; and what each line
    gave, what entered, and how many entries, events, objects in cars and young objects there are. That is none, where the
    cases themselves were refused memory."""
    case = f"part young\ncase a nursery\nscript {' / '.join(lines)}\n".encode()
    status, out, errors, came = ended([], case, number, program=cases)
    told = out.decode(errors="replace").splitlines()
    # (where the cases run out of memory while they print, the line has no end)
    if len(told) != 3 or any(it.startswith("?") for it in told) or not TALLY.search(told[2]):
        return status, errors, came, None
    *parts, entered, tally = told[2].split(" / ")
    return status, errors, came, (parts, entered.split()[1:], [int(it) for it in TALLY.match(tally).groups()])


def nursery_faults(lines, stood, one):
    """What is wrong with such a run. `stood` has the run of the first lines for each number of them, with nothing refused."""
    parts, entered, (entries, events, standing, young) = one
    at = next((at for at, it in enumerate(parts) if it != stood[-1][0][at]), None)
    if at is None:
        return [] if one == stood[-1] else ["all is answered, and comes to something else"]
    line, faults = lines[at], []
    is_disk = parts[at] == "disk fault 0 1" and line.endswith((" settle", "! flush 1"))
    if parts[at] != "no memory" and not is_disk:
        faults.append(f"it answers {parts[at]}")
    if set(parts[at + 1 :]) - {f"reopen {int(is_disk)}"}:
        faults.append("a call behind it is answered")
    if entered != stood[at + 1][1][: len(entered)] or len(entered) < len(stood[at][1]):
        faults.append("what entered is no first part")
    if standing != len(entered):
        faults.append(f"{standing} stand")
    if [entries, events] != stood[at][2][:2]:
        faults.append(f"{entries} entries and {events} events")
    if young != (stood[at][2][3] if is_disk or line.startswith(("! gc", "! flush")) else 0):
        faults.append(f"{young} are young")
    return [f"{line}: {it}" for it in faults]


def nursery_row(name, lines, first):
    """Calls for memory are refused from about those on that the line of this place makes."""
    global bad
    lines = [*lines, *FURTHER.split(" / ")]
    stood = [nursery_told(lines[:at], 0)[3] for at in range(len(lines) + 1)]
    begin = max(1, nursery_told(lines[:first], 0)[2] - 50)
    statuses, passed, wrong, begun = collections.Counter(), 0, [], time.time()
    for number in range(begin, begin + MOST):
        status, errors, came, one = nursery_told(lines, number)
        if status not in (0, 1):
            wrong.append(f"{name}: call {number} refused: the program ended with {status}: {errors}")
        elif one is None:
            passed += 1
        else:
            statuses["memory" if "no memory" in one[0] else "all" if one[0] == stood[-1][0] else "disk"] += 1
            wrong += [f"{name}: call {number} refused: {it}" for it in nursery_faults(lines, stood, one)]
        if came < number:
            break
    else:
        wrong.append(f"{name}: over {MOST} calls for memory")
    if not statuses["memory"]:
        wrong.append(f"{name}: no want of memory was told")
    bad |= bool(wrong)
    line = ", ".join(f"{it}: {count}" for it, count in sorted(statuses.items()))
    print(f"{'BAD' if wrong else 'ok':3}  {name:38}  {number:5} calls  {line:28}  {f'passed over: {passed}':32}  {time.time() - begun:.1f} s")
    for it in wrong[:8]:
        print(f"     {it}")


# ---- workers with passes, in memory

SEATS_ROWS = [
    ("clients with passes", "0 new 1 0 00 / 0 root a 1 / 1 new 1 1 aa / 1 copy 2 1 / 1 store 1 0 2 / 2 new 1 1 bb / 2 data 1 / 2 id 1 / 3 new 1 0 - / 3 root b 1 / 3 find 2 b / ! gc 6 / ! flush 2"),
    ("a copy beside clients with passes", "0 new 1 0 00 / 0 root a 1 / 0 save / 0 settle / 0 put 1 0 ff / 0 save / 0 settle / 1 new 1 1 aa / 1 copy 2 1 / 1 id 1 / 7 new 1 0 - / 7 data 1 / ! gc 8 / ! flush 3"),
]
SEATS = re.compile(r"(.+) / answered((?: \d+){8}) / (\d+) events, (\d+) steps / saved (\d+), opens with (\d+)$")


def seats_told(text, number):
    """A run of workers with passes, with this call for memory refused: the status, the errors, the number of calls; and the
    fault, how many events each worker made, and the copies that were told as saved and found. That is none, where the cases
    themselves were refused memory."""
    case = f"part lock\ncase passes\nseats-open {text}\n".encode()
    status, out, errors, came = ended([], case, number, program=cases)
    told = out.decode(errors="replace").splitlines()
    found = SEATS.match(told[2]) if len(told) == 3 else None
    if not found:
        return status, errors, came, None
    answered = [int(it) for it in found[2].split()]
    events, steps, saved, opened = (int(it) for it in found.groups()[2:])
    return status, errors, came, (found[1], [*answered, steps, events - steps - sum(answered)], saved, opened)


def seats_faults(asked, one):
    """What is wrong with such a run, of whose workers each was asked so much."""
    fault, made, saved, opened = one
    left = [worker for worker, (most, came) in enumerate(zip(asked, made)) if came < most]
    faults = []
    if any(came > most for most, came in zip(asked, made)):
        faults.append("more is made than is asked")
    if fault == "no fault" and left:
        faults.append(f"no fault, and workers {left} have something left")
    if fault == "no memory" and len(left) != 1 and sum(made):
        faults.append(f"no memory, and workers {left} have something left")
    if fault not in ("no fault", "no memory", "disk fault"):
        faults.append(fault)
    if opened != saved and not (fault == "disk fault" and opened == saved + 1):
        faults.append(f"copy {saved} was told, and copy {opened} is there")
    return faults


def seats_row(name, text):
    global bad
    lines = text.split(" / ")
    asked = [sum(it.startswith(f"{client} ") for it in lines) for client in range(8)]
    asked += [sum(int(it.split()[2]) for it in lines if it.startswith(word)) for word in ("! gc", "! flush")]
    status, _, _, whole = seats_told(text, 0)
    if status or not whole or whole[:2] != ("no fault", asked):
        sys.exit(f"{name}: {whole} with nothing refused")
    kinds, left, passed, wrong, begun = collections.Counter(), set(), 0, [], time.time()
    for number in range(1, MOST + 1):
        status, errors, came, one = seats_told(text, number)
        if status not in (0, 1):
            wrong.append(f"{name}: call {number} refused: the program ended with {status}: {errors}")
        elif one is None:
            passed += 1
        else:
            kinds[one[0]] += 1
            wrong += [f"{name}: call {number} refused: {it}" for it in seats_faults(asked, one)]
            if one[0] == "no memory" and sum(one[1]):
                left |= {worker for worker, (most, came_to) in enumerate(zip(asked, one[1])) if came_to < most}
        if came < number:
            break
    else:
        wrong.append(f"{name}: over {MOST} calls for memory")
    if len(left) < 3:
        wrong.append(f"{name}: want of memory was told of workers {sorted(left)} alone")
    bad |= bool(wrong)
    line = ", ".join(f"{it}: {count}" for it, count in sorted(kinds.items()))
    print(f"{'BAD' if wrong else 'ok':3}  {name:38}  {number:5} calls  {line:28}  {f'passed over: {passed}':32}  {time.time() - begun:.1f} s")
    for it in wrong[:8]:
        print(f"     {it}")


for it in ROWS:
    row(*it)
workers_row("four clients that take turns", "threads")
workers_row("four clients with passes", "seats")
if os.access(cases, os.X_OK):
    for name, mode, text in [
        ("a first copy, in memory", "serial", first),
        ("a collection, in memory", "serial", moves),
        ("a copy beside a client, in memory", "serial", beside),
        ("a nursery, in memory", "young", young),
    ]:
        case_row(name, mode, text)
    for it in YOUNG_ROWS:
        nursery_row(*it)
    for it in SEATS_ROWS:
        seats_row(*it)
else:
    print("Skipped: the rows in memory, since rt ci has not built crates/pm_cases.")
sys.exit(bad)
PYTHON
