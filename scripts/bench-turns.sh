#!/usr/bin/env bash
# Prints how long a turn of pm_turns takes, with 1, 2, 4, 8 and 10 workers at a value of 3,700 bytes that does next to
# nothing in a turn, and how long the bare call takes; and how long a call of pm_passes takes at such a value, with 1, 2,
# 4 and 8 callers: nanoseconds of the clock and of the processors, the least of five runs of 2,000,000 turns or calls.
set -eu
cd "$(dirname "$0")/.."
work=$(mktemp -d)
trap 'rm -rf "$work"' EXIT

for crate in pm_turns pm_passes; do
    mkdir -p "$work/crates/$crate"
    cp -r "crates/$crate/src" "crates/$crate/specs" "crates/$crate/proofs" "$work/crates/$crate/"
done
cp HANDLES "$work/"
grep -E '^pm_(turns|passes)[ :]' crates.txt > "$work/crates.txt"
echo 'turns_bench: pm_turns' >> "$work/crates.txt"
echo 'passes_bench: pm_passes' >> "$work/crates.txt"
mkdir -p "$work/crates/turns_bench/src" "$work/crates/turns_bench/specs"
mkdir -p "$work/crates/passes_bench/src" "$work/crates/passes_bench/specs" "$work/crates/passes_bench/proofs"
: > "$work/crates/turns_bench/specs/Lib.antt"
cat > "$work/crates/turns_bench/src/main.rt" <<'RATTLE'
//! Takes so many turns with so many workers, or calls as often where there are none: `turns_bench WORKERS TURNS`.
#![tactic(auto)]

use pm_turns::{OpenGate, Turn, Turned, take_turns};
use std::alloc::Global;
use std::env;
use std::io;

#[derive(Drop)]
struct Load {
    workers: u32,
    left: u64,
    sum: u64,
    room: [u64; 460],
}

impl Turned for Load {
    type Tie = ();

    ghost tie = { λ _. tt };

    ghost sound = { λ _. Unit {0} };

    fn take_turn(&mut self, _alloc: Global, who: u32) -> Turn {
        if self.left == 0 || who >= self.workers {
            return Turn::Finished;
        }
        self.left -= 1;
        let place = (self.sum % 460) as usize;
        self.room[place] = self.room[place].wrapping_add(u64::from(who));
        self.sum = self.sum.wrapping_add(self.room[place]).wrapping_add(1);
        Turn::Made
    }
}

fn call(mut load: Load, alloc: Global) -> Load {
    for _ in 0..u64::MAX {
        match load.take_turn(alloc, 0) {
            Turn::Made => {}
            Turn::Finished | Turn::Stopped => break,
        }
    }
    load
}

fn number(word: Option<String>) -> u64 {
    match word {
        Some(text) => match text.as_str().parse() {
            Ok(number) => number,
            Err(_) => 0,
        },
        None => 0,
    }
}

fn main(rt: HostRuntime) -> io::Result<()> {
    let mut words = env::args(&rt)?;
    let _name = words.next();
    let workers = number(words.next());
    let left = number(words.next());
    let load = Load {
        workers: workers.clamp(1, 10) as u32,
        left,
        sum: 0,
        room: [0; 460],
    };
    let load = if workers == 0 {
        call(load, rt.alloc())
    } else {
        take_turns(&rt, rt.alloc(), load, &OpenGate)
    };
    println!(rt; "{} left, sum {}", load.left, load.sum)?;
    Ok(())
}
RATTLE

echo 'pub mod Entries' > "$work/crates/passes_bench/specs/Lib.antt"
cat > "$work/crates/passes_bench/specs/Entries.antt" <<'ANTT'
-- What is kept of a log.
use Rattle.std.specs.Prelude.{ℕ, List, [], ◌∷◌, ◌++◌}
use Rattle.passes_bench.specs.declared.load.Log.{Log}
use Rattle.passes_bench.specs.declared.load.Log.TheVariants.{Nothing, Then'}

-- the entries, each with its number
abbrev pub entries_of : Log → List (ℕ × ℕ)
entries_of Nothing = []
entries_of (Then' snapshot before number entry) = entries_of before ++ (number, entry) ∷ []
ANTT
cat > "$work/crates/passes_bench/src/load.rt" <<'RATTLE'
ghost use Rattle.std.specs.Prelude.{◌≡◌, ◌++◌, ◌∷◌, [], length};
ghost use Rattle.passes_bench.specs.Entries.{entries_of};

use pm_passes::{Logged, Numbers, Served};
use std::snapshot::Snapshot;

/// The entries so far, which take no memory.
#[derive(Drop)]
pub enum Log {
    /// None.
    Nothing,
    /// These, and behind them one with this number.
    Then(Snapshot<Log>, u64, u64),
}

/// The tie.
#[derive(Drop)]
pub struct Name(pub u64);

#[derive(Drop)]
pub struct Load {
    pub name: Name,
    pub log: Log,
    pub entries: u64,
    pub next: u64,
    pub sum: u64,
    pub room: [u64; 460],
    ghost counted: { entries ≡ length (entries_of log) },
}

fn log_more(log: &mut Log, number: u64, entry: u64)
    ensures { entries_of log.new ≡ entries_of log.old ++ (number, entry) ∷ [] }
{
    *log = Log::Then(Snapshot::of(log), number, entry);
}

impl Load {
    pub fn new() -> Load
        ensures log { entries_of result.log ≡ [] }
        ensures next { result.next ≡ 1 }
    {
        Load {
            name: Name(0),
            log: Log::Nothing,
            entries: 0,
            next: 1,
            sum: 0,
            room: [0; 460],
        }
    }
}

impl Logged for Load {
    type Entry = u64;

    type Tie = Name;

    ghost log = { λ load. entries_of load.log };

    ghost next = { λ load. load.next };

    ghost numbers = { λ _. record { made = 0; flushed = 0; struck = 0; faults = 0; events = 0 } };

    ghost tie = { λ load. load.name };

    ghost sound = { λ _. Unit {0} };

    fn draw(&mut self) -> Option<u64> {
        let number = self.next;
        self.next = number.checked_add(1)?;
        Some(number)
    }
}

impl Served for Load {
    ghost refuses = { λ load. load.entries ≡ 18446744073709551615 };

    fn serve(&mut self, number: u64) -> Option<u64> {
        if self.entries == u64::MAX {
            return None;
        }
        let place = (self.sum % 460) as usize;
        self.room[place] = self.room[place].wrapping_add(number);
        self.sum = self.sum.wrapping_add(self.room[place]).wrapping_add(1);
        log_more(&mut self.log, number, self.sum);
        self.entries += 1;
        Some(self.entries)
    }
}
RATTLE
cat > "$work/crates/passes_bench/src/main.rt" <<'RATTLE'
//! Makes so many calls with so many callers: `passes_bench CALLERS CALLS`.
#![tactic(auto)]
ghost use Rattle.std.specs.Prelude.{◌≡◌, ◌<◌};
ghost use Rattle.std.specs.Thread.{IsSync};
ghost use Rattle.pm_passes.specs.Passes.{IsAmong};
ghost use Rattle.passes_bench.specs.contracts.load.Name as name;

mod load;

use crate::load::Load;
use pm_passes::{Home, Pass};
use std::env;
use std::io;
use std::sync::Wait;
use std::thread::{Threads, join};

fn work<R: Wait>(rt: &R, home: &Home<Load>, pass: &mut Pass<u64>, calls: u64)
    requires { IsAmong home.now.table.shared.table_id
        (name.the_row.coded.code home.now.table.shared.key.value.name) pass.old }
    ensures { IsAmong home.now.table.shared.table_id
        (name.the_row.coded.code home.now.table.shared.key.value.name) pass.new }
{
    for _ in 0..calls {
        home.call(rt, pass);
    }
}

fn spread<R: Threads + Wait + Sync>(
    rt: &R,
    home: &Home<Load>,
    mut pass: Pass<u64>,
    callers: u64,
    calls: u64,
) -> Pass<u64>
    requires { IsAmong home.now.table.shared.table_id
        (name.the_row.coded.code home.now.table.shared.key.value.name) pass }
    ensures { IsAmong home.now.table.shared.table_id
        (name.the_row.coded.code home.now.table.shared.key.value.name) result }
{
    if callers <= 1 || pass.shares() < 2 {
        work(rt, home, &mut pass, calls);
        return pass;
    }
    let Some(mut other) = home.split_pass(rt, &mut pass) else {
        return pass;
    };
    let (mut pass, other) = join(
        rt,
        || -> Pass<u64>
            requires crosses { IsSync R.row }
            requires some { 0 < callers }
            requires pass { IsAmong home.now.table.shared.table_id
                (name.the_row.coded.code home.now.table.shared.key.value.name) pass }
            ensures { IsAmong home.entry.now.table.shared.table_id
                (name.the_row.coded.code home.entry.now.table.shared.key.value.name) result }
        { spread(rt, home, pass, callers - 1, calls) },
        || -> Pass<u64>
            requires crosses { IsSync R.row }
            requires pass { IsAmong home.now.table.shared.table_id
                (name.the_row.coded.code home.now.table.shared.key.value.name) other }
            ensures { IsAmong home.entry.now.table.shared.table_id
                (name.the_row.coded.code home.entry.now.table.shared.key.value.name) result }
        {
            work(rt, home, &mut other, calls);
            other
        },
    );
    home.meet_pass(&mut pass, other);
    pass
}

fn number(word: Option<String>) -> u64 {
    match word {
        Some(text) => match text.as_str().parse() {
            Ok(number) => number,
            Err(_) => 0,
        },
        None => 0,
    }
}

fn main(rt: HostRuntime) -> io::Result<()> {
    let mut words = env::args(&rt)?;
    let _name = words.next();
    let callers = number(words.next()).clamp(1, 64);
    let calls = number(words.next()) / callers;
    let load = match Home::open(rt.alloc(), Load::new()) {
        Ok((home, pass)) => {
            let pass = spread(&rt, &home, pass, callers, calls);
            home.close(&rt, pass)
        }
        Err((load, _)) => load,
    };
    println!(rt; "{} entries, sum {}", load.entries, load.sum)?;
    Ok(())
}
RATTLE
mkdir -p "$work/crates/passes_bench/proofs/work" "$work/crates/passes_bench/proofs/+fn-spread-join+arg2+spread"
cat > "$work/crates/passes_bench/proofs/work/Invariants.antt" <<'ANTT'
use Rattle.pm_passes.specs.Passes.{IsAmong}
use Rattle.passes_bench.specs.contracts.load.Name as name
use Rattle.passes_bench.proofs.work.Given as goal

abbrev pub invariant-loop : goal.invariant-loop
invariant-loop g l = IsAmong l.home.table.shared.table_id (name.the_row.coded.code l.home.table.shared.key.value.name) l.pass
ANTT
cat > "$work/crates/passes_bench/proofs/+fn-spread-join+arg2+spread/Invariants.antt" <<'ANTT'
use Rattle.std.proofs.Common.{◌+◌, ◌-◌, ◌*◌}
use Rattle.passes_bench.proofs.+fn-spread-join+arg2+spread.Given as goal

abbrev pub decreases-join+arg2 : goal.decreases-join+arg2
decreases-join+arg2 g l = 2 * (l.callers - 1) + 1

abbrev pub decreases-spread : goal.decreases-spread
decreases-spread g l = 2 * l.callers
ANTT
: > "$work/crates/passes_bench/proofs/Lib.antt"

times=2000000
TIMEFORMAT='%R %U %S'

# build CRATE: proves and builds the program.
build() {
    if ! (cd "$work/crates/$1" && rt run) > "$work/out" 2> "$work/err"; then
        cat "$work/out" "$work/err" >&2
        exit 1
    fi
}

# row NAME CRATE COUNT TOLD: the least of five runs with so many, each of which must begin its line with TOLD.
row() {
    for _ in 1 2 3 4 5; do
        { time "$work/crates/$2/out/$2" "$3" "$times" > "$work/told"; } 2>> "$work/times-$2-$3"
        grep -q "^$4" "$work/told" || { echo "not all were made" >&2; exit 1; }
    done
    awk -v times="$times" -v name="$1" '
        NR == 1 || $1 < clock { clock = $1 }
        NR == 1 || $2 + $3 < busy { busy = $2 + $3 }
        END {
            printf "%-12s %5.0f ns of the clock, %5.0f ns of the processors\n", name, clock / times * 1e9, busy / times * 1e9
        }' "$work/times-$2-$3"
}

build turns_bench
build passes_bench
row 'a bare call' turns_bench 0 '0 left'
for workers in 1 2 4 8 10; do
    name="$workers workers"
    [ "$workers" != 1 ] || name='1 worker'
    row "$name" turns_bench "$workers" '0 left'
done
for callers in 1 2 4 8; do
    name="$callers callers"
    [ "$callers" != 1 ] || name='1 caller'
    row "$name" passes_bench "$callers" "$times entries"
done
