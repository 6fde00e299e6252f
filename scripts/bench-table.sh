#!/usr/bin/env bash
# Prints how long it takes to freeze a table, change none or 10 of its values, and thaw it, with 1,000, 10,000 and
# 100,000 values: the mean of 1,000 rounds; and how long it takes to fill the table.
set -eu
cd "$(dirname "$0")/.."
work=$(mktemp -d)
trap 'rm -rf "$work"' EXIT

mkdir -p "$work/crates/table_bench/src" "$work/crates/table_bench/specs"
for crate in pm_types pm_snap; do
    mkdir "$work/crates/$crate"
    cp -r crates/$crate/src crates/$crate/specs crates/$crate/proofs "$work/crates/$crate/"
done
cp HANDLES "$work/"
grep -E '^pm_(types|snap):' crates.txt > "$work/crates.txt"
echo 'table_bench: pm_snap pm_types anyhow' >> "$work/crates.txt"
: > "$work/crates/table_bench/specs/Lib.antt"
cat > "$work/crates/table_bench/src/main.rt" <<'EOF'
//! Freezes, changes and thaws tables of several sizes, and prints how long that took.
#![tactic(auto)]

use anyhow::Result;
use pm_snap::{Keep, Table, put};
use pm_types::NoMemory;
use std::alloc::Global;
use std::time::{Clock, Instant};

#[derive(Drop)]
struct Held {
    number: u64,
}

impl Keep for Held {
    fn keep(&self, _alloc: Global) -> Result<Held, NoMemory> {
        Ok(Held {
            number: self.number,
        })
    }
}

fn change(table: &mut Table<Held>, key: u64, number: u64) -> Result<(), NoMemory> {
    if table.get(key).is_none() {
        return Ok(());
    }
    put(table, key, Held { number })
}

// Freezes the table, changes so many values, and thaws it.
fn round(table: &mut Table<Held>, first: u64, changes: u64) -> Result<(), NoMemory> {
    table.thaw();
    table.freeze();
    for place in 0..changes {
        change(table, first.wrapping_add(place.wrapping_mul(97)), place)?;
    }
    table.thaw();
    Ok(())
}

// How long 1,000 rounds take, in microseconds: as many nanoseconds a round.
fn rounds(rt: &impl Clock, table: &mut Table<Held>, changes: u64) -> Result<u128> {
    let start = Instant::now(rt)?;
    for first in 1..1001 {
        round(table, first % 90 + 1, changes)?;
    }
    Ok(start.elapsed(rt)?.as_micros())
}

fn main(rt: HostRuntime) -> Result<()> {
    for size in [1000u64, 10000, 100000] {
        let mut table = Table::new(rt.alloc());
        let start = Instant::now(&rt)?;
        for number in 0..size {
            let _ = table.add(Held { number });
        }
        let filled = start.elapsed(&rt)?.as_micros();
        let none = rounds(&rt, &mut table, 0)?;
        let ten = rounds(&rt, &mut table, 10)?;
        println!(rt; "{size} values: filled in {filled} us; a round with no change {none} ns, with 10 changes {ten} ns")?;
    }
    Ok(())
}
EOF

cd "$work/crates/table_bench"
if ! rt run > "$work/out" 2> "$work/err"; then
    cat "$work/out" "$work/err" >&2
    exit 1
fi
grep -hE '^[0-9]+ values' "$work/out" "$work/err"
