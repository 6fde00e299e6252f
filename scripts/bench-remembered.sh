#!/usr/bin/env bash
# Prints what one call of a remembered set costs, in nanoseconds, where 1,000 and where 100,000 sources name
# one slot: `least_of`, and `take` with the `put` that makes it undone, where the sources are taken in their
# order and where they are taken from all over the set, out of the reach of the processor's caches.
set -eu
cd "$(dirname "$0")/.."
work=$(mktemp -d)
trap 'rm -rf "$work"' EXIT

mkdir -p "$work/crates/remembered_bench/src" "$work/crates/remembered_bench/specs"
for crate in pm_types pm_remset; do
    mkdir "$work/crates/$crate"
    cp -r crates/$crate/src crates/$crate/specs crates/$crate/proofs "$work/crates/$crate/"
done
cp HANDLES "$work/"
grep -E '^pm_(types|remset):' crates.txt > "$work/crates.txt"
echo 'remembered_bench: pm_types pm_remset' >> "$work/crates.txt"
: > "$work/crates/remembered_bench/specs/Lib.antt"
cat > "$work/crates/remembered_bench/src/main.rt" <<'EOF'
//! Calls a remembered set a million times, and prints how long that took.
#![tactic(auto)]

use pm_remset::Remset;
use pm_types::{NoMemory, RefSource};
use std::alloc::Global;
use std::io;
use std::time::Instant;

const CALLS: u64 = 1_000_000;

fn filled(alloc: Global, count: u64) -> Result<Remset, NoMemory> {
    let mut set = Remset::new(alloc);
    for number in 0..count {
        set.put(RefSource::Root(number), 5)?;
    }
    Ok(set)
}

fn found(set: &Remset) -> u64 {
    let mut some = 0u64;
    for _ in 0..CALLS {
        if set.least_of(5).is_some() {
            some ^= 1;
        }
    }
    some
}

fn taken(set: &mut Remset, count: u64, step: u64) -> Result<u64, NoMemory> {
    let mut some = 0u64;
    for call in 0..CALLS {
        let source = RefSource::Root(call.wrapping_mul(step).checked_rem(count).unwrap_or(0));
        if set.take(source).is_some() {
            some ^= 1;
        }
        set.put(source, 5)?;
    }
    Ok(some)
}

fn measure(rt: &HostRuntime, count: u64) -> io::Result<()> {
    let Ok(mut set) = filled(rt.alloc(), count) else {
        return Ok(());
    };
    let start = Instant::now(rt)?;
    let some = found(&set);
    let finding = start.elapsed(rt)?.as_millis();
    let start = Instant::now(rt)?;
    let near = taken(&mut set, count, 1).unwrap_or(0);
    let in_order = start.elapsed(rt)?.as_millis();
    let start = Instant::now(rt)?;
    let far = taken(&mut set, count, 7919).unwrap_or(0);
    let all_over = start.elapsed(rt)?.as_millis();
    println!(rt; "{count} {finding} {in_order} {all_over} {}", some ^ near ^ far)?;
    Ok(())
}

fn main(rt: HostRuntime) -> io::Result<()> {
    measure(&rt, 1000)?;
    measure(&rt, 100_000)
}
EOF

cd "$work/crates/remembered_bench"
if ! rt run > "$work/out" 2> "$work/err"; then
    cat "$work/out" "$work/err" >&2
    exit 1
fi
grep -hoE '^[0-9]+( [0-9]+){4}$' "$work/out" "$work/err" | while read -r count finding in_order all_over _; do
    echo "$count sources: least_of $finding ns; take and put $in_order ns in order, $all_over ns all over"
done
