#!/usr/bin/env bash
# Prints how many MB a second `digest` of pm_layout hashes, a page of 16,384 bytes at a time, and how
# many `sha256sum` does on the same bytes as one file: 16,384 pages of zeros, 268 MB.
set -eu
cd "$(dirname "$0")/.."
work=$(mktemp -d)
trap 'rm -rf "$work"' EXIT

mkdir -p "$work/crates/digest_bench/src" "$work/crates/digest_bench/specs"
for crate in pm_types pm_layout; do
    mkdir "$work/crates/$crate"
    cp -r crates/$crate/src crates/$crate/specs crates/$crate/proofs "$work/crates/$crate/"
done
cp HANDLES "$work/"
grep -E '^pm_(types|layout):' crates.txt > "$work/crates.txt"
echo 'digest_bench: pm_layout' >> "$work/crates.txt"
: > "$work/crates/digest_bench/specs/Lib.antt"
cat > "$work/crates/digest_bench/src/main.rt" <<'EOF'
//! Hashes 16,384 pages of zeros, and prints how long that took.
#![tactic(auto)]

use pm_layout::digest;
use std::io;
use std::time::Instant;

const PAGE: [u8; 16384] = [0; 16384];

fn main(rt: HostRuntime) -> io::Result<()> {
    let start = Instant::now(&rt)?;
    let mut mixed = 0u64;
    for _ in 0..16384 {
        mixed ^= digest(&PAGE)[0] as u64;
    }
    let took = start.elapsed(&rt)?;
    println!(rt; "{} {mixed}", took.as_millis())?;
    Ok(())
}
EOF

cd "$work/crates/digest_bench"
if ! rt run > "$work/out" 2> "$work/err"; then
    cat "$work/out" "$work/err" >&2
    exit 1
fi
ours=$(grep -oE '^[0-9]+ [0-9]+$' "$work/out" "$work/err" -h | head -1 | cut -d' ' -f1)

head -c 268435456 /dev/zero > "$work/pages"
begin=$(date +%s%N)
sha256sum "$work/pages" > "$work/sum"
end=$(date +%s%N)
theirs=$(((end - begin) / 1000000))

echo "digest of pm_layout: $((268435 / ours)) MB/s"
echo "sha256sum: $((268435 / theirs)) MB/s"
