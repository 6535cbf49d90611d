#!/usr/bin/env bash
# Times the proved XOR chunks beside tight unverified loops over the same data, in one run, and prints one table.
# The loops' source, limit.rs, is the first argument; without one, ../shared/bench/limit.rs beside the repository.
# CPU names the processor that the proved library is built for: x86-64-v3 where nothing is said. The loops are built for this machine.
set -euo pipefail
top=$(cd "$(dirname "$0")/.." && pwd)
limit=${1:-$top/../shared/bench/limit.rs}
cpu=${CPU:-x86-64-v3}
kit=$(dirname "$(dirname "$(readlink -f "$(command -v rt)")")")
made=$(mktemp -d)
trap 'rm -rf "$made"' EXIT

# A repository of its own for the functions that C calls, over this one's crates and what their checks kept.
mkdir -p "$made/crates/xor_chunks_c/src"
cp "$top/bench/xor_chunks_c/lib.rt.txt" "$made/crates/xor_chunks_c/src/lib.rt"
below="base wire_bytes label_sets xor_chunks"
for name in $below; do cp -a "$top/crates/$name" "$made/crates/$name"; done
for name in $below; do grep "^$name:" "$top/crates.txt"; done >"$made/crates.txt"
echo "xor_chunks_c staticlib: base wire_bytes label_sets xor_chunks" >>"$made/crates.txt"
(cd "$made/crates/xor_chunks_c" && rt lib --cpu "$cpu" >"$made/lib.log" 2>&1) || { tail -20 "$made/lib.log"; exit 1; }

sed '/^fn main() {$/,$d' "$limit" >"$made/xor.rs"
cat "$top/bench/xor.rs" >>"$made/xor.rs"
rustc --edition 2021 -C opt-level=3 -C target-cpu=native -A warnings -o "$made/xor" "$made/xor.rs" \
    -L "$made/crates/xor_chunks_c/out" -l static=xor_chunks_c -C link-arg="$kit/c/liblibc_c.a"
"$made/xor"
