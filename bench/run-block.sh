#!/usr/bin/env bash
# Measures the proved builder of a block of 1,000 series by 480 samples beside tight unverified loops that encode the same
# samples, in one run, and prints a table, and whether every bar is met.
# The loops' source, limit.rs, is the first argument; without one, ../shared/bench/limit.rs beside the repository.
# With COUNT=1 it counts instructions by valgrind and takes no times, which a busy machine does not spoil.
# CPU names the processor that the proved code is built for, LIMIT_CPU that of the loops.
set -euo pipefail
top=$(cd "$(dirname "$0")/.." && pwd)
limit=${1:-$top/../shared/bench/limit.rs}
cpu=${CPU:-x86-64-v3}
count=${COUNT:-}
kit=$(dirname "$(dirname "$(readlink -f "$(command -v rt)")")")
made=$(mktemp -d)
trap 'rm -rf "$made"' EXIT

# A repository of its own for the functions that C calls, over this one's crates and what their checks kept.
own=$made/crates/block_c
mkdir -p "$own/src"
cp "$top/bench/block_c/lib.rt.txt" "$own/src/lib.rt"
below="base wire_bytes ulid_core label_sets block_keys block_meta xor_chunks chunk_files index_parts index_writing block_writing"
for name in $below; do cp -a "$top/crates/$name" "$made/crates/$name"; done
for name in $below; do grep "^$name:" "$top/crates.txt"; done >"$made/crates.txt"
echo "block_c staticlib: $below" >>"$made/crates.txt"
(cd "$own" && rt lib --cpu "$cpu" >"$made/lib.log" 2>&1) || { tail -20 "$made/lib.log"; exit 1; }

sed '/^fn main() {$/,$d' "$limit" >"$made/block.rs"
cat "$top/bench/block.rs" >>"$made/block.rs"
# valgrind knows the instructions of few processors
limit_cpu=${LIMIT_CPU:-$([ "$count" ] && echo x86-64-v3 || echo native)}
rustc --edition 2021 -C opt-level=3 -C target-cpu="$limit_cpu" -A warnings -o "$made/block" "$made/block.rs" \
    -L "$own/out" -l static=block_c -C link-arg="$kit/c/liblibc_c.a"

# the instructions of one round of a side for each sample: half of what three rounds take more than one
instructions() {
    local runs=()
    for rounds in 1 3; do
        runs+=("$(valgrind --tool=callgrind --callgrind-out-file=/dev/null "$made/block" "$@" $rounds 2>&1 >/dev/null | awk '/Collected/ { print $4 }')")
    done
    awk -v one="${runs[0]}" -v three="${runs[1]}" -v all=$(($2 * $3)) 'BEGIN { printf "%.2f", (three - one) / 2 / all }'
}
if [ "$count" ]; then
    for shape in "constant 1000 480" "counter 1000 480" "gauge 1000 480" "jitter 1000 480" "random 1000 480" "gauge 10000 480" "gauge 1000 4800"; do
        echo "$shape $(instructions $shape loops) $(instructions $shape build)"
    done >"$made/lines"
else
    "$made/block" >"$made/lines"
fi
awk -v unit="${count:+instructions}" '
BEGIN {
    if (!unit) unit = "ns"
    print "| Values | Series by samples | Loops | Build | Unit | Ratio | Bar |\n|---|---|---|---|---|---|---|"
}
{
    printf "| %s | %d by %d | %.1f | %.1f | %s a sample | %.2f | 2.5 |\n", $1, $2, $3, $4, $5, unit, $5 / $4
    if (!($5 > 0 && $5 <= 2.5 * $4)) missed = missed (missed ? "; " : "") $1 " " $2 " by " $3
}
END {
    if (NR < 7) missed = missed (missed ? "; " : "") "rows are lacking"
    print missed ? "\nMissed: " missed : "\nEvery bar is met."
}' "$made/lines"
