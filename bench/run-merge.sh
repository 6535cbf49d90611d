#!/usr/bin/env bash
# Measures the proved merge of two blocks of 100 series beside tight unverified loops that merge the same samples, in one run, and
# prints a table, and whether every bar is met: two replicas with gaps take at most three times the loops' time, and two blocks
# one after the other, whose chunks are all carried, at most a fifth of that, so 0.6 of what the loops take for the replicas.
# The loops' source, limit.rs, is the first argument; without one, ../shared/bench/limit.rs beside the repository.
# With COUNT=1 it counts instructions by valgrind and takes no times, which a busy machine does not spoil.
# CPU names the processor that the proved code is built for, LIMIT_CPU that of the loops.
set -euo pipefail
top=$(cd "$(dirname "$0")/.." && pwd)
limit=${1:-$top/../shared/bench/limit.rs}
cpu=${CPU:-x86-64-v3}
count=${COUNT:-}
kit=$(dirname "$(dirname "$(readlink -f "$(command -v rt)")")")
made=$(mktemp -d)
trap 'rm -rf "$made"' EXIT

# A repository of its own for the functions that C calls, over this one's crates and what their checks kept.
own=$made/crates/merge_c
mkdir -p "$own/src"
cp "$top/bench/merge_c/lib.rt.txt" "$own/src/lib.rt"
below="base wire_bytes ulid_core label_sets block_keys block_meta xor_chunks chunk_files index_parts index_writing index_v2 block_writing block_content block_merging vertical_merge"
for name in $below; do cp -a "$top/crates/$name" "$made/crates/$name"; done
for name in $below; do grep "^$name:" "$top/crates.txt"; done >"$made/crates.txt"
echo "merge_c staticlib: $below" >>"$made/crates.txt"
(cd "$own" && rt lib --cpu "$cpu" >"$made/lib.log" 2>&1) || { tail -20 "$made/lib.log"; exit 1; }

sed '/^fn main() {$/,$d' "$limit" >"$made/merge.rs"
cat "$top/bench/merge.rs" >>"$made/merge.rs"
# valgrind knows the instructions of few processors
limit_cpu=${LIMIT_CPU:-$([ "$count" ] && echo x86-64-v3 || echo native)}
rustc --edition 2021 -C opt-level=3 -C target-cpu="$limit_cpu" -A warnings -o "$made/merge" "$made/merge.rs" \
    -L "$own/out" -l static=merge_c -C link-arg="$kit/c/liblibc_c.a"

# the instructions of one round of a side for each of the 82,300 samples that are merged: half of what three rounds take more than one
instructions() {
    local runs=()
    for rounds in 1 3; do
        runs+=("$(valgrind --tool=callgrind --callgrind-out-file=/dev/null "$made/merge" "$1" "$2" $rounds 2>&1 >/dev/null | awk '/Collected/ { print $4 }')")
    done
    awk -v one="${runs[0]}" -v three="${runs[1]}" -v all="$3" 'BEGIN { printf "%.2f", (three - one) / 2 / all }'
}
if [ "$count" ]; then
    echo "replicas $(instructions replicas loops 82300) $(instructions replicas merge 82300) -" >"$made/lines"
    echo "following $(instructions following loops 82200) $(instructions following merge 82200) -" >>"$made/lines"
else
    "$made/merge" >"$made/lines"
fi
awk -v unit="${count:+instructions}" '
BEGIN {
    if (!unit) unit = "ns"
    print "| What is merged | Loops | Merge | Copying alone | Unit | Ratio | Bar |\n|---|---|---|---|---|---|---|"
}
$1 == "replicas" {
    base = $2
    printf "| two replicas | %.1f | %.1f | %s | %s a sample | %.2f of the loops | 3 |\n", $2, $3, $4, unit, $3 / base
    if (!($3 > 0 && $3 <= 3 * base)) missed = missed "two replicas; "
}
$1 == "following" {
    printf "| two blocks, one after the other | %.1f | %.1f | %s | %s a sample | %.2f of the loops on the replicas | 0.6 |\n", $2, $3, $4, unit, $3 / base
    if (!($3 > 0 && $3 <= 0.6 * base)) missed = missed "two blocks, one after the other; "
}
END {
    if (NR < 2) missed = missed "rows are lacking"
    print missed ? "\nMissed: " missed : "\nEvery bar is met."
}' "$made/lines"
