#!/usr/bin/env bash
# Measures the proved answer to one query beside tight unverified loops that decode and merge the same samples, in one run, and prints
# tables, and whether every bar is met: a query over 24 blocks of 100 series, two replicas of each of twelve, takes at most four times
# the loops' time; a query of one series out of 1,000 reads less than a fifth of the bytes of the block's index and segment; a second
# query reads less than the first one, as it asks the gateway's cache; and of a block of 8,000 series every second one, read one by one,
# takes at most four times as long as all of them, which are read at once.
# The loops' source, limit.rs, is the first argument; without one, ../shared/bench/limit.rs beside the repository.
# With COUNT=1 it counts instructions by valgrind and takes no times, which a busy machine does not spoil.
# CPU names the processor that the proved code is built for, LIMIT_CPU that of the loops.
set -euo pipefail
top=$(cd "$(dirname "$0")/.." && pwd)
limit=${1:-$top/../shared/bench/limit.rs}
cpu=${CPU:-x86-64-v3}
count=${COUNT:-}
kit=$(dirname "$(dirname "$(readlink -f "$(command -v rt)")")")
made=$(mktemp -d)
trap 'rm -rf "$made"' EXIT

# A repository of its own for the functions that C calls, over this one's crates and what their checks kept.
own=$made/crates/query_c
mkdir -p "$own/src"
cp "$top/bench/query_c/lib.rt.txt" "$own/src/lib.rt"
below="base wire_bytes ulid_core label_sets moment_core block_keys block_meta xor_chunks chunk_files index_parts index_writing index_v2 store_ranges block_writing block_content sync_filters matchers vertical_merge series_selection bucket_core world_core shipper meta_fetcher store_chunks store_calls"
for name in $below; do cp -a "$top/crates/$name" "$made/crates/$name"; done
for name in $below; do grep "^$name:" "$top/crates.txt"; done >"$made/crates.txt"
echo "query_c staticlib: $below" >>"$made/crates.txt"
(cd "$own" && rt lib --cpu "$cpu" >"$made/lib.log" 2>&1) || { grep -v "^statements" "$made/lib.log" | tail -60; exit 1; }

sed '/^fn main() {$/,$d' "$limit" >"$made/query.rs"
cat "$top/bench/query.rs" >>"$made/query.rs"
# valgrind knows the instructions of few processors
limit_cpu=${LIMIT_CPU:-$([ "$count" ] && echo x86-64-v3 || echo native)}
rustc --edition 2021 -C opt-level=3 -C target-cpu="$limit_cpu" -A warnings -o "$made/query" "$made/query.rs" \
    -L "$own/out" -l static=query_c -C link-arg="$kit/c/liblibc_c.a"
[ -z "${KEEP:-}" ] || cp "$made/query" "$KEEP"

# the instructions of one query for each of the 576,000 samples that it answers: half of what three queries take more than one
instructions() {
    local runs=()
    for rounds in 1 3; do
        runs+=("$(valgrind --tool=callgrind --callgrind-out-file=/dev/null "$made/query" "$1" $rounds 2>&1 >/dev/null | awk '/Collected/ { print $4 }')")
    done
    awk -v one="${runs[0]}" -v three="${runs[1]}" 'BEGIN { printf "%.2f", (three - one) / 2 / 576000 }'
}
if [ "$count" ]; then
    echo "time $(instructions loops) $(instructions proved)" >"$made/lines"
else
    "$made/query" times >"$made/lines"
    "$made/query" apart >>"$made/lines"
fi
"$made/query" reads >>"$made/lines"
awk -v unit="${count:+instructions}" '
BEGIN { if (!unit) unit = "ns" }
$1 == "time" {
    print "| Query | Loops | Proved | Unit | Ratio | Bar |\n|---|---|---|---|---|---|"
    printf "| 24 blocks of 100 series, all samples | %.1f | %.1f | %s a sample | %.2f | 4 |\n\n", $2, $3, unit, $3 / $2
    if (!($3 > 0 && $3 <= 4 * $2)) missed = missed "24 blocks of 100 series; "
}
$1 == "apart" {
    print "| Of a block of 8,000 series | ms | By all | Bar |\n|---|---|---|---|"
    printf "| all, in one run | %.1f | 1 | - |\n", $2 / 1e6
    printf "| every second one, in 4,000 runs | %.1f | %.2f | 4 |\n\n", $3 / 1e6, $3 / $2
    if (!($3 > 0 && $3 <= 4 * $2)) missed = missed "every second series; "
}
$1 == "bytes" {
    print "| What is read | Reads | Bytes | Of the files |\n|---|---|---|---|"
    printf "| index and segment of a block of 1,000 series, whole | 2 | %d | 1 |\n", $2
    printf "| one series of it, the first time | %d | %d | %.3f |\n", $3, $4, $4 / $2
    printf "| the same, the second time | %d | %d | %.3f |\n", $5, $6, $6 / $2
    if ($4 > $2 / 5) missed = missed "one series out of 1,000; "
    if ($5 >= $3 || $6 >= $4) missed = missed "the second query; "
}
END {
    if (NR < (unit == "ns" ? 3 : 2)) missed = missed "rows are lacking; "
    print missed ? "\nMissed: " missed : "\nEvery bar is met."
}' "$made/lines"
