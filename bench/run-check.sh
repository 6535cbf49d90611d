#!/usr/bin/env bash
# Measures the proved check of a block of 1,000 series by four chunks of 120 samples beside tight unverified loops that walk the
# same index and decode the same chunks, in one run, and prints a table, and whether the bar is met.
# The loops' source, limit.rs, is the first argument; without one, ../shared/bench/limit.rs beside the repository.
# With COUNT=1 it counts instructions by valgrind and takes no times, which a busy machine does not spoil.
# CPU names the processor that the proved code is built for, LIMIT_CPU that of the loops.
set -euo pipefail
top=$(cd "$(dirname "$0")/.." && pwd)
limit=${1:-$top/../shared/bench/limit.rs}
cpu=${CPU:-x86-64-v3}
count=${COUNT:-}
kit=$(dirname "$(dirname "$(readlink -f "$(command -v rt)")")")
made=$(mktemp -d)
trap 'rm -rf "$made"' EXIT

# A repository of its own for the functions that C calls, over this one's crates and what their checks kept.
own=$made/crates/check_c
mkdir -p "$own/src"
cp "$top/bench/check_c/lib.rt.txt" "$own/src/lib.rt"
below="base wire_bytes ulid_core label_sets block_keys block_meta xor_chunks chunk_files index_parts index_v2 block_content"
for name in $below; do cp -a "$top/crates/$name" "$made/crates/$name"; done
for name in $below; do grep "^$name:" "$top/crates.txt"; done >"$made/crates.txt"
echo "check_c staticlib: $below" >>"$made/crates.txt"
(cd "$own" && rt lib --cpu "$cpu" >"$made/lib.log" 2>&1) || { tail -20 "$made/lib.log"; exit 1; }

sed '/^fn main() {$/,$d; s/^fn per(/fn timed_per(/' "$limit" >"$made/check.rs"
cat "$top/bench/index_form.rs" "$top/bench/check.rs" >>"$made/check.rs"
# valgrind knows the instructions of few processors
limit_cpu=${LIMIT_CPU:-$([ "$count" ] && echo x86-64-v3 || echo native)}
rustc --edition 2021 -C opt-level=3 -C target-cpu="$limit_cpu" -A warnings \
    -o "$made/check" "$made/check.rs" -L "$own/out" -l static=check_c -C link-arg="$kit/c/liblibc_c.a"

# the instructions of one round of a side: half of what three rounds take more than one
instructions() {
    local runs=()
    for rounds in 1 3; do
        runs+=("$(valgrind --tool=callgrind --callgrind-out-file=/dev/null "$made/check" "$@" $rounds 2>&1 >/dev/null | awk '/Collected/ { print $4 }')")
    done
    echo $(((runs[1] - runs[0]) / 2))
}
if [ "$count" ]; then
    for shape in "constant 1000 4" "counter 1000 4" "gauge 1000 4" "jitter 1000 4" "random 1000 4" "gauge 10000 4" "gauge 1000 40"; do
        read -r kind series chunks <<<"$shape"
        name=${kind}_${series}_$chunks
        for side in loops copy check; do
            echo "${side}_$name $(($(instructions $shape $side) / series))"
        done
    done >"$made/lines"
else
    "$made/check" | sed 's/^index_walk_/loops_/; s/^decode_all_/decode_/' >"$made/lines"
fi
awk -v unit="${count:+instructions}" '!($1 in time) || $2 < time[$1] { time[$1] = $2 }
END {
    if (!unit) unit = "ns"
    print "| Values | Series by chunks | Loops | Check | Unit | Ratio | Bar |\n|---|---|---|---|---|---|---|"
    count = split("constant_1000_4 counter_1000_4 gauge_1000_4 jitter_1000_4 random_1000_4 gauge_10000_4 gauge_1000_40", names)
    for (i = 1; i <= count; i++) {
        name = names[i]
        split(name, parts, "_")
        limit = time["loops_" name] + time["decode_" name]
        proved = time["check_" name] - time["copy_" name]
        printf "| %s | %d by %d | %.0f | %.0f | %s a series | %.2f | 2.5 |\n", parts[1], parts[2], parts[3], limit, proved, unit, proved / limit
        if (!(proved > 0 && proved <= 2.5 * limit)) missed = missed (missed ? "; " : "") name
    }
    print missed ? "\nMissed: " missed : "\nEvery bar is met."
}' "$made/lines"
