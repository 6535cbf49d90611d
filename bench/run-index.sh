#!/usr/bin/env bash
# Times the proved index reader beside tight unverified loops over the same index, and the proved writer, in one run, and
# prints two tables, and whether every bar is met.
# The loops' source, limit.rs, is the first argument; without one, ../shared/bench/limit.rs beside the repository.
# CPU names the processor that the proved code is built for, LIMIT_CPU that of the loops.
set -euo pipefail
top=$(cd "$(dirname "$0")/.." && pwd)
limit=${1:-$top/../shared/bench/limit.rs}
cpu=${CPU:-x86-64-v3}
kit=$(dirname "$(dirname "$(readlink -f "$(command -v rt)")")")
made=$(mktemp -d)
trap 'rm -rf "$made"' EXIT

# A repository of its own for the functions that C calls, over this one's crates and what their checks kept.
own=$made/crates/index_c
mkdir -p "$own/src"
cp "$top/bench/index_c/lib.rt.txt" "$own/src/lib.rt"
below="base wire_bytes label_sets index_parts index_writing index_v2"
for name in $below; do cp -a "$top/crates/$name" "$made/crates/$name"; done
for name in $below; do grep "^$name:" "$top/crates.txt"; done >"$made/crates.txt"
echo "index_c staticlib: base wire_bytes label_sets index_parts index_writing index_v2" >>"$made/crates.txt"
(cd "$own" && rt lib --cpu "$cpu" >"$made/lib.log" 2>&1) || { tail -20 "$made/lib.log"; exit 1; }

sed '/^fn main() {$/,$d' "$limit" >"$made/index.rs"
cat "$top/bench/index_form.rs" "$top/bench/index.rs" >>"$made/index.rs"
rustc --edition 2021 -C opt-level=3 -C target-cpu="${LIMIT_CPU:-native}" -A warnings -o "$made/index" "$made/index.rs" \
    -L "$own/out" -l static=index_c -C link-arg="$kit/c/liblibc_c.a"
"$made/index" >"$made/lines"
awk '!($1 in time) || $2 < time[$1] { time[$1] = $2 }
END {
    print "| Work | Yardstick | Proved | Unit | Ratio | Bar |\n|---|---|---|---|---|---|"
    split("10000 100000", counts)
    for (i = 1; i <= 2; i++) {
        n = counts[i]
        row("open, " n " series", time["index_open_" n], time["proved_open_" n], "3.0")
        row("walk, " n " series", time["index_walk_" n], time["proved_walk_" n], "3.0")
        row("whole beside a walk, " n " series", time["index_walk_" n], time["proved_whole_" n], "none")
    }
    print "\n| Work | ns a series | ns a byte |\n|---|---|---|"
    written("10,000 series of four chunks", "10000")
    written("100,000 series of four chunks", "100000")
    written("10,000 series of forty chunks", "chunks")
    print missed ? "\nMissed: " missed : "\nEvery bar is met."
}
function written(name, key) {
    printf "| write %s | %.1f | %.1f |\n", name, time["write_" key], time["write_bytes_" key]
}
function row(name, limit, proved, bar) {
    printf "| %s | %.1f | %.1f | ns a series | %.2f | %s |\n", name, limit, proved, proved / limit, bar
    if (bar != "none" && !(proved > 0 && proved <= bar * limit)) missed = missed (missed ? "; " : "") name
}' "$made/lines"
