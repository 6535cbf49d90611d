#!/usr/bin/env bash
# Times the proved reader and writer of records beside what the sum and one copy of the same bytes take, in one run, and prints a
# table, and whether the bar is met.
# The yardstick's source, limit.rs, is the first argument; without one, ../shared/bench/limit.rs beside the repository.
# CPU names the processor that the proved code is built for, LIMIT_CPU that of the copy.
set -euo pipefail
top=$(cd "$(dirname "$0")/.." && pwd)
limit=${1:-$top/../shared/bench/limit.rs}
cpu=${CPU:-x86-64-v3}
kit=$(dirname "$(dirname "$(readlink -f "$(command -v rt)")")")
made=$(mktemp -d)
trap 'rm -rf "$made"' EXIT

# A repository of its own for the functions that C calls, over this one's crates and what their checks kept.
own=$made/crates/record_c
mkdir -p "$own/src"
cp "$top/bench/record_c/lib.rt.txt" "$own/src/lib.rt"
below="base wire_bytes ulid_core label_sets moment_core block_keys bucket_core world_core journal_records"
for name in $below; do cp -a "$top/crates/$name" "$made/crates/$name"; done
for name in $below; do grep "^$name:" "$top/crates.txt"; done >"$made/crates.txt"
echo "record_c staticlib: $below" >>"$made/crates.txt"
(cd "$own" && rt lib --cpu "$cpu" >"$made/lib.log" 2>&1) || { tail -20 "$made/lib.log"; exit 1; }

sed '/^fn main() {$/,$d; s/^fn per(/fn timed_per(/' "$limit" >"$made/record.rs"
cat "$top/bench/record.rs" >>"$made/record.rs"
rustc --edition 2021 -C opt-level=3 -C target-cpu="${LIMIT_CPU:-native}" -A warnings -o "$made/record" "$made/record.rs" \
    -L "$own/out" -l static=record_c -C link-arg="$kit/c/liblibc_c.a"
"$made/record" >"$made/lines"
awk '!($1 in time) || $2 < time[$1] { time[$1] = $2 }
END {
    print "| Record | Bytes | Entries | Sum | Copy | Read | Ratio | Write | Ratio | Bar |\n|---|---|---|---|---|---|---|---|---|---|"
    row("a day of uploads and queries", "day", "1.5")
    row("large segments", "segments", "1.5")
    row("small objects", "small", "none")
    print "\nTimes are in ns a byte."
    print missed ? "\nMissed: " missed : "\nEvery bar is met."
}
function row(title, name, bar,   limit) {
    limit = time["sum_" name] + time["copy_" name]
    printf "| %s | %d | %d | %.3f | %.3f | %.3f | %.2f | %.3f | %.2f | %s |\n", title, time["size_" name], time["count_" name], \
        time["sum_" name], time["copy_" name], time["read_" name], time["read_" name] / limit, time["write_" name], time["write_" name] / limit, bar
    if (bar != "none") { meet(title ", reading", time["read_" name], bar * limit); meet(title ", writing", time["write_" name], bar * limit) }
}
function meet(title, proved, most) {
    if (!(proved > 0 && proved <= most)) missed = missed (missed ? "; " : "") title
}' "$made/lines"
