#!/usr/bin/env bash
# Times the proved selection of series beside a tight unverified loop over the same lists, in one run, over indexes of 10,000
# and of 100,000 series with four labels, and prints a table, the load of the machine, and whether every bar is met. The index
# is opened before the clock begins. What is taken is the processor's time of the one thread, which does not count the turns
# of others. The function that the proved code calls behind each selection is C's, so the library is built where that is
# allowed; it decides how often a selection is made, and no more.
# The source with the loop's sum and its clock, limit.rs, is the first argument; without one, ../shared/bench/limit.rs beside
# the repository. CPU names the processor that the proved code is built for, LIMIT_CPU that of the loop.
set -euo pipefail
top=$(cd "$(dirname "$0")/.." && pwd)
limit=${1:-$top/../shared/bench/limit.rs}
cpu=${CPU:-x86-64-v3}
kit=$(dirname "$(dirname "$(readlink -f "$(command -v rt)")")")
made=$(mktemp -d)
trap 'rm -rf "$made"' EXIT

# A repository of its own for the function that C calls, over this one's crates and what their checks kept.
own=$made/crates/selection_c
mkdir -p "$own/src" "$own/c"
cp "$top/bench/selection_c/lib.rt.txt" "$own/src/lib.rt"
below="base wire_bytes label_sets index_parts index_v2 matchers series_selection"
for name in $below; do cp -a "$top/crates/$name" "$made/crates/$name"; done
for name in $below; do grep "^$name:" "$top/crates.txt"; done >"$made/crates.txt"
echo "selection_c staticlib: base wire_bytes label_sets index_parts index_v2 matchers series_selection" >>"$made/crates.txt"
(cd "$own" && RT_ALLOW_C=selection_c rt lib --cpu "$cpu" >"$made/lib.log" 2>&1) || { tail -20 "$made/lib.log"; exit 1; }

sed '/^fn main() {$/,$d' "$limit" >"$made/selection.rs"
cat "$top/bench/index_form.rs" "$top/bench/selection.rs" >>"$made/selection.rs"
rustc --edition 2021 -C opt-level=3 -C target-cpu="${LIMIT_CPU:-native}" -A warnings -o "$made/selection" "$made/selection.rs" \
    -L "$own/out" -l static=selection_c -C link-arg="$kit/c/liblibc_c.a"
"$made/selection" >"$made/lines"
awk -v load="$(cut -d' ' -f1 /proc/loadavg)" '!($1 in time) || $2 < time[$1] { time[$1] = $2 }
END {
    print "| Selection | Tight loop | Proved | Unit | Ratio | Bar | Met |\n|---|---|---|---|---|---|---|"
    split("10000 100000", counts)
    for (i = 1; i <= 2; i++) {
        row("one `=`", "equal", counts[i])
        row("`=` and `!=`", "differs", counts[i])
        row("`=` on a label with a value for each series", "unique", counts[i])
        row("one pattern over 1,000 values", "pattern", counts[i])
    }
    print missed ? "\nMissed: " missed : "\nEvery bar is met."
    print "The load was " load "."
}
function row(title, name, n,   limit, proved) {
    title = title ", " n " series"
    limit = time["tight_" name "_" n]
    proved = time["proved_" name "_" n]
    met = proved > 0 && proved <= 2.5 * limit
    printf "| %s | %.2f | %.2f | ns a series | %.2f | 2.5 | %s |\n", title, limit, proved, proved / limit, met ? "yes" : "no"
    if (!met) missed = missed (missed ? "; " : "") title
}' "$made/lines"
