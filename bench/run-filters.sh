#!/usr/bin/env bash
# Times the proved splitting of blocks that are covered and that are not, over 1,024 and 4,096 blocks of up to 64 sources each, and
# prints a table of processor nanoseconds a source, and whether four times as many blocks take at most twice as long a source.
# CPU names the processor that the proved code is built for.
set -euo pipefail
top=$(cd "$(dirname "$0")/.." && pwd)
cpu=${CPU:-x86-64-v3}
kit=$(dirname "$(dirname "$(readlink -f "$(command -v rt)")")")
made=$(mktemp -d)
trap 'rm -rf "$made"' EXIT

# A repository of its own for the function that C calls, over this one's crates and what their checks kept.
own=$made/crates/filters_c
mkdir -p "$own/src"
cp "$top/bench/filters_c/lib.rt.txt" "$own/src/lib.rt"
below="base wire_bytes ulid_core label_sets moment_core block_keys block_meta sync_filters"
for name in $below; do cp -a "$top/crates/$name" "$made/crates/$name"; done
for name in $below; do grep "^$name:" "$top/crates.txt"; done >"$made/crates.txt"
echo "filters_c staticlib: base wire_bytes ulid_core label_sets moment_core block_meta sync_filters" >>"$made/crates.txt"
(cd "$own" && rt lib --cpu "$cpu" >"$made/lib.log" 2>&1) || { tail -20 "$made/lib.log"; exit 1; }

rustc --edition 2021 -C opt-level=3 -A warnings -o "$made/filters" "$top/bench/filters.rs" \
    -L "$own/out" -l static=filters_c -C link-arg="$kit/c/liblibc_c.a"
"$made/filters" >"$made/lines"
awk '{ time[$1] = $2 }
END {
    print "| Sources of the blocks | 1,024 blocks | 4,096 blocks | Unit | Growth | Bar |\n|---|---|---|---|---|---|"
    row("64 of its own each", "own", 2)
    row("all but one shared with the next", "windows", 2)
    row("two blocks of each list", "pairs", 2)
    row("the same for all", "equal", 2)
    row("any 64 of 128", "dense", 2)
    row("all, 48, 32 and 16 of each list of 64", "nested", 2)
    # two sources a block, so that moving the blocks themselves counts
    row("63 blocks of one source below one of 64", "levels", "none")
    # each source is one of many larger blocks that do not cover
    row("any 33 to 64 of 128", "mixed", "none")
    print missed ? "\nMissed: " missed : "\nEvery bar is met."
}
function row(title, name, bar,   few, many) {
    few = time[name "_1024"]
    many = time[name "_4096"]
    printf "| %s | %.1f | %.1f | ns a source | %.2f | %s |\n", title, few, many, many / few, bar
    if (bar != "none" && !(many > 0 && many <= bar * few)) missed = missed (missed ? "; " : "") title
}' "$made/lines"
