#!/usr/bin/env bash
# Reads made scripts of several sizes and kinds with the proved reader, and prints one table: how long each takes, and how
# much memory beside its text. CPU names the processor that the proved library is built for: x86-64-v3 where nothing is said.
set -euo pipefail
top=$(cd "$(dirname "$0")/.." && pwd)
cpu=${CPU:-x86-64-v3}
kit=$(dirname "$(dirname "$(readlink -f "$(command -v rt)")")")
made=$(mktemp -d)
trap 'rm -rf "$made"' EXIT

# A repository of its own for the function that C calls, over this one's crates and what their checks kept.
mkdir -p "$made/crates/script_core_c/src"
cp "$top/bench/script_core_c/lib.rt.txt" "$made/crates/script_core_c/src/lib.rt"
below="base wire_bytes ulid_core label_sets moment_core matchers script_workers script_fields script_core"
for name in $below; do cp -a "$top/crates/$name" "$made/crates/$name"; done
for name in $below; do grep "^$name:" "$top/crates.txt"; done >"$made/crates.txt"
echo "script_core_c staticlib: script_core" >>"$made/crates.txt"
(cd "$made/crates/script_core_c" && rt lib --cpu "$cpu" >"$made/lib.log" 2>&1) || { tail -20 "$made/lib.log"; exit 1; }

rustc --edition 2021 -C opt-level=3 -A warnings -o "$made/script" "$top/bench/script.rs" \
    -L "$made/crates/script_core_c/out" -l static=script_core_c -C link-arg="$kit/c/liblibc_c.a"
echo "| Script | MiB | Seconds | ns a byte | Memory by text |"
echo "|---|---|---|---|---|"
for size in 15 30 60; do "$made/script" series "$size"; done
for size in 15 30 60; do "$made/script" samples "$size"; done
for size in 15 30 60; do "$made/script" blocks "$size"; done
"$made/script" tasks 1
"$made/script" comments 60
