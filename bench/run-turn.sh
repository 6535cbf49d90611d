#!/usr/bin/env bash
# Times 100,000 operations on a shared world, done by one pass and by two in threads of their own, prints a table, and says
# whether the bar is met: two passes take at most five times as long as one.
# CPU names the processor that the code is built for.
set -euo pipefail
top=$(cd "$(dirname "$0")/.." && pwd)
cpu=${CPU:-x86-64-v3}
made=$(mktemp -d)
trap 'rm -rf "$made"' EXIT

# A repository of its own for the program, over this one's crates and what their checks kept.
own=$made/crates/turn_speed
mkdir -p "$own/src" "$own/proofs/many"
cp "$top/bench/turn_speed/main.rt.txt" "$own/src/main.rt"
cp "$top/bench/turn_speed/many.antt.txt" "$own/proofs/many/Invariants.antt"
touch "$own/proofs/Lib.antt"
cp "$top/HANDLES" "$made/HANDLES"
below="base wire_bytes ulid_core label_sets moment_core block_keys bucket_core world_core world_turn"
for name in $below; do cp -a "$top/crates/$name" "$made/crates/$name"; done
for name in $below; do grep "^$name:" "$top/crates.txt"; done >"$made/crates.txt"
echo "turn_speed: base wire_bytes ulid_core label_sets moment_core block_keys bucket_core world_core world_turn" >>"$made/crates.txt"
(cd "$own" && rt run --cpu "$cpu" >"$made/lines" 2>"$made/run.log") || { tail -20 "$made/run.log"; exit 1; }

awk '$1 ~ /^(one|two)$/ && NF == 3 {
    if ($3 != 100000) wrong = 1
    time[$1, ++count[$1]] = $2 / 100000
    all[$1] = all[$1] " " int($2 / 100000)
}
# puts the times of one kind in order, so that the least is the first and the middle one stands in the middle
function order(kind,   i, j, held) {
    for (i = 2; i <= count[kind]; i++) {
        held = time[kind, i]
        for (j = i - 1; j >= 1 && time[kind, j] > held; j--) time[kind, j + 1] = time[kind, j]
        time[kind, j + 1] = held
    }
    middle[kind] = time[kind, int((count[kind] + 1) / 2)]
}
END {
    if (count["one"] != 9 || count["two"] != 9) { print "Missed: rounds are lacking."; exit }
    order("one"); order("two")
    print "| 100,000 operations | ns each: least; middle | each of the nine |\n|---|---|---|"
    printf "| by one pass | %.0f; %.0f |%s |\n", time["one", 1], middle["one"], all["one"]
    printf "| by two passes | %.0f; %.0f |%s |\n", time["two", 1], middle["two"], all["two"]
    printf "\nRatio of the least %.2f, of the middle %.2f; the bar is 5, of the middle.\n", time["two", 1] / time["one", 1], middle["two"] / middle["one"]
    print wrong ? "A journal has not all entries." : (middle["two"] > 5 * middle["one"] ? "Missed." : "The bar is met.")
}' "$made/lines"
