#!/usr/bin/env bash
# Measures `generate 7` beside tight unverified loops that do the same work over the same data, and prints tables, and whether every bar
# is met: the whole at most 8 times the loops' time, and at most 120 MB of memory (117,187 KiB).
# Its parts are told within one run: perf says some thousand times a second which function runs, and bench/day_parts.awk shares that out
# by the crates at work. Each part may take a multiple of the loops' time too. Counted (below), a part is what a script of the same
# blocks takes more with one step more (`serial` over memory). So are the steps of a small day (20 series, a sample each 150 seconds), of
# one with ten times its series, and of one with ten times its blocks.
# The program is PROGRAM, or what `rt run` left in crates/tosraem/out. The loops' source, limit.rs, is the first argument; without one,
# ../shared/bench/limit.rs beside the repository.
# With COUNT=1 it counts instructions by valgrind, which a busy machine does not spoil; it takes half an hour.
set -euo pipefail
top=$(cd "$(dirname "$0")/.." && pwd)
limit=${1:-$top/../shared/bench/limit.rs}
program=${PROGRAM:-$top/crates/tosraem/out/tosraem}
count=${COUNT:-}
runs=${RUNS:-5}
made=$(mktemp -d)
trap 'rm -rf "$made"' EXIT

# counted once, each part of the loops runs once
sed '/^fn main() {$/,$d' "$limit" | sed "${count:+s/in 0\.\.25 {/in 0..1 {/}" >"$made/day.rs"
cat "$top/bench/day.rs" >>"$made/day.rs"
# the program is built for x86-64-v2, and valgrind knows the instructions of few processors
rustc --edition 2021 -C opt-level=3 -C target-cpu="${LIMIT_CPU:-$([ "$count" ] && echo x86-64-v2 || echo native)}" -A warnings \
    -o "$made/day" "$made/day.rs"

# what a run of the program takes on a file: milliseconds and KiB, or instructions
take() {
    if [ "$count" ]; then
        local from=$1
        shift
        [ "$from" = - ] && from=/dev/null
        valgrind --tool=callgrind --callgrind-out-file=/dev/null "$program" "$@" <"$from" 2>&1 >/dev/null | awk '/Collected/ { print $4, 0 }'
    else
        "$made/day" time "$runs" "$1" "$program" "${@:2}"
    fi
}
loops() {
    if [ "$count" ]; then
        valgrind --tool=callgrind --callgrind-out-file=/dev/null "$made/day" loops 2>&1 >/dev/null | awk '/Collected/ { print "day_all_wall", $4 }'
    else
        "$made/day" loops
    fi
}
# a line for each step of a script of so many series, times and samples: its name and what it takes
steps() {
    for step in blocks write look compact again clean end; do
        "$made/day" script "$step" "$@" >"$made/script"
        echo "$step $(take "$made/script" serial memory none)"
    done
}
# the least time of each part over some runs, in milliseconds of the processor
parts() {
    for _ in $(seq "$runs"); do
        perf record -q -F 5000 -e cpu-clock -o "$made/perf" "$program" generate 7 >"$made/perf.log" 2>&1
        perf script -i "$made/perf" -F ip,sym 2>>"$made/perf.log" | awk -v period=0.2 -f "$top/bench/day_parts.awk"
    done | awk '!($1 in least) || $2 < least[$1] { least[$1] = $2 } END { for (part in least) print part, least[part] }'
}
loops >"$made/loops"
echo "whole $(take - generate 7)" >"$made/whole"
if [ "$count" ]; then
    of_day=$made/day.steps
    steps 100 12 480 >"$of_day"
else
    of_day=$made/day.parts
    parts >"$of_day"
fi
steps 20 12 48 >"$made/small.steps"
steps 200 12 48 >"$made/series.steps"
steps 20 120 48 >"$made/blocks.steps"

unit=${count:+instructions}
awk -v unit="${unit:-ms}" '
$1 ~ /^day_/ { loop[$1] = $2 }
$1 == "whole" { whole = $2; memory = $3 }
FILENAME ~ /day.steps/ { part[$1] = $2 - last; last = $2 }
FILENAME ~ /day.parts/ { part[$1] = $2 }
function row(words, taken, by, bar) {
    if (by) printf "| %s | %.1f | %.1f | %.2f | %s |\n", words, by, taken, taken / by, bar
    else printf "| %s | - | %.1f | - | - |\n", words, taken
    if (by && bar != "-" && taken > bar * by) missed = missed words "; "
}
END {
    print "| Part, in " unit " | Loops | Proved | Ratio | Bar |\n|---|---|---|---|---|"
    row("`generate 7`, whole", whole, loop["day_all_wall"], 8)
    if ("script" in part) row("the script is made", part["script"], 0, "-")
    if (!("write" in part)) {
        print "| its parts: perf found no symbols | - | - | - | - |"
        missed = missed "parts; "
    } else {
        row("24 blocks are built and put", part["write"], loop["day_write_wall"], 3)
        row("two gateways sync, read all 24 blocks, and their answers are joined", part["look"], 2 * loop["day_query24_wall"], 4)
        row("fifteen rounds of compaction", part["compact"], loop["day_compact_wall"], 5)
    }
    if ("later" in part) {
        row("the second query and the third, by both gateways, and the cleaning", part["later"], 4 * loop["day_query_after_wall"], "-")
        row("breaches are sought, and the summary is made", part["summary"], 0, "-")
    } else if ("again" in part) {
        row("the second query, by both gateways", part["again"], 2 * loop["day_query_after_wall"], "-")
        row("the cleaning", part["clean"], 0, "-")
        row("the third query, by both gateways", part["end"], 2 * loop["day_query_after_wall"], "-")
    }
    if (memory) printf "\nGreatest memory of `generate 7`: %d KiB, of 117,187 (120 MB).\n", memory
    if (memory > 117187) missed = missed "memory; "
    print missed ? "\nMissed: " missed : "\nEvery bar is met."
}' "$made/loops" "$made/whole" "$of_day"
awk -v unit="${unit:-ms}" '
{ if (FNR == 1) { file++; last = 0 } part[file, $1] = $2 - last; last = $2; if (file == 1) order[++n] = $1 }
END {
    print "\n| Step, in " unit " | A small day | Ten times the series | Growth | Ten times the blocks | Growth |\n|---|---|---|---|---|---|"
    for (i = 1; i <= n; i++) {
        s = order[i]
        printf "| %s | %.1f | %.1f | %.1f | %.1f | %.1f |\n", s, part[1, s], part[2, s], part[2, s] / part[1, s], part[3, s], part[3, s] / part[1, s]
    }
}' "$made/small.steps" "$made/series.steps" "$made/blocks.steps"
