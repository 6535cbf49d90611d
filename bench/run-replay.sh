#!/usr/bin/env bash
# Times `serial` and `replay` of the program in turn, whole runs over a bucket in memory, prints a table, and says whether the bars
# are met: eight gateways that sync and are asked one query over 24 blocks, which lie on the shelf, at least 2.2 times as fast by
# `replay` on four processors (1.5 on two); and 64 uploads of small blocks no slower, where a small block is two hours of ten series
# with a sample a minute, one chunk of each. The ratios of the middle times are held to the bars as they are printed, with two digits
# behind the point. (Ratios of the least times are printed beside. They are those of rare moments: of 20 runs of `serial` one took 382
# ms and the others 500 to 648, and of 20 of `replay` one 179 and the others 201 to 332.) The middle ratio of neighbouring runs is
# printed too, which a machine's changes of speed touch least. The blocks of the query are those of bench/run-query.sh: two replicas
# of each of twelve, of 100 series by 411 or 412 samples. The other rows have no bar: the same query where the script has the samples
# of the blocks, and uploads of blocks of a few samples, which no server makes.
# PROCESSORS is how many whole processors the machine has (as many as `nproc` counts). Where that counts the halves of cores, as the
# cloud's machines do, say how many cores there are.
# ROUNDS is how often the first is run each way (9; a third as often from text, and eight times as often each of the uploads). PROGRAM
# names a program that is built already; without it the program is built. SERIES and SAMPLES are the size of what is asked (100, and
# 480 less each replica's gaps). KEEP names an empty folder in which the scripts, the shelf and the timing program stay.
set -euo pipefail
top=$(cd "$(dirname "$0")/.." && pwd)
rounds=${ROUNDS:-9}
blocks=24 series=${SERIES:-100} samples=${SAMPLES:-480}
if [ -n "${KEEP:-}" ]; then
    made=$KEEP
else
    made=$(mktemp -d)
    trap 'rm -rf "$made"' EXIT
fi
program=${PROGRAM:-$top/crates/tosraem/out/tosraem}
if [ -z "${PROGRAM:-}" ]; then
    (cd "$top/crates/tosraem" && rt run >"$made/run.log" 2>&1) || { tail -20 "$made/run.log"; exit 1; }
fi
rustc --edition 2021 -C opt-level=2 -o "$made/replay" "$top/bench/replay.rs"

# Block lines, each with its series: COUNT SERIES SAMPLES REPLICAS. Samples are 15 seconds apart. Where there are two replicas of each
# range of times, each has gaps of its own.
blocks() {
    awk -v count="$1" -v series="$2" -v samples="$3" -v replicas="$4" 'BEGIN {
        for (block = 0; block < count; block++) {
            replica = block % replicas
            start = int(block / replicas) * samples
            printf "block 000000000000000000000000%02d %d %d %s\n", block, start * 15000, (start + samples) * 15000, labels(replica)
            for (one = 0; one < series; one++) {
                printf "series {__name__=\"up\",instance=\"i%04d\"}", one
                for (place = start; place < start + samples; place++)
                    if (replicas == 1 || (place + 3 * replica) % 7)
                        printf " %d:40%014x", place * 15000, (one * 7919 + place * 104729) * 65536
                print ""
            }
        }
    }
    function labels(replica) { return replicas == 1 ? "{}" : sprintf("{replica=\"r%d\"}", replica) }'
}
# uploads of so many blocks
uploads() { for ((block = 0; block < $1; block++)); do printf 'upload 000000000000000000000000%02d\n' "$block"; done; }
shelf() { for ((block = 0; block < blocks; block++)); do printf 'shelf 000000000000000000000000%02d {replica="r%d"}\n' "$block" $((block % 2)); done; }
gateways() { for gateway in a b c d e f g h; do echo "$1 $gateway"; done; }
# the script of eight gateways over the blocks that it is given
asking() {
    echo "rule replica-label replica"
    gateways gateway
    cat
    echo "at 0"
    uploads "$blocks"
    echo "at 1800000"
    gateways sync
    echo "query 0 $((blocks / 2 * samples * 15000)) {}"
}
# the script of 64 uploads of blocks of so many series and samples
small() { blocks 64 "$1" "$2" 1; echo "at 0"; uploads 64; }

blocks "$blocks" "$series" "$samples" 2 >"$made/blocks"
{ cat "$made/blocks"; echo "at 0"; uploads "$blocks"; } | "$program" serial "$made/shelf" none >/dev/null
shelf | asking >"$made/gateways"
asking <"$made/blocks" >"$made/gateways_text"
small 1 3 >"$made/uploads"
small 4 4 >"$made/uploads_4"
small 10 120 >"$made/uploads_10"

{
    "$made/replay" "$program" "$made/shelf" "$made/gateways" "$rounds" "eight gateways, one query over $blocks blocks of the shelf"
    "$made/replay" "$program" none "$made/gateways_text" $(((rounds + 2) / 3)) "the same blocks in the script's text"
    "$made/replay" "$program" none "$made/uploads_10" $((rounds * 8)) "64 uploads of 10 series by 120 samples"
    "$made/replay" "$program" none "$made/uploads_4" $((rounds * 8)) "64 uploads of 4 series by 4 samples"
    "$made/replay" "$program" none "$made/uploads" $((rounds * 8)) "64 uploads of one series by 3 samples"
} >"$made/lines"
awk -F '\t' -v processors="${PROCESSORS:-$(nproc)}" '
BEGIN { print "| Script, whole runs over memory | `serial`, ms: least; middle | `replay`, ms: least; middle | Ratio of the least | Ratio of neighbours, the middle | Ratio of the middle | Bar |\n|---|---|---|---|---|---|---|" }
{
    bar = NR == 1 ? (processors >= 4 ? 2.2 : 1.5) : NR == 3 ? 1 : 0
    ratio = sprintf("%.2f", $4 / $5)
    printf "| %s | %.1f; %.1f | %.1f; %.1f | %.2f | %.2f | %s | %s |\n", $1, $2, $4, $3, $5, $2 / $3, $6, ratio, bar ? bar : "-"
    if (ratio + 0 < bar) missed = missed $1 "; "
}
END { print missed ? "\nMissed: " missed : "\nThe bars are met." }' "$made/lines"
