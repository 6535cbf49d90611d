# Shares out the samples of a run of the generated day among its parts, by the crates at work: what is built and put ends with the first
# sample of a sync or a query, the first look with the first sample of a compaction, and the rounds with the last one.
NF {
    count++
    crate[count] = $2
    sub(/::.*/, "", crate[count])
    if (!written && crate[count] ~ /^(shipper|block_writing|xor_chunks|index_writing)$/) written = count
    if (!looked && crate[count] ~ /^(meta_fetcher|store_calls|index_parts)$/) looked = count
    if (looked && crate[count] ~ /^(compactor|block_merging)$/) {
        if (!merged) merged = count
        last = count
    }
    if (last && !ended && (crate[count] == "breach_finding" || $2 ~ /report_lines::summing/)) ended = count
}
END {
    # a program without its symbols tells nothing
    if (!written || !looked || !merged || !ended) exit
    print "script", (written - 1) * period
    print "write", (looked - written) * period
    print "look", (merged - looked) * period
    print "compact", (last - merged + 1) * period
    print "later", (ended - last - 1) * period
    print "summary", (count - ended + 1) * period
    print "whole", count * period
}
