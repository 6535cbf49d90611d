// The proved builder of blocks beside the yardstick's loops, on the same samples in one run. Built by run-block.sh, which puts
// the yardstick's source, without its `main`, in front of this file. The loops encode the samples, 120 a chunk, and sum each
// chunk; the builder also frames the chunks in segments, and writes labels and an index.
//
// Without arguments it prints the times of both sides. With the arguments KIND SERIES SAMPLES SIDE ROUNDS it does so many rounds
// of one side alone, whose instructions can then be counted.

unsafe extern "C" {
    fn block_build(samples: *const Pair, count: usize, each: usize, rounds: u64) -> u64;
}

#[repr(C)]
#[derive(Clone, Copy)]
struct Pair {
    time: i64,
    pattern: u64,
}

/// So many series with so many samples each, at the same times.
fn series_of(kind: &str, count: usize, each: usize) -> Vec<Vec<(i64, u64)>> {
    let all = data(kind, count * each);
    all.chunks(each)
        .map(|part| {
            let begin = part[0].0;
            part.iter().map(|&(time, pattern)| (T + (time - begin), pattern)).collect()
        })
        .collect()
}

/// One round of the loops, and how long it took in nanoseconds. What is built is dropped in that time, as the builder's is.
fn loops(series: &[Vec<(i64, u64)>]) -> f64 {
    let mut taken = series.to_vec().into_iter();
    let begun = Instant::now();
    let made = std::hint::black_box(block(&mut taken));
    assert!(made.series.len() == series.len());
    drop(made);
    begun.elapsed().as_nanos() as f64
}

/// So many rounds of the builder, and how long they took with what comes before them.
fn builds(pairs: &[Pair], each: usize, rounds: u64) -> f64 {
    let begun = Instant::now();
    let length = unsafe { block_build(pairs.as_ptr(), pairs.len(), each, rounds) };
    assert!(length > 0);
    begun.elapsed().as_nanos() as f64
}

/// The least time of a round of each side, in nanoseconds a sample. The sides take turns, so that a machine that slows down for
/// a while slows both. A round of the builder is what three take longer than one, halved.
fn time_both(series: &[Vec<(i64, u64)>], pairs: &[Pair], each: usize) -> (f64, f64) {
    let (mut limit, mut once, mut thrice) = (f64::INFINITY, f64::INFINITY, f64::INFINITY);
    let start = Instant::now();
    while start.elapsed().as_secs_f64() < 6.0 {
        limit = limit.min(loops(series));
        once = once.min(builds(pairs, each, 1));
        thrice = thrice.min(builds(pairs, each, 3));
    }
    (limit / pairs.len() as f64, (thrice - once) / 2.0 / pairs.len() as f64)
}

fn pairs_of(series: &[Vec<(i64, u64)>]) -> Vec<Pair> {
    series.iter().flatten().map(|&(time, pattern)| Pair { time, pattern }).collect()
}

fn main() {
    let words: Vec<String> = std::env::args().skip(1).collect();
    if let [kind, count, each, side, rounds] = words.as_slice() {
        let (each, rounds) = (each.parse().unwrap(), rounds.parse().unwrap());
        let series = series_of(kind, count.parse().unwrap(), each);
        match side.as_str() {
            "loops" => (0..rounds).for_each(|_| drop(loops(&series))),
            _ => drop(builds(&pairs_of(&series), each, rounds)),
        }
        return;
    }
    for (kind, count, each) in [
        ("constant", 1_000, 480),
        ("counter", 1_000, 480),
        ("gauge", 1_000, 480),
        ("jitter", 1_000, 480),
        ("random", 1_000, 480),
        ("gauge", 10_000, 480),
        ("gauge", 1_000, 4_800),
    ] {
        let series = series_of(kind, count, each);
        let (limit, proved) = time_both(&series, &pairs_of(&series), each);
        println!("{kind} {count} {each} {limit:.2} {proved:.2}");
    }
}
