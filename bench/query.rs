// The proved answer to one query beside the yardstick's loops, on the same samples in one run. Built by run-query.sh, which puts the
// yardstick's source, without its `main`, in front of this file. The loops sum and decode the chunks of both replicas of each of
// twelve blocks, and merge each series' samples, block by block; the proved call also reads each index, through a world that keeps a
// journal of what it reads, tests each chunk against its place, and merges the samples of all blocks under their final labels.
//
// With the word `times` it prints the times of both sides, with `reads` what a query of one series reads, with `apart` how long a block
// of 8,000 series takes, of which all match or every second one, and with SIDE ROUNDS it does so many rounds of one side alone, whose
// instructions can then be counted.

unsafe extern "C" {
    fn query_run(pairs: *const Pair, count: usize, blocks: u32, series: usize, even: usize, odd: usize, selector: *const u8, length: usize, rounds: u64, what: u32) -> u64;
    fn query_files(pairs: *const Pair, count: usize, each: usize) -> u64;
    fn clock_gettime(clock: i32, time: *mut [i64; 2]) -> i32;
}

/// The processor's time of this thread, in nanoseconds. It does not count the turns of others.
fn now() -> f64 {
    let mut time = [0; 2];
    assert!(unsafe { clock_gettime(3, &mut time) } == 0);
    time[0] as f64 * 1e9 + time[1] as f64
}

#[repr(C)]
#[derive(Clone, Copy)]
struct Pair {
    time: i64,
    pattern: u64,
}

/// A series of the generated day: 480 samples of a block, without those in which one of two replicas has a gap.
fn samples(block: i64, replica: i64, series: u64) -> Vec<(i64, u64)> {
    (0..480)
        .filter(|k| k % 7 != if replica == 0 { 3 } else { 5 })
        .map(|k| {
            let time = T + 7_200_000 * block + 15_000 * k;
            (time, (7 + 1_000_003 * series + time as u64).wrapping_mul(MUL).wrapping_add(INC))
        })
        .collect()
}

/// The series of so many blocks, of which each second one is the other replica of the one before it.
fn all(blocks: i64, series: u64) -> Vec<Vec<Vec<(i64, u64)>>> {
    (0..blocks).map(|number| (0..series).map(|s| samples(number / 2, number % 2, s)).collect()).collect()
}

/// One round of the loops, in nanoseconds.
fn loops(blocks: &[Block], series: usize) -> f64 {
    let begun = now();
    let (mut x, mut y, mut o) = (vec![], vec![], vec![]);
    let (mut n, mut acc) = (0, 0u64);
    for s in 0..series {
        for pair in blocks.chunks(2) {
            x.clear();
            y.clear();
            o.clear();
            read(&pair[0], s, &mut x);
            read(&pair[1], s, &mut y);
            merge(&x, &y, &mut o);
            n += o.len();
            acc = o.iter().fold(acc, |a, p| a.wrapping_add(p.0 as u64 ^ p.1));
        }
    }
    assert_eq!(n, 48 * 120 * series);
    std::hint::black_box(acc);
    now() - begun
}

/// So many rounds of the proved call, and how long they took with what comes before them; and what is told of the last one.
fn calls(pairs: &[Pair], blocks: u32, series: usize, selector: &str, rounds: u64, what: u32) -> (f64, u64) {
    let begun = now();
    let (even, odd) = (samples(0, 0, 0).len(), samples(0, 1, 0).len());
    let told = unsafe { query_run(pairs.as_ptr(), pairs.len(), blocks, series, even, odd, selector.as_ptr(), selector.len(), rounds, what) };
    assert!(told > 0, "refused");
    (now() - begun, told)
}

/// How long one query takes over a block of 8,000 series of two samples, of which those match whose number has this pattern.
fn one_of_many(pattern: &str, matching: u64) -> f64 {
    let pairs: Vec<Pair> = (0..8000).flat_map(|s| samples(0, 0, s).into_iter().take(2)).map(|(time, pattern)| Pair { time, pattern }).collect();
    let selector = format!("{{__name__=\"m\",i=~\"{pattern}\"}}");
    let least = |rounds| {
        let one = || {
            let begun = now();
            let told = unsafe { query_run(pairs.as_ptr(), pairs.len(), 1, 8000, 2, 2, selector.as_ptr(), selector.len(), rounds, 0) };
            assert_eq!(told, 2 * matching);
            now() - begun
        };
        (0..5).map(|_| one()).fold(f64::INFINITY, f64::min)
    };
    (least(3) - least(1)) / 2.0
}

fn pairs_of(blocks: &[Vec<Vec<(i64, u64)>>]) -> Vec<Pair> {
    blocks.iter().flatten().flatten().map(|&(time, pattern)| Pair { time, pattern }).collect()
}

fn main() {
    let words: Vec<String> = std::env::args().skip(1).collect();
    let words: Vec<&str> = words.iter().map(|w| w.as_str()).collect();
    if words == ["reads"] {
        let pairs = pairs_of(&all(1, 1000));
        let told = |selector: &str, rounds, what| calls(&pairs, 1, 1000, selector, rounds, what).1;
        let one = "{__name__=\"m\",i=\"500\"}";
        assert_eq!(told(one, 1, 0), samples(0, 0, 0).len() as u64);
        let files = unsafe { query_files(pairs.as_ptr(), pairs.len(), samples(0, 0, 0).len()) };
        println!("bytes {files} {} {} {} {}", told(one, 1, 2), told(one, 1, 3), told(one, 2, 2), told(one, 2, 3));
        return;
    }
    if words == ["apart"] {
        println!("apart {:.0} {:.0}", one_of_many(".*", 8000), one_of_many(".*[02468]", 4000));
        return;
    }
    let generated = all(24, 100);
    let blocks: Vec<Block> = generated.iter().map(|b| block(&mut b.clone().into_iter())).collect();
    let pairs = pairs_of(&generated);
    if let [side, rounds] = words.as_slice() {
        let rounds = rounds.parse().unwrap();
        match *side {
            "loops" => (0..rounds).for_each(|_| drop(loops(&blocks, 100))),
            _ => drop(calls(&pairs, 24, 100, "m", rounds, 0)),
        }
        return;
    }
    // both sides come to the same samples
    let mut sum = 0u64;
    let mut merged = vec![];
    for pair in generated.chunks(2) {
        for s in 0..100 {
            merged.clear();
            merge(&pair[0][s], &pair[1][s], &mut merged);
            sum = merged.iter().fold(sum, |sum, sample| sum.wrapping_add(sample.1));
        }
    }
    assert_eq!(calls(&pairs, 24, 100, "m", 1, 0).1, 576_000);
    assert_eq!(calls(&pairs, 24, 100, "m", 1, 1).1, sum);
    let (mut limit, mut once, mut thrice) = (f64::INFINITY, f64::INFINITY, f64::INFINITY);
    let start = Instant::now();
    while start.elapsed().as_secs_f64() < 20.0 {
        limit = limit.min(loops(&blocks, 100));
        once = once.min(calls(&pairs, 24, 100, "m", 1, 0).0);
        thrice = thrice.min(calls(&pairs, 24, 100, "m", 3, 0).0);
    }
    println!("time {:.3} {:.3}", limit / 576_000.0, (thrice - once) / 2.0 / 576_000.0);
}
