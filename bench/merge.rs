// The proved merge of two blocks beside the yardstick's loops, on the same samples in one run. Built by run-merge.sh, which puts
// the yardstick's source, without its `main`, in front of this file. The loops read, sum and decode the chunks of both, merge
// each series' samples, and encode and sum 120 a chunk; the proved merge also reads two indexes whole, tests each chunk before it
// merges any, frames the chunks in segments, and writes labels and an index.
//
// Without arguments it prints the times of both sides. With the arguments KIND SIDE ROUNDS it does so many rounds of one side
// alone, whose instructions can then be counted.

unsafe extern "C" {
    fn merge_run(first: *const Pair, first_count: usize, first_each: usize, second: *const Pair, second_count: usize, second_each: usize, rounds: u64) -> u64;
}

#[repr(C)]
#[derive(Clone, Copy)]
struct Pair {
    time: i64,
    pattern: u64,
}

const SERIES: u64 = 100;

/// A series of the generated day: 480 samples of a block, without those in which one of two replicas has a gap.
fn samples(block: i64, replica: i64, series: u64) -> Vec<(i64, u64)> {
    (0..480)
        .filter(|k| k % 7 != if replica == 0 { 3 } else { 5 })
        .map(|k| {
            let time = T + 7_200_000 * block + 15_000 * k;
            (time, (7 + 1_000_003 * series + time as u64).wrapping_mul(MUL).wrapping_add(INC))
        })
        .collect()
}

/// What is merged: two replicas of one block, or two blocks one after the other.
fn inputs(kind: &str) -> [Vec<Vec<(i64, u64)>>; 2] {
    let (block, replica) = if kind == "replicas" { (0, 1) } else { (1, 0) };
    [(0, 0), (block, replica)].map(|(b, r)| (0..SERIES).map(|s| samples(b, r, s)).collect())
}

fn written(series: &[Vec<(i64, u64)>]) -> Block {
    block(&mut series.to_vec().into_iter())
}

/// One round of the loops, in nanoseconds. What is made is dropped in that time, as the merge's is.
fn loops(first: &Block, second: &Block) -> f64 {
    let begun = Instant::now();
    let made = std::hint::black_box(block(&mut (0..SERIES as usize).map(|s| {
        let (mut x, mut y, mut o) = (vec![], vec![], vec![]);
        read(first, s, &mut x);
        read(second, s, &mut y);
        merge(&x, &y, &mut o);
        o
    })));
    assert!(made.series.len() == SERIES as usize);
    drop(made);
    begun.elapsed().as_nanos() as f64
}

/// One round of copying the bytes of both blocks, in nanoseconds.
fn copies(first: &Block, second: &Block) -> f64 {
    let begun = Instant::now();
    let mut made = Vec::with_capacity(1 << 20);
    made.extend_from_slice(&first.bytes);
    made.extend_from_slice(&second.bytes);
    drop(std::hint::black_box(made));
    begun.elapsed().as_nanos() as f64
}

fn pairs_of(series: &[Vec<(i64, u64)>]) -> Vec<Pair> {
    series.iter().flatten().map(|&(time, pattern)| Pair { time, pattern }).collect()
}

/// So many rounds of the proved merge, and how long they took with what comes before them.
fn merges(pairs: &[Vec<Pair>; 2], rounds: u64) -> f64 {
    let [first, second] = pairs;
    let each = |pairs: &Vec<Pair>| pairs.len() / SERIES as usize;
    let begun = Instant::now();
    let length = unsafe { merge_run(first.as_ptr(), first.len(), each(first), second.as_ptr(), second.len(), each(second), rounds) };
    assert!(length > 0);
    begun.elapsed().as_nanos() as f64
}

fn main() {
    let words: Vec<String> = std::env::args().skip(1).collect();
    if let [kind, side, rounds] = words.as_slice() {
        let rounds = rounds.parse().unwrap();
        let series = inputs(kind);
        let blocks = series.each_ref().map(|s| written(s));
        match side.as_str() {
            "loops" => (0..rounds).for_each(|_| drop(loops(&blocks[0], &blocks[1]))),
            _ => drop(merges(&series.each_ref().map(|s| pairs_of(s)), rounds)),
        }
        return;
    }
    // Both kinds are measured in turn, since the bar on the second speaks of the loops' time on the first.
    let mut sides = ["replicas", "following"].map(Side::of);
    let start = Instant::now();
    while start.elapsed().as_secs_f64() < 16.0 {
        sides.iter_mut().for_each(Side::measure);
    }
    for side in &sides {
        println!("{} {:.2} {:.2} {:.3}", side.kind, side.limit / side.count, (side.thrice - side.once) / 2.0 / side.count, side.copy / side.count);
    }
}

/// What is merged, how many samples it has, and the least times so far: of the loops, of copying, and of one merge and three.
struct Side {
    kind: &'static str,
    count: f64,
    blocks: [Block; 2],
    pairs: [Vec<Pair>; 2],
    limit: f64,
    copy: f64,
    once: f64,
    thrice: f64,
}

impl Side {
    fn of(kind: &'static str) -> Side {
        let series = inputs(kind);
        let count = series.iter().flatten().map(|s| s.len()).sum::<usize>() as f64;
        let far = f64::INFINITY;
        let (blocks, pairs) = (series.each_ref().map(|s| written(s)), series.each_ref().map(|s| pairs_of(s)));
        Side { kind, count, blocks, pairs, limit: far, copy: far, once: far, thrice: far }
    }

    fn measure(&mut self) {
        let [first, second] = &self.blocks;
        self.limit = self.limit.min(loops(first, second));
        self.copy = self.copy.min(copies(first, second));
        self.once = self.once.min(merges(&self.pairs, 1));
        self.thrice = self.thrice.min(merges(&self.pairs, 3));
    }
}
