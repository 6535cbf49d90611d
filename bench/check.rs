// The proved check of a block beside the yardstick's loops, on the same bytes in one run. Built by run-check.sh, which puts the
// yardstick's source, without its `main` and with its `per` renamed, and index_form.rs in front of this file. The loops walk the
// index and decode each chunk behind its sum; they compare no postings lists, no times and no order. The proved call drops a
// copy of the block, so the time of copying is told apart.
//
// Without arguments it prints the times of one round of each side after the other. With the arguments KIND SERIES CHUNKS SIDE
// ROUNDS it does so many rounds of one side alone, whose instructions can then be counted.

use std::sync::atomic::{AtomicUsize, Ordering};

unsafe extern "C" {
    fn block_copy(meta: *const u8, m: usize, index: *const u8, i: usize, segment: *const u8, s: usize) -> u64;
    fn block_check(meta: *const u8, m: usize, index: *const u8, i: usize, segment: *const u8, s: usize) -> u64;
}

const KINDS: [&str; 5] = ["constant", "counter", "gauge", "jitter", "random"];

/// How often the yardstick's walk is done where nothing is timed.
static WALKS: AtomicUsize = AtomicUsize::new(0);

/// How often its clock was asked.
static ASKED: AtomicUsize = AtomicUsize::new(0);

/// The yardstick's clock. Where instructions are counted it does only the second work that it is given, which is the walk.
fn per(n: usize, mut work: impl FnMut()) -> f64 {
    let walks = WALKS.load(Ordering::Relaxed);
    if walks == 0 {
        return timed_per(n, work);
    }
    if ASKED.fetch_add(1, Ordering::Relaxed) == 1 {
        (0..walks).for_each(|_| work());
    }
    0.0
}

struct Files {
    meta: String,
    index: Vec<u8>,
    segment: Vec<u8>,
    /// Where the content of each chunk begins and ends.
    within: Vec<(usize, usize)>,
    samples: u64,
}

/// A block of so many series, each with the same so many chunks.
fn files_of(kind: &str, series: usize, chunks: usize) -> Files {
    let samples = data(kind, 120 * chunks);
    let mut segment = vec![0x85, 0xbd, 0x40, 0xdd, 1, 0, 0, 0];
    let (mut places, mut within) = (vec![], vec![]);
    for _ in 0..series {
        let mut own = vec![];
        for part in samples.chunks(120) {
            let mut content = vec![1];
            encode(part, &mut content);
            own.push(Place { offset: segment.len() as u64, min: part[0].0, max: part[119].0 });
            put_number(&mut segment, content.len() as u64 - 1);
            within.push((segment.len(), segment.len() + content.len()));
            let sum = unsafe { crc(&content) };
            segment.extend_from_slice(&content);
            segment.extend_from_slice(&sum.to_be_bytes());
        }
        places.push(own);
    }
    let ulid = "01J9AD70000000000000000001";
    let end = places[0][chunks - 1].max + 1;
    let meta = format!(
        "{{\"ulid\":\"{ulid}\",\"minTime\":{T},\"maxTime\":{end},\"stats\":{{}},\"compaction\":{{\"level\":1,\"sources\":[\"{ulid}\"]}},\"version\":1}}"
    );
    Files { meta, index: index_of(&places, labels_of), segment, within, samples: (series * chunks * 120) as u64 }
}

/// Decodes each chunk behind its sum. The segment has 16 bytes more than the chunks.
fn decode_all(padded: &[u8], within: &[(usize, usize)]) -> u64 {
    let mut mixed = 0u64;
    for &(from, to) in within {
        unsafe {
            assert!(crc(&padded[from..to]).to_be_bytes() == padded[to..to + 4]);
            assert!(decode(&padded[from + 1..to], |t, v| mixed = mixed.wrapping_add(t as u64 ^ v)));
        }
    }
    mixed
}

fn padded(segment: &[u8]) -> Vec<u8> {
    let mut padded = segment.to_vec();
    padded.extend_from_slice(&[0; 16]);
    padded
}

fn copied(files: &Files) {
    let (m, i, s) = (files.meta.as_bytes(), &files.index, &files.segment);
    assert_eq!(1, unsafe { block_copy(m.as_ptr(), m.len(), i.as_ptr(), i.len(), s.as_ptr(), s.len()) });
}

fn checked(files: &Files) {
    let (m, i, s) = (files.meta.as_bytes(), &files.index, &files.segment);
    assert_eq!(files.samples, unsafe { block_check(m.as_ptr(), m.len(), i.as_ptr(), i.len(), s.as_ptr(), s.len()) });
}

fn time_both(name: &str, series: usize, files: &Files) {
    let padded = padded(&files.segment);
    index(name, &files.index);
    let mut mixed = 0u64;
    println!("decode_all_{name} {:.1} ns/series", per(series, || mixed ^= decode_all(&padded, &files.within)));
    std::hint::black_box(mixed);
    println!("copy_{name} {:.1} ns/series", per(series, || copied(files)));
    println!("check_{name} {:.1} ns/series", per(series, || checked(files)));
}

/// Does so many rounds of one side.
fn count_one(files: &Files, side: &str, rounds: usize) {
    let padded = padded(&files.segment);
    for _ in 0..rounds {
        match side {
            "loops" => std::hint::black_box(decode_all(&padded, &files.within)),
            "copy" => std::hint::black_box({ copied(files); 0 }),
            _ => std::hint::black_box({ checked(files); 0 }),
        };
    }
    if side == "loops" {
        WALKS.store(rounds, Ordering::Relaxed);
        index("counted", &files.index);
    }
}

fn main() {
    let words: Vec<String> = std::env::args().skip(1).collect();
    if let [kind, series, chunks, side, rounds] = words.as_slice() {
        let files = files_of(kind, series.parse().unwrap(), chunks.parse().unwrap());
        return count_one(&files, side, rounds.parse().unwrap());
    }
    let mut shapes: Vec<(&str, usize, usize)> = KINDS.iter().map(|kind| (*kind, 1_000, 4)).collect();
    shapes.extend([("gauge", 10_000, 4), ("gauge", 1_000, 40)]);
    for (kind, series, chunks) in shapes {
        let files = files_of(kind, series, chunks);
        // The two sides in turn, so that a machine that slows down for a while slows both.
        for _ in 0..3 {
            time_both(&format!("{kind}_{series}_{chunks}"), series, &files);
        }
    }
}
