// The proved XOR chunks beside the yardstick's loops, on the same data in one run. Built by run-xor.sh, which puts the
// yardstick's source, without its `main`, in front of this file.

unsafe extern "C" {
    fn xor_decode(bytes: *const u8, count: usize) -> u64;
    fn xor_encode(samples: *const Pair, count: usize, rounds: u32) -> u64;
    fn xor_crc(bytes: *const u8, count: usize) -> u32;
}

#[repr(C)]
struct Pair {
    time: i64,
    pattern: u64,
}

/// How often a chunk is encoded in one call, over samples that are laid out once.
const ROUNDS: u32 = 20;

/// How many chunks are encoded in one run.
const ENCODED: usize = 20;

/// The least times of one run among many, in nanoseconds for each of n: of the yardstick and of the proved body, which run in
/// turn, so that what else the machine does falls on both.
fn least(n: usize, mut limit: impl FnMut(), mut proved: impl FnMut()) -> (f64, f64) {
    let mut times = (f64::INFINITY, f64::INFINITY);
    let start = Instant::now();
    while start.elapsed().as_millis() < 3000 {
        let begun = Instant::now();
        limit();
        times.0 = times.0.min(begun.elapsed().as_nanos() as f64 / n as f64);
        let begun = Instant::now();
        proved();
        times.1 = times.1.min(begun.elapsed().as_nanos() as f64 / n as f64);
    }
    times
}

fn row(name: &str, unit: &str, (limit, proved): (f64, f64), bar: f64) -> bool {
    let ratio = proved / limit;
    println!("| {name} | {limit:.2} | {proved:.2} | {unit} | {ratio:.2} | {bar:.1} |");
    ratio <= bar
}

fn pairs_of(chunk: &[(i64, u64)]) -> Vec<Pair> {
    chunk.iter().map(|&(time, pattern)| Pair { time, pattern }).collect()
}

fn main() {
    const N: usize = 120 * 400;
    let mut mixed = 0u64;
    let mut met = true;
    println!("| Work | Yardstick | Proved | Unit | Ratio | Bar |\n|---|---|---|---|---|---|");
    for kind in ["constant", "counter", "gauge", "jitter", "random"] {
        let samples = data(kind, N);
        let (mut out, mut places) = (Vec::with_capacity(N * 12), vec![]);
        for chunk in samples.chunks(120) {
            let start = out.len();
            encode(chunk, &mut out);
            places.push((start, out.len()));
        }
        for (chunk, &(start, end)) in samples.chunks(120).zip(&places) {
            let want = chunk.iter().fold(0u64, |a, &(t, v)| a.wrapping_add(t as u64 ^ v));
            assert_eq!(unsafe { xor_decode(out[start..].as_ptr(), end - start) }, want);
            let pairs = pairs_of(chunk);
            assert_eq!(unsafe { xor_encode(pairs.as_ptr(), pairs.len(), 1) }, (end - start) as u64);
        }
        out.extend_from_slice(&[0; 16]);
        let mut also = 0u64;
        let times = least(
            N,
            || {
                for &(start, end) in &places {
                    unsafe { decode(&out[start..end], |t, v| mixed = mixed.wrapping_add(t as u64 ^ v)) };
                }
            },
            || {
                for &(start, end) in &places {
                    also = also.wrapping_add(unsafe { xor_decode(out[start..].as_ptr(), end - start) });
                }
            },
        );
        met &= row(&format!("decode {kind}"), "ns a sample", times, 2.0);
        let chunks: Vec<Vec<Pair>> = samples.chunks(120).take(ENCODED).map(pairs_of).collect();
        let mut again = Vec::with_capacity(2048);
        let times = least(
            120 * ENCODED * ROUNDS as usize,
            || {
                for chunk in samples.chunks(120).take(ENCODED) {
                    for _ in 0..ROUNDS {
                        again.clear();
                        encode(chunk, &mut again);
                        mixed = mixed.wrapping_add(again.len() as u64);
                    }
                }
            },
            || {
                for chunk in &chunks {
                    also = also.wrapping_add(unsafe { xor_encode(chunk.as_ptr(), chunk.len(), ROUNDS) });
                }
            },
        );
        met &= row(&format!("encode {kind}"), "ns a sample", times, 2.0);
        mixed = mixed.wrapping_add(also);
    }
    let mut x = 1u64;
    let bytes: Vec<u8> = (0..1 << 20)
        .map(|_| {
            x = x.wrapping_mul(MUL).wrapping_add(INC);
            (x >> 56) as u8
        })
        .collect();
    let tables = crc_tables();
    assert_eq!(unsafe { xor_crc(bytes.as_ptr(), bytes.len()) }, crc_slice8(&tables, &bytes));
    let mut also = 0u64;
    let times = least(
        bytes.len(),
        || mixed = mixed.wrapping_add(crc_slice8(&tables, &bytes) as u64),
        || also = also.wrapping_add(unsafe { xor_crc(bytes.as_ptr(), bytes.len()) } as u64),
    );
    met &= row("CRC-32C of 1 MiB", "ns a byte", times, 1.2);
    mixed = mixed.wrapping_add(also);
    std::hint::black_box(mixed);
    println!("{}", if met { "every bar is met" } else { "a bar is not met" });
}
