// How long the proved splitting of blocks takes that are covered and that are not, over lists of sources of several kinds. Built
// by run-filters.sh. Copies of the blocks, and reading their metas, are measured apart and taken off.

unsafe extern "C" {
    fn filters_kept(metas: *const u8, count: usize, times: u64, splits: u64) -> u64;
    fn clock_gettime(clock: i32, time: *mut [i64; 2]) -> i32;
}

const THREAD_TIME: i32 = 3;

const SOURCES: usize = 64;

/// A ULID's text: a mixed number, so that the order of sources is not that of their making.
fn ulid(number: u64) -> String {
    let mixed = (number as u128 + 1).wrapping_mul(0x9e37_79b9_7f4a_7c15_f39c_c060_5ced_c835);
    (0..26).rev().map(|place| char::from(b"0123456789ABCDEFGHJKMNPQRSTVWXYZ"[(mixed >> (5 * place)) as usize & 31])).collect()
}

fn meta(block: usize, sources: &[u64]) -> String {
    let listed: Vec<String> = sources.iter().map(|source| format!("\"{}\"", ulid(*source))).collect();
    format!(
        "{{\"version\":1,\"ulid\":\"{}\",\"minTime\":0,\"maxTime\":1,\"stats\":{{}},\"compaction\":{{\"level\":1,\"sources\":[{}]}}}}\n",
        ulid(1 << 40 | block as u64),
        listed.join(",")
    )
}

/// Any 64 of 128 sources.
fn any_64(random: &mut u64) -> Vec<u64> {
    let mut all: Vec<u64> = (0..128).collect();
    for place in 0..SOURCES {
        *random = random.wrapping_mul(6_364_136_223_846_793_005).wrapping_add(1_442_695_040_888_963_407);
        all.swap(place, place + (*random >> 33) as usize % (128 - place));
    }
    all.truncate(SOURCES);
    all
}

/// The sources of a block, of one kind of bucket.
fn sources(kind: &str, block: usize, random: &mut u64) -> Vec<u64> {
    let from = |first: usize| (first..first + SOURCES).map(|source| source as u64).collect();
    match kind {
        // each source is one block's
        "own" => from(block * SOURCES),
        // each block shares all but one of its sources with the next one
        "windows" => from(block),
        // two blocks of the same sources
        "pairs" => from(block / 2 * SOURCES),
        // all blocks have the same sources
        "equal" => from(0),
        // any 64 of 128 sources, so that each is half of the blocks'
        "dense" => any_64(random),
        // of each list of sources all, three quarters, a half and a quarter, so that each but the first is covered by a larger one
        "nested" => (0..SOURCES - block % 4 * 16).map(|source| (block / 4 * SOURCES + source) as u64).collect(),
        // any 33 to 64 of 128 sources, so that each source is one of many larger blocks, of which none covers
        "mixed" => {
            let mut all = any_64(random);
            all.truncate(33 + block % 32);
            all
        }
        // blocks of one source each, and above 63 of them one that has them all
        "levels" => match block % SOURCES {
            0 => from(block),
            place => vec![(block / SOURCES * SOURCES + place) as u64],
        },
        _ => unreachable!(),
    }
}

/// The processor seconds of this thread so far. Other work on the machine does not count.
fn now() -> f64 {
    let mut time = [0i64; 2];
    assert_eq!(unsafe { clock_gettime(THREAD_TIME, &mut time) }, 0);
    time[0] as f64 + time[1] as f64 / 1e9
}

/// The least of five runs over the same blocks, in seconds.
fn seconds(metas: &str, times: u64, splits: u64, kept: u64) -> f64 {
    let run = || {
        let start = now();
        assert_eq!(unsafe { filters_kept(metas.as_ptr(), metas.len(), times, splits) }, kept);
        now() - start
    };
    (0..5).map(|_| run()).fold(f64::INFINITY, f64::min)
}

fn main() {
    const MORE: u64 = 10;
    for kind in ["own", "windows", "pairs", "equal", "dense", "nested", "levels", "mixed"] {
        for count in [1024usize, 4096] {
            let (mut metas, mut length, mut random) = (String::new(), 0, 1u64);
            for block in 0..count {
                let sources = sources(kind, block, &mut random);
                length += sources.len();
                metas.push_str(&meta(block, &sources));
            }
            let kept = match kind {
                "pairs" => count / 2,
                "equal" => 1,
                "levels" => count / SOURCES,
                "nested" => count / 4,
                _ => count,
            } as u64;
            let split = seconds(&metas, MORE + 1, 1, kept * (MORE + 1)) - seconds(&metas, 1, 1, kept);
            let copied = seconds(&metas, MORE + 1, 0, count as u64 * (MORE + 1)) - seconds(&metas, 1, 0, count as u64);
            println!("{kind}_{count} {:.2}", (split - copied) / MORE as f64 / length as f64 * 1e9);
        }
    }
}
