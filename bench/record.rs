// The proved reader and writer of records beside the sum and one copy of the same bytes, in one run. Built by run-record.sh, which
// puts the yardstick's source, without its `main` and its `per`, in front of this file. The sum is the proved one, the copy is
// that of the system. What a record is read of is a copy of its bytes, as it comes from a source.

unsafe extern "C" {
    fn record_sum(bytes: *const u8, count: usize) -> u64;
    fn record_read(bytes: *const u8, count: usize) -> u64;
    fn record_write(bytes: *const u8, count: usize, times: u64) -> u64;
}

/// How long one of `n` parts of some work takes, in nanoseconds: the best of three.
fn per(n: usize, mut f: impl FnMut()) -> f64 {
    let mut best = f64::INFINITY;
    for _ in 0..3 {
        let (t, mut c) = (Instant::now(), 0u32);
        while t.elapsed().as_millis() < 150 {
            f();
            c += 1;
        }
        best = best.min(t.elapsed().as_nanos() as f64 / c as f64 / n as f64);
    }
    best
}

fn put_counted(out: &mut Vec<u8>, bytes: &[u8]) {
    out.extend_from_slice(&(bytes.len() as u32).to_be_bytes());
    out.extend_from_slice(bytes);
}

/// An entry of a seat: the operation's kind, the key, what stands behind that, and the reply.
fn put_entry(out: &mut Vec<u8>, seat: u32, moment: u64, kind: u8, key: &str, behind: &[u8], reply: &[u8]) {
    out.extend_from_slice(&seat.to_be_bytes());
    out.extend_from_slice(&moment.to_be_bytes());
    out.push(kind);
    put_counted(out, key.as_bytes());
    out.extend_from_slice(behind);
    out.extend_from_slice(reply);
}

fn counted(bytes: &[u8]) -> Vec<u8> {
    let mut out = vec![];
    put_counted(&mut out, bytes);
    out
}

fn found(bytes: &[u8]) -> Vec<u8> {
    [vec![3], counted(bytes)].concat()
}

/// So many bytes that differ from one place to the next.
fn body(size: usize, seed: u64) -> Vec<u8> {
    let mut x = seed.wrapping_mul(0x9E37_79B9_7F4A_7C15) | 1;
    (0..size)
        .map(|_| {
            x ^= x << 13;
            x ^= x >> 7;
            x ^= x << 17;
            x as u8
        })
        .collect()
}

/// A record of uploads, each of a segment, an index and a meta; of as many looks at mark and meta by a sync; and of reads of
/// ranges, so many for each upload.
fn record_of(uploads: u64, segment: usize, index: usize, reads: u64) -> (Vec<u8>, u64) {
    let mut entries = vec![];
    let mut count = 0;
    let mut put = |kind: u8, key: &str, behind: &[u8], reply: &[u8]| {
        count += 1;
        put_entry(&mut entries, 1, 1_728_000_000_000 + count, kind, key, behind, reply);
    };
    for i in 0..uploads {
        let block = format!("01J9AD700000000000000{i:05}");
        let (meta, mark) = (format!("{block}/meta.json"), format!("{block}/deletion-mark.json"));
        let (own_index, chunks) = (format!("{block}/index"), format!("{block}/chunks/000001"));
        put(3, &meta, &[], &[4]);
        put(2, &chunks, &counted(&body(segment, i)), &[2]);
        put(2, &own_index, &counted(&body(index, i + 1)), &[2]);
        put(2, &meta, &counted(&body(400, i + 2)), &[2]);
        put(3, &mark, &[], &[4]);
        put(3, &meta, &[], &found(&body(400, i + 3)));
        for k in 0..reads {
            let range = [k.to_be_bytes(), 16_384u64.to_be_bytes()].concat();
            put(4, &chunks, &range, &found(&body(2_000, k)));
        }
    }
    let mut record = b"THJOURN1".to_vec();
    put_counted(&mut record, b"at 0\n");
    record.extend_from_slice(&count.to_be_bytes());
    record.extend_from_slice(&entries);
    let sum = crc_slice8(&crc_tables(), &record);
    record.extend_from_slice(&sum.to_be_bytes());
    (record, count)
}

fn round(name: &str, record: &[u8], count: u64) {
    let (at, size) = (record.as_ptr(), record.len());
    let mut mixed = 0u64;
    println!("sum_{name} {:.3}", per(size, || mixed = mixed.wrapping_add(unsafe { record_sum(at, size) })));
    println!("copy_{name} {:.3}", per(size, || mixed = mixed.wrapping_add(std::hint::black_box(record.to_vec()).len() as u64)));
    println!("read_{name} {:.3}", per(size, || assert_eq!(count, unsafe { record_read(at, size) })));
    let once = per(size, || assert_eq!(size as u64, unsafe { record_write(at, size, 1) }));
    let thrice = per(size, || assert_eq!(size as u64, unsafe { record_write(at, size, 3) }));
    println!("write_{name} {:.3}", (thrice - once) / 2.0);
    std::hint::black_box(mixed);
}

fn main() {
    let shapes = [("day", 24, 300_000, 40_000, 40), ("segments", 4, 8_000_000, 400_000, 4), ("small", 1_000, 300, 700, 6)];
    for (name, uploads, segment, index, reads) in shapes {
        let (record, count) = record_of(uploads, segment, index, reads);
        println!("size_{name} {}", record.len());
        println!("count_{name} {count}");
        // The two sides in turn, so that a machine that slows down for a while slows both.
        for _ in 0..2 {
            round(name, &record, count);
        }
    }
}
