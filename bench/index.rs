// The proved index reader beside the yardstick's loops, on the same index in one run. Built by run-index.sh, which puts the
// yardstick's source, without its `main`, and index_form.rs in front of this file. The index has four labels and four chunks a
// series. The yardstick writes no index, so of the proved writer only its own times are told.

unsafe extern "C" {
    fn index_open(bytes: *const u8, count: usize) -> u64;
    fn index_walk(bytes: *const u8, count: usize) -> u64;
    fn index_whole(bytes: *const u8, count: usize) -> u64;
    fn index_write(bytes: *const u8, count: usize, times: u64) -> u64;
}

/// How long writing an index takes without the reading before it: three times less once.
fn write(name: &str, count: usize, chunks: u64) {
    let bytes = index_of(&places_of(count, chunks), labels_of);
    let (at, size) = (bytes.as_ptr(), bytes.len());
    let written = unsafe { index_write(at, size, 1) };
    assert!(written > 0);
    let once = per(count, || assert_eq!(written, unsafe { index_write(at, size, 1) }));
    let thrice = per(count, || assert_eq!(written, unsafe { index_write(at, size, 3) }));
    let series = (thrice - once) / 2.0;
    println!("write_{name} {series:.1} ns/series");
    println!("write_bytes_{name} {:.1} ns/byte", series * count as f64 / written as f64);
}

/// Times both sides once over an index of so many series.
fn round(count: usize, bytes: &[u8]) {
    let (at, size) = (bytes.as_ptr(), bytes.len());
    index(&count.to_string(), bytes);
    let mut mixed = 0u64;
    println!("proved_open_{count} {:.1} ns/series", per(count, || mixed = mixed.wrapping_add(unsafe { index_open(at, size) })));
    println!("proved_walk_{count} {:.1} ns/series", per(count, || mixed = mixed.wrapping_add(unsafe { index_walk(at, size) })));
    std::hint::black_box(mixed);
}

fn main() {
    for count in [10_000usize, 100_000] {
        let bytes = index_of(&places_of(count, 4), labels_of);
        let (at, size) = (bytes.as_ptr(), bytes.len());
        let once = unsafe { index_walk(at, size) };
        assert!(once > 0 && unsafe { index_open(at, size) } == 1);
        assert_eq!(once, unsafe { index_whole(at, size) });
        // The two sides in turn, so that a machine that slows down for a while slows both.
        for _ in 0..4 {
            round(count, &bytes);
        }
        println!("proved_whole_{count} {:.1} ns/series", per(count, || assert_eq!(once, unsafe { index_whole(at, size) })));
        write(&count.to_string(), count, 4);
    }
    write("chunks", 10_000, 40);
}
