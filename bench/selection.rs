// The proved selection of series beside a tight loop over the same lists, on the same index in one run. Built by
// run-selection.sh, which puts the yardstick's source and what writes an index in front of this file. Both sides have the
// index opened before the clock starts, test the sum of each list that they read, find the row of one text by halving, and
// ask a pattern once for each row of its name.

unsafe extern "C" {
    fn selection_run(bytes: *const u8, count: usize, selector: *const u8, length: usize) -> bool;
    fn clock_gettime(clock: i32, time: *mut [i64; 2]) -> i32;
}

/// How many nanoseconds of the processor this thread has had.
fn thread_time() -> i64 {
    let mut time = [0; 2];
    assert_eq!(unsafe { clock_gettime(3, &mut time) }, 0);
    time[0] * 1_000_000_000 + time[1]
}

/// The least time of a selection in forty turns of four milliseconds. The clock begins behind the first selection, so that
/// opening the index does not count.
struct Timer {
    sum: u64,
    begin: Option<i64>,
    calls: u32,
    turns: u32,
    least: f64,
}

impl Timer {
    fn new(sum: u64) -> Self {
        Timer { sum, begin: None, calls: 0, turns: 0, least: f64::INFINITY }
    }

    /// Takes the sum of the numbers that a selection gave, and tells whether one more is wanted.
    fn goes_on(&mut self, sum: u64) -> bool {
        assert_eq!(sum, self.sum);
        let Some(begin) = self.begin else {
            self.begin = Some(thread_time());
            return true;
        };
        self.calls += 1;
        let passed = thread_time() - begin;
        if passed >= 4_000_000 {
            self.least = self.least.min(passed as f64 / f64::from(self.calls));
            self.turns += 1;
            self.calls = 0;
            self.begin = Some(thread_time());
        }
        self.turns < 40
    }
}

thread_local! {
    static TIMER: std::cell::RefCell<Timer> = std::cell::RefCell::new(Timer::new(0));
}

/// What the proved code calls behind each selection. The index is open by then.
#[unsafe(no_mangle)]
extern "C" fn selection_goes_on(sum: u64) -> bool {
    TIMER.with_borrow_mut(|timer| timer.goes_on(sum))
}

/// Labels of which the one with a thousand values is the last, so that its lists interleave.
fn pod_labels(i: usize) -> Vec<(String, String)> {
    vec![
        ("__name__".into(), "http_requests_total".into()),
        ("job".into(), format!("job-{:03}", i % 50)),
        ("path".into(), format!("/api/v1/{i:06}")),
        ("pod".into(), format!("pod-{:05}", i % 1000)),
    ]
}

struct Opened<'a> {
    bytes: &'a [u8],
    rows: Vec<(&'a str, &'a str, usize)>,
}

impl<'a> Opened<'a> {
    fn be4(&self, p: usize) -> usize {
        u32::from_be_bytes(self.bytes[p..p + 4].try_into().unwrap()) as usize
    }

    fn new(bytes: &'a [u8]) -> Self {
        let mut opened = Opened { bytes, rows: vec![] };
        let toc = bytes.len() - 52;
        let table = u64::from_be_bytes(bytes[toc + 40..toc + 48].try_into().unwrap()) as usize;
        let mut p = table + 8;
        for _ in 0..opened.be4(table + 4) {
            p += 1;
            let mut text = || {
                let n = uvarint(bytes, &mut p).unwrap() as usize;
                p += n;
                std::str::from_utf8(&bytes[p - n..p]).unwrap()
            };
            let (name, value) = (text(), text());
            let place = uvarint(bytes, &mut p).unwrap() as usize;
            opened.rows.push((name, value, place));
        }
        opened
    }

    /// Appends the numbers of the list at a place.
    fn list(&self, place: usize, out: &mut Vec<u64>) {
        let n = self.be4(place);
        let content = &self.bytes[place + 4..place + 4 + n];
        assert_eq!(unsafe { crc(content) } as usize, self.be4(place + 4 + n));
        let count = self.be4(place + 4);
        out.extend(content[4..4 + 4 * count].chunks_exact(4).map(|x| u64::from(u32::from_be_bytes(x.try_into().unwrap()))));
    }

    /// What a matcher with one text leaves: the row is found by halving.
    fn left_by_one(&self, name: &str, wanted: bool, value: &str, left: &mut Vec<u64>) {
        let mut listed = vec![];
        if let Ok(place) = self.rows.binary_search_by(|row| (row.0, row.1).cmp(&(name, value))) {
            self.list(self.rows[place].2, &mut listed);
        }
        Self::keep(&listed, wanted, left);
    }

    /// What a matcher leaves: those among the lists of the rows that decide, or those that are not.
    fn left(&self, name: &str, wanted: bool, accepts: impl Fn(&str) -> bool, left: &mut Vec<u64>) {
        let first = self.rows.partition_point(|row| row.0 < name);
        let mut listed = vec![];
        let mut lists = 0;
        for row in self.rows[first..].iter().take_while(|row| row.0 == name) {
            if accepts(row.1) == wanted {
                self.list(row.2, &mut listed);
                lists += 1;
            }
        }
        if lists > 1 {
            listed.sort_unstable();
        }
        Self::keep(&listed, wanted, left);
    }

    fn keep(listed: &[u64], wanted: bool, left: &mut Vec<u64>) {
        let mut place = 0;
        left.retain(|number| {
            while place < listed.len() && listed[place] < *number {
                place += 1;
            }
            (place < listed.len() && listed[place] == *number) == wanted
        });
    }

    fn all(&self) -> Vec<u64> {
        let mut all = vec![];
        self.list(self.rows[0].2, &mut all);
        all
    }
}

/// How long a selection of the proved code takes over an index that it has opened.
fn proved(bytes: &[u8], selector: &str, sum: u64) -> f64 {
    TIMER.set(Timer::new(sum));
    assert!(unsafe { selection_run(bytes.as_ptr(), bytes.len(), selector.as_ptr(), selector.len()) });
    TIMER.with_borrow(|timer| timer.least)
}

/// How long a selection of the loop takes.
fn tight(sum: u64, select: impl Fn() -> Vec<u64>) -> f64 {
    let mut timer = Timer::new(sum);
    while timer.goes_on(select().iter().sum()) {}
    timer.least
}

fn row(name: &str, count: usize, bytes: &[u8], selector: &str, select: impl Fn() -> Vec<u64>) {
    let sum: u64 = select().iter().sum();
    assert!(sum > 0);
    for _ in 0..3 {
        println!("proved_{name}_{count} {:.3}", proved(bytes, selector, sum) / count as f64);
        println!("tight_{name}_{count} {:.3}", tight(sum, &select) / count as f64);
    }
}

fn main() {
    for count in [10_000usize, 100_000] {
        let bytes = index_of(&places_of(count, 4), pod_labels);
        let opened = Opened::new(&bytes);
        let equal = || {
            let mut left = opened.all();
            opened.left_by_one("job", true, "job-007", &mut left);
            left
        };
        row("equal", count, &bytes, "{job=\"job-007\"}", equal);
        row("differs", count, &bytes, "{job=\"job-007\",pod!=\"pod-00007\"}", || {
            let mut left = equal();
            opened.left_by_one("pod", false, "pod-00007", &mut left);
            left
        });
        row("unique", count, &bytes, "{path=\"/api/v1/004242\"}", || {
            let mut left = opened.all();
            opened.left_by_one("path", true, "/api/v1/004242", &mut left);
            left
        });
        row("pattern", count, &bytes, "{pod=~\"pod-.*[02468]\"}", || {
            let mut left = opened.all();
            let even = |value: &str| value.strip_prefix("pod-").is_some_and(|v| v.ends_with(['0', '2', '4', '6', '8']));
            opened.left("pod", true, even, &mut left);
            left
        });
    }
}
