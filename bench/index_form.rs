// Indexes for the benchmarks, made without the proved writer.

fn put_number(out: &mut Vec<u8>, mut n: u64) {
    while n > 127 {
        out.push((n & 127 | 128) as u8);
        n >>= 7;
    }
    out.push(n as u8);
}

fn put_text(out: &mut Vec<u8>, text: &str) {
    put_number(out, text.len() as u64);
    out.extend_from_slice(text.as_bytes());
}

fn put_section(out: &mut Vec<u8>, content: &[u8]) {
    out.extend_from_slice(&(content.len() as u32).to_be_bytes());
    out.extend_from_slice(content);
    out.extend_from_slice(&crc_slice8(&crc_tables(), content).to_be_bytes());
}

fn pad(out: &mut Vec<u8>, to: usize) {
    while out.len() % to != 0 {
        out.push(0);
    }
}

/// The labels of a series of so many.
fn labels_of(i: usize) -> Vec<(String, String)> {
    vec![
        ("__name__".into(), "http_requests_total".into()),
        ("instance".into(), format!("host-{:05}:9100", i % 1000)),
        ("job".into(), format!("job-{:03}", i % 50)),
        ("path".into(), format!("/api/v1/{i:06}")),
    ]
}

/// Where a chunk stands in the first segment, and the times of its first and its last sample.
struct Place {
    offset: u64,
    min: i64,
    max: i64,
}

/// So many chunks of each of so many series, which stand nowhere.
fn places_of(count: usize, chunks: u64) -> Vec<Vec<Place>> {
    let place = |i: u64, chunk: u64| {
        let min = T + chunk as i64 * 1_800_000;
        Place { offset: 8 + i * 400 + chunk * 100, min, max: min + 1_785_000 }
    };
    (0..count as u64).map(|i| (0..chunks).map(|chunk| place(i, chunk)).collect()).collect()
}

/// An index of series with these chunks, by the public format document.
fn index_of(places: &[Vec<Place>], labels_of: fn(usize) -> Vec<(String, String)>) -> Vec<u8> {
    use std::collections::BTreeMap;
    let mut series: Vec<Vec<(String, String)>> = (0..places.len()).map(labels_of).collect();
    series.sort();
    let mut symbols: BTreeMap<&str, u64> = BTreeMap::new();
    for label in series.iter().flatten() {
        symbols.insert(&label.0, 0);
        symbols.insert(&label.1, 0);
    }
    for (number, place) in symbols.values_mut().enumerate() {
        *place = number as u64;
    }
    let mut out = vec![0xBA, 0xAA, 0xD7, 0, 2];
    let mut toc = vec![out.len() as u64];
    let mut content = (symbols.len() as u32).to_be_bytes().to_vec();
    for text in symbols.keys() {
        put_text(&mut content, text);
    }
    put_section(&mut out, &content);
    let mut rows: BTreeMap<(&str, &str), Vec<u32>> = BTreeMap::new();
    for (i, labels) in series.iter().enumerate() {
        pad(&mut out, 16);
        if i == 0 {
            toc.push(out.len() as u64);
        }
        let number = (out.len() / 16) as u32;
        rows.entry(("", "")).or_default().push(number);
        let mut content = vec![];
        put_number(&mut content, labels.len() as u64);
        for (name, value) in labels {
            put_number(&mut content, symbols[name.as_str()]);
            put_number(&mut content, symbols[value.as_str()]);
            rows.entry((name, value)).or_default().push(number);
        }
        put_number(&mut content, places[i].len() as u64);
        let (mut last, mut offset) = (0, 0);
        for (chunk, place) in places[i].iter().enumerate() {
            let (time, further) = (place.min - last, place.offset.wrapping_sub(offset) as i64);
            put_number(&mut content, if chunk == 0 { 2 * time as u64 } else { time as u64 });
            put_number(&mut content, (place.max - place.min) as u64);
            put_number(&mut content, if chunk == 0 { place.offset } else { (further << 1 ^ further >> 63) as u64 });
            (last, offset) = (place.max, place.offset);
        }
        put_number(&mut out, content.len() as u64);
        out.extend_from_slice(&content);
        out.extend_from_slice(&crc_slice8(&crc_tables(), &content).to_be_bytes());
    }
    toc.push(0);
    let mut lists = vec![];
    for numbers in rows.values() {
        pad(&mut out, 4);
        lists.push(out.len() as u64);
        let mut content = (numbers.len() as u32).to_be_bytes().to_vec();
        for number in numbers {
            content.extend_from_slice(&number.to_be_bytes());
        }
        put_section(&mut out, &content);
    }
    toc.push(0);
    toc.push(lists[0]);
    toc.push(out.len() as u64);
    let mut content = (rows.len() as u32).to_be_bytes().to_vec();
    for ((name, value), place) in rows.keys().zip(&lists) {
        content.push(2);
        put_text(&mut content, name);
        put_text(&mut content, value);
        put_number(&mut content, *place);
    }
    put_section(&mut out, &content);
    let mut content = vec![];
    for reference in toc {
        content.extend_from_slice(&reference.to_be_bytes());
    }
    out.extend_from_slice(&content);
    out.extend_from_slice(&crc_slice8(&crc_tables(), &content).to_be_bytes());
    out
}
