// Reads one made script and prints one row: how long that took, and how much memory beside the text. Built by run-script.sh.
use std::fmt::Write;
use std::time::Instant;

unsafe extern "C" {
    fn script_read(bytes: *const u8, count: usize) -> u64;
}

/// The most memory that this process has had so far, in bytes.
fn most_memory() -> u64 {
    let status = std::fs::read_to_string("/proc/self/status").expect("the status of this process");
    let line = status.lines().find(|line| line.starts_with("VmHWM:")).expect("a line on memory");
    let kilobytes = line.split_whitespace().nth(1).expect("a number");
    kilobytes.parse::<u64>().expect("a number") * 1024
}

fn add_block(text: &mut String, number: u64) {
    writeln!(text, "block {number:026} 0 4611686018427387904 {{cluster=\"c\"}}").unwrap();
}

/// A series line with so many samples, whose labels come in a scattered order.
fn add_series(text: &mut String, number: u64, samples: u64) {
    let scattered = number.wrapping_mul(0x9e37_79b9_7f4a_7c15) >> 32;
    write!(text, "series {{__name__=\"requests_total\",inst=\"i{scattered:010}\",job=\"j{:02}\"}}", number % 100).unwrap();
    for k in 0..samples {
        write!(text, " {}:{:016x}", 1_728_000_000_000 + 15_000 * k, number ^ k << 20).unwrap();
    }
    text.push('\n');
}

/// A lawful script of about so many bytes.
fn script_of(kind: &str, size: usize) -> String {
    let mut text = String::new();
    let mut number = 0;
    match kind {
        "series" => {
            add_block(&mut text, 1);
            while text.len() < size {
                number += 1;
                add_series(&mut text, number, 10);
            }
        }
        "samples" => {
            add_block(&mut text, 1);
            add_series(&mut text, 1, size as u64 / 31);
        }
        "blocks" => {
            for block in 0..4_096 {
                add_block(&mut text, block);
                let end = size / 4_096 * (block as usize + 1);
                add_series(&mut text, 0, 10);
                while text.len() < end {
                    number += 1;
                    add_series(&mut text, number, 10);
                }
            }
        }
        "tasks" => {
            text.push_str("gateway g\n");
            for task in 0..65_536 {
                writeln!(text, "at {}\nsync g", 1_000 * task).unwrap();
            }
        }
        "comments" => {
            while text.len() < size {
                text.push_str("# nothing is asked for here\n");
            }
        }
        _ => panic!("no kind of script: {kind}"),
    }
    text
}

fn main() {
    let words: Vec<String> = std::env::args().collect();
    let megabytes: usize = words[2].parse().expect("megabytes");
    let text = script_of(&words[1], megabytes << 20);
    let before = most_memory();
    let begun = Instant::now();
    let read = unsafe { script_read(text.as_ptr(), text.len()) };
    let seconds = begun.elapsed().as_secs_f64();
    assert!(read != u64::MAX, "refused");
    let bytes = text.len() as f64;
    let memory = (most_memory() - before) as f64;
    println!(
        "| {} | {:.1} | {seconds:.2} | {:.1} | {:.2} |",
        words[1], bytes / 1048576.0, seconds * 1e9 / bytes, memory / bytes
    );
}
