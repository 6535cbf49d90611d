//! Runs a program's `serial` and `replay` in turn over one script, each in a process of its own: PROGRAM SHELF SCRIPT ROUNDS NAME.
//! It prints the name, the least times of both in milliseconds, the middle ones, and the middle of the ratios of each run of `serial` by
//! the run of `replay` right behind it, with tabs between. Both have to write the same.
use std::fs::File;
use std::io::Read;
use std::process::{Command, Stdio};
use std::time::Instant;

/// How long one run took, in milliseconds. What it wrote takes the place of what is in `written`, whose memory is used again: a run
/// is not to wait for pages of this process.
fn run(program: &str, word: &str, shelf: &str, script: &str, written: &mut Vec<u8>) -> f64 {
    let input = File::open(script).expect("the script");
    let start = Instant::now();
    let mut child = Command::new(program)
        .args([word, "memory", shelf])
        .stdin(input)
        .stdout(Stdio::piped())
        .spawn()
        .expect("the program");
    written.clear();
    child.stdout.take().expect("its output").read_to_end(written).expect("its output");
    let status = child.wait().expect("its end");
    let time = start.elapsed().as_secs_f64() * 1e3;
    assert!(status.success(), "{word} ended with {status}");
    time
}

fn main() {
    let words: Vec<String> = std::env::args().collect();
    let [_, program, shelf, script, rounds, name] = words.as_slice() else {
        panic!("PROGRAM SHELF SCRIPT ROUNDS NAME");
    };
    let mut times = [Vec::new(), Vec::new()];
    let mut ratios = Vec::new();
    let (mut one, mut all) = (Vec::new(), Vec::new());
    for _ in 0..rounds.parse().expect("a number of rounds") {
        let serial = run(program, "serial", shelf, script, &mut one);
        let replay = run(program, "replay", shelf, script, &mut all);
        assert!(one == all, "the reports differ");
        times[0].push(serial);
        times[1].push(replay);
        ratios.push(serial / replay);
    }
    for each in times.iter_mut().chain([&mut ratios]) {
        each.sort_by(f64::total_cmp);
    }
    let [serial, replay] = &times;
    let middle = serial.len() / 2;
    println!("{name}\t{}\t{}\t{}\t{}\t{}", serial[0], replay[0], serial[middle], replay[middle], ratios[middle]);
}
