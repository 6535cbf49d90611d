// The generated day: its loops, its script with more or less in it, and how long a program takes for one.

use std::fs::File;
use std::io::Write;
use std::process::{Command, Stdio};

#[repr(C)]
struct Usage {
    user: [i64; 2],
    system: [i64; 2],
    memory: i64,
    rest: [i64; 13],
}

extern "C" {
    fn wait4(pid: i32, status: *mut i32, options: i32, usage: *mut Usage) -> i32;
}

const HOUR: i64 = 3_600_000;
const STEPS: [&str; 7] = ["blocks", "write", "look", "compact", "again", "clean", "end"];

fn ulid(value: u128) -> String {
    let signs = b"0123456789ABCDEFGHJKMNPQRSTVWXYZ";
    (0..26).rev().map(|place| signs[(value >> (5 * place)) as usize & 31] as char).collect()
}

fn name(block: i64, replica: i64) -> String {
    let end = (T + 2 * HOUR * (block + 1)) as u128;
    ulid((end << 80) + (2 * block + replica + 1) as u128)
}

// Blocks of two replicas for so many times of two hours, with so many series and samples in each.
fn put_blocks(out: &mut Vec<u8>, series: u64, times: i64, samples: i64) {
    for block in 0..times {
        for replica in 0..2 {
            let start = T + 2 * HOUR * block;
            let missed = if replica == 0 { 3 } else { 5 };
            writeln!(out, "block {} {start} {} {{cluster=\"c\",replica=\"{replica}\"}}", name(block, replica), start + 2 * HOUR).unwrap();
            for one in 0..series {
                write!(out, "series {{__name__=\"m\",inst=\"i{one:02}\"}}").unwrap();
                for place in (0..samples).filter(|place| place % 7 != missed) {
                    let time = start + 2 * HOUR / samples * place;
                    let mixed = (7 + 1000003 * one + time as u64).wrapping_mul(MUL).wrapping_add(INC);
                    write!(out, " {time}:{mixed:016x}").unwrap();
                }
                writeln!(out).unwrap();
            }
        }
    }
}

// The phases up to a step, for blocks of so many times of two hours.
fn put_phases(out: &mut Vec<u8>, step: &str, times: i64) {
    let last = STEPS.iter().position(|it| *it == step).unwrap();
    let end = T + 2 * HOUR * times;
    let look = |out: &mut Vec<u8>, at: i64| writeln!(out, "at {at}\nsync g1\nsync g2\nquery {T} {end} {{}}").unwrap();
    if last >= 1 {
        for block in 0..times {
            writeln!(out, "at {}\nupload {}\nupload {}", T + 2 * HOUR * (block + 1), name(block, 0), name(block, 1)).unwrap();
        }
    }
    if last >= 2 {
        look(out, end + HOUR);
    }
    if last >= 3 {
        // one round makes one block: a pair of each time of two hours, and then larger ones
        for round in 1..times * 5 / 4 + 1 {
            writeln!(out, "at {}\ncompact", end + HOUR + 60_000 * round).unwrap();
        }
    }
    if last >= 4 {
        look(out, end + 4 * HOUR);
    }
    if last >= 5 {
        writeln!(out, "at {}\nclean", end + 52 * HOUR).unwrap();
    }
    if last >= 6 {
        look(out, end + 52 * HOUR + 60_000);
    }
}

// The least processor time of some runs, in milliseconds, and the greatest memory, in kibibytes.
fn time(runs: usize, input: &str, words: &[String]) {
    let (mut least, mut most) = (f64::INFINITY, 0);
    for _ in 0..runs {
        let file = if input == "-" { Stdio::null() } else { Stdio::from(File::open(input).unwrap()) };
        let child = Command::new(&words[0]).args(&words[1..]).stdin(file).stdout(Stdio::null()).spawn().unwrap();
        let mut usage = Usage { user: [0; 2], system: [0; 2], memory: 0, rest: [0; 13] };
        let mut status = 0;
        unsafe { wait4(child.id() as i32, &mut status, 0, &mut usage) };
        assert_eq!(status, 0);
        let spent = [usage.user, usage.system].iter().map(|it| it[0] as f64 * 1e3 + it[1] as f64 / 1e3).sum::<f64>();
        least = least.min(spent);
        most = most.max(usage.memory);
    }
    println!("{least:.1} {most}");
}

fn main() {
    let words: Vec<String> = std::env::args().skip(1).collect();
    let number = |place: usize| words[place].parse::<i64>().unwrap();
    match words[0].as_str() {
        "loops" => day(),
        "script" => {
            let mut out = b"rule replica-label replica\ngateway g1\ngateway g2\n".to_vec();
            put_blocks(&mut out, number(2) as u64, number(3), number(4));
            put_phases(&mut out, &words[1], number(3));
            std::io::stdout().write_all(&out).unwrap();
        }
        "time" => time(number(1) as usize, &words[2], &words[3..]),
        _ => panic!("no such work"),
    }
}
