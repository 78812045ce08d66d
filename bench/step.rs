// Times the proved step and reader beside a plain Rust program of the same job, and compares what they answer.

use std::hint::black_box;
use std::time::Instant;

mod plain;

unsafe extern "C" {
    fn dilgrast_walk(file: *const u8, length: usize, count: u32) -> u64;
    fn dilgrast_read(file: *const u8, length: usize) -> u32;
}

fn proved_walk(file: &[u8], count: u32) -> u64 {
    unsafe { dilgrast_walk(file.as_ptr(), file.len(), count) }
}

fn proved_read(file: &[u8]) -> u32 {
    unsafe { dilgrast_read(file.as_ptr(), file.len()) }
}

// A model of 12 event inputs, 12 answer inputs, 32 latches and 2,000 gates, with operands picked by a fixed rule.
fn generated() -> Vec<u8> {
    let (inputs, latches, gates) = (24u32, 32u32, 2000u32);
    let mut seed = 0x9e37_79b9u32;
    let mut pick = |below: u32| {
        seed ^= seed << 13;
        seed ^= seed >> 17;
        seed ^= seed << 5;
        2 + seed % (2 * below)
    };
    let maximum = inputs + latches + gates;
    let mut text = format!("aag {maximum} {inputs} {latches} 1 {gates}\n");
    for v in 1..=inputs {
        text += &format!("{}\n", 2 * v);
    }
    for v in inputs + 1..=inputs + latches {
        text += &format!("{} {}\n", 2 * v, pick(maximum));
    }
    text += &format!("{}\n", 2 * maximum);
    for v in inputs + latches + 1..=maximum {
        text += &format!("{} {} {}\n", 2 * v, pick(v - 1), pick(v - 1));
    }
    for i in 0..12 {
        text += &format!("i{} controllable_{i}\n", 2 * i + 1);
    }
    text.into_bytes()
}

// The shortest of fifteen runs each, in turn, in seconds.
fn shortest(mut first: impl FnMut(), mut second: impl FnMut()) -> (f64, f64) {
    let mut best = (f64::MAX, f64::MAX);
    for _ in 0..15 {
        let start = Instant::now();
        first();
        best.0 = best.0.min(start.elapsed().as_secs_f64());
        let start = Instant::now();
        second();
        best.1 = best.1.min(start.elapsed().as_secs_f64());
    }
    best
}

fn main() {
    let steps: u32 = std::env::args().nth(1).and_then(|n| n.parse().ok()).unwrap_or(200_000);
    let small = b"aag 4 2 1 1 1\n2\n4\n6 5\n8\n8 6 2\ni1 controllable_c\n".to_vec();
    let large = generated();
    println!("| job | proved | plain Rust | time, proved to plain |");
    println!("|---|---|---|---|");
    for (name, file, steps) in [("2,000 gates", &large, steps), ("1 gate", &small, steps * 20)] {
        let model = plain::read(file).expect("a model");
        assert!(model.size() > 0);
        for count in [1, 2, 3, 10, 1000] {
            assert_eq!(proved_walk(file, count), model.walk(count), "after {count} steps");
        }
        let (p, q) = shortest(
            || { black_box(proved_walk(black_box(file), steps)); },
            || { black_box(black_box(&model).walk(black_box(steps))); },
        );
        println!("| steps of {name}, a second | {:.0} | {:.0} | {:.2} |", steps as f64 / p, steps as f64 / q, p / q);
    }
    let rounds = 500;
    assert_eq!(proved_read(&large), 0);
    let (p, q) = shortest(
        || for _ in 0..rounds { assert_eq!(proved_read(black_box(&large)), 0); },
        || for _ in 0..rounds { assert!(black_box(plain::read(black_box(&large))).is_some()); },
    );
    let megabytes = (large.len() * rounds) as f64 / 1e6;
    println!("| reading {} bytes, megabytes a second | {:.1} | {:.1} | {:.2} |", large.len(), megabytes / p, megabytes / q, p / q);
}
