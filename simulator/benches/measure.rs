//! Calls a second of the library and of the plain Rust, on the same cases, and their ratio.

#[path = "../plain/mod.rs"]
mod plain;

use plain::cases::{Case, Random, case};
use std::hint::black_box;
use std::time::Instant;

const ROUNDS: usize = 9;

/// Seconds for each of `calls` runs over the cases: the best of several rounds, each on fresh buffers.
fn best(cases: &[Case], repeat: usize, mut call: impl FnMut(&Case, &mut [u8]) -> usize) -> f64 {
    let mut best = f64::MAX;
    for _ in 0..ROUNDS {
        let mut buffers: Vec<Vec<Vec<u8>>> =
            (0..repeat).map(|_| cases.iter().map(|c| c.buffer.clone()).collect()).collect();
        let begin = Instant::now();
        for round in &mut buffers {
            for (c, buffer) in cases.iter().zip(round) {
                black_box(call(black_box(c), buffer));
            }
        }
        best = best.min(begin.elapsed().as_secs_f64() / (cases.len() * repeat) as f64);
    }
    best
}

fn main() {
    let mut random = Random(7);
    println!("calls a second, in millions      library  plain Rust  ratio");
    for (name, longest, damage, repeat) in [
        ("moves, lanes of 1 to 8", 8, 1_000_000, 20),
        ("moves, lanes of 1 to 100", 100, 1_000_000, 20),
        ("moves, lanes of 1 to 2,000", 2_000, 1_000_000, 4),
        ("one thing in six wrong", 8, 6, 20),
    ] {
        let cases: Vec<Case> = (0..2_000).map(|_| case(&mut random, longest, damage)).collect();
        let library = best(&cases, repeat, |c, buffer| {
            match zenturpa::move_lane(&c.line, c.mode, c.phase, buffer, c.len, c.number) {
                Ok(moved) => moved.len,
                Err(refusal) => refusal.place(),
            }
        });
        let plain = best(&cases, repeat, |c, buffer| {
            match plain::moving::move_lane(&c.line, c.mode, c.phase, buffer, c.len, c.number) {
                Ok((_, _, len)) => len,
                Err((_, place)) => place,
            }
        });
        println!("{name:<32} {:>7.2}  {:>10.2}  {:>5.2}", 1e-6 / library, 1e-6 / plain, plain / library);
    }
}
