//! The library and the plain Rust answer alike on random cases, and leave the same bytes.

#[path = "../plain/mod.rs"]
mod plain;

use plain::cases::{Case, Random, case};
use std::collections::BTreeMap;

/// What is seen of a call: refusal and place, or 0 and where it leads; and the bytes that it leaves.
type Seen = (u32, usize, Option<(u8, u64, usize)>, Vec<u8>);

fn by_library(c: &Case) -> Seen {
    // The buffer stands between bytes of its own, so that a write past it would show.
    let mut bytes = vec![0xa5; 16];
    bytes.extend(&c.buffer);
    bytes.extend([0x5a; 16]);
    let end = 16 + c.buffer.len();
    let answer = zenturpa::move_lane(&c.line, c.mode, c.phase, &mut bytes[16..end], c.len, c.number);
    assert!(bytes[..16].iter().all(|b| *b == 0xa5) && bytes[end..].iter().all(|b| *b == 0x5a), "{c:?}");
    let left = bytes[16..end].to_vec();
    match answer {
        Ok(m) => (0, 0, Some((m.mode, m.phase, m.len)), left),
        Err(refusal) => (refusal.number(), refusal.place(), None, left),
    }
}

fn by_plain_rust(c: &Case) -> Seen {
    let mut left = c.buffer.clone();
    match plain::moving::move_lane(&c.line, c.mode, c.phase, &mut left, c.len, c.number) {
        Ok(reached) => (0, 0, Some(reached), left),
        Err((number, place)) => (number, place, None, left),
    }
}

#[test]
fn both_answer_alike() {
    let mut random = Random(20_240_601);
    let mut seen = BTreeMap::new();
    for (count, longest, damage) in [(200_000, 12, 12), (150_000, 3, 4), (40_000, 300, 20), (10_000, 5_000, 8)] {
        for _ in 0..count {
            let c = case(&mut random, longest, damage);
            let answer = by_library(&c);
            assert_eq!(answer, by_plain_rust(&c), "{c:?}");
            if answer.0 != 0 {
                assert_eq!(answer.3, c.buffer, "a refusal leaves the buffer: {c:?}");
            }
            *seen.entry(answer.0).or_insert(0u32) += 1;
        }
    }
    println!("{} cases; refusals (0 is a move): {seen:?}", seen.values().sum::<u32>());
    assert_eq!(seen.keys().copied().collect::<Vec<_>>(), [0, 1, 2, 6, 9, 15, 16, 17]);
    assert!(seen.values().all(|times| *times >= 1_000), "{seen:?}");
}

#[test]
fn every_front_and_every_byte_of_a_line() {
    for line in ["(order 12 (3 4) (5 6 7) (89 1))", "(notice 10 2 3 (45 6) (7 8))"] {
        for at in 0..=line.len() {
            let mut handed = Case { line: line[..at].into(), mode: 0, phase: 0, buffer: vec![1], len: 1, number: 9 };
            assert_eq!(by_library(&handed), by_plain_rust(&handed), "{handed:?}");
            for byte in 0..=255 {
                handed.line = line.into();
                if at < line.len() {
                    handed.line[at] = byte;
                } else {
                    handed.line.push(byte);
                }
                assert_eq!(by_library(&handed), by_plain_rust(&handed), "{handed:?}");
            }
        }
    }
}

#[test]
fn lengths_at_the_ends_of_their_range() {
    let order = b"(order 0 (0 1) (0 2 1) (3 0))".to_vec();
    for len in [0, 1, 2, 3, usize::MAX / 2, usize::MAX - 1, usize::MAX] {
        for room in 0..4 {
            let handed = Case { line: order.clone(), mode: 0, phase: 1, buffer: vec![1; room], len, number: 0 };
            assert_eq!(by_library(&handed), by_plain_rust(&handed), "{handed:?}");
        }
    }
}
