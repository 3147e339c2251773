//! Follows four moves of a small yard: each line is carried out by its number, and then one is tried that is not allowed.

use std::error::Error;

const BOOK: [(u8, &str); 4] = [
    (0, "(order 0 (0 1) (0 2 1) (3 0))"),
    (1, "(order 1 (0 2) (1) (2 1))"),
    (2, "(notice 2 1 0 (0 3) (5 0))"),
    (3, "(order 3 (0 1) (2) (1 4))"),
];

fn in_force(phase: u64) -> Vec<u32> {
    (0..64).filter(|n| phase >> n & 1 == 1).collect()
}

fn main() -> Result<(), Box<dyn Error>> {
    let mut buffer = [0u8; 8];
    buffer[0] = 1;
    let (mut mode, mut phase, mut len) = (0, 0b0111, 1);
    println!("     mode {mode}, phase {:?}, lane {:?}", in_force(phase), &buffer[..len]);
    for (number, line) in BOOK {
        let moved = zenturpa::move_lane(line, mode, phase, &mut buffer, len, number)?;
        (mode, phase, len) = (moved.mode, moved.phase, moved.len);
        println!("by {number} mode {mode}, phase {:?}, lane {:?}", in_force(phase), &buffer[..len]);
    }
    let (number, line) = BOOK[0];
    match zenturpa::move_lane(line, mode, phase, &mut buffer, len, number) {
        Ok(_) => return Err("order 0 was withdrawn".into()),
        Err(refusal) => println!("by {number} {refusal}"),
    }
    Ok(())
}
