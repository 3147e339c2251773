//! Random cases: positions, lines that fit them, and lines and positions that are damaged.

/// A small generator of random numbers (splitmix64).
pub struct Random(pub u64);

impl Random {
    pub fn next(&mut self) -> u64 {
        self.0 = self.0.wrapping_add(0x9e37_79b9_7f4a_7c15);
        let mut z = self.0;
        z = (z ^ (z >> 30)).wrapping_mul(0xbf58_476d_1ce4_e5b9);
        z = (z ^ (z >> 27)).wrapping_mul(0x94d0_49bb_1331_11eb);
        z ^ (z >> 31)
    }

    /// A number below `n`.
    pub fn below(&mut self, n: usize) -> usize {
        (self.next() % n as u64) as usize
    }

    /// True once in `n`.
    pub fn once_in(&mut self, n: usize) -> bool {
        self.below(n) == 0
    }
}

/// What is handed over.
#[derive(Clone, Debug)]
pub struct Case {
    pub line: Vec<u8>,
    pub mode: u8,
    pub phase: u64,
    pub buffer: Vec<u8>,
    pub len: usize,
    pub number: u8,
}

/// A case that is mostly a move: `damage` is how often, once in that many, each thing that can be wrong is wrong.
pub fn case(random: &mut Random, longest: usize, damage: usize) -> Case {
    let number = random.below(64);
    let (loses, gains) = (random.below(64), random.below(64));
    let mode = random.below(16);
    let mut len = if random.once_in(2) { random.below(4.min(longest + 1)) } else { random.below(longest + 1) };
    if !random.once_in(damage) {
        len = len.max(1).min(longest);
    }
    let mut buffer: Vec<u8> = (0..len).map(|_| random.below(32) as u8).collect();
    let top = buffer.first().copied().unwrap_or(0);
    let to = random.below(16);
    let toll = format!("({} {})", random.below(10_000), random.below(10));
    let mut line = if random.once_in(2) {
        let wagons: String = (0..random.below(3)).map(|_| format!(" {}", random.below(32))).collect();
        format!("(order {number} ({mode} {top}) ({to}{wagons}) {toll})").into_bytes()
    } else {
        format!("(notice {number} {mode} {to} ({loses} {gains}) {toll})").into_bytes()
    };
    let mut phase = random.next() | 1 << number | 1 << loses;
    if random.once_in(damage) {
        phase = random.next() & random.next();
    }
    let spare = if random.once_in(damage) { 0 } else { 1 + random.below(4) };
    buffer.extend((0..spare).map(|_| random.next() as u8));
    let mut handed = Case { line: Vec::new(), mode: mode as u8, phase, buffer, len, number: number as u8 };
    damage_position(random, &mut handed, damage);
    if random.once_in(damage) {
        damage_line(random, &mut line);
    }
    handed.line = line;
    handed
}

fn damage_position(random: &mut Random, handed: &mut Case, damage: usize) {
    if random.once_in(damage) {
        handed.mode = random.below(20) as u8;
    }
    if random.once_in(damage) {
        handed.number = random.next() as u8;
    }
    if random.once_in(damage) && handed.len > 0 {
        let wagon = random.below(handed.len);
        handed.buffer[wagon] = random.below(40) as u8;
    }
    if random.once_in(2 * damage) {
        handed.len = handed.buffer.len() + 1 + random.below(3);
    }
    if random.once_in(20 * damage) {
        handed.len = random.next() as usize;
    }
}

/// Bytes that often stand in a line.
const COMMON: &[u8] = b"()  0123456789orderntic\n\xff";

fn damage_line(random: &mut Random, line: &mut Vec<u8>) {
    let at = random.below(line.len());
    match random.below(8) {
        0 => line.truncate(at),
        1 => drop(line.remove(at)),
        2 => line.insert(at, COMMON[random.below(COMMON.len())]),
        3 => line[at] = COMMON[random.below(COMMON.len())],
        4 => line.push(COMMON[random.below(COMMON.len())]),
        5 => {
            // one number becomes larger, or very large
            let digits: Vec<usize> = (0..line.len()).filter(|i| line[*i].is_ascii_digit()).collect();
            let at = digits[random.below(digits.len())];
            let more = if random.once_in(4) { 10 + random.below(600) } else { 1 + random.below(3) };
            for _ in 0..more {
                line.insert(at, b'1' + random.below(9) as u8);
            }
        }
        6 => {
            let others: [&[u8]; 6] = [b"(open 1 2)", b"(watch 1 2 3)", b"(link 1 2 3)", b"(end 1)", b"(bare 1)", b""];
            *line = others[random.below(others.len())].to_vec();
        }
        _ => *line = (0..random.below(600)).map(|_| random.next() as u8).collect(),
    }
}
