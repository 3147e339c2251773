//! Random books and asks from a seed.

use crate::heap;
use crate::model::{after, opened, read, Ask, Book, Grade, State, Table};
use std::collections::BTreeSet;

pub struct Random(u64);

impl Random {
    pub fn new(seed: u64, size: u64) -> Random {
        Random(seed.wrapping_mul(0xd134_2543_de82_ef95) ^ size.wrapping_mul(0x2545_f491_4f6c_dd1d))
    }

    fn next(&mut self) -> u64 {
        self.0 = self.0.wrapping_add(0x9e37_79b9_7f4a_7c15);
        let a = (self.0 ^ self.0 >> 30).wrapping_mul(0xbf58_476d_1ce4_e5b9);
        let b = (a ^ a >> 27).wrapping_mul(0x94d0_49bb_1331_11eb);
        b ^ b >> 31
    }

    pub fn below(&mut self, n: u64) -> u64 {
        (self.next() >> 11) % n
    }

    /// Whether something with a chance of one in `n` comes about.
    fn one_in(&mut self, n: u64) -> bool {
        self.below(n) == 0
    }

    fn pick<T: Copy>(&mut self, from: &[T]) -> T {
        from[self.below(from.len() as u64) as usize]
    }
}

/// How a random book is to look. `modes`, `wagons` and `nodes` are the largest that occur; minutes are below `minutes`. The first
/// `chain` orders lay down two of the next wagon each, so that minutes double from one to the next.
struct Shape {
    modes: u64,
    wagons: u64,
    nodes: u64,
    numbers: u64,
    notices: u64,
    opens: u64,
    watches: u64,
    minutes: u64,
    chain: u64,
}

fn link_of_chain(r: &mut Random, shape: &Shape, n: u64) -> String {
    let k = n - shape.notices;
    let wagons = if k + 1 < shape.chain {
        format!(" {} {}", k + 1, k + 1)
    } else {
        String::new()
    };
    format!(
        "(order {n} (0 {k}) (0{wagons}) ({} {}))",
        r.below(shape.minutes),
        r.below(10)
    )
}

fn order(r: &mut Random, shape: &Shape, n: u64) -> String {
    if n < shape.notices + shape.chain {
        return link_of_chain(r, shape, n);
    }
    let laid = r.below(3);
    let wagons: String = (0..laid)
        .map(|_| format!(" {}", r.below(shape.wagons + 1)))
        .collect();
    let (p, k, q) = (
        r.below(shape.modes + 1),
        r.below(shape.wagons + 1),
        r.below(shape.modes + 1),
    );
    format!(
        "(order {n} ({p} {k}) ({q}{wagons}) ({} {}))",
        r.below(shape.minutes),
        r.below(10)
    )
}

fn notice(r: &mut Random, shape: &Shape, n: u64) -> String {
    let (p, q) = (r.below(shape.modes + 1), r.below(shape.modes + 1));
    let (loses, gains) = (r.below(shape.numbers), r.below(shape.numbers));
    format!(
        "(notice {n} {p} {q} ({loses} {gains}) ({} {}))",
        r.below(shape.minutes),
        r.below(10)
    )
}

fn open(r: &mut Random, shape: &Shape) -> String {
    let chain = shape.notices..shape.notices + shape.chain;
    let phase: Vec<String> = (0..shape.numbers)
        .filter(|n| chain.contains(n) || !r.one_in(4))
        .map(|n| format!(" {n}"))
        .collect();
    format!("(open{})", phase.concat())
}

/// The lines of a book of this shape, in any order.
fn lines(r: &mut Random, shape: &Shape) -> Vec<String> {
    let mut all = BTreeSet::new();
    for n in 0..shape.numbers {
        all.insert(if n < shape.notices {
            notice(r, shape, n)
        } else {
            order(r, shape, n)
        });
    }
    for _ in 0..shape.opens {
        all.insert(open(r, shape));
    }
    for _ in 0..shape.watches {
        all.insert(format!(
            "(watch {} {} {})",
            r.below(shape.modes + 1),
            r.below(shape.wagons + 1),
            r.below(shape.nodes + 1)
        ));
        all.insert(format!(
            "(link {} {} {})",
            r.below(shape.nodes + 1),
            r.below(shape.wagons + 1),
            r.below(shape.nodes + 1)
        ));
    }
    for _ in 0..1 + r.below(3) {
        all.insert(format!("(end {})", r.below(shape.nodes + 1)));
        all.insert(format!("(bare {})", r.below(shape.modes + 1)));
    }
    let mut lines: Vec<String> = all.into_iter().collect();
    for i in (1..lines.len()).rev() {
        lines.swap(i, r.below(i as u64 + 1) as usize);
    }
    lines
}

/// A book of which every line is accepted, with asks behind it: sizes grow with `size`, from 1 to 12 or so. One in twenty lacks a
/// number that it may name.
pub fn sample(seed: u64, size: u64) -> String {
    let mut r = Random::new(seed, size);
    let chain = if r.one_in(8) { 4 + r.below(8) } else { 0 };
    let numbers = chain + 1 + r.below(3 + 3 * size).min(50);
    let shape = Shape {
        modes: r.below(3 + size).min(15),
        wagons: chain + r.below(3 + size).min(18),
        nodes: r.below(3 + size).min(63),
        numbers,
        notices: r.below(2 + (numbers - chain) / 4),
        opens: 1 + r.below(4),
        watches: r.below(2 + 2 * size),
        minutes: r.pick(&[3, 30, 10_000]),
        chain,
    };
    let mut lines = lines(&mut r, &shape);
    if r.one_in(20) {
        let last = format!("(order {} ", numbers - 1);
        lines.retain(|line| !line.starts_with(&last));
    }
    let book = lines.join("\n") + "\n";
    let asks = some_asks(&mut r, &read(&book), &shape);
    book + &asks
}

/// A book whose rows number within a tenth of `rows`: the first of a series that a seed gives. Such books open four phases or more,
/// have 4 notices, 7 to 9 orders of two wagons and 30 numbers in all, and rows lead along some lanes of 32 wagons. Where more than
/// 6,000 rows are wanted they have 60 numbers, more modes and any number of such orders.
pub fn sized(seed: u64, rows: usize) -> String {
    for attempt in 0.. {
        let mut r = Random::new(
            seed.wrapping_mul(1_000_000).wrapping_add(attempt),
            rows as u64,
        );
        let many = rows > 6000;
        let shape = Shape {
            modes: if many { 12 } else { 2 + r.below(12) },
            wagons: 2 + r.below(4),
            nodes: 2 + r.below(8),
            numbers: if many { 60 } else { 30 },
            notices: 4,
            opens: 1 + r.below(4),
            watches: 1 + r.below(8),
            minutes: 100,
            chain: 0,
        };
        let text = lines(&mut r, &shape).join("\n") + "\n";
        let book = read(&text);
        let Ok(phases) = opened(&book) else { continue };
        let limit = rows + rows / 10;
        if let Some(table) = heap::saturated(&book, &phases, Grade::Minutes, limit) {
            let two = book.orders.iter().filter(|o| o.wagons.len() == 2).count();
            let alike = phases.len() >= 4 && (many || (7..=9).contains(&two));
            if alike
                && table.rows().len() + rows / 10 >= rows
                && !long_asks(1, &book, 32, 1).is_empty()
            {
                return text;
            }
        }
    }
    unreachable!("an endless loop")
}

/// Whether two opened phases lead to one by the same notice.
pub fn meets(book: &Book, phases: &BTreeSet<u64>) -> bool {
    book.notices.iter().any(|n| {
        let led: Vec<u64> = phases.iter().filter_map(|&f| after(f, n)).collect();
        led.iter().collect::<BTreeSet<_>>().len() < led.len()
    })
}

/// A lane of this length along which rows lead from some head, or up to where they end.
fn walk(r: &mut Random, table: &dyn Table, start: State, wagons: &[u8], length: u64) -> Vec<u64> {
    let (mut at, mut lane) = (start, Vec::new());
    while (lane.len() as u64) < length {
        let on: Vec<(u8, State)> = wagons
            .iter()
            .flat_map(|&k| table.from(at, k).into_iter().map(move |(t, _)| (k, t)))
            .collect();
        if on.is_empty() {
            break;
        }
        let (k, t) = r.pick(&on);
        lane.push(k as u64);
        at = t;
    }
    lane
}

fn ask_line(ask: &Ask) -> String {
    let shown = |numbers: &mut dyn Iterator<Item = u64>| {
        numbers.map(|n| n.to_string()).collect::<Vec<_>>().join(" ")
    };
    let phase = shown(&mut (0..64).filter(|&n| ask.phase >> n & 1 == 1));
    format!(
        "(ask {} ({phase}) ({}))\n",
        ask.mode,
        shown(&mut ask.lane.iter().copied())
    )
}

/// A phase that is mostly opened.
fn some_phase(r: &mut Random, phases: &[u64], numbers: u64) -> u64 {
    match r.below(8) {
        0 => r.next() & ((1 << numbers) - 1),
        1 => r.pick(phases) ^ 1 << r.below(numbers),
        _ => r.pick(phases),
    }
}

/// Asks of all kinds: lanes of up to 6 wagons, at random or along rows, and some beyond the limits.
fn some_asks(r: &mut Random, book: &Book, shape: &Shape) -> String {
    let Ok(opened) = opened(book) else {
        return String::new();
    };
    let phases: Vec<u64> = opened.iter().copied().collect();
    let table = heap::saturated(book, &opened, Grade::Minutes, 8192);
    let wagons: Vec<u8> = (0..=shape.wagons as u8).collect();
    let mut text = String::new();
    for _ in 0..12 {
        let mut mode = r.below(shape.modes + 1);
        let phase = some_phase(r, &phases, shape.numbers);
        let length = r.below(7);
        let mut lane: Vec<u64> = match &table {
            Some(rows) if r.one_in(2) => {
                walk(r, rows, State::Head(mode as u8, phase), &wagons, length)
            }
            _ => (0..length).map(|_| r.below(shape.wagons + 1)).collect(),
        };
        match r.below(40) {
            0 => mode = 16,
            1 => lane.push(32),
            2 => lane.resize(33, 0),
            _ => {}
        }
        text += &ask_line(&Ask { mode, phase, lane });
    }
    text
}

/// So many asks with lanes of this length, along which rows lead to the end; fewer where they are hard to find.
pub fn long_asks(seed: u64, book: &Book, length: u64, count: usize) -> String {
    let mut r = Random::new(seed, length);
    let opened = opened(book).expect("a book whose phases can be listed");
    let phases: Vec<u64> = opened.iter().copied().collect();
    let table = heap::saturated(book, &opened, Grade::Minutes, usize::MAX).expect("places enough");
    let wagons: Vec<u8> = (0..32).collect();
    let mut asks = Vec::new();
    for _ in 0..1000 * count {
        if asks.len() == count {
            break;
        }
        let (mode, phase) = (r.below(16), r.pick(&phases));
        let lane = walk(
            &mut r,
            &table,
            State::Head(mode as u8, phase),
            &wagons,
            length,
        );
        if lane.len() as u64 == length {
            asks.push(ask_line(&Ask { mode, phase, lane }));
        }
    }
    asks.concat()
}
