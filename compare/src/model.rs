//! An independent implementation of the model: books, opened phases, saturated rows and best ways.
//! It shares no code with the proved crates.

use std::collections::BTreeSet;

#[derive(Clone, Debug)]
pub struct Order {
    pub number: u8,
    pub mode: u8,
    pub wagon: u8,
    pub to: u8,
    pub wagons: Vec<u8>,
    pub minutes: u32,
    pub class: u32,
}

#[derive(Clone, Debug)]
pub struct Notice {
    pub number: u8,
    pub mode: u8,
    pub to: u8,
    pub loses: u8,
    pub gains: u8,
    pub minutes: u32,
    pub class: u32,
}

#[derive(Clone, Debug, Default)]
pub struct Book {
    pub orders: Vec<Order>,
    pub notices: Vec<Notice>,
    pub opens: Vec<u64>,
    pub watches: Vec<(u8, u8, u8)>,
    pub links: Vec<(u8, u8, u8)>,
    pub ends: BTreeSet<u8>,
    pub bares: BTreeSet<u8>,
}

/// A position that is asked about; the numbers are as they were written.
#[derive(Clone, Debug)]
pub struct Ask {
    pub mode: u64,
    pub phase: u64,
    pub lane: Vec<u64>,
}

/// A state: a mode with an opened phase, or a node.
#[derive(Clone, Copy, Debug, PartialEq, Eq, PartialOrd, Ord, Hash)]
pub enum State {
    Head(u8, u64),
    Node(u8),
}

/// A start, a wagon and an end.
pub type Row = (State, u8, State);

/// A refusal's number and place.
#[derive(Clone, Copy, Debug, PartialEq)]
pub struct Refusal {
    pub number: u8,
    pub place: u64,
}

/// Which grade is computed.
#[derive(Clone, Copy, Debug, PartialEq)]
pub enum Grade {
    Minutes,
    Class,
}

impl Grade {
    pub fn join(self, a: u32, b: u32) -> u32 {
        match self {
            Grade::Minutes => (a + b).min(1_000_000),
            Grade::Class => a.max(b),
        }
    }

    pub fn of(self, minutes: u32, class: u32) -> u32 {
        match self {
            Grade::Minutes => minutes,
            Grade::Class => class,
        }
    }
}

/// The saturated rows of a book, each with its best grade.
pub trait Table {
    fn rows(&self) -> Vec<(Row, u32)>;

    fn from(&self, s: State, k: u8) -> Vec<(State, u32)>;

    /// Where rows lead by these wagons, in order, with the best joined grades.
    fn along(&self, s: State, wagons: &[u8], grade: Grade) -> Vec<(State, u32)>;

    /// The best grade of a way from a state into the watch.
    fn best_way(&self, book: &Book, start: State, lane: &[u8], grade: Grade) -> Option<u32> {
        let ends = self.along(start, lane, grade);
        ends.into_iter()
            .filter(|&(s, _)| stops(book, s))
            .map(|(_, g)| g)
            .min()
    }
}

fn stops(book: &Book, s: State) -> bool {
    match s {
        State::Node(t) => book.ends.contains(&t),
        State::Head(p, _) => book.bares.contains(&p),
    }
}

/// The numbers of a line, whatever stands between them.
fn numbers(line: &str) -> Vec<u64> {
    line.split(|c: char| !c.is_ascii_digit())
        .filter(|s| !s.is_empty())
        .map(|s| s.parse().unwrap())
        .collect()
}

/// The order of these numbers: the wagons stand between the four before them and the toll.
fn order(n: &[u64]) -> Order {
    let k = n.len();
    Order {
        number: n[0] as u8,
        mode: n[1] as u8,
        wagon: n[2] as u8,
        to: n[3] as u8,
        wagons: n[4..k - 2].iter().map(|&w| w as u8).collect(),
        minutes: n[k - 2] as u32,
        class: n[k - 1] as u32,
    }
}

/// Reads a book whose lines are all in order; the reader of the proved crates is tested elsewhere.
pub fn read(text: &str) -> Book {
    let mut book = Book::default();
    for line in text.lines() {
        let n = numbers(line);
        let b = |i: usize| n[i] as u8;
        if line.starts_with("(order") {
            book.orders.push(order(&n));
        } else if line.starts_with("(notice") {
            book.notices.push(Notice {
                number: b(0),
                mode: b(1),
                to: b(2),
                loses: b(3),
                gains: b(4),
                minutes: n[5] as u32,
                class: n[6] as u32,
            });
        } else if line.starts_with("(open") {
            book.opens.push(n.iter().fold(0, |f, &r| f | 1 << r));
        } else if line.starts_with("(watch") {
            book.watches.push((b(0), b(1), b(2)));
        } else if line.starts_with("(link") {
            book.links.push((b(0), b(1), b(2)));
        } else if line.starts_with("(end") {
            book.ends.insert(b(0));
        } else if line.starts_with("(bare") {
            book.bares.insert(b(0));
        }
    }
    book
}

/// Reads the lines `(ask P (R ...) (K ...))`.
pub fn read_asks(text: &str) -> Vec<Ask> {
    let asks = text.lines().filter(|line| line.starts_with("(ask"));
    asks.map(|line| {
        let parts: Vec<Vec<u64>> = line.split('(').map(numbers).collect();
        Ask {
            mode: parts[1][0],
            phase: parts[2].iter().fold(0, |f, &r| f | 1 << r),
            lane: parts[3].clone(),
        }
    })
    .collect()
}

pub fn has(phase: u64, number: u8) -> bool {
    phase >> number & 1 == 1
}

/// The phase after a notice, where it can be carried out.
pub fn after(phase: u64, n: &Notice) -> Option<u64> {
    (has(phase, n.number) && has(phase, n.loses)).then(|| phase & !(1 << n.loses) | 1 << n.gains)
}

/// The least number that a notice or an open line names and under which nothing stands.
fn missing(book: &Book) -> Option<u8> {
    let stands = |k: u8| {
        book.orders.iter().any(|o| o.number == k) || book.notices.iter().any(|n| n.number == k)
    };
    let named = |k: u8| {
        book.opens.iter().any(|&f| has(f, k))
            || book.notices.iter().any(|n| n.loses == k || n.gains == k)
    };
    (0..64).find(|&k| named(k) && !stands(k))
}

/// The opened phases, where every number that is named stands and there are at most 32.
pub fn opened(book: &Book) -> Result<BTreeSet<u64>, Refusal> {
    if let Some(number) = missing(book) {
        return Err(Refusal {
            number: 6,
            place: number as u64,
        });
    }
    let mut all: BTreeSet<u64> = book.opens.iter().copied().collect();
    loop {
        let more: Vec<u64> = all
            .iter()
            .flat_map(|&f| book.notices.iter().filter_map(move |n| after(f, n)))
            .filter(|g| !all.contains(g))
            .collect();
        if more.is_empty() {
            return Ok(all);
        }
        all.extend(more);
        if all.len() > 32 {
            return Err(Refusal {
                number: 7,
                place: 0,
            });
        }
    }
}
