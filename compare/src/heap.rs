//! Rows best first, with a binary heap and hash maps: the baseline for times.

use crate::model::{after, has, Book, Grade, Notice, Order, Row, State, Table};
use std::cmp::Reverse;
use std::collections::hash_map::Entry;
use std::collections::{BTreeSet, BinaryHeap, HashMap};

/// Settled rows by their start and wagon, and by their end and wagon.
#[derive(Default)]
pub struct Settled {
    from: HashMap<(State, u8), Vec<(State, u32)>>,
    into: HashMap<(State, u8), Vec<(State, u32)>>,
}

/// The rules by what their premises begin with.
#[derive(Default)]
struct Rules<'a> {
    /// by the mode after the order and the one wagon that it lays down
    one: HashMap<(u8, u8), Vec<&'a Order>>,
    /// by the mode after the order and the first of its two wagons
    first: HashMap<(u8, u8), Vec<&'a Order>>,
    /// by the second of its two wagons
    second: HashMap<u8, Vec<&'a Order>>,
    /// by the mode and the phase after the notice: it, and the phase before
    notices: HashMap<(u8, u64), Vec<(&'a Notice, u64)>>,
}

impl<'a> Rules<'a> {
    fn of(book: &'a Book, phases: &BTreeSet<u64>) -> Rules<'a> {
        let mut rules = Rules::default();
        for o in &book.orders {
            match o.wagons[..] {
                [] => {}
                [a] => rules.one.entry((o.to, a)).or_default().push(o),
                [a, b, ..] => {
                    rules.first.entry((o.to, a)).or_default().push(o);
                    rules.second.entry(b).or_default().push(o);
                }
            }
        }
        for n in &book.notices {
            for &f in phases {
                if let Some(g) = after(f, n) {
                    rules.notices.entry((n.to, g)).or_default().push((n, f));
                }
            }
        }
        rules
    }
}

/// The rows found so far with their best grades, and those that wait.
struct Found {
    grade: Grade,
    best: HashMap<Row, u32>,
    waiting: BinaryHeap<Reverse<(u32, Row)>>,
}

impl Found {
    fn offer(&mut self, row: Row, grade: u32) {
        match self.best.entry(row) {
            Entry::Vacant(place) => {
                place.insert(grade);
            }
            Entry::Occupied(mut known) if grade < *known.get() => {
                known.insert(grade);
            }
            Entry::Occupied(_) => return,
        }
        self.waiting.push(Reverse((grade, row)));
    }

    fn offer_order(&mut self, o: &Order, f: u64, to: State, rest: u32) {
        let toll = self.grade.of(o.minutes, o.class);
        self.offer(
            (State::Head(o.mode, f), o.wagon, to),
            self.grade.join(toll, rest),
        );
    }

    fn begin(&mut self, book: &Book, phases: &BTreeSet<u64>) {
        for &(t, k, u) in &book.links {
            self.offer((State::Node(t), k, State::Node(u)), 0);
        }
        for &f in phases {
            for &(p, k, t) in &book.watches {
                self.offer((State::Head(p, f), k, State::Node(t)), 0);
            }
            for o in book
                .orders
                .iter()
                .filter(|o| o.wagons.is_empty() && has(f, o.number))
            {
                self.offer_order(o, f, State::Head(o.to, f), 0);
            }
        }
    }

    /// Tries the rules whose first premise can be this row.
    fn bring_first(
        &mut self,
        rules: &Rules,
        settled: &Settled,
        p: u8,
        f: u64,
        (_, k, t): Row,
        g: u32,
    ) {
        for o in rules
            .one
            .get(&(p, k))
            .into_iter()
            .flatten()
            .filter(|o| has(f, o.number))
        {
            self.offer_order(o, f, t, g);
        }
        for o in rules
            .first
            .get(&(p, k))
            .into_iter()
            .flatten()
            .filter(|o| has(f, o.number))
        {
            for &(u, h) in settled.from.get(&(t, o.wagons[1])).into_iter().flatten() {
                self.offer_order(o, f, u, self.grade.join(g, h));
            }
        }
        for &(n, before) in rules.notices.get(&(p, f)).into_iter().flatten() {
            let toll = self.grade.of(n.minutes, n.class);
            self.offer(
                (State::Head(n.mode, before), k, t),
                self.grade.join(toll, g),
            );
        }
    }

    /// Tries the orders whose second premise can be this row.
    fn bring_second(&mut self, rules: &Rules, settled: &Settled, (s, k, t): Row, g: u32) {
        for o in rules.second.get(&k).into_iter().flatten() {
            for &(r, h) in settled.into.get(&(s, o.wagons[0])).into_iter().flatten() {
                if let State::Head(p, f) = r {
                    if p == o.to && has(f, o.number) {
                        self.offer_order(o, f, t, self.grade.join(h, g));
                    }
                }
            }
        }
    }

    fn settle(&mut self, rules: &Rules, settled: &mut Settled, row: Row, g: u32) {
        let (s, k, t) = row;
        settled.from.entry((s, k)).or_default().push((t, g));
        self.bring_second(rules, settled, row, g);
        settled.into.entry((t, k)).or_default().push((s, g));
        if let State::Head(p, f) = s {
            self.bring_first(rules, settled, p, f, row, g);
        }
    }
}

impl Table for Settled {
    fn rows(&self) -> Vec<(Row, u32)> {
        self.from
            .iter()
            .flat_map(|(&(s, k), ends)| ends.iter().map(move |&(t, g)| ((s, k, t), g)))
            .collect()
    }

    fn from(&self, s: State, k: u8) -> Vec<(State, u32)> {
        self.from.get(&(s, k)).cloned().unwrap_or_default()
    }

    fn along(&self, s: State, wagons: &[u8], grade: Grade) -> Vec<(State, u32)> {
        let mut at = HashMap::from([(s, 0)]);
        for &k in wagons {
            let mut next = HashMap::with_capacity(at.len());
            for (u, g) in at {
                for &(t, h) in self.from.get(&(u, k)).into_iter().flatten() {
                    let j = grade.join(g, h);
                    next.entry(t)
                        .and_modify(|best: &mut u32| *best = j.min(*best))
                        .or_insert(j);
                }
            }
            at = next;
        }
        at.into_iter().collect()
    }
}

/// The saturated rows with their best grades, if there are at most so many.
pub fn saturated(
    book: &Book,
    phases: &BTreeSet<u64>,
    grade: Grade,
    places: usize,
) -> Option<Settled> {
    let rules = Rules::of(book, phases);
    let mut found = Found {
        grade,
        best: HashMap::new(),
        waiting: BinaryHeap::new(),
    };
    let mut settled = Settled::default();
    found.begin(book, phases);
    while let Some(Reverse((g, row))) = found.waiting.pop() {
        if found.best.len() > places {
            return None;
        }
        if found.best[&row] == g {
            found.settle(&rules, &mut settled, row, g);
        }
    }
    (found.best.len() <= places).then_some(settled)
}
