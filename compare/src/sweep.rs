//! Rows by sweeping over all rules until nothing improves. Slow, and as close to the rules as can be: answers are compared with it.

use crate::model::{after, has, Book, Grade, Row, State, Table};
use std::collections::{BTreeMap, BTreeSet, HashMap};

/// Rows by their start and wagon, each with its best grade so far.
#[derive(Default)]
pub struct Rows {
    by_start: HashMap<(State, u8), BTreeMap<State, u32>>,
    count: usize,
}

impl Rows {
    fn offer(&mut self, (s, k, t): Row, grade: u32) -> bool {
        let ends = self.by_start.entry((s, k)).or_default();
        match ends.get_mut(&t) {
            None => {
                ends.insert(t, grade);
                self.count += 1;
                true
            }
            Some(old) if grade < *old => {
                *old = grade;
                true
            }
            _ => false,
        }
    }

    fn begin(&mut self, book: &Book, phases: &BTreeSet<u64>) {
        for &(t, k, u) in &book.links {
            self.offer((State::Node(t), k, State::Node(u)), 0);
        }
        for &(p, k, t) in &book.watches {
            for &f in phases {
                self.offer((State::Head(p, f), k, State::Node(t)), 0);
            }
        }
    }

    /// Tries every rule in a phase; whether anything came of it.
    fn sweep(&mut self, book: &Book, f: u64, grade: Grade) -> bool {
        let mut changed = false;
        for o in book.orders.iter().filter(|o| has(f, o.number)) {
            let toll = grade.of(o.minutes, o.class);
            for (s, g) in self.along(State::Head(o.to, f), &o.wagons, grade) {
                changed |= self.offer((State::Head(o.mode, f), o.wagon, s), grade.join(toll, g));
            }
        }
        for n in &book.notices {
            let Some(g) = after(f, n) else { continue };
            let toll = grade.of(n.minutes, n.class);
            for k in 0..32 {
                for (s, h) in self.from(State::Head(n.to, g), k) {
                    changed |= self.offer((State::Head(n.mode, f), k, s), grade.join(toll, h));
                }
            }
        }
        changed
    }
}

impl Table for Rows {
    fn rows(&self) -> Vec<(Row, u32)> {
        self.by_start
            .iter()
            .flat_map(|(&(s, k), ends)| ends.iter().map(move |(&t, &g)| ((s, k, t), g)))
            .collect()
    }

    fn from(&self, s: State, k: u8) -> Vec<(State, u32)> {
        self.by_start
            .get(&(s, k))
            .map(|m| m.iter().map(|(t, g)| (*t, *g)).collect())
            .unwrap_or_default()
    }

    fn along(&self, s: State, wagons: &[u8], grade: Grade) -> Vec<(State, u32)> {
        let mut at: BTreeMap<State, u32> = BTreeMap::from([(s, 0)]);
        for &k in wagons {
            let mut next = BTreeMap::new();
            for (&u, &g) in &at {
                for (t, h) in self.from(u, k) {
                    let j = grade.join(g, h);
                    let best = next.entry(t).or_insert(j);
                    *best = (*best).min(j);
                }
            }
            at = next;
        }
        at.into_iter().collect()
    }
}

/// The saturated rows with their best grades, if there are at most so many.
pub fn saturated(book: &Book, phases: &BTreeSet<u64>, grade: Grade, places: usize) -> Option<Rows> {
    let mut rows = Rows::default();
    rows.begin(book, phases);
    loop {
        let mut changed = false;
        for &f in phases {
            changed |= rows.sweep(book, f, grade);
            if rows.count > places {
                return None;
            }
        }
        if !changed {
            return (rows.count <= places).then_some(rows);
        }
    }
}
