//! A way-finder that shares nothing with the proved crates, to compare them with.
//!
//! `compare sample SEED SIZE` prints a random book with asks behind it, `compare sized SEED ROWS` a book of about so many rows, and
//! `compare asks SEED LENGTH COUNT < BOOK` asks with lanes of that length. `compare answers GRADE METHOD [PLACES] < INPUT` prints
//! the opened phases, the saturated rows with their best grades, and an answer to each ask; `compare time GRADE METHOD ROUNDS
//! < INPUT` how long that took; `compare meets < INPUT` whether two opened phases lead to one by the same notice; `compare runs
//! GRADE INPUT < SHOWN` carries out the runs that `survey moves` shows. GRADE is `minutes` or `class`, METHOD is `sweep` or `heap`.

mod heap;
mod model;
mod random;
mod runs;
mod sweep;

use model::{Ask, Book, Grade, Refusal, State, Table};
use std::collections::BTreeSet;
use std::io::{Read, Write};
use std::time::Instant;

/// A book that is worked out.
struct Worked {
    phases: BTreeSet<u64>,
    table: Box<dyn Table>,
}

fn work_out(book: &Book, grade: Grade, method: &str, places: usize) -> Result<Worked, Refusal> {
    let phases = model::opened(book)?;
    let table: Option<Box<dyn Table>> = match method {
        "heap" => {
            heap::saturated(book, &phases, grade, places).map(|t| Box::new(t) as Box<dyn Table>)
        }
        _ => sweep::saturated(book, &phases, grade, places).map(|t| Box::new(t) as Box<dyn Table>),
    };
    let table = table.ok_or(Refusal {
        number: 8,
        place: 0,
    })?;
    Ok(Worked { phases, table })
}

/// The best grade of a way, none where there is none, or the number of a refusal.
fn answer(book: &Book, worked: &Worked, ask: &Ask, grade: Grade) -> Result<Option<u32>, u8> {
    if ask.mode > 15 || ask.lane.len() > 32 || ask.lane.iter().any(|&k| k > 31) {
        return Err(9);
    }
    if !worked.phases.contains(&ask.phase) {
        return Err(10);
    }
    let lane: Vec<u8> = ask.lane.iter().map(|&k| k as u8).collect();
    Ok(worked
        .table
        .best_way(book, State::Head(ask.mode as u8, ask.phase), &lane, grade))
}

fn shown(s: State) -> String {
    match s {
        State::Node(t) => format!("node {t}"),
        State::Head(p, f) => format!("head {p} {f}"),
    }
}

fn answers(text: &str, grade: Grade, method: &str, places: usize) -> String {
    let book = model::read(text);
    let worked = match work_out(&book, grade, method, places) {
        Ok(worked) => worked,
        Err(refusal) => return format!("refused {} at {}\n", refusal.number, refusal.place),
    };
    let rows = worked.table.rows();
    let mut lines: Vec<String> = rows
        .iter()
        .map(|&((s, k, t), g)| format!("{} by {k} to {}: {g}\n", shown(s), shown(t)))
        .collect();
    lines.sort();
    let mut out = format!("phases {} rows {}\n", worked.phases.len(), rows.len()) + &lines.concat();
    for ask in model::read_asks(text) {
        out += &match answer(&book, &worked, &ask, grade) {
            Ok(Some(g)) => format!("way {g}\n"),
            Ok(None) => "no way\n".to_string(),
            Err(number) => format!("refused {number}\n"),
        };
    }
    out
}

/// Times as the program `survey` prints them: working out once, and all asks in turn, so many times.
fn times(text: &str, grade: Grade, method: &str, rounds: u32) -> String {
    let book = model::read(text);
    let asks = model::read_asks(text);
    let start = Instant::now();
    let worked = work_out(&book, grade, method, usize::MAX).expect("a book that can be worked out");
    let working = start.elapsed().as_nanos();
    let start = Instant::now();
    let mut sum: u64 = 0;
    for _ in 0..rounds {
        for ask in &asks {
            sum += answer(&book, &worked, ask, grade)
                .ok()
                .flatten()
                .unwrap_or(0) as u64;
        }
    }
    let asking = start.elapsed().as_nanos();
    let (phases, rows) = (worked.phases.len(), worked.table.rows().len());
    format!("working out {working} ns phases {phases} rows {rows}\nasking {asking} ns asks {} rounds {rounds} sum {sum}\n", asks.len())
}

fn meets(text: &str) -> String {
    let book = model::read(text);
    let met = model::opened(&book).is_ok_and(|phases| random::meets(&book, &phases));
    format!("{}\n", if met { "meets" } else { "does not meet" })
}

fn input() -> String {
    let mut text = String::new();
    std::io::stdin()
        .read_to_string(&mut text)
        .expect("a book on standard input");
    text
}

fn main() {
    let words: Vec<String> = std::env::args().collect();
    let word = |i: usize| words.get(i).map(String::as_str).unwrap_or("");
    let number = |i: usize| word(i).parse::<u64>().expect("a number");
    let grade = if word(2) == "class" {
        Grade::Class
    } else {
        Grade::Minutes
    };
    let out = match word(1) {
        "sample" => random::sample(number(2), number(3)),
        "sized" => random::sized(number(2), number(3) as usize),
        "asks" => random::long_asks(
            number(2),
            &model::read(&input()),
            number(3),
            number(4) as usize,
        ),
        "answers" => answers(&input(), grade, word(3), word(4).parse().unwrap_or(8192)),
        "time" => times(&input(), grade, word(3), number(4) as u32),
        "meets" => meets(&input()),
        "runs" => {
            let text = std::fs::read_to_string(word(3)).expect("a book with asks");
            runs::check(&model::read(&text), &model::read_asks(&text), grade, &input())
        }
        _ => "see the head of compare/src/main.rs for what can be asked\n".to_string(),
    };
    std::io::stdout()
        .write_all(out.as_bytes())
        .expect("standard output");
}
