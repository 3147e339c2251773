//! Runs that another program shows, carried out move by move.

use crate::model::{after, has, Ask, Book, Grade};

struct Position {
    mode: u8,
    phase: u64,
    lane: Vec<u8>,
}

/// Carries out the order or notice with this number, and joins its toll.
fn carry_out(book: &Book, at: &mut Position, number: u8, grade: Grade) -> Option<u32> {
    if let Some(o) = book.orders.iter().find(|o| o.number == number) {
        let fits = has(at.phase, number) && at.mode == o.mode && at.lane.first() == Some(&o.wagon);
        return fits.then(|| {
            at.lane.splice(0..1, o.wagons.iter().copied());
            at.mode = o.to;
            grade.of(o.minutes, o.class)
        });
    }
    let n = book.notices.iter().find(|n| n.number == number)?;
    let phase = after(at.phase, n)?;
    (at.mode == n.mode && !at.lane.is_empty()).then(|| {
        at.phase = phase;
        at.mode = n.to;
        grade.of(n.minutes, n.class)
    })
}

/// Whether the watch holds the position, whose phase is opened.
fn watched(book: &Book, at: &Position) -> bool {
    let Some((top, rest)) = at.lane.split_first() else {
        return book.bares.contains(&at.mode);
    };
    let mut nodes: Vec<u8> = book
        .watches
        .iter()
        .filter(|(p, k, _)| *p == at.mode && k == top)
        .map(|(_, _, t)| *t)
        .collect();
    for wagon in rest {
        nodes = book
            .links
            .iter()
            .filter(|(t, k, _)| nodes.contains(t) && k == wagon)
            .map(|(_, _, u)| *u)
            .collect();
    }
    nodes.iter().any(|t| book.ends.contains(t))
}

/// What is wrong with the run that these lines show for an ask, if anything is; the lines behind it are left.
fn fault<'a>(
    book: &Book,
    ask: &Ask,
    grade: Grade,
    told: u32,
    lines: &mut impl Iterator<Item = &'a str>,
) -> Option<String> {
    let mut at = Position {
        mode: ask.mode as u8,
        phase: ask.phase,
        lane: ask.lane.iter().map(|&k| k as u8).collect(),
    };
    let mut joined = 0;
    for line in lines {
        let words: Vec<&str> = line.split(' ').collect();
        match words[..] {
            ["by", number, "to", mode, phase, length] => {
                let number = number.parse().ok()?;
                let Some(toll) = carry_out(book, &mut at, number, grade) else {
                    return Some(format!("{number} cannot be carried out"));
                };
                joined = grade.join(joined, toll);
                let stage = format!("{} {} {}", at.mode, at.phase, at.lane.len());
                if stage != format!("{mode} {phase} {length}") {
                    return Some(format!("{line}, but it leads to {stage}"));
                }
            }
            ["arrived"] => {
                let right = watched(book, &at) && joined == told;
                return (!right).then(|| format!("arrived with {joined}, not {told}, or unwatched"));
            }
            ["more"] => return None,
            _ => return Some(format!("{line}, where a move was due")),
        }
    }
    Some("the run does not end".to_string())
}

/// Checks the run that was shown for each ask that has a way. Says how many there were, and what is wrong.
pub fn check(book: &Book, asks: &[Ask], grade: Grade, shown: &str) -> String {
    let mut lines = shown.lines();
    let (mut runs, mut moves, mut out) = (0, 0, String::new());
    for ask in asks {
        match lines.next().and_then(|l| l.strip_prefix("way ")) {
            None => continue,
            Some(told) => {
                let told = told.parse().expect("a grade");
                let mut counted = lines.by_ref().inspect(|l| moves += usize::from(l.starts_with("by ")));
                runs += 1;
                if let Some(fault) = fault(book, ask, grade, told, &mut counted) {
                    out += &format!("fault: {fault}\n");
                }
            }
        }
    }
    if lines.next().is_some() {
        out += "fault: more lines than asks\n";
    }
    out + &format!("runs {runs} moves {moves}\n")
}
