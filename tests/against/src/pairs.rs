//! Dossiers with a line that more than one row refuses, so that the order of the rows shows.
//!
//! Each is good up to its last line, or nearly its last. That line gets its faults independently of each other: a number that is not there or out of
//! its range, a count that is at its limit, fields and an end that are not what they should be.

use crate::limits::{turn, wide_table};
use crate::make::{claim_line, heading, text, Claim, Concept, Goal, Left, Lines, Right};
use crate::random::Random;

pub fn dossier(random: &mut Random) -> Vec<u8> {
    let (lines, last) = match random.below(100) {
        0..=14 => after_table(random),
        15..=23 => after_claims(random),
        24..=84 => after_steps(random),
        _ => after_facts(random),
    };
    ended(random, &lines, last)
}

/// The lines and the last one, which now and then is not well formed or has no newline. A line behind it changes nothing.
fn ended(random: &mut Random, lines: &Lines, last: String) -> Vec<u8> {
    let stem = last.rsplit_once('\t').map_or("", |(stem, _)| stem);
    let last = match random.below(16) {
        0 => format!("{last}\t0"),
        1 => stem.to_string(),
        2 => format!("{stem}\t{}", random.pick(&["65536", "00", "x"])),
        _ => last,
    };
    let mut text = text(lines);
    text.extend_from_slice(last.as_bytes());
    if random.percent(12) {
        return text;
    }
    text.push(b'\n');
    if random.percent(20) {
        text.extend_from_slice(random.pick(&[&b"id\t0\t0\n"[..], b"top\n", b"\n", b"x"]));
    }
    text
}

/// A number out of range: just past it, or one that would be good if it were cut to a byte, or the largest there is.
fn past(random: &mut Random, good: usize, limit: usize) -> usize {
    match random.below(5) {
        0 | 1 => limit,
        2 => limit + random.below(5),
        3 => good + 256 * random.within(1, 255),
        _ => 65_535,
    }
}

/// A table, most often full, and a line that repeats one above or has a number that is out of range.
fn after_table(random: &mut Random) -> (Lines, String) {
    let count = if random.percent(70) {
        256
    } else {
        random.within(2, 255)
    };
    let table = wide_table(random, count);
    let lines = heading(&table, &[]);
    let again = random.pick(&table);
    let last = match (again, random.below(10)) {
        (_, 0..=3) => again,
        (Concept::Atom(x), _) => Concept::Atom(past(random, x, 64)),
        (Concept::Not(i), _) => Concept::Not(past(random, i, count)),
        (Concept::And(i, j), 4..=6) => Concept::And(past(random, i, count), j),
        (Concept::And(i, j), _) => Concept::And(i, past(random, j, count)),
        (Concept::Or(i, j), 4..=6) => Concept::Or(past(random, i, count), j),
        (Concept::Or(i, j), _) => Concept::Or(i, past(random, j, count)),
        (Concept::Some(r, i), 4..=6) => Concept::Some(past(random, r, 16), i),
        (Concept::Some(r, i), _) => Concept::Some(r, past(random, i, count)),
        (Concept::All(r, i), 4..=6) => Concept::All(past(random, r, 16), i),
        (Concept::All(r, i), _) => Concept::All(r, past(random, i, count)),
        (Concept::Top | Concept::Bot, _) => Concept::Not(count),
    };
    (lines, last.line())
}

/// Claims, most often as many as there can be, and one with a number that is out of range.
fn after_claims(random: &mut Random) -> (Lines, String) {
    let table = [Concept::Atom(63), Concept::Top];
    let count = if random.percent(70) {
        64
    } else {
        random.below(64)
    };
    let claims: Goal = (0..count).map(|k| (Left, Claim::Is(k, k % 2))).collect();
    let mut number = |good, limit| match random.below(3) {
        0 => past(random, good, limit),
        _ => good,
    };
    let (a, b, r) = (number(63, 64), number(62, 64), number(15, 16));
    let (i, j) = (number(1, 2), number(0, 2));
    let claim = random.pick(&[Claim::Is(a, i), Claim::Sub(i, j), Claim::Link(r, a, b)]);
    let side = random.pick(&[Left, Right]);
    (heading(&table, &claims), claim_line(side, claim))
}

/// The entries that the steps are about; behind them stands a chain of `not`.
const ENTRIES: [Concept; 8] = [
    Concept::Atom(63),
    Concept::Top,
    Concept::Bot,
    Concept::Not(0),
    Concept::And(0, 3),
    Concept::Or(0, 3),
    Concept::Some(15, 0),
    Concept::All(15, 0),
];

/// A kind of number in a step.
#[derive(Clone, Copy)]
enum Number {
    Role,
    Concept,
    Name,
    /// A name that must be new.
    New,
}

use Number::{Name, New, Role};

type Field = (Number, usize);
const A: Field = (Name, 63);
const B: Field = (Name, 62);
const FRESH: Field = (New, 61);

const fn entry(i: usize) -> Field {
    (Number::Concept, i)
}

/// Steps that `goal` allows.
const CLOSING: [(&str, &[Field]); 5] = [
    ("id", &[A, entry(0)]),
    ("id-sub", &[entry(0), entry(5)]),
    ("id-link", &[(Role, 15), A, B]),
    ("bot-l", &[A, entry(2)]),
    ("top-r", &[A, entry(1)]),
];
const GROWING: [(&str, &[Field]); 9] = [
    ("top-l", &[A, entry(1)]),
    ("bot-r", &[A, entry(2)]),
    ("not-l", &[A, entry(3)]),
    ("not-r", &[A, entry(3)]),
    ("and-l", &[A, entry(4)]),
    ("or-r", &[A, entry(5)]),
    ("sub-l", &[A, entry(0), entry(5)]),
    ("some-r", &[A, entry(6), B]),
    ("all-l", &[A, entry(7), B]),
];
const NAMING: [(&str, &[Field]); 3] = [
    ("sub-r", &[entry(5), entry(4), FRESH]),
    ("some-l", &[A, entry(6), FRESH]),
    ("all-r", &[A, entry(7), FRESH]),
];
const PARTING: [(&str, &[Field]); 2] = [("and-r", &[A, entry(4)]), ("or-l", &[A, entry(5)])];

/// What the steps above need.
fn goal() -> Goal {
    let mut goal = vec![
        (Left, Claim::Is(63, 0)),
        (Right, Claim::Is(63, 0)),
        (Right, Claim::Is(63, 1)),
        (Left, Claim::Is(63, 2)),
        (Left, Claim::Sub(0, 5)),
        (Right, Claim::Sub(0, 5)),
        (Right, Claim::Sub(5, 4)),
        (Left, Claim::Link(15, 63, 62)),
        (Right, Claim::Link(15, 63, 62)),
    ];
    for i in 3..8 {
        goal.extend([(Left, Claim::Is(63, i)), (Right, Claim::Is(63, i))]);
    }
    goal
}

/// A derivation that is at one limit or more, or has closed its last goal, and a step that is wrong in one way or more.
fn after_steps(random: &mut Random) -> (Lines, String) {
    let closed = random.percent(20);
    let waiting = if !closed && random.percent(35) { 16 } else { 0 };
    let most = random.percent(25);
    let mut table = ENTRIES.to_vec();
    let mut claims = goal();
    claims.extend((0..waiting).map(|a| (Right, Claim::Is(a, 4))));
    let mut steps: Lines = (0..waiting).map(|a| format!("and-r\t{a}\t4")).collect();
    if most {
        let count = 1_024 - waiting - usize::from(closed);
        steps.extend(chains(&mut table, &mut claims, count));
    }
    let count = random.pick(&[0, 0, 63, 64, 64, 64]);
    while claims.len() < count {
        claims.push((Left, Claim::Sub(3, claims.len() % 8)));
    }
    if closed {
        steps.push("id\t63\t0".to_string());
    }
    let mut lines = heading(&table, &claims);
    lines.push("proof".to_string());
    lines.extend(steps);
    let last = wrong_step(random, table.len(), waiting > 0);
    (lines, last)
}

/// So many steps, at most 1,024, that take apart chains of `not` for eight names.
fn chains(table: &mut Vec<Concept>, claims: &mut Goal, count: usize) -> Lines {
    // The last line of each chain is the `not` of the entries.
    table.extend([Concept::Not(3), Concept::Not(8)]);
    while table.len() < 135 {
        table.push(Concept::Not(table.len() - 1));
    }
    let mut steps = Vec::new();
    for a in 16..24 {
        claims.push((Left, Claim::Is(a, 134)));
        let sides = [Left, Right].into_iter().cycle();
        let down = (8..135).rev().chain([3]);
        steps.extend(sides.zip(down).map(|(side, i)| turn(side, a, i)));
    }
    steps.truncate(count);
    steps
}

/// One of the steps above with some of its numbers changed.
fn wrong_step(random: &mut Random, concepts: usize, waiting: bool) -> String {
    let (word, fields) = match random.below(20) {
        0..=11 if waiting => random.pick(&PARTING),
        0..=2 => random.pick(&CLOSING),
        3..=6 => random.pick(&GROWING),
        7 => random.pick(&PARTING),
        _ => random.pick(&NAMING),
    };
    let mut line = word.to_string();
    for &(kind, good) in fields {
        // A new name alone can fail row 8, in three of the words.
        let often = if matches!(kind, New) { 60 } else { 40 };
        let number = if random.percent(often) {
            wrong_number(random, kind, good, concepts)
        } else {
            good
        };
        line.push_str(&format!("\t{number}"));
    }
    line
}

/// A number that is out of range, or in no claim that is needed, or of a wrong entry, or not new.
fn wrong_number(random: &mut Random, kind: Number, good: usize, concepts: usize) -> usize {
    let outside = random.percent(30);
    match kind {
        Role if outside => past(random, good, 16),
        Role => random.below(16),
        Number::Concept if outside => past(random, good, concepts),
        Number::Concept => random.below(concepts.min(9)),
        Name | New if outside => past(random, good, 64),
        Name => random.pick(&[0, 16, 60, 61, 62]),
        New => random.pick(&[62, 63]),
    }
}

/// A model, and a line that repeats one of it or has a number that is out of range.
fn after_facts(random: &mut Random) -> (Lines, String) {
    let size = random.pick(&[1, 2, 31, 32]);
    let d = size - 1;
    let mut lines = heading(&[Concept::Atom(63)], &[(Left, Claim::Is(63, 0))]);
    lines.push("model".to_string());
    if random.percent(10) {
        let size = random.pick(&[0, 33, 256, 257, 288]);
        return (lines, format!("size\t{size}"));
    }
    lines.extend([
        format!("size\t{size}"),
        format!("name\t63\t{d}"),
        format!("has\t63\t{d}"),
        format!("edge\t15\t{d}\t0"),
    ]);
    let mut number = |good, limit| match random.below(10) {
        0..=3 => past(random, good, limit),
        _ => good,
    };
    let (r, x, a) = (number(15, 16), number(63, 64), number(63, 64));
    let (d, e) = (number(d, size), number(0, size));
    let last = match random.below(10) {
        0..=4 => format!("name\t{a}\t{d}"),
        5 | 6 => format!("has\t{x}\t{d}"),
        7 | 8 => format!("edge\t{r}\t{d}\t{e}"),
        _ => format!("size\t{}", random.pick(&[1, 33, 0])),
    };
    (lines, last)
}
