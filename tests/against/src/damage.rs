//! Ways to damage a dossier: its words, numbers, fields, lines and bytes.

use crate::make::{Lines, STEP_WORDS};
use crate::random::Random;

/// Every word that may stand somewhere, and some that may stand nowhere.
const WORDS: [&str; 27] = [
    "top", "bot", "atom", "not", "and", "or", "some", "all", "left", "right", "is", "sub", "link",
    "proof", "model", "size", "name", "has", "edge", "proved", "refused", "id-", "-l", "some-",
    "idsub", "a", "0",
];

/// Numbers at the edges of their ranges, and fields that are no numbers.
const NUMBERS: [&str; 51] = [
    "0",
    "1",
    "2",
    "3",
    "15",
    "16",
    "17",
    "31",
    "32",
    "33",
    "62",
    "63",
    "64",
    "65",
    "127",
    "128",
    "254",
    "255",
    "256",
    "257",
    "1023",
    "1024",
    "65534",
    "65535",
    "65536",
    "65537",
    "65545",
    "65616",
    "66535",
    "75535",
    "99999",
    "100000",
    "131072",
    "655350",
    "4294967295",
    "4294967296",
    "18446744073709551615",
    "18446744073709551616",
    "36893488147419103232",
    "00",
    "01",
    "007",
    "00000",
    "+1",
    "-0",
    "-1",
    "1.0",
    "0x1",
    "1e1",
    "",
    "O",
];

const BYTES: [u8; 14] = [0, 9, 10, 11, 13, 32, 33, 47, 48, 57, 58, 126, 127, 128];

/// A dossier with one to three of its parts changed.
pub fn damaged(random: &mut Random, lines: &Lines) -> Vec<u8> {
    let mut lines = lines.clone();
    let mut bytes = 0;
    let times = match random.below(10) {
        0 => 3,
        1 | 2 => 2,
        _ => 1,
    };
    for _ in 0..times {
        match random.below(24) {
            0..=4 => number(random, &mut lines),
            5..=7 => word(random, &mut lines),
            8 => fields(random, &mut lines),
            9..=17 => order(random, &mut lines),
            18..=21 => old_name(random, &mut lines),
            _ => bytes += 1,
        }
    }
    let mut text = crate::make::text(&lines);
    for _ in 0..bytes {
        byte(random, &mut text);
    }
    text
}

/// The line to be damaged: any, or one of the last few, so that what stands before it is read and judged. A long table is mostly left alone, so that
/// what is made of it is damaged.
fn some_line(random: &mut Random, lines: &Lines) -> Option<usize> {
    if lines.is_empty() {
        return None;
    }
    if random.percent(30) {
        return Some(lines.len() - 1 - random.below(lines.len().min(5)));
    }
    let table = lines.iter().take_while(|line| !ends_table(line)).count();
    if table > 20 && table < lines.len() && random.percent(80) {
        return Some(random.within(table, lines.len() - 1));
    }
    Some(random.below(lines.len()))
}

fn ends_table(line: &str) -> bool {
    matches!(
        line.split('\t').next(),
        Some("left" | "right" | "proof" | "model")
    )
}

fn split(line: &str) -> Vec<String> {
    line.split('\t').map(str::to_string).collect()
}

/// Changes a number: by one, to one at an edge, to another that stands in the dossier, or to no number.
fn number(random: &mut Random, lines: &mut Lines) {
    for _ in 0..4 {
        let Some(at) = some_line(random, lines) else {
            return;
        };
        let mut fields = split(&lines[at]);
        let places: Vec<usize> = (0..fields.len())
            .filter(|&k| fields[k].parse::<u64>().is_ok())
            .collect();
        if places.is_empty() {
            continue;
        }
        let field = &mut fields[random.pick(&places)];
        let value = field.parse::<u64>().unwrap_or(0);
        *field = match random.below(10) {
            0 | 1 => (value + 1).to_string(),
            2 | 3 => value.saturating_sub(1).to_string(),
            4 | 5 => random.below(8).to_string(),
            6 => random.below(70).to_string(),
            7 => format!("0{field}"),
            _ => random.pick(&NUMBERS).to_string(),
        };
        lines[at] = fields.join("\t");
        return;
    }
}

/// Gives a step that needs a new name one that is likely to stand in its goal: the name of the claim that it drops, or a small one.
fn old_name(random: &mut Random, lines: &mut Lines) {
    let places: Vec<usize> = (0..lines.len())
        .filter(|&k| {
            let word = lines[k].split('\t').next();
            matches!(word, Some("some-l" | "all-r" | "sub-r"))
        })
        .collect();
    if places.is_empty() {
        return number(random, lines);
    }
    let at = random.pick(&places);
    let mut fields = split(&lines[at]);
    let last = fields.len() - 1;
    fields[last] = if random.percent(50) {
        fields[1.min(last)].clone()
    } else {
        random.below(4).to_string()
    };
    lines[at] = fields.join("\t");
}

/// Changes a word: to another one, to a part of it, to more than it, or to capital letters.
fn word(random: &mut Random, lines: &mut Lines) {
    let Some(at) = some_line(random, lines) else {
        return;
    };
    let mut fields = split(&lines[at]);
    let claim = matches!(fields[0].as_str(), "left" | "right") && fields.len() > 1;
    let place = usize::from(claim && random.percent(60));
    let old = fields[place].clone();
    fields[place] = match random.below(12) {
        // Another step over the same numbers, which is often well formed.
        0..=3 => random.pick(&STEP_WORDS).to_string(),
        // The same rule on the other side.
        4 => match old.strip_suffix("-l") {
            Some(stem) => format!("{stem}-r"),
            None => match old.strip_suffix("-r") {
                Some(stem) => format!("{stem}-l"),
                None if old == "left" => "right".to_string(),
                None => "left".to_string(),
            },
        },
        5 | 6 => random.pick(&WORDS).to_string(),
        7 => old[..random.below(old.len().max(1)).min(old.len())].to_string(),
        8 => format!("{old}{}", (b'a' + random.below(26) as u8) as char),
        9 => old.to_uppercase(),
        10 => {
            let mut bytes = old.into_bytes();
            if !bytes.is_empty() {
                let k = random.below(bytes.len());
                bytes[k] = bytes[k].to_ascii_uppercase();
            }
            String::from_utf8(bytes).unwrap_or_default()
        }
        _ => {
            let mut bytes = old.into_bytes();
            if !bytes.is_empty() {
                let k = random.below(bytes.len());
                bytes[k] = 33 + random.below(94) as u8;
            }
            String::from_utf8(bytes).unwrap_or_default()
        }
    };
    lines[at] = fields.join("\t");
}

/// Adds, takes out, empties or swaps fields.
fn fields(random: &mut Random, lines: &mut Lines) {
    let Some(at) = some_line(random, lines) else {
        return;
    };
    let mut fields = split(&lines[at]);
    let k = random.below(fields.len());
    match random.below(6) {
        0 => fields.push(random.pick(&NUMBERS).to_string()),
        1 => {
            fields.pop();
        }
        2 => {
            fields.remove(k);
        }
        3 => fields.insert(k, random.below(4).to_string()),
        4 => fields[k].clear(),
        _ => {
            let other = random.below(fields.len());
            fields.swap(k, other);
        }
    }
    lines[at] = fields.join("\t");
}

/// Takes out, repeats, moves, swaps, adds or empties lines.
fn order(random: &mut Random, lines: &mut Lines) {
    let Some(at) = some_line(random, lines) else {
        return;
    };
    match random.below(12) {
        0..=2 => {
            lines.remove(at);
        }
        3 | 4 => lines.insert(at, lines[at].clone()),
        5 => lines.push(lines[at].clone()),
        6 => {
            let other = random.below(lines.len());
            lines.swap(at, other);
        }
        7 => {
            if at + 1 < lines.len() {
                lines.swap(at, at + 1);
            }
        }
        8 => {
            let line = lines.remove(at);
            let to = random.below(lines.len() + 1);
            lines.insert(to, line);
        }
        9 => lines.truncate(at),
        10 => lines[at].clear(),
        _ => {
            let line = loose_line(random);
            lines.insert(at, line);
        }
    }
}

/// A line of some word with some numbers, whether or not they go together.
fn loose_line(random: &mut Random) -> String {
    let mut line = if random.percent(50) {
        random.pick(&STEP_WORDS).to_string()
    } else {
        random.pick(&WORDS).to_string()
    };
    if matches!(line.as_str(), "left" | "right") {
        line.push('\t');
        line.push_str(random.pick(&["is", "sub", "link", "top", "id"]));
    }
    for _ in 0..random.below(4) {
        let n = if random.percent(80) {
            random.below(4).to_string()
        } else {
            random.pick(&NUMBERS).to_string()
        };
        line.push('\t');
        line.push_str(&n);
    }
    line
}

/// Changes, puts in or takes out a byte; most often the last newline is among those that can go.
fn byte(random: &mut Random, text: &mut Vec<u8>) {
    if text.is_empty() {
        text.push(random.pick(&BYTES));
        return;
    }
    let at = if random.percent(25) {
        text.len() - 1
    } else {
        random.below(text.len())
    };
    let new = if random.percent(60) {
        random.pick(&BYTES)
    } else {
        random.below(256) as u8
    };
    match random.below(7) {
        0 | 1 => text[at] = new,
        2 | 3 => text.insert(at, new),
        4 => text.push(new),
        5 => {
            text.remove(at);
        }
        _ => {
            text.pop();
        }
    }
}

/// A text of loose lines, in an order that is sometimes right.
pub fn loose(random: &mut Random) -> Vec<u8> {
    let mut lines = Vec::new();
    if random.percent(60) {
        lines.push("atom\t0".to_string());
        lines.push("some\t0\t0".to_string());
        if random.percent(50) {
            lines.push("left\tis\t0\t1".to_string());
        }
        if random.percent(50) {
            lines.push(
                random
                    .pick(&["proof", "model", "model\nsize\t2"])
                    .to_string(),
            );
        }
    }
    for _ in 0..random.below(5) {
        let line = loose_line(random);
        lines.push(line);
    }
    let mut text = crate::make::text(&lines);
    if random.percent(20) {
        for _ in 0..random.within(1, 12) {
            text.push(random.bits() as u8);
        }
    }
    text
}
