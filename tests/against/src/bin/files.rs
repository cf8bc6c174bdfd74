//! Writes the files that the benchmark judges, the same ones each time, and says how long a derivation can be.
//!
//!     files FOLDER

use against::judge::{judge, Verdict, Word, CLAIMS, CONCEPTS, ROOM, STEPS, TEXT};
use against::limits::{filled, long};
use against::make::{heading, text, Claim, Concept, Left, Lines, Right, Side};
use std::path::Path;

fn main() -> std::io::Result<()> {
    let folder = std::env::args().nth(1).expect("usage: files FOLDER");
    let folder = Path::new(&folder);
    std::fs::create_dir_all(folder)?;
    let write = |name: &str, text: &[u8]| std::fs::write(folder.join(name), text);

    // How many claims the longest derivation starts with: each is a long line, and leaves less room in the goal for steps that have long lines.
    let begun = (1..CLAIMS - 1)
        .max_by_key(|&claims| text(&longest(STEPS, claims)).len())
        .expect("there are counts");
    let whole = passing(text(&longest(STEPS, begun)));
    write("longest", &whole)?;
    write("longest-2", &passing(text(&longest(STEPS / 2, begun))))?;
    write("longest-4", &passing(text(&longest(STEPS / 4, begun))))?;
    write("turning", &passing(text(&turning())))?;
    write("parting", &passing(text(&parting())))?;

    let model = refuted_model(TEXT);
    write("model", &model)?;
    write("model-2", &refuted_model(TEXT / 2))?;
    write("model-4", &refuted_model(TEXT / 4))?;
    write("evaluating", &passing(text(&evaluating())))?;
    write("last-line", &last_line_bad(&model))?;
    write("first-line", &first_line_bad(&model))?;
    let k1 = "atom 0,atom 1,left sub 0 1,left is 0 0,right is 0 1,proof,sub-l 0 0 1,id 0 1,";
    write("k1", k1.replace(' ', "\t").replace(',', "\n").as_bytes())?;
    write("empty", b"")?;

    // No line of its kind is longer than these.
    let concept = "some\t15\t255\n".len();
    let claim = "right\tlink\t15\t63\t63\n".len();
    let step = "sub-l\t63\t255\t255\n".len();
    let bound = CONCEPTS * concept + CLAIMS * claim + "proof\n".len() + STEPS * step;
    println!(
        "A derivation within the limits has at most {CONCEPTS} * {concept} + {CLAIMS} * {claim} + 6 + {STEPS} * {step} = {bound} bytes; \
         the longest here has {}.",
        whole.len()
    );
    Ok(())
}

/// A dossier that must pass.
fn passing(text: Vec<u8>) -> Vec<u8> {
    let Verdict { word, number, line } = judge(ROOM, &text);
    assert!(word != Word::Refused, "refused {number} at line {line}");
    text
}

/// A derivation of so many steps with nearly as many bytes as there can be. A chain of `and` is taken apart; each first premise is filled up by
/// `sub-l` before `id-link` closes it.
fn longest(steps: usize, claims: usize) -> Lines {
    let mut table = vec![Concept::Atom(63), Concept::Atom(62)];
    while table.len() < 127 {
        table.push(Concept::Some(15, table.len() - 1));
    }
    let last = table.len() - 1;
    // The chain: from here on each entry is the one before it and an entry that nothing is asked of.
    while table.len() < CONCEPTS {
        table.push(Concept::And(last, table.len() - 1));
    }
    let (from, to) = (255, 254);
    let mut goal = vec![
        (Left, Claim::Sub(from, to)),
        (Left, Claim::Is(63, from)),
        (Right, Claim::Is(62, CONCEPTS - 1)),
        (Right, Claim::Link(15, 63, 62)),
    ];
    while goal.len() < claims {
        goal.push((Right, Claim::Link(15, 63, 62)));
    }
    goal.push((Left, Claim::Link(15, 63, 62)));
    let mut lines = heading(&table, &goal);
    lines.push("proof".to_string());
    let add = format!("sub-l\t63\t{from}\t{to}");
    let close = "id-link\t15\t63\t62".to_string();
    let room = CLAIMS - goal.len();
    let mut left = steps;
    let mut chain = CONCEPTS - 1;
    while left > room + 2 && chain > last + 1 {
        lines.push(format!("and-r\t62\t{chain}"));
        chain -= 1;
        lines.extend(std::iter::repeat_n(add.clone(), room));
        lines.push(close.clone());
        left -= room + 2;
    }
    lines.extend(std::iter::repeat_n(add, room.min(left - 1)));
    lines.push(close);
    lines
}

/// 1,024 steps on goals of 64 claims: each takes apart a `not` and searches the whole goal.
fn turning() -> Lines {
    let more: Vec<(Side, Claim)> = (0..57)
        .map(|k| (Left, Claim::Link(k % 16, k, 63)))
        .collect();
    long(STEPS, &more)
}

/// Goals of 64 claims of which every other step makes two.
fn parting() -> Lines {
    let mut table = vec![Concept::Atom(0)];
    while table.len() < CONCEPTS {
        table.push(Concept::And(0, table.len() - 1));
    }
    let last = CONCEPTS - 1;
    let mut goal: Vec<(Side, Claim)> = (0..60)
        .map(|k| (Left, Claim::Link(k % 16, k, 63)))
        .collect();
    goal.extend([(Left, Claim::Is(0, 0)), (Left, Claim::Is(1, 0))]);
    goal.extend([(Right, Claim::Is(0, last)), (Right, Claim::Is(1, last))]);
    let mut lines = heading(&table, &goal);
    lines.push("proof".to_string());
    for a in 0..2 {
        for i in (1..=last).rev() {
            lines.push(format!("and-r\t{a}\t{i}"));
            lines.push(format!("id\t{a}\t0"));
        }
    }
    lines.push("id\t1\t0".to_string());
    lines
}

/// A table in which every kind of entry comes up.
fn mixed_table() -> Vec<Concept> {
    let mut table: Vec<Concept> = (0..32).map(Concept::Atom).collect();
    table.extend([Concept::Top, Concept::Bot]);
    while table.len() < CONCEPTS {
        let i = table.len() - 1;
        table.push(match i % 5 {
            0 => Concept::Not(i - 7),
            1 => Concept::And(i - 3, i % 30),
            2 => Concept::Or(i % 31, i - 11),
            3 => Concept::Some(i % 16, i - 1),
            _ => Concept::All(i % 16, i - 2),
        });
    }
    table
}

/// A model of so many bytes that falsifies 64 claims.
fn refuted_model(bytes: usize) -> Vec<u8> {
    let table = mixed_table();
    let mut claims: Vec<(Side, Claim)> = (0..CLAIMS)
        .map(|k| {
            let claim = match k % 3 {
                0 => Claim::Is(k, 255 - k),
                1 => Claim::Sub(255 - k, 100 + k),
                _ => Claim::Link(k % 16, k, 63 - k),
            };
            (Left, claim)
        })
        .collect();
    // The claim that the model gets wrong goes to the other side, until it gets none wrong. (A longer heading leaves fewer edges, so one that was
    // right can become wrong again.)
    for _ in 0..CLAIMS * 8 {
        let model = filled(bytes, &table, &claims, 64);
        let verdict = judge(ROOM, &model);
        if verdict.word == Word::Refuted {
            return model;
        }
        assert_eq!(verdict.number, 13, "the model is refused for its form");
        let (side, _) = &mut claims[verdict.line - table.len() - 1];
        *side = if *side == Left { Right } else { Left };
    }
    panic!("no sides fit the model");
}

/// A short model of 256 entries, most of them `some` and `all`, over 32 elements.
fn evaluating() -> Lines {
    let mut table = vec![Concept::Atom(0)];
    while table.len() < CONCEPTS {
        let i = table.len() - 1;
        table.push(if i % 2 == 0 {
            Concept::Some(i % 16, i)
        } else {
            Concept::All(i % 16, i)
        });
    }
    let mut lines = heading(&table, &[(Right, Claim::Link(0, 0, 0))]);
    lines.extend(["model", "size\t32", "name\t0\t1", "has\t0\t1"].map(str::to_string));
    lines
}

/// The model, with its last line repeated in place of the one before it.
fn last_line_bad(model: &[u8]) -> Vec<u8> {
    let lines: Vec<&[u8]> = model.split_inclusive(|&b| b == b'\n').collect();
    let (last, rest) = lines.split_last().expect("the model has lines");
    let (_, rest) = rest.split_last().expect("the model has lines");
    let mut text = rest.concat();
    text.extend_from_slice(last);
    text.extend_from_slice(last);
    assert_eq!(judge(ROOM, &text).number, 4);
    text
}

/// The model, with a capital letter at its start.
fn first_line_bad(model: &[u8]) -> Vec<u8> {
    let mut text = model.to_vec();
    text[0] = text[0].to_ascii_uppercase();
    assert_eq!(judge(ROOM, &text).line, 1);
    text
}
