//! Dossiers on either side of each limit.

use crate::make::{claim_line, heading, text, Claim, Concept, Left, Lines, Right, Side};
use crate::random::Random;

/// A dossier at or past a limit.
pub fn dossier(random: &mut Random) -> Vec<u8> {
    match random.below(100) {
        0..=13 => text(&table(random)),
        14..=27 => text(&claims(random)),
        28..=35 => text(&steps(random)),
        36..=60 => text(&full_goal(random)),
        61..=80 => text(&waiting(random)),
        81..=96 => text(&ranges(random)),
        97 => length(random),
        _ => too_long(random),
    }
}

/// So many different table lines.
pub fn wide_table(random: &mut Random, lines: usize) -> Vec<Concept> {
    let mut table = Vec::new();
    if random.percent(50) {
        table.extend([Concept::Top, Concept::Bot]);
    }
    let atoms = random.within(1, 64);
    table.extend((0..atoms).map(Concept::Atom));
    // What follows has its own number in it, so that no two are equal.
    let kind = random.below(5);
    while table.len() < lines {
        let i = table.len() - 1;
        table.push(match kind {
            0 => Concept::Not(i),
            1 => Concept::And(i, i / 2),
            2 => Concept::Or(i / 2, i),
            3 => Concept::Some(i % 16, i),
            _ => Concept::All(15, i),
        });
    }
    table.truncate(lines);
    table
}

/// Pushes a line past a limit: a good one, one with a number out of range, or one that is not well formed there.
fn past(random: &mut Random, good: &str, range: &str, bad: &str, lines: &mut Lines) {
    let line = match random.below(5) {
        0 => range,
        1 => bad,
        _ => good,
    };
    lines.push(line.to_string());
}

fn table(random: &mut Random) -> Lines {
    let count = random.within(254, 257);
    let lines = wide_table(random, count.min(256));
    let mut lines = heading(&lines, &[]);
    if count == 257 {
        let (good, range) = random.pick(&[
            ("not\t0", "not\t256"),
            ("atom\t63", "atom\t64"),
            ("and\t255\t255", "and\t256\t0"),
            ("all\t15\t255", "all\t16\t256"),
        ]);
        let bad = random.pick(&["not", "not\t65536", "top\t0", "some\t0", "tops"]);
        past(random, good, range, bad, &mut lines);
    }
    let top = random.within(254, 257);
    lines.push(format!("left\tis\t0\t{top}"));
    finish(random, lines)
}

/// Goes on with a model, with a derivation, or with neither.
fn finish(random: &mut Random, mut lines: Lines) -> Lines {
    match random.below(3) {
        0 => lines.extend(["model", "size\t32", "name\t0\t31"].map(str::to_string)),
        1 => lines.extend(["proof", "id\t0\t0"].map(str::to_string)),
        _ => {}
    }
    lines
}

fn claims(random: &mut Random) -> Lines {
    let table = [Concept::Atom(0), Concept::Not(0)];
    let count = random.within(62, 65);
    let kind = random.below(3);
    let mut claims = Vec::new();
    for k in 0..count.min(64) {
        let claim = match kind {
            0 => Claim::Is(k, k % 2),
            1 => Claim::Sub(0, 0),
            _ => Claim::Link(k % 16, k, 63 - k),
        };
        claims.push((Left, claim));
    }
    if random.percent(50) {
        claims[random.below(62)] = (Right, Claim::Is(0, 0));
    }
    let mut lines = heading(&table, &claims);
    if count == 65 {
        let (good, range) = random.pick(&[
            ("left\tis\t0\t0", "right\tis\t64\t2"),
            ("right\tsub\t0\t1", "left\tsub\t0\t2"),
            ("left\tlink\t15\t63\t63", "left\tlink\t16\t0\t0"),
        ]);
        let bad = random.pick(&[
            "left",
            "left\tis",
            "right\tis\t0",
            "left\tlink\t0\t0",
            "atom\t1",
            "top",
        ]);
        past(random, good, range, bad, &mut lines);
    }
    finish(random, lines)
}

/// A derivation of so many steps, at most 1,271: chains of `not` are taken apart, and the last step closes the goal.
pub fn long(steps: usize, more: &[(Side, Claim)]) -> Lines {
    let mut table = vec![Concept::Atom(0)];
    table.extend((0..255).map(Concept::Not));
    let mut claims: Vec<_> = (1..=5).map(|a| (Left, Claim::Is(a, 254))).collect();
    claims.extend([(Left, Claim::Is(0, 0)), (Right, Claim::Is(0, 0))]);
    claims.extend_from_slice(more);
    let mut lines = heading(&table, &claims);
    lines.push("proof".to_string());
    let mut left = steps - 1;
    for a in 1..=5 {
        let mut i = 254;
        while i > 0 && left > 0 {
            lines.push(turn(side_of(i), a, i));
            i -= 1;
            left -= 1;
        }
    }
    lines.push("id\t0\t0".to_string());
    lines
}

/// Where entry i stands of a chain that began on the left with entry 254: each turn brings it to the other side.
fn side_of(i: usize) -> Side {
    if i % 2 == 1 {
        Right
    } else {
        Left
    }
}

/// The step that takes apart a `not` on this side.
pub fn turn(side: Side, a: usize, i: usize) -> String {
    match side {
        Left => format!("not-l\t{a}\t{i}"),
        Right => format!("not-r\t{a}\t{i}"),
    }
}

fn steps(random: &mut Random) -> Lines {
    let count = random.within(1_023, 1_025);
    let mut lines = long(count.min(1_024), &[]);
    if random.percent(30) {
        // The goal stays open: the last step is one more turn, of the fifth chain.
        lines.pop();
        let turned = count.min(1_024) - 1;
        let i = 254 - (turned - 4 * 254);
        lines.push(turn(side_of(i), 5, i));
    }
    if count == 1_025 {
        let bad = random.pick(&[
            "id",
            "id\t0",
            "id\t0\t0\t0",
            "atom\t0",
            "size\t1",
            "id\t00\t0",
        ]);
        past(random, "id\t0\t0", "id\t64\t256", bad, &mut lines);
    }
    lines
}

/// A step that is a little wrong now and then, so that more than one row refuses it at a limit.
fn nearly(random: &mut Random, step: &str) -> String {
    if !random.percent(25) {
        return step.to_string();
    }
    let mut fields: Vec<String> = step.split('\t').map(str::to_string).collect();
    let at = random.within(1, fields.len() - 1);
    fields[at] = random
        .pick(&["0", "1", "2", "3", "4", "5", "6", "7", "8", "64"])
        .to_string();
    fields.join("\t")
}

/// A goal of 62 to 64 claims, and steps that add to it.
fn full_goal(random: &mut Random) -> Lines {
    let table = [
        Concept::Atom(0),
        Concept::Top,
        Concept::Bot,
        Concept::Not(0),
        Concept::And(0, 3),
        Concept::Or(0, 3),
        Concept::Some(15, 0),
        Concept::All(15, 0),
    ];
    let mut goal = vec![
        (Left, Claim::Link(15, 0, 1)),
        (Left, Claim::Sub(0, 5)),
        (Left, Claim::Is(0, 0)),
        (Right, Claim::Sub(5, 4)),
    ];
    for i in 3..8 {
        goal.push((Left, Claim::Is(0, i)));
        goal.push((Right, Claim::Is(0, i)));
    }
    let count = random.within(62, 64);
    while goal.len() < count {
        goal.push((Left, Claim::Sub(3, goal.len() % 8)));
    }
    let mut lines = heading(&table, &goal);
    lines.push("proof".to_string());
    for _ in 0..random.within(1, 4) {
        let step = random.pick(&[
            "top-l\t0\t1",
            "bot-r\t0\t2",
            "not-l\t0\t3",
            "not-r\t0\t3",
            "and-l\t0\t4",
            "and-r\t0\t4",
            "or-l\t0\t5",
            "or-r\t0\t5",
            "sub-l\t0\t0\t5",
            "sub-r\t5\t4\t2",
            "some-l\t0\t6\t3",
            "some-r\t0\t6\t1",
            "all-l\t0\t7\t1",
            "all-r\t0\t7\t4",
            "id\t0\t0",
        ]);
        lines.push(nearly(random, step));
    }
    lines
}

/// Goals put aside, 14 to 18 of them; then all are closed, or one too few, or one too many.
fn waiting(random: &mut Random) -> Lines {
    let depth = random.within(14, 18);
    let mut table = vec![Concept::Atom(0)];
    let right = random.percent(50);
    for i in 0..depth {
        table.push(if right {
            Concept::And(i, 0)
        } else {
            Concept::Or(i, 0)
        });
    }
    let side = if right { Right } else { Left };
    let mut claims = vec![(side, Claim::Is(0, depth))];
    claims.push((if right { Left } else { Right }, Claim::Is(0, 0)));
    if random.percent(20) {
        claims.extend([(Left, Claim::Is(1, 0)); 62]);
    }
    let mut lines = heading(&table, &claims);
    lines.push("proof".to_string());
    let word = if right { "and-r" } else { "or-l" };
    for i in (1..=depth).rev() {
        // A wrong step stands where the most goals wait.
        let step = format!("{word}\t0\t{i}");
        let near = i + 16 <= depth;
        lines.push(if near { nearly(random, &step) } else { step });
    }
    let closing = match random.below(8) {
        0 => depth,
        1 => depth + 2,
        _ => depth + 1,
    };
    lines.extend((0..closing).map(|_| "id\t0\t0".to_string()));
    if random.percent(20) {
        let at = random.within(lines.len() / 2, lines.len());
        lines.truncate(at);
    }
    lines
}

/// Each kind of number in each kind of line, at its limit and past it.
fn ranges(random: &mut Random) -> Lines {
    let role = |random: &mut Random| 15 + usize::from(random.percent(10));
    let r = role(random);
    let atom = 63 + usize::from(random.percent(10));
    let names: Vec<usize> = (0..6)
        .map(|_| 63 + usize::from(random.percent(6)))
        .collect();
    let size = random.pick(&[0, 1, 2, 31, 32, 33, 32, 1]);
    let past = usize::from(random.percent(15));
    let own = 1 + usize::from(random.percent(5));
    let mut lines: Lines = vec![
        format!("atom\t{atom}"),
        "top".to_string(),
        format!("not\t{own}"),
        format!("some\t{r}\t2"),
        format!("and\t{}\t3", 3 + usize::from(random.percent(4))),
        format!("or\t4\t{}", 4 + usize::from(random.percent(4))),
        format!("all\t{}\t5", role(random)),
    ];
    let concept = |random: &mut Random| 6 + usize::from(random.percent(8));
    let i = concept(random);
    let j = concept(random);
    let (a, b) = (names[0], names[1]);
    lines.push(claim_line(Left, Claim::Is(a, i)));
    lines.push(claim_line(Right, Claim::Sub(6, j)));
    lines.push(claim_line(Left, Claim::Link(role(random), a, b)));
    if random.percent(50) {
        lines.push("proof".to_string());
        let (c, d) = (names[2], names[3]);
        let i = concept(random);
        lines.push(match random.below(6) {
            0 => format!("id\t{c}\t{i}"),
            1 => format!("id-sub\t{i}\t{j}"),
            2 => format!("id-link\t{}\t{c}\t{d}", role(random)),
            3 => format!("sub-l\t{c}\t{i}\t{j}"),
            4 => format!("sub-r\t{i}\t{j}\t{c}"),
            _ => format!("all-l\t{c}\t{i}\t{d}"),
        });
        return lines;
    }
    lines.push("model".to_string());
    lines.push(format!("size\t{size}"));
    let last = (size + past).saturating_sub(1);
    lines.push(format!("name\t{}\t{last}", names[4]));
    lines.push(format!("has\t{atom}\t{last}"));
    let r = role(random);
    lines.push(format!("edge\t{r}\t{last}\t{}", last.saturating_sub(1)));
    lines.push(format!("edge\t{r}\t{}\t{last}", last.saturating_sub(1)));
    lines
}

/// A model of exactly so many bytes, of size 32 and with `table` and `claims` before it, that says as many edges as that takes. Which edges is
/// counted off, with no two equal.
pub fn filled(bytes: usize, table: &[Concept], claims: &[(Side, Claim)], places: usize) -> Vec<u8> {
    let mut lines = heading(table, claims);
    lines.push("model".to_string());
    lines.push("size\t32".to_string());
    lines.extend((0..places).map(|a| format!("name\t{a}\t{}", a % 32)));
    let mut text = text(&lines);
    let mut k = 0;
    // Edges of 11 to 13 bytes; the last roles are kept for the rest.
    while text.len() + 60 <= bytes {
        let (r, d, e) = (k % 9, k / 9 / 32, k / 9 % 32);
        text.extend_from_slice(format!("edge\t{r}\t{d}\t{e}\n").as_bytes());
        k += 1;
    }
    // A rest of 47 to 59 bytes: four or five lines of other roles.
    let mut rest = bytes - text.len();
    let mut d = 0;
    for length in [14, 13, 12, 11] {
        while rest >= length && can_fill(rest - length) {
            let line = match length {
                14 => format!("edge\t15\t10\t{}\n", 10 + d),
                13 => format!("edge\t15\t{d}\t10\n"),
                12 => format!("edge\t15\t{d}\t1\n"),
                _ => format!("edge\t9\t{d}\t1\n"),
            };
            text.extend_from_slice(line.as_bytes());
            rest -= length;
            d += 1;
        }
    }
    text
}

/// Whether lines of 11 to 14 bytes can have so many bytes together.
fn can_fill(rest: usize) -> bool {
    rest == 0 || (1..=rest / 11).any(|n| rest <= 14 * n)
}

/// A model with 65,534 to 65,536 bytes.
fn length(random: &mut Random) -> Vec<u8> {
    let bytes = random.within(65_534, 65_536);
    let lines = random.within(1, 20);
    let table = wide_table(random, lines);
    let claims = [(Right, Claim::Link(15, 0, 0)), (Left, Claim::Is(0, 0))];
    let mut text = filled(bytes, &table, &claims[..random.within(0, 2)], 1);
    if random.percent(10) {
        text.pop();
        text.push(random.pick(b"\t0~"));
    }
    text
}

/// A text with more bytes than are read.
fn too_long(random: &mut Random) -> Vec<u8> {
    let bytes = random.pick(&[65_536, 65_536, 65_537, 70_000, 131_072]);
    let line = random.pick(&["top\n", "atom\t0\n", "\n", "id\t0\t1\n"]);
    line.bytes().cycle().take(bytes).collect()
}
