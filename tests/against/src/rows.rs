//! All the rows that refuse a dossier where it is refused, not only the first: so a run can tell how often the order of two rows decides.
//!
//! The lines before the refused one are good, so they are read with no test. The refused one is read as far as it can be: it fails a row
//! where what that row asks about can be read.

use crate::judge::{
    judge, Verdict, Word, ATOMS, CLAIMS, CONCEPTS, NAMES, ROLES, ROOM, SIZE, STEPS, TEXT, WAITING,
};
use crate::make::{Claim, Concept, Goal, Left, Right, Side};
use crate::rules::{is_new, rule, Rule};

/// A set of rows, by their numbers.
#[derive(Clone, Copy, Default)]
pub struct Rows(u16);

impl Rows {
    pub fn has(self, row: u8) -> bool {
        self.0 >> row & 1 == 1
    }

    fn with(self, row: u8, fails: bool) -> Rows {
        Rows(self.0 | u16::from(fails) << row)
    }

    fn and(self, other: Rows) -> Rows {
        Rows(self.0 | other.0)
    }

    fn only(row: u8) -> Rows {
        Rows::default().with(row, true)
    }
}

/// The rows that refuse a dossier which got this verdict: those of its line or, where it has none, those of the whole text and the first row of the
/// first bad line.
pub fn refusing(room: usize, text: &[u8], verdict: Verdict) -> Rows {
    if verdict.word != Word::Refused {
        return Rows::default();
    }
    if verdict.line > 0 {
        return of_line(text, verdict);
    }
    // What stands behind the last whole line that is read is left out.
    let head = &text[..text.len().min(TEXT)];
    let whole = head.iter().rposition(|&b| b == 10).map_or(0, |at| at + 1);
    let read = if text.len() > TEXT {
        &head[..whole]
    } else {
        head
    };
    Rows::only(judge(ROOM, read).number)
        .with(14, room < ROOM)
        .with(1, text.len() > TEXT)
}

fn of_line(text: &[u8], verdict: Verdict) -> Rows {
    if verdict.number == 13 {
        return Rows::only(13);
    }
    let mut lines = text.split_inclusive(|&b| b == 10);
    let before: Vec<Line> = lines
        .by_ref()
        .take(verdict.line - 1)
        .map(Line::new)
        .collect();
    let last = lines.next().map(Line::new);
    let Some(middle) = before.iter().position(Line::is_middle) else {
        return last.map_or(Rows::only(12), |line| heading(&before, &line));
    };
    let (above, below) = before.split_at(middle);
    match (before[middle].word, last) {
        // A claim can't stand here.
        (_, Some(line)) if line.side.is_some() => Rows::only(2),
        (b"proof", None) => Rows::only(12),
        (b"proof", Some(line)) => step(above, &below[1..], &line),
        (_, None) => end_of_model(above, &below[1..]),
        (_, Some(line)) => fact(&below[1..], &line),
    }
}

/// A line as far as it can be read.
struct Line<'a> {
    /// All of it.
    text: &'a [u8],
    /// `left` or `right` where it begins so.
    side: Option<Side>,
    /// The word before the numbers.
    word: &'a [u8],
    /// The fields behind it.
    fields: Vec<&'a [u8]>,
}

impl<'a> Line<'a> {
    fn new(text: &'a [u8]) -> Line<'a> {
        let line = text.strip_suffix(b"\n").unwrap_or(text);
        let mut fields = line.split(|&b| b == 9);
        let mut word = fields.next().unwrap_or_default();
        let side = match word {
            b"left" => Some(Left),
            b"right" => Some(Right),
            _ => None,
        };
        if side.is_some() {
            word = fields.next().unwrap_or_default();
        }
        Line {
            text,
            side,
            word,
            fields: fields.collect(),
        }
    }

    fn is_middle(&self) -> bool {
        matches!(self.word, b"proof" | b"model")
    }

    /// The number in a field, if one is there.
    fn number(&self, at: usize) -> Option<usize> {
        let field = self.fields.get(at)?;
        let digits = field.iter().all(u8::is_ascii_digit);
        if !digits || (field.len() > 1 && field[0] == b'0') {
            return None;
        }
        let number: u16 = std::str::from_utf8(field).ok()?.parse().ok()?;
        Some(number.into())
    }

    /// So many numbers, 0 for the rest; nothing where one of them can't be read.
    fn numbers(&self, count: usize) -> Option<[usize; 3]> {
        let mut numbers = [0; 3];
        for (at, number) in numbers.iter_mut().enumerate().take(count) {
            *number = self.number(at)?;
        }
        Some(numbers)
    }

    /// The numbers of a line that is known to be good.
    fn good(&self) -> [usize; 3] {
        self.numbers(self.fields.len()).unwrap_or_default()
    }

    /// Whether it says the same as another, up to what is wrong with its end.
    fn says(&self, other: &Line) -> bool {
        self.word == other.word && self.fields.starts_with(&other.fields)
    }

    fn concept(&self) -> Concept {
        let [x, y, _] = self.good();
        match self.word {
            b"top" => Concept::Top,
            b"bot" => Concept::Bot,
            b"atom" => Concept::Atom(x),
            b"not" => Concept::Not(x),
            b"and" => Concept::And(x, y),
            b"or" => Concept::Or(x, y),
            b"some" => Concept::Some(x, y),
            _ => Concept::All(x, y),
        }
    }

    fn claim(&self) -> Option<(Side, Claim)> {
        let [x, y, z] = self.good();
        let claim = match self.word {
            b"is" => Claim::Is(x, y),
            b"sub" => Claim::Sub(x, y),
            _ => Claim::Link(x, y, z),
        };
        self.side.map(|side| (side, claim))
    }
}

/// The limits of the numbers behind a word of a table line.
fn of_table(word: &[u8], own: usize) -> Option<Vec<usize>> {
    let (atoms, roles) = (ATOMS.into(), ROLES.into());
    Some(match word {
        b"top" | b"bot" => vec![],
        b"atom" => vec![atoms],
        b"not" => vec![own],
        b"and" | b"or" => vec![own, own],
        b"some" | b"all" => vec![roles, own],
        _ => return None,
    })
}

fn of_claims(word: &[u8], concepts: usize) -> Option<Vec<usize>> {
    let (roles, names) = (ROLES.into(), NAMES.into());
    Some(match word {
        b"is" => vec![names, concepts],
        b"sub" => vec![concepts, concepts],
        b"link" => vec![roles, names, names],
        _ => return None,
    })
}

fn of_steps(word: &[u8], concepts: usize) -> Option<Vec<usize>> {
    let (roles, names) = (ROLES.into(), NAMES.into());
    Some(match word {
        b"id-sub" => vec![concepts, concepts],
        b"id-link" => vec![roles, names, names],
        b"sub-l" => vec![names, concepts, concepts],
        b"sub-r" => vec![concepts, concepts, names],
        b"some-l" | b"some-r" | b"all-l" | b"all-r" => vec![names, concepts, names],
        b"id" | b"bot-l" | b"top-r" | b"top-l" | b"bot-r" | b"not-l" | b"not-r" | b"and-l"
        | b"and-r" | b"or-l" | b"or-r" => vec![names, concepts],
        _ => return None,
    })
}

fn of_model(word: &[u8], size: usize) -> Option<Vec<usize>> {
    let (atoms, roles, names) = (ATOMS.into(), ROLES.into(), NAMES.into());
    Some(match word {
        b"size" => vec![usize::from(SIZE) + 1],
        b"name" => vec![names, size],
        b"has" => vec![atoms, size],
        b"edge" => vec![roles, size, size],
        _ => return None,
    })
}

/// Rows 2 and 3 of a line whose numbers have these limits.
fn form(line: &Line, limits: &[usize]) -> Rows {
    let numbers = line.numbers(limits.len());
    let ended = line.text.ends_with(b"\n");
    let formed = ended && line.fields.len() == limits.len() && numbers.is_some();
    let outside = |(at, &limit)| line.number(at).is_some_and(|n| n >= limit);
    // A size is at least 1.
    let no_size = line.word == b"size" && line.number(0) == Some(0);
    Rows::default()
        .with(2, !formed)
        .with(3, no_size || limits.iter().enumerate().any(outside))
}

/// A line of the table or of the claims.
fn heading(before: &[Line], line: &Line) -> Rows {
    let concepts = before.iter().take_while(|line| line.side.is_none()).count();
    let (table, claims) = before.split_at(concepts);
    if line.side.is_some() {
        return match of_claims(line.word, concepts) {
            Some(limits) => form(line, &limits).with(5, claims.len() == CLAIMS),
            None => Rows::only(2),
        };
    }
    match of_table(line.word, concepts) {
        Some(limits) if claims.is_empty() => form(line, &limits)
            .with(5, concepts == CONCEPTS)
            .with(4, table.iter().any(|other| line.says(other))),
        _ => Rows::only(2),
    }
}

/// A step behind others.
fn step(above: &[Line], before: &[Line], line: &Line) -> Rows {
    let concepts = above.iter().take_while(|line| line.side.is_none()).count();
    let Some(limits) = of_steps(line.word, concepts) else {
        return Rows::only(2);
    };
    let table: Vec<Concept> = above[..concepts].iter().map(Line::concept).collect();
    let claims = above.iter().filter_map(Line::claim).collect();
    let (open, closed) = follow(&table, claims, before);
    let rows = form(line, &limits)
        .with(5, before.len() == STEPS)
        .with(9, open.is_empty());
    let Some(numbers) = line.numbers(limits.len()) else {
        return rows;
    };
    let rule = rule(&table, as_text(line.word), numbers);
    let entry_known = numbers[1] < limits[1];
    let parts = rule.premises.len() == 2;
    rows.with(6, entry_known && !rule.right_kind)
        .with(11, parts && open.len() == WAITING + 1)
        .and(of_goal(&rule, open.last().unwrap_or(&closed)))
}

fn as_text(word: &[u8]) -> &str {
    std::str::from_utf8(word).unwrap_or_default()
}

/// The open goals behind good steps, the current one last, and the goal that the last step was about: where none is open, that is the one that
/// a wrong judge would still look at.
fn follow(table: &[Concept], claims: Goal, steps: &[Line]) -> (Vec<Goal>, Goal) {
    let mut open = vec![claims];
    let mut last = Goal::new();
    for step in steps {
        last = open.pop().unwrap_or_default();
        let premises = rule(table, as_text(step.word), step.good()).applied(last.clone());
        open.extend(premises.into_iter().rev());
    }
    (open, last)
}

/// The rows that ask about the goal: 7, 8 and 10.
fn of_goal(rule: &Rule, goal: &Goal) -> Rows {
    // Of a wrong entry the role is not known that the second claim would have.
    let known = if rule.right_kind { 2 } else { 1 };
    let mut needs = rule.needs.iter().take(known);
    let old = |b| b < NAMES.into() && !is_new(goal, b);
    let dropped = usize::from(rule.drop.is_some());
    let too_full = |added: &Vec<_>| goal.len() + added.len() - dropped > CLAIMS;
    Rows::default()
        .with(7, needs.any(|claim| !goal.contains(claim)))
        .with(8, rule.new.is_some_and(old))
        .with(10, rule.premises.iter().any(too_full))
}

/// A line of a model.
fn fact(before: &[Line], line: &Line) -> Rows {
    let size = before.first().map_or(0, |line| line.good()[0]);
    let first = before.is_empty();
    let Some(limits) = of_model(line.word, size) else {
        return Rows::only(2);
    };
    if first != (line.word == b"size") {
        // A word that is not allowed here; of a second `size` the number can be read all the same.
        let rows = if first {
            Rows::default()
        } else {
            form(line, &limits)
        };
        return rows.with(2, true);
    }
    let same_name = |other: &Line| {
        line.word == b"name" && other.word == b"name" && other.number(0) == line.number(0)
    };
    let repeats = |other: &Line| line.says(other) || same_name(other);
    form(line, &limits).with(4, before.iter().any(repeats))
}

/// The end of a model with no `size`, or with a name unplaced: whether it also gets a claim wrong all of whose names are placed.
fn end_of_model(above: &[Line], before: &[Line]) -> Rows {
    let placed = |name: usize| {
        let places = |line: &Line| line.word == b"name" && line.number(0) == Some(name);
        before.iter().any(places)
    };
    let kept = |line: &&Line| match line.claim() {
        Some((_, Claim::Is(a, _))) => placed(a),
        Some((_, Claim::Link(_, a, b))) => placed(a) && placed(b),
        Some((_, Claim::Sub(..))) | None => true,
    };
    let above = above.iter().filter(kept).map(|line| line.text);
    let below = before.iter().map(|line| line.text);
    let text: Vec<u8> = above
        .chain([&b"model\n"[..]])
        .chain(below)
        .flatten()
        .copied()
        .collect();
    Rows::only(12).with(13, judge(ROOM, &text).number == 13)
}
