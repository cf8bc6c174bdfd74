//! Dossiers as they should be: derivations found by a small prover, and models of claims that they make true or false.

use crate::random::Random;
use crate::rules::{is_new, rule, Rule};

/// The lines of a dossier, without their newlines.
pub type Lines = Vec<String>;

/// The step words. A run is to meet each in derivations that are proved.
pub const STEP_WORDS: [&str; 19] = [
    "id", "id-sub", "id-link", "bot-l", "top-r", "top-l", "bot-r", "not-l", "not-r", "and-l",
    "and-r", "or-l", "or-r", "sub-l", "sub-r", "some-l", "some-r", "all-l", "all-r",
];

#[derive(Clone, Copy, PartialEq, Eq)]
pub enum Concept {
    Top,
    Bot,
    Atom(usize),
    Not(usize),
    And(usize, usize),
    Or(usize, usize),
    Some(usize, usize),
    All(usize, usize),
}

#[derive(Clone, Copy, PartialEq, Eq)]
pub enum Claim {
    Is(usize, usize),
    Sub(usize, usize),
    Link(usize, usize, usize),
}

#[derive(Clone, Copy, PartialEq, Eq)]
pub enum Side {
    Left,
    Right,
}

pub use Side::{Left, Right};

pub type Goal = Vec<(Side, Claim)>;

impl Concept {
    pub fn line(self) -> String {
        match self {
            Concept::Top => "top".to_string(),
            Concept::Bot => "bot".to_string(),
            Concept::Atom(x) => format!("atom\t{x}"),
            Concept::Not(i) => format!("not\t{i}"),
            Concept::And(i, j) => format!("and\t{i}\t{j}"),
            Concept::Or(i, j) => format!("or\t{i}\t{j}"),
            Concept::Some(r, i) => format!("some\t{r}\t{i}"),
            Concept::All(r, i) => format!("all\t{r}\t{i}"),
        }
    }

    /// The same with each of its parts at another number.
    fn moved(self, to: &[usize]) -> Concept {
        match self {
            Concept::Top | Concept::Bot | Concept::Atom(_) => self,
            Concept::Not(i) => Concept::Not(to[i]),
            Concept::And(i, j) => Concept::And(to[i], to[j]),
            Concept::Or(i, j) => Concept::Or(to[i], to[j]),
            Concept::Some(r, i) => Concept::Some(r, to[i]),
            Concept::All(r, i) => Concept::All(r, to[i]),
        }
    }
}

pub fn claim_line(side: Side, claim: Claim) -> String {
    let side = match side {
        Left => "left",
        Right => "right",
    };
    match claim {
        Claim::Is(a, i) => format!("{side}\tis\t{a}\t{i}"),
        Claim::Sub(i, j) => format!("{side}\tsub\t{i}\t{j}"),
        Claim::Link(r, a, b) => format!("{side}\tlink\t{r}\t{a}\t{b}"),
    }
}

/// The table and the claims as lines.
pub fn heading(table: &[Concept], claims: &[(Side, Claim)]) -> Lines {
    let table = table.iter().map(|c| c.line());
    let claims = claims.iter().map(|&(side, claim)| claim_line(side, claim));
    table.chain(claims).collect()
}

/// The roles, atoms and names that a dossier uses: mostly few, so that they meet.
struct Signature {
    roles: Vec<usize>,
    atoms: Vec<usize>,
    names: Vec<usize>,
}

impl Signature {
    fn new(random: &mut Random) -> Signature {
        if random.percent(5) {
            return Signature {
                roles: (0..16).collect(),
                atoms: (0..64).collect(),
                names: (0..64).collect(),
            };
        }
        Signature::few(random)
    }

    fn few(random: &mut Random) -> Signature {
        let [roles, atoms, names] = [2, 3, 3].map(|most| random.within(1, most));
        let far = random.percent(20);
        let mut numbers = |count, limit| {
            if far {
                far_numbers(random, count, limit)
            } else {
                (0..count).collect()
            }
        };
        Signature {
            roles: numbers(roles, 16),
            atoms: numbers(atoms, 64),
            names: numbers(names, 64),
        }
    }
}

/// So many different numbers below a limit: the last of all, and those before it or any.
fn far_numbers(random: &mut Random, count: usize, limit: usize) -> Vec<usize> {
    let mut numbers = vec![limit - 1];
    while numbers.len() < count {
        let number = if random.percent(50) {
            limit - 1 - numbers.len()
        } else {
            random.below(limit)
        };
        if !numbers.contains(&number) {
            numbers.push(number);
        }
    }
    numbers
}

/// A table, and which of its lines the claims are made of.
struct Table {
    lines: Vec<Concept>,
    used: Vec<usize>,
}

impl Table {
    /// A table of so many lines at most that are used, now and then among others.
    fn new(random: &mut Random, signature: &Signature, most: usize) -> Table {
        let lines = random_lines(random, signature, most);
        if random.percent(14) {
            return among_others(random, &lines);
        }
        let used = (0..lines.len()).collect();
        Table { lines, used }
    }

    /// A line for a claim: most often one of those that are used, or else any.
    fn line(&self, random: &mut Random) -> usize {
        match random.below(20) {
            0..=2 => random.below(self.lines.len()),
            3..=9 => self.deep_line(random),
            _ => random.pick(&self.used),
        }
    }

    /// The last line that is used, which is the most deeply built, or another.
    fn deep_line(&self, random: &mut Random) -> usize {
        match self.used.last() {
            Some(&last) if random.percent(60) => last,
            _ => random.pick(&self.used),
        }
    }
}

/// So many different lines at most. The last ones are the most deeply built.
fn random_lines(random: &mut Random, signature: &Signature, most: usize) -> Vec<Concept> {
    let mut lines = vec![Concept::Atom(random.pick(&signature.atoms))];
    for _ in 0..most * 2 {
        if lines.len() >= most {
            break;
        }
        let n = lines.len();
        let near = if random.percent(60) {
            n - 1
        } else {
            random.below(n)
        };
        let far = random.below(n);
        let concept = random_concept(random, signature, near, far);
        if !lines.contains(&concept) {
            lines.push(concept);
        }
    }
    lines
}

fn random_concept(random: &mut Random, signature: &Signature, near: usize, far: usize) -> Concept {
    match random.below(16) {
        0 => Concept::Top,
        1 => Concept::Bot,
        2 | 3 => Concept::Atom(random.pick(&signature.atoms)),
        4 | 5 => Concept::Not(near),
        6 | 7 => Concept::And(near, far),
        8 => Concept::And(far, near),
        9 | 10 => Concept::Or(near, far),
        11 => Concept::Or(far, near),
        12 | 13 => Concept::Some(random.pick(&signature.roles), near),
        _ => Concept::All(random.pick(&signature.roles), near),
    }
}

/// The lines with others before and between them, so that their numbers go far up and pass 63, 127 and 255.
fn among_others(random: &mut Random, lines: &[Concept]) -> Table {
    let count = if random.percent(60) {
        random.pick(&[64, 65, 66, 128, 129, 130, 255, 256, 256])
    } else {
        random.within(lines.len(), 256)
    };
    let used = places(random, lines.len(), count);
    let moved: Vec<Concept> = lines.iter().map(|line| line.moved(&used)).collect();
    let mut all = Vec::with_capacity(count);
    for at in 0..count {
        all.push(match used.binary_search(&at) {
            Ok(k) => moved[k],
            Err(_) => other_line(random, &all, &moved),
        });
    }
    Table { lines: all, used }
}

/// So many places of a longer table, in order: the last ones, or any.
fn places(random: &mut Random, used: usize, count: usize) -> Vec<usize> {
    if random.percent(50) {
        return (count - used..count).collect();
    }
    let mut left = used;
    let mut places = Vec::new();
    for at in 0..count {
        if random.below(count - at) < left {
            places.push(at);
            left -= 1;
        }
    }
    places
}

/// A line that is neither above nor among those that are used.
fn other_line(random: &mut Random, above: &[Concept], used: &[Concept]) -> Concept {
    let n = above.len();
    loop {
        let line = match random.below(if n == 0 { 1 } else { 6 }) {
            0 => Concept::Atom(random.below(64)),
            1 => Concept::Not(random.below(n)),
            2 => Concept::And(random.below(n), random.below(n)),
            3 => Concept::Or(random.below(n), random.below(n)),
            4 => Concept::Some(random.below(16), random.below(n)),
            _ => Concept::All(random.below(16), random.below(n)),
        };
        if !above.contains(&line) && !used.contains(&line) {
            return line;
        }
    }
}

fn random_claim(random: &mut Random, signature: &Signature, table: &Table) -> Claim {
    match random.below(10) {
        0..=4 => Claim::Is(random.pick(&signature.names), table.line(random)),
        5 | 6 => Claim::Sub(table.line(random), table.line(random)),
        _ => Claim::Link(
            random.pick(&signature.roles),
            random.pick(&signature.names),
            random.pick(&signature.names),
        ),
    }
}

// Derivations.

/// A derivation, most often whole: the prover is given claims that are likely to be provable.
pub fn derivation(random: &mut Random) -> Lines {
    let signature = Signature::new(random);
    let most = random.within(1, 14);
    let table = Table::new(random, &signature, most);
    let claims = provable_claims(random, &signature, &table);
    let limit = if random.percent(4) {
        1_100
    } else {
        random.within(20, 80)
    };
    let mut lines = heading(&table.lines, &claims);
    lines.push("proof".to_string());
    prove(random, &table.lines, claims, limit, &mut lines);
    lines
}

fn provable_claims(random: &mut Random, signature: &Signature, table: &Table) -> Goal {
    let a = random.pick(&signature.names);
    let b = random.pick(&signature.names);
    let r = random.pick(&signature.roles);
    let i = table.deep_line(random);
    let j = random.pick(&table.used);
    let mut goal: Goal = match random.below(9) {
        // What is on both sides is derivable, whatever it is.
        0..=2 => vec![(Left, Claim::Is(a, i)), (Right, Claim::Is(a, i))],
        3 => vec![
            (Left, Claim::Sub(i, j)),
            (Left, Claim::Is(a, i)),
            (Right, Claim::Is(a, j)),
        ],
        4 => vec![(Right, Claim::Sub(i, i))],
        5 => vec![(Left, Claim::Sub(i, j)), (Right, Claim::Sub(i, j))],
        6 => vec![(Left, Claim::Link(r, a, b)), (Right, Claim::Link(r, a, b))],
        7 => vec![
            (Left, Claim::Sub(i, j)),
            (Left, Claim::Sub(j, i)),
            (Right, Claim::Sub(i, j)),
        ],
        _ => vec![(Right, Claim::Is(a, i))],
    };
    let more = if random.percent(5) {
        random.within(50, 66 - goal.len() - 2)
    } else {
        random.below(5)
    };
    for _ in 0..more {
        let side = if random.percent(60) { Left } else { Right };
        goal.push((side, random_claim(random, signature, table)));
    }
    // Which claim stands where changes nothing but what is found first.
    for at in (1..goal.len()).rev() {
        goal.swap(at, random.below(at + 1));
    }
    goal
}

/// A step that the prover can take.
struct Choice {
    word: &'static str,
    numbers: Vec<usize>,
    weight: usize,
}

impl Choice {
    fn line(&self) -> String {
        let numbers = self.numbers.iter().map(|n| format!("\t{n}"));
        [self.word.to_string()].into_iter().chain(numbers).collect()
    }

    fn rule(&self, table: &[Concept]) -> Rule {
        let mut numbers = self.numbers.iter().copied().chain([0]);
        rule(
            table,
            self.word,
            [0; 3].map(|_| numbers.next().unwrap_or(0)),
        )
    }
}

/// Writes the steps of a search that follows every goal as the judge does. Every rule can be taken back without loss, so no step is tried twice:
/// the search ends with nothing open, with a goal that no rule helps, or at a limit.
fn prove(random: &mut Random, table: &[Concept], claims: Goal, limit: usize, lines: &mut Lines) {
    let mut goals = vec![claims];
    for _ in 0..limit {
        let Some(goal) = goals.pop() else {
            return;
        };
        let mut choices = choices(random, table, &goal);
        let Some(choice) = weighted(random, &mut choices) else {
            return;
        };
        lines.push(choice.line());
        goals.extend(choice.rule(table).applied(goal).into_iter().rev());
        // The judge refuses this step; there is nothing to go on with.
        let full = goals.last().is_some_and(|goal| goal.len() > 64);
        if full || goals.len() > 17 {
            return;
        }
    }
}

fn weighted(random: &mut Random, choices: &mut Vec<Choice>) -> Option<Choice> {
    let total: usize = choices.iter().map(|c| c.weight).sum();
    if total == 0 {
        return None;
    }
    let mut left = random.below(total);
    let mut at = 0;
    while left >= choices[at].weight {
        left -= choices[at].weight;
        at += 1;
    }
    Some(choices.swap_remove(at))
}

/// A name that stands in no `is` or `link` of the goal, if there is one.
fn new_name(random: &mut Random, goal: &[(Side, Claim)]) -> Option<usize> {
    let from = match random.below(20) {
        0 => 63,
        1..=3 => random.below(64),
        _ => 0,
    };
    (from..64).chain(0..from).find(|&b| is_new(goal, b))
}

const CLOSING: usize = 60;
const TURNING: usize = 8;
const ADDING: usize = 4;
const PARTING: usize = 1;

/// What the prover can do with a goal, gathered claim by claim.
struct Choices<'a> {
    table: &'a [Concept],
    goal: &'a [(Side, Claim)],
    /// A name that is new in the goal, if there is one.
    fresh: Option<usize>,
    found: Vec<Choice>,
}

fn choices(random: &mut Random, table: &[Concept], goal: &[(Side, Claim)]) -> Vec<Choice> {
    let mut choices = Choices {
        table,
        goal,
        fresh: new_name(random, goal),
        found: Vec::new(),
    };
    for &(side, claim) in goal {
        match (side, claim) {
            (Left, Claim::Is(a, i)) => {
                choices.is_left(a, i);
                choices.included(a, i);
            }
            (Right, Claim::Is(a, i)) => choices.is_right(a, i),
            (Right, Claim::Sub(i, j)) => choices.sub_right(i, j),
            (Right, Claim::Link(r, a, b)) => choices.link_right(r, a, b),
            (Left, Claim::Sub(..) | Claim::Link(..)) => {}
        }
    }
    choices.needing_nothing(random);
    choices.found
}

impl Choices<'_> {
    fn has(&self, side: Side, claim: Claim) -> bool {
        self.goal.contains(&(side, claim))
    }

    /// The names to which the name has a left link of the role, one for each such claim.
    fn linked(&self, r: usize, a: usize) -> Vec<usize> {
        let to = |&(side, claim): &(Side, Claim)| match claim {
            Claim::Link(s, c, d) if side == Left && s == r && c == a => Some(d),
            _ => None,
        };
        self.goal.iter().filter_map(to).collect()
    }

    fn take(&mut self, weight: usize, word: &'static str, numbers: &[usize]) {
        self.found.push(Choice {
            word,
            numbers: numbers.to_vec(),
            weight,
        });
    }

    /// What `is a i` on the left allows by its entry.
    fn is_left(&mut self, a: usize, i: usize) {
        match (self.table[i], self.fresh) {
            (Concept::Bot, _) => self.take(CLOSING, "bot-l", &[a, i]),
            (Concept::Atom(_), _) if self.has(Right, Claim::Is(a, i)) => {
                self.take(CLOSING, "id", &[a, i]);
            }
            (Concept::Not(_), _) => self.take(TURNING, "not-l", &[a, i]),
            (Concept::And(..), _) => self.take(TURNING, "and-l", &[a, i]),
            (Concept::Or(..), _) => self.take(PARTING, "or-l", &[a, i]),
            (Concept::Some(..), Some(b)) => self.take(TURNING, "some-l", &[a, i, b]),
            (Concept::All(r, p), _) => {
                for b in self.linked(r, a) {
                    if !self.has(Left, Claim::Is(b, p)) {
                        self.take(ADDING, "all-l", &[a, i, b]);
                    }
                }
            }
            (Concept::Top | Concept::Atom(_) | Concept::Some(..), _) => {}
        }
    }

    /// What `is a i` on the left allows by the inclusions beside it.
    fn included(&mut self, a: usize, i: usize) {
        for &(side, other) in self.goal {
            match other {
                Claim::Sub(k, j) if side == Left && k == i && !self.has(Left, Claim::Is(a, j)) => {
                    self.take(ADDING, "sub-l", &[a, i, j]);
                }
                _ => {}
            }
        }
    }

    /// What `is a i` on the right allows.
    fn is_right(&mut self, a: usize, i: usize) {
        match (self.table[i], self.fresh) {
            (Concept::Top, _) => self.take(CLOSING, "top-r", &[a, i]),
            (Concept::Not(_), _) => self.take(TURNING, "not-r", &[a, i]),
            (Concept::And(..), _) => self.take(PARTING, "and-r", &[a, i]),
            (Concept::Or(..), _) => self.take(TURNING, "or-r", &[a, i]),
            (Concept::Some(r, p), _) => {
                for b in self.linked(r, a) {
                    if !self.has(Right, Claim::Is(b, p)) {
                        self.take(ADDING, "some-r", &[a, i, b]);
                    }
                }
            }
            (Concept::All(..), Some(b)) => self.take(TURNING, "all-r", &[a, i, b]),
            (Concept::Bot | Concept::Atom(_) | Concept::All(..), _) => {}
        }
    }

    fn sub_right(&mut self, i: usize, j: usize) {
        if self.has(Left, Claim::Sub(i, j)) {
            self.take(TURNING, "id-sub", &[i, j]);
        }
        if let Some(b) = self.fresh {
            self.take(TURNING, "sub-r", &[i, j, b]);
        }
    }

    fn link_right(&mut self, r: usize, a: usize, b: usize) {
        if self.has(Left, Claim::Link(r, a, b)) {
            self.take(CLOSING, "id-link", &[r, a, b]);
        }
    }

    /// Two steps that need no claim, and seldom help.
    fn needing_nothing(&mut self, random: &mut Random) {
        for (i, concept) in self.table.iter().enumerate() {
            let word = match concept {
                Concept::Top => "top-l",
                Concept::Bot => "bot-r",
                _ => continue,
            };
            let a = random.pick(&[0, 1, 2, 63]);
            self.take(1, word, &[a, i]);
        }
    }
}

// Models.

/// A set of elements, one bit for each.
type Set = u32;

fn has(set: Set, element: usize) -> bool {
    set >> element & 1 == 1
}

/// A world: for each name its place, for each atom its elements, for each role the elements that each element has an edge to.
struct World {
    size: usize,
    places: [Option<usize>; 64],
    atoms: [Set; 64],
    edges: [[Set; 32]; 16],
}

impl World {
    fn new(random: &mut Random, signature: &Signature) -> World {
        let size = match random.below(20) {
            0 => 32,
            1 => random.within(1, 32),
            _ => random.within(1, 4),
        };
        let mut world = World {
            size,
            places: [None; 64],
            atoms: [0; 64],
            edges: [[0; 32]; 16],
        };
        let dense = random.pick(&[10, 30, 60]);
        for &x in &signature.atoms {
            world.atoms[x] = world.set(random, |_| dense);
        }
        let last = size - 1;
        for &r in &signature.roles {
            for d in 0..size {
                world.edges[r][d] = world.set(random, |e| match size {
                    0..=4 => dense,
                    // A large world has few edges, so that dossiers stay short, but for its last element.
                    _ if d == last || e == last => 30,
                    _ => 2,
                });
            }
        }
        for &a in &signature.names {
            let any = random.below(size);
            world.places[a] = Some(if random.percent(30) { last } else { any });
        }
        world
    }

    /// The elements that pass a test.
    fn elements(&self, test: impl Fn(usize) -> bool) -> Set {
        (0..self.size)
            .filter(|&d| test(d))
            .fold(0, |set, d| set | 1 << d)
    }

    /// A set that has each element so many times in a hundred.
    fn set(&self, random: &mut Random, percent: impl Fn(usize) -> usize) -> Set {
        (0..self.size).fold(0, |set, e| set | Set::from(random.percent(percent(e))) << e)
    }

    /// For each table line, which elements it holds of.
    fn extensions(&self, table: &[Concept]) -> Vec<Set> {
        let mut out: Vec<Set> = Vec::with_capacity(table.len());
        for &concept in table {
            let edge = |r: usize, d, e| has(self.edges[r][d], e);
            let set = self.elements(|d| match concept {
                Concept::Top => true,
                Concept::Bot => false,
                Concept::Atom(x) => has(self.atoms[x], d),
                Concept::Not(p) => !has(out[p], d),
                Concept::And(p, q) => has(out[p], d) && has(out[q], d),
                Concept::Or(p, q) => has(out[p], d) || has(out[q], d),
                Concept::Some(r, p) => (0..self.size).any(|e| edge(r, d, e) && has(out[p], e)),
                Concept::All(r, p) => (0..self.size).all(|e| !edge(r, d, e) || has(out[p], e)),
            });
            out.push(set);
        }
        out
    }

    /// Whether a claim holds whose names are placed.
    fn holds(&self, sets: &[Set], claim: Claim) -> bool {
        let place = |a: usize| self.places[a].expect("the name is placed");
        match claim {
            Claim::Is(a, i) => has(sets[i], place(a)),
            Claim::Sub(i, j) => (0..self.size).all(|d| !has(sets[i], d) || has(sets[j], d)),
            Claim::Link(r, a, b) => has(self.edges[r][place(a)], place(b)),
        }
    }

    /// What the model says, in no order.
    fn lines(&self, random: &mut Random) -> Lines {
        let mut lines = Vec::new();
        for (a, place) in self.places.iter().enumerate() {
            lines.extend(place.map(|d| format!("name\t{a}\t{d}")));
        }
        let within = |set: Set| (0..self.size).filter(move |&d| has(set, d));
        for (x, &set) in self.atoms.iter().enumerate() {
            lines.extend(within(set).map(|d| format!("has\t{x}\t{d}")));
        }
        for (r, edges) in self.edges.iter().enumerate() {
            for (d, &set) in edges.iter().enumerate() {
                lines.extend(within(set).map(|e| format!("edge\t{r}\t{d}\t{e}")));
            }
        }
        for at in (1..lines.len()).rev() {
            lines.swap(at, random.below(at + 1));
        }
        lines
    }
}

/// A model, most often of claims that it falsifies: those it makes true stand left, the others right.
pub fn model(random: &mut Random) -> Lines {
    // A model places every name of its signature, so that only a few should have all there are.
    let signature = if random.percent(20) {
        Signature::new(random)
    } else {
        Signature::few(random)
    };
    let most = random.within(1, 12);
    let table = Table::new(random, &signature, most);
    let world = World::new(random, &signature);
    let sets = world.extensions(&table.lines);
    let count = random.below(7);
    let wrong = random.percent(20);
    let mut claims = Vec::new();
    for _ in 0..count {
        let claim = random_claim(random, &signature, &table);
        let mut left = world.holds(&sets, claim);
        if wrong && random.percent(30) {
            left = !left;
        }
        claims.push((if left { Left } else { Right }, claim));
    }
    let mut lines = heading(&table.lines, &claims);
    lines.push("model".to_string());
    lines.push(format!("size\t{}", world.size));
    lines.extend(world.lines(random));
    lines
}

/// The text of lines, each with its newline.
pub fn text(lines: &[String]) -> Vec<u8> {
    let mut text = Vec::new();
    for line in lines {
        text.extend_from_slice(line.as_bytes());
        text.push(b'\n');
    }
    text
}
