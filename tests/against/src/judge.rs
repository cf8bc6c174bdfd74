//! The judge: from a dossier and the length of the lent room to a word, a number and a line.
//!
//! Each line is read once, from left to right. A line that is anything but its word, its numbers and its newline, each where it belongs, gets
//! number 2, so a bad byte needs no test of its own. Then the other numbers are tried in the order of their rows.

/// The most bytes that are read.
pub const TEXT: usize = 65_535;
/// The fewest records that the lent room may have.
pub const ROOM: usize = 1_088;
/// The most table lines.
pub const CONCEPTS: usize = 256;
/// The most claims of a dossier, and of a goal.
pub const CLAIMS: usize = 64;
/// The most steps.
pub const STEPS: usize = 1_024;
/// The most goals that wait.
pub const WAITING: usize = 16;
/// Roles, atoms, names and elements are below these; a size is at most the last.
pub const ROLES: u16 = 16;
pub const ATOMS: u16 = 64;
pub const NAMES: u16 = 64;
pub const SIZE: u16 = 32;

#[derive(Clone, Copy, PartialEq, Eq, Debug)]
pub enum Word {
    Proved,
    Refuted,
    Refused,
}

impl Word {
    pub fn text(self) -> &'static str {
        match self {
            Word::Proved => "proved",
            Word::Refuted => "refuted",
            Word::Refused => "refused",
        }
    }
}

#[derive(Clone, Copy, PartialEq, Eq, Debug)]
pub struct Verdict {
    pub word: Word,
    pub number: u8,
    pub line: usize,
}

/// The number of the row that refuses.
type Refusal = u8;

/// Judges a dossier, where a room of so many records is lent.
pub fn judge(room: usize, text: &[u8]) -> Verdict {
    if room < ROOM {
        return refused(14, 0);
    }
    if text.len() > TEXT {
        return refused(1, 0);
    }
    let mut dossier = Dossier::new(text);
    match dossier.read() {
        Ok(word) => Verdict {
            word,
            number: 0,
            line: dossier.lines,
        },
        Err((number, line)) => refused(number, line),
    }
}

fn refused(number: u8, line: usize) -> Verdict {
    Verdict {
        word: Word::Refused,
        number,
        line,
    }
}

/// What a table line is. Its numbers stand beside it.
#[derive(Clone, Copy, PartialEq, Eq)]
enum Kind {
    Top,
    Bot,
    Atom,
    Not,
    And,
    Or,
    Some,
    All,
}

/// A table line: `x` and `y` are its numbers in the order of the line, 0 where it has none.
#[derive(Clone, Copy, PartialEq, Eq)]
struct Entry {
    kind: Kind,
    x: u8,
    y: u8,
}

#[derive(Clone, Copy, PartialEq, Eq)]
enum Side {
    Left,
    Right,
}

use Side::{Left, Right};

/// A claim on one side, in four bytes: two claims are equal exactly if their bytes are. The first two bytes are the names in the claim, and
/// `NO_NAME` and above where there are none, so that a look for a name needs no look at the kind.
#[derive(Clone, Copy, PartialEq, Eq)]
struct Claim(u32);

/// No name is as large; what is at least this large tells the kind and the side.
const NO_NAME: u8 = 0xf0;

impl Claim {
    fn is(side: Side, a: u8, i: u8) -> Claim {
        Claim(u32::from_le_bytes([a, NO_NAME, i, side as u8]))
    }

    fn sub(side: Side, i: u8, j: u8) -> Claim {
        Claim(u32::from_le_bytes([NO_NAME + side as u8, NO_NAME, i, j]))
    }

    fn link(side: Side, r: u8, a: u8, b: u8) -> Claim {
        Claim(u32::from_le_bytes([a, b, r, side as u8]))
    }

    /// Whether the name stands in the claim.
    fn names(self, b: u8) -> bool {
        self.0 as u8 == b || (self.0 >> 8) as u8 == b
    }
}

/// A goal: its claims in order. Which side a claim stands on is in the claim.
#[derive(Clone, Copy)]
struct Goal {
    claims: [Claim; CLAIMS],
    count: usize,
}

impl Goal {
    const EMPTY: Goal = Goal {
        claims: [Claim(0); CLAIMS],
        count: 0,
    };

    fn claims(&self) -> &[Claim] {
        &self.claims[..self.count]
    }

    fn has(&self, claim: Claim) -> bool {
        self.claims().contains(&claim)
    }

    /// Whether the name stands in no `is` or `link`.
    fn is_new(&self, b: u8) -> bool {
        !self.claims().iter().any(|c| c.names(b))
    }

    /// Takes out the first copy of a claim that is there. (Not inlined, since its search costs more instructions then.)
    #[inline(never)]
    fn drop_first(&mut self, claim: Claim) {
        if let Some(at) = self.claims().iter().position(|&c| c == claim) {
            self.claims.copy_within(at + 1..self.count, at);
            self.count -= 1;
        }
    }

    /// Adds a claim as the last one, where there is room for it.
    fn add(&mut self, claim: Claim) {
        self.claims[self.count] = claim;
        self.count += 1;
    }

    /// Becomes its one premise: the dropped claim goes, the added ones come.
    fn change(&mut self, dropped: Option<Claim>, added: [Option<Claim>; 2]) -> Result<(), Refusal> {
        let more = added.iter().flatten().count();
        if self.count - usize::from(dropped.is_some()) + more > CLAIMS {
            return Err(10);
        }
        if let Some(claim) = dropped {
            self.drop_first(claim);
        }
        for claim in added.into_iter().flatten() {
            self.add(claim);
        }
        Ok(())
    }
}

/// The open goals: the last of them is the current one, below it lie those that wait.
struct Goals {
    goals: [Goal; WAITING + 1],
    open: usize,
}

impl Goals {
    const NONE: Goals = Goals {
        goals: [Goal::EMPTY; WAITING + 1],
        open: 0,
    };

    /// The current goal; where none is open, the one that was closed last.
    fn current(&mut self) -> &mut Goal {
        &mut self.goals[self.open.saturating_sub(1)]
    }

    /// What a step does with the current goal, once every claim that it needs is there.
    fn go_on(&mut self, step: Move) -> Result<(), Refusal> {
        match step {
            Move::Close => {
                self.open -= 1;
                Ok(())
            }
            Move::One(dropped, added) => self.current().change(dropped, added),
            Move::Two(dropped, first, second) => self.part(dropped, first, second),
        }
    }

    /// The premise with `first` becomes current, the one with `second` waits. One claim goes and one comes, so each has as many as the goal.
    fn part(&mut self, dropped: Claim, first: Claim, second: Claim) -> Result<(), Refusal> {
        if self.open == WAITING + 1 {
            return Err(11);
        }
        let goal = self.current();
        goal.drop_first(dropped);
        let mut current = *goal;
        current.add(first);
        goal.add(second);
        self.goals[self.open] = current;
        self.open += 1;
        Ok(())
    }
}

/// The step words.
#[derive(Clone, Copy, PartialEq, Eq)]
enum Step {
    Id,
    IdSub,
    IdLink,
    BotL,
    TopR,
    TopL,
    BotR,
    NotL,
    NotR,
    AndL,
    AndR,
    OrL,
    OrR,
    SubL,
    SubR,
    SomeL,
    SomeR,
    AllL,
    AllR,
}

impl Step {
    fn of(word: &[u8]) -> Option<Step> {
        Some(match word {
            b"id" => Step::Id,
            b"id-sub" => Step::IdSub,
            b"id-link" => Step::IdLink,
            b"bot-l" => Step::BotL,
            b"top-r" => Step::TopR,
            b"top-l" => Step::TopL,
            b"bot-r" => Step::BotR,
            b"not-l" => Step::NotL,
            b"not-r" => Step::NotR,
            b"and-l" => Step::AndL,
            b"and-r" => Step::AndR,
            b"or-l" => Step::OrL,
            b"or-r" => Step::OrR,
            b"sub-l" => Step::SubL,
            b"sub-r" => Step::SubR,
            b"some-l" => Step::SomeL,
            b"some-r" => Step::SomeR,
            b"all-l" => Step::AllL,
            b"all-r" => Step::AllR,
            _ => return None,
        })
    }

    /// Whether three numbers stand behind the word, and not two.
    fn takes_three(self) -> bool {
        matches!(
            self,
            Step::IdLink
                | Step::SubL
                | Step::SubR
                | Step::SomeL
                | Step::SomeR
                | Step::AllL
                | Step::AllR
        )
    }

    fn in_range(self, [x, y, z]: [u16; 3], concepts: u16) -> bool {
        match self {
            Step::IdSub => x < concepts && y < concepts,
            Step::IdLink => x < ROLES && y < NAMES && z < NAMES,
            Step::SubL => x < NAMES && y < concepts && z < concepts,
            Step::SubR => x < concepts && y < concepts && z < NAMES,
            Step::SomeL | Step::SomeR | Step::AllL | Step::AllR => {
                x < NAMES && y < concepts && z < NAMES
            }
            _ => x < NAMES && y < concepts,
        }
    }

    /// What entry i, the second number, must be.
    fn kind(self) -> Option<Kind> {
        match self {
            Step::Id => Some(Kind::Atom),
            Step::BotL | Step::BotR => Some(Kind::Bot),
            Step::TopL | Step::TopR => Some(Kind::Top),
            Step::NotL | Step::NotR => Some(Kind::Not),
            Step::AndL | Step::AndR => Some(Kind::And),
            Step::OrL | Step::OrR => Some(Kind::Or),
            Step::SomeL | Step::SomeR => Some(Kind::Some),
            Step::AllL | Step::AllR => Some(Kind::All),
            Step::IdSub | Step::IdLink | Step::SubL | Step::SubR => None,
        }
    }
}

/// What a step does with the current goal, once every claim it needs is there.
enum Move {
    /// The goal is done with.
    Close,
    /// One premise: the goal without the dropped claim, and with the added ones.
    One(Option<Claim>, [Option<Claim>; 2]),
    /// Two premises: the goal without the dropped claim, and with the one or the other added.
    Two(Claim, Claim, Claim),
}

/// The extension of each role: for each element the set of those it has an edge to.
type Edges = [[u32; SIZE as usize]; ROLES as usize];

struct Dossier<'a> {
    text: &'a [u8],
    /// Where the next byte is read.
    at: usize,
    /// How many lines have been read whole.
    lines: usize,
    table: [Entry; CONCEPTS],
    concepts: usize,
    claims: [(Side, ClaimAt); CLAIMS],
    count: usize,
}

/// A claim of the file, as its line says it.
#[derive(Clone, Copy)]
enum ClaimAt {
    Is(u8, u8),
    Sub(u8, u8),
    Link(u8, u8, u8),
}

impl<'a> Dossier<'a> {
    fn new(text: &'a [u8]) -> Dossier<'a> {
        let blank = Entry {
            kind: Kind::Top,
            x: 0,
            y: 0,
        };
        Dossier {
            text,
            at: 0,
            lines: 0,
            table: [blank; CONCEPTS],
            concepts: 0,
            claims: [(Left, ClaimAt::Is(0, 0)); CLAIMS],
            count: 0,
        }
    }

    /// The whole dossier: the word of success, or the refusal's number and line.
    fn read(&mut self) -> Result<Word, (Refusal, usize)> {
        while !self.ended() {
            let word = self.word();
            match self.heading_line(word) {
                Ok(Next::Heading) => self.lines += 1,
                Ok(Next::Proof) => {
                    self.lines += 1;
                    return self.steps();
                }
                Ok(Next::Model) => {
                    self.lines += 1;
                    return self.model();
                }
                Err(number) => return Err((number, self.lines + 1)),
            }
        }
        Err((12, self.lines + 1))
    }

    // Reading: bytes, words and numbers.

    fn ended(&self) -> bool {
        self.at == self.text.len()
    }

    /// The bytes up to the next that is no byte of a word.
    fn word(&mut self) -> &'a [u8] {
        let text = self.text;
        let from = self.at;
        while self.at < text.len() && matches!(text[self.at], 33..=126) {
            self.at += 1;
        }
        &text[from..self.at]
    }

    /// The byte that must come next.
    fn byte(&mut self, wanted: u8) -> Result<(), Refusal> {
        if self.text.get(self.at) == Some(&wanted) {
            self.at += 1;
            Ok(())
        } else {
            Err(2)
        }
    }

    /// A tab and a number of 0 to 65,535 with no leading zero.
    fn number(&mut self) -> Result<u16, Refusal> {
        self.byte(9)?;
        let from = self.at;
        let mut value = 0u32;
        while let Some(digit @ b'0'..=b'9') = self.text.get(self.at) {
            // The value is below 65,536 here, so nothing wraps.
            value = value * 10 + u32::from(digit - b'0');
            if value > 65_535 || (self.at > from && self.text[from] == b'0') {
                return Err(2);
            }
            self.at += 1;
        }
        if self.at == from {
            return Err(2);
        }
        Ok(value as u16)
    }

    /// The numbers of a line, and its end.
    fn numbers<const N: usize>(&mut self) -> Result<[u16; N], Refusal> {
        let mut numbers = [0; N];
        for n in &mut numbers {
            *n = self.number()?;
        }
        self.byte(10)?;
        Ok(numbers)
    }

    // The table and the claims.

    /// A line before `proof` or `model`, or one of these.
    fn heading_line(&mut self, word: &[u8]) -> Result<Next, Refusal> {
        match word {
            b"left" => return self.claim(Left),
            b"right" => return self.claim(Right),
            b"proof" => return self.numbers::<0>().map(|_| Next::Proof),
            b"model" => return self.numbers::<0>().map(|_| Next::Model),
            _ => {}
        }
        // A table line may not stand behind a claim.
        if self.count > 0 {
            return Err(2);
        }
        let own = self.concepts as u16;
        let (entry, good) = match word {
            b"top" => self.numbers().map(|[]| (entry(Kind::Top, 0, 0), true)),
            b"bot" => self.numbers().map(|[]| (entry(Kind::Bot, 0, 0), true)),
            b"atom" => self
                .numbers()
                .map(|[x]| (entry(Kind::Atom, x, 0), x < ATOMS)),
            b"not" => self.numbers().map(|[i]| (entry(Kind::Not, i, 0), i < own)),
            b"and" => self
                .numbers()
                .map(|[i, j]| (entry(Kind::And, i, j), i < own && j < own)),
            b"or" => self
                .numbers()
                .map(|[i, j]| (entry(Kind::Or, i, j), i < own && j < own)),
            b"some" => self
                .numbers()
                .map(|[r, i]| (entry(Kind::Some, r, i), r < ROLES && i < own)),
            b"all" => self
                .numbers()
                .map(|[r, i]| (entry(Kind::All, r, i), r < ROLES && i < own)),
            _ => Err(2),
        }?;
        if self.concepts == CONCEPTS {
            return Err(5);
        }
        if !good {
            return Err(3);
        }
        if self.table[..self.concepts].contains(&entry) {
            return Err(4);
        }
        self.table[self.concepts] = entry;
        self.concepts += 1;
        Ok(Next::Heading)
    }

    /// What follows `left` or `right`.
    fn claim(&mut self, side: Side) -> Result<Next, Refusal> {
        self.byte(9)?;
        let concepts = self.concepts as u16;
        let (claim, good) = match self.word() {
            b"is" => self
                .numbers()
                .map(|[a, i]| (ClaimAt::Is(a as u8, i as u8), a < NAMES && i < concepts)),
            b"sub" => self
                .numbers()
                .map(|[i, j]| (ClaimAt::Sub(i as u8, j as u8), i < concepts && j < concepts)),
            b"link" => self.numbers().map(|[r, a, b]| {
                (
                    ClaimAt::Link(r as u8, a as u8, b as u8),
                    r < ROLES && a < NAMES && b < NAMES,
                )
            }),
            _ => Err(2),
        }?;
        if self.count == CLAIMS {
            return Err(5);
        }
        if !good {
            return Err(3);
        }
        self.claims[self.count] = (side, claim);
        self.count += 1;
        Ok(Next::Heading)
    }

    fn entry(&self, i: u8) -> Entry {
        self.table[usize::from(i)]
    }

    // The derivation.

    fn steps(&mut self) -> Result<Word, (Refusal, usize)> {
        let mut goals = Goals::NONE;
        self.open_first(&mut goals);
        let mut steps = 0;
        while !self.ended() {
            if let Err(number) = self.step(steps, &mut goals) {
                return Err((number, self.lines + 1));
            }
            steps += 1;
            self.lines += 1;
        }
        if goals.open > 0 {
            return Err((12, self.lines + 1));
        }
        Ok(Word::Proved)
    }

    /// At the start the claims of the file are the only goal.
    fn open_first(&self, goals: &mut Goals) {
        goals.open = 1;
        for &(side, claim) in &self.claims[..self.count] {
            goals.current().add(match claim {
                ClaimAt::Is(a, i) => Claim::is(side, a, i),
                ClaimAt::Sub(i, j) => Claim::sub(side, i, j),
                ClaimAt::Link(r, a, b) => Claim::link(side, r, a, b),
            });
        }
    }

    /// One step, where so many have been made: the rows in their order, and then what it does, which rows 10 and 11 can refuse.
    fn step(&mut self, steps: usize, goals: &mut Goals) -> Result<(), Refusal> {
        let (step, numbers) = self.step_line()?;
        if steps == STEPS {
            return Err(5);
        }
        if goals.open == 0 {
            return Err(9);
        }
        if !step.in_range(numbers, self.concepts as u16) {
            return Err(3);
        }
        // Every number that is in its range fits a byte.
        let [x, y, z] = numbers.map(|n| n as u8);
        if step.kind().is_some_and(|kind| self.entry(y).kind != kind) {
            return Err(6);
        }
        let goal = goals.current();
        let (needs, fresh) = self.needs(step, x, y, z);
        if !needs.iter().flatten().all(|&claim| goal.has(claim)) {
            return Err(7);
        }
        if fresh.is_some_and(|b| !goal.is_new(b)) {
            return Err(8);
        }
        goals.go_on(self.does(step, x, y, z))
    }

    /// The word and the numbers of a step, of which the third is 0 where it has two.
    fn step_line(&mut self) -> Result<(Step, [u16; 3]), Refusal> {
        let step = Step::of(self.word()).ok_or(2)?;
        let numbers = if step.takes_three() {
            self.numbers::<3>()?
        } else {
            self.numbers::<2>().map(|[x, y]| [x, y, 0])?
        };
        Ok((step, numbers))
    }

    /// The claims that a step needs in the current goal, and the name that must be new there.
    fn needs(&self, step: Step, x: u8, y: u8, z: u8) -> ([Option<Claim>; 2], Option<u8>) {
        let left = Some(Claim::is(Left, x, y));
        let right = Some(Claim::is(Right, x, y));
        let link = Some(Claim::link(Left, self.entry(y).x, x, z));
        match step {
            Step::Id => ([left, right], None),
            Step::IdSub => (
                [Some(Claim::sub(Left, x, y)), Some(Claim::sub(Right, x, y))],
                None,
            ),
            Step::IdLink => (
                [
                    Some(Claim::link(Left, x, y, z)),
                    Some(Claim::link(Right, x, y, z)),
                ],
                None,
            ),
            Step::TopL | Step::BotR => ([None, None], None),
            Step::BotL | Step::NotL | Step::AndL | Step::OrL => ([left, None], None),
            Step::TopR | Step::NotR | Step::AndR | Step::OrR => ([right, None], None),
            Step::SubL => ([Some(Claim::sub(Left, y, z)), left], None),
            Step::SubR => ([Some(Claim::sub(Right, x, y)), None], Some(z)),
            Step::SomeL => ([left, None], Some(z)),
            Step::SomeR => ([right, link], None),
            Step::AllL => ([left, link], None),
            Step::AllR => ([right, None], Some(z)),
        }
    }

    /// What a step does, where entry i is of its kind.
    fn does(&self, step: Step, x: u8, y: u8, z: u8) -> Move {
        let left = Claim::is(Left, x, y);
        let right = Claim::is(Right, x, y);
        let Entry { x: p, y: q, .. } = self.entry(y);
        match step {
            Step::Id | Step::IdSub | Step::IdLink | Step::BotL | Step::TopR => Move::Close,
            Step::TopL => Move::One(None, [Some(left), None]),
            Step::BotR => Move::One(None, [Some(right), None]),
            Step::NotL => Move::One(Some(left), [Some(Claim::is(Right, x, p)), None]),
            Step::NotR => Move::One(Some(right), [Some(Claim::is(Left, x, p)), None]),
            Step::AndL => Move::One(
                Some(left),
                [Some(Claim::is(Left, x, p)), Some(Claim::is(Left, x, q))],
            ),
            Step::AndR => Move::Two(right, Claim::is(Right, x, p), Claim::is(Right, x, q)),
            Step::OrL => Move::Two(left, Claim::is(Left, x, p), Claim::is(Left, x, q)),
            Step::OrR => Move::One(
                Some(right),
                [Some(Claim::is(Right, x, p)), Some(Claim::is(Right, x, q))],
            ),
            Step::SubL => Move::One(None, [Some(Claim::is(Left, x, z)), None]),
            Step::SubR => Move::One(
                Some(Claim::sub(Right, x, y)),
                [Some(Claim::is(Left, z, x)), Some(Claim::is(Right, z, y))],
            ),
            // A `some` or `all` line has the role first.
            Step::SomeL => Move::One(
                Some(left),
                [
                    Some(Claim::link(Left, p, x, z)),
                    Some(Claim::is(Left, z, q)),
                ],
            ),
            Step::SomeR => Move::One(None, [Some(Claim::is(Right, z, q)), None]),
            Step::AllL => Move::One(None, [Some(Claim::is(Left, z, q)), None]),
            Step::AllR => Move::One(
                Some(right),
                [
                    Some(Claim::link(Left, p, x, z)),
                    Some(Claim::is(Right, z, q)),
                ],
            ),
        }
    }

    // The model.

    fn model(&mut self) -> Result<Word, (Refusal, usize)> {
        if self.ended() {
            return Err((12, self.lines + 1));
        }
        let size = self.size().map_err(|number| (number, self.lines + 1))?;
        self.lines += 1;
        let mut places = [None; NAMES as usize];
        let mut atoms = [0u32; ATOMS as usize];
        let mut edges: Edges = [[0; SIZE as usize]; ROLES as usize];
        while !self.ended() {
            if let Err(number) = self.fact(size, &mut places, &mut atoms, &mut edges) {
                return Err((number, self.lines + 1));
            }
            self.lines += 1;
        }
        self.falsifies(size, &places, &atoms, &edges)
    }

    fn size(&mut self) -> Result<u16, Refusal> {
        if self.word() != b"size" {
            return Err(2);
        }
        let [size] = self.numbers()?;
        if (1..=SIZE).contains(&size) {
            Ok(size)
        } else {
            Err(3)
        }
    }

    /// A line of the model behind its `size`.
    fn fact(
        &mut self,
        size: u16,
        places: &mut [Option<u8>; NAMES as usize],
        atoms: &mut [u32; ATOMS as usize],
        edges: &mut Edges,
    ) -> Result<(), Refusal> {
        match self.word() {
            b"name" => {
                let [a, d] = self.numbers()?;
                if a >= NAMES || d >= size {
                    return Err(3);
                }
                let place = &mut places[usize::from(a)];
                if place.is_some() {
                    return Err(4);
                }
                *place = Some(d as u8);
                Ok(())
            }
            b"has" => {
                let [x, d] = self.numbers()?;
                if x >= ATOMS || d >= size {
                    return Err(3);
                }
                put(&mut atoms[usize::from(x)], d)
            }
            b"edge" => {
                let [r, d, e] = self.numbers()?;
                if r >= ROLES || d >= size || e >= size {
                    return Err(3);
                }
                put(&mut edges[usize::from(r)][usize::from(d)], e)
            }
            _ => Err(2),
        }
    }

    /// The end of a model: whether every name in a claim is placed, every left claim true and no right claim.
    fn falsifies(
        &self,
        size: u16,
        places: &[Option<u8>; NAMES as usize],
        atoms: &[u32; ATOMS as usize],
        edges: &Edges,
    ) -> Result<Word, (Refusal, usize)> {
        let claims = &self.claims[..self.count];
        let placed = |a: u8| places[usize::from(a)].is_some();
        let all_placed = claims.iter().all(|&(_, claim)| match claim {
            ClaimAt::Is(a, _) => placed(a),
            ClaimAt::Sub(..) => true,
            ClaimAt::Link(_, a, b) => placed(a) && placed(b),
        });
        if !all_placed {
            return Err((12, self.lines + 1));
        }
        let sets = self.extensions(size, atoms, edges);
        let set = |i: u8| sets[usize::from(i)];
        let place = |a: u8| places[usize::from(a)].unwrap_or(0);
        for (k, &(side, claim)) in claims.iter().enumerate() {
            let holds = match claim {
                ClaimAt::Is(a, i) => set(i) >> place(a) & 1 == 1,
                ClaimAt::Sub(i, j) => set(i) & !set(j) == 0,
                ClaimAt::Link(r, a, b) => {
                    edges[usize::from(r)][usize::from(place(a))] >> place(b) & 1 == 1
                }
            };
            if holds != (side == Left) {
                // The claims stand behind the table, one to a line.
                return Err((13, self.concepts + k + 1));
            }
        }
        Ok(Word::Refuted)
    }

    /// For each table line the set of elements that it holds of.
    fn extensions(
        &self,
        size: u16,
        atoms: &[u32; ATOMS as usize],
        edges: &Edges,
    ) -> [u32; CONCEPTS] {
        let everything = u32::MAX >> (u32::from(SIZE) - u32::from(size));
        let mut sets = [0u32; CONCEPTS];
        for k in 0..self.concepts {
            let Entry { kind, x, y } = self.table[k];
            let (x, y) = (usize::from(x), usize::from(y));
            sets[k] = match kind {
                Kind::Top => everything,
                Kind::Bot => 0,
                Kind::Atom => atoms[x],
                Kind::Not => everything & !sets[x],
                Kind::And => sets[x] & sets[y],
                Kind::Or => sets[x] | sets[y],
                Kind::Some => having(&edges[x], size, |to| to & sets[y] != 0),
                Kind::All => having(&edges[x], size, |to| to & !sets[y] == 0),
            };
        }
        sets
    }
}

/// Which part of the dossier the next line stands in.
enum Next {
    Heading,
    Proof,
    Model,
}

/// A table line of numbers that fit a byte where they are in their range; where they are not, the entry is not used.
fn entry(kind: Kind, x: u16, y: u16) -> Entry {
    Entry {
        kind,
        x: x as u8,
        y: y as u8,
    }
}

/// Puts an element into a set that must not have it.
fn put(set: &mut u32, element: u16) -> Result<(), Refusal> {
    let bit = 1 << element;
    if *set & bit != 0 {
        return Err(4);
    }
    *set |= bit;
    Ok(())
}

/// The elements whose successors pass the test.
fn having(role: &[u32; SIZE as usize], size: u16, test: impl Fn(u32) -> bool) -> u32 {
    (0..size)
        .filter(|&d| test(role[usize::from(d)]))
        .fold(0, |set, d| set | 1 << d)
}
