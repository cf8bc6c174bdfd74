//! What each step needs and does, plainly: the generator follows its goals by it, and so does the count of the rows that refuse a line.

use crate::make::{Claim, Concept, Goal, Left, Right, Side};
use std::mem::discriminant;

/// A step with its numbers over a table.
pub struct Rule {
    /// Whether entry i is of the step's kind. Where it isn't, nothing is known of its parts.
    pub right_kind: bool,
    pub needs: Vec<(Side, Claim)>,
    pub new: Option<usize>,
    pub drop: Option<(Side, Claim)>,
    /// For each premise what is added.
    pub premises: Vec<Vec<(Side, Claim)>>,
}

impl Rule {
    /// A rule that closes the goal.
    fn closing(needs: Vec<(Side, Claim)>) -> Rule {
        Rule {
            right_kind: true,
            needs,
            new: None,
            drop: None,
            premises: vec![],
        }
    }

    /// A rule that adds a claim and keeps the others.
    fn adding(needs: Vec<(Side, Claim)>, added: (Side, Claim)) -> Rule {
        Rule {
            premises: vec![vec![added]],
            ..Rule::closing(needs)
        }
    }

    /// A rule that drops the claim that it needs.
    fn turning(claim: (Side, Claim), premises: Vec<Vec<(Side, Claim)>>) -> Rule {
        Rule {
            drop: Some(claim),
            premises,
            ..Rule::closing(vec![claim])
        }
    }

    /// The same, with a name that must be new.
    fn naming(new: usize, claim: (Side, Claim), added: Vec<(Side, Claim)>) -> Rule {
        Rule {
            new: Some(new),
            ..Rule::turning(claim, vec![added])
        }
    }

    /// The premises of a goal that has what the rule needs.
    pub fn applied(self, mut goal: Goal) -> Vec<Goal> {
        let dropped = self.drop.and_then(|it| goal.iter().position(|&c| c == it));
        if let Some(at) = dropped {
            goal.remove(at);
        }
        let premise = |added| [goal.clone(), added].concat();
        self.premises.into_iter().map(premise).collect()
    }
}

/// The rule of a step word with its numbers, the third 0 where it has two.
pub fn rule(table: &[Concept], word: &str, numbers: [usize; 3]) -> Rule {
    let [x, y, z] = numbers;
    match word {
        "id-sub" => both_sides(Claim::Sub(x, y)),
        "id-link" => both_sides(Claim::Link(x, y, z)),
        "sub-l" => Rule::adding(
            vec![(Left, Claim::Sub(y, z)), (Left, Claim::Is(x, y))],
            (Left, Claim::Is(x, z)),
        ),
        "sub-r" => Rule::naming(
            z,
            (Right, Claim::Sub(x, y)),
            vec![(Left, Claim::Is(z, x)), (Right, Claim::Is(z, y))],
        ),
        _ => rule_of_entry(table.get(y).copied(), word, numbers),
    }
}

fn both_sides(claim: Claim) -> Rule {
    Rule::closing(vec![(Left, claim), (Right, claim)])
}

/// The rules that ask for a kind of entry.
fn rule_of_entry(entry: Option<Concept>, word: &str, [a, i, b]: [usize; 3]) -> Rule {
    let entry = entry.unwrap_or(Concept::Top);
    let (left, right) = ((Left, Claim::Is(a, i)), (Right, Claim::Is(a, i)));
    let (p, q) = match entry {
        Concept::Top | Concept::Bot | Concept::Atom(_) => (0, 0),
        Concept::Not(p) => (p, 0),
        Concept::And(p, q) | Concept::Or(p, q) => (p, q),
        Concept::Some(r, p) | Concept::All(r, p) => (p, r),
    };
    // For `some` and `all`, whose second part is the role.
    let link = (Left, Claim::Link(q, a, b));
    let is = Claim::Is;
    let rule = match word {
        "id" => both_sides(is(a, i)),
        "bot-l" => Rule::closing(vec![left]),
        "top-r" => Rule::closing(vec![right]),
        "top-l" => Rule::adding(vec![], left),
        "bot-r" => Rule::adding(vec![], right),
        "not-l" => Rule::turning(left, vec![vec![(Right, is(a, p))]]),
        "not-r" => Rule::turning(right, vec![vec![(Left, is(a, p))]]),
        "and-l" => Rule::turning(left, vec![vec![(Left, is(a, p)), (Left, is(a, q))]]),
        "and-r" => Rule::turning(
            right,
            vec![vec![(Right, is(a, p))], vec![(Right, is(a, q))]],
        ),
        "or-l" => Rule::turning(left, vec![vec![(Left, is(a, p))], vec![(Left, is(a, q))]]),
        "or-r" => Rule::turning(right, vec![vec![(Right, is(a, p)), (Right, is(a, q))]]),
        "some-l" => Rule::naming(b, left, vec![link, (Left, is(b, p))]),
        "some-r" => Rule::adding(vec![right, link], (Right, is(b, p))),
        "all-l" => Rule::adding(vec![left, link], (Left, is(b, p))),
        // `all-r`; no other word is left.
        _ => Rule::naming(b, right, vec![link, (Right, is(b, p))]),
    };
    Rule {
        right_kind: discriminant(&entry) == discriminant(&asked(word)),
        ..rule
    }
}

/// Some entry of the kind that a step asks for.
fn asked(word: &str) -> Concept {
    match word {
        "id" => Concept::Atom(0),
        "top-l" | "top-r" => Concept::Top,
        "bot-l" | "bot-r" => Concept::Bot,
        "not-l" | "not-r" => Concept::Not(0),
        "and-l" | "and-r" => Concept::And(0, 0),
        "or-l" | "or-r" => Concept::Or(0, 0),
        "some-l" | "some-r" => Concept::Some(0, 0),
        _ => Concept::All(0, 0),
    }
}

/// Whether a name stands in no `is` or `link` of the goal.
pub fn is_new(goal: &[(Side, Claim)], name: usize) -> bool {
    !goal.iter().any(|&(_, claim)| match claim {
        Claim::Is(a, _) => a == name,
        Claim::Sub(..) => false,
        Claim::Link(_, a, b) => a == name || b == name,
    })
}
