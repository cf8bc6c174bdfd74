//! Judges dossiers by the proved judge and by this package's, and compares.
//!
//!     against [SEED]
//!
//! Half of the dossiers are the same in every run; the other half follow from a seed that is printed, and can be given as the argument or in
//! AGAINST_SEED. A difference is written to a file and fails the run, and so does a verdict, a step word or a pair of rows that refuse the same line
//! that the run met too seldom to say anything of.

use against::judge::{judge, Verdict, Word, ROOM, TEXT};
use against::make::STEP_WORDS;
use against::random::Random;
use against::rows::refusing;
use against::{damage, limits, make, pairs};
use std::path::Path;
use std::process::ExitCode;

/// How many dossiers follow from each of the two seeds.
const EACH: u64 = 100_000;
/// The seed of the half that is the same in every run.
const FIXED: u64 = 1;
/// How often each verdict, and each step word in a derivation that is proved, must be met.
const ENOUGH: u64 = 200;
/// For each row those that stand behind it and can refuse the same line, so that the order of the two shows; there are no others. Of rows 3 and 4
/// only `name` can fail both. A step that fails row 8 or 10 has one premise, so it can't fail row 11; and where no goal is open none waits.
const BEHIND: [(u8, &[u8]); 10] = [
    (14, &[1, 2]),
    (1, &[2]),
    (2, &[5, 9, 3, 4, 6, 7, 8, 10, 11]),
    (5, &[9, 3, 4, 6, 7, 8, 10, 11]),
    (9, &[3, 6, 7, 8, 10]),
    (3, &[4, 6, 7, 8, 10, 11]),
    (6, &[7, 8, 10, 11]),
    (7, &[8, 10, 11]),
    (8, &[10]),
    (12, &[13]),
];
/// How often each such pair of rows must be met.
const ENOUGH_PAIRS: u64 = 50;
/// Where the dossiers lie on which the judges differ.
const FOLDER: &str = "target/against";
/// How many differences are written down.
const SHOWN: u64 = 10;
const THREADS: u64 = 2;

mod proved {
    //! The proved judge, from its static library.

    use super::{Verdict, Word};

    /// A claim record as the library has it: seven numbers of a byte each.
    pub type Record = [u8; 7];

    #[link(name = "outside", kind = "static")]
    extern "C" {
        fn outside_judge(room: *mut Record, records: usize, text: *const u8, length: usize) -> u64;
    }

    /// The verdict, or that the library's answer has no word.
    pub fn judge(room: &mut [Record], text: &[u8]) -> Result<Verdict, &'static str> {
        // A slice is handed over as a pointer and a length.
        let packed =
            unsafe { outside_judge(room.as_mut_ptr(), room.len(), text.as_ptr(), text.len()) };
        let word = match packed & 0xff {
            0 => Word::Proved,
            1 => Word::Refuted,
            2 => Word::Refused,
            _ => return Err("its word is none of the three"),
        };
        let number = (packed >> 8) as u8;
        let line = (packed >> 16) as usize;
        Ok(Verdict { word, number, line })
    }
}

/// What the proved judge says of a text when it is lent a room of so many dirty records. Every record must be blank afterwards, and those on
/// either side of the room as they were.
fn judge_in(room: usize, dirt: u8, text: &[u8]) -> Result<Verdict, &'static str> {
    let dirty = [dirt; 7];
    let mut records = vec![dirty; room + 2];
    let verdict = proved::judge(&mut records[1..=room], text);
    if records[0] != dirty || records[room + 1] != dirty {
        return Err("it wrote beside the room");
    }
    if records[1..=room].iter().any(|&record| record != [0; 7]) {
        return Err("it left a record in the room");
    }
    verdict
}

/// Counts of what a run has met, where the judges agree.
#[derive(Clone, Default)]
struct Counts {
    proved: u64,
    refuted: u64,
    /// By number.
    refused: [u64; 15],
    /// Derivations that are proved, by step word.
    steps: [u64; STEP_WORDS.len()],
    /// Refused dossiers, by number and by each other row that refuses the same line.
    pairs: [[u64; 15]; 15],
    differences: u64,
}

impl Counts {
    fn add(&mut self, other: &Counts) {
        self.proved += other.proved;
        self.refuted += other.refuted;
        self.differences += other.differences;
        for (sum, n) in self.refused.iter_mut().zip(other.refused) {
            *sum += n;
        }
        for (sum, n) in self.steps.iter_mut().zip(other.steps) {
            *sum += n;
        }
        let pairs = self.pairs.as_flattened_mut();
        for (sum, n) in pairs.iter_mut().zip(other.pairs.as_flattened()) {
            *sum += n;
        }
    }

    fn meet(&mut self, verdict: Verdict, room: usize, text: &[u8]) {
        match verdict.word {
            Word::Proved => {
                self.proved += 1;
                for (count, word) in self.steps.iter_mut().zip(STEP_WORDS) {
                    let begins =
                        |line: &[u8]| line.split(|&b| b == 9).next() == Some(word.as_bytes());
                    *count += u64::from(text.split(|&b| b == 10).any(begins));
                }
            }
            Word::Refuted => self.refuted += 1,
            Word::Refused => {
                let number = usize::from(verdict.number);
                self.refused[number] += 1;
                let rows = refusing(room, text, verdict);
                for row in 1..15 {
                    self.pairs[number][row] += u64::from(rows.has(row as u8));
                }
            }
        }
    }

    /// How often each verdict was met.
    fn verdicts(&self) -> String {
        let mut line = format!("proved {} refuted {} refused", self.proved, self.refuted);
        for number in 1..15 {
            line.push_str(&format!(" {number}:{}", self.refused[number]));
        }
        line
    }

    /// What was met too seldom to say anything of.
    fn seldom(&self) -> Vec<String> {
        let passed = [("proved", self.proved), ("refuted", self.refuted)];
        let passed = passed.map(|(word, count)| (word.to_string(), count));
        let refused = (1..15).map(|number| (format!("refused {number}"), self.refused[number]));
        let steps = STEP_WORDS.iter().zip(self.steps);
        let steps = steps.map(|(word, n)| (format!("a proved derivation with {word}"), n));
        let pairs = BEHIND.iter().flat_map(|&(first, behind)| {
            behind.iter().map(move |&row| {
                let count = self.pairs[usize::from(first)][usize::from(row)];
                (format!("a line that rows {first} and {row} refuse"), count)
            })
        });
        fewer(ENOUGH, passed.into_iter().chain(refused).chain(steps))
            .chain(fewer(ENOUGH_PAIRS, pairs))
            .collect()
    }
}

/// Which of these were met fewer times than is enough, and how often.
fn fewer(
    enough: u64,
    met: impl IntoIterator<Item = (String, u64)>,
) -> impl Iterator<Item = String> {
    met.into_iter()
        .filter(move |&(_, count)| count < enough)
        .map(move |(what, count)| format!("{what} ({count} of {enough})"))
}

/// The dossier at a place in the run of a seed, and the length of the room.
fn dossier(seed: u64, place: u64) -> (Vec<u8>, usize) {
    let random = &mut Random::new(seed, place);
    let text = match random.below(100) {
        0..=13 => make::text(&make::derivation(random)),
        14..=46 => {
            let lines = make::derivation(random);
            damage::damaged(random, &lines)
        }
        47..=56 => make::text(&make::model(random)),
        57..=77 => {
            let lines = make::model(random);
            damage::damaged(random, &lines)
        }
        78..=88 => limits::dossier(random),
        89..=95 => pairs::dossier(random),
        _ => damage::loose(random),
    };
    // Texts that are too long are few, and their rooms are to be too narrow often enough.
    let other_room = if text.len() > TEXT { 80 } else { 10 };
    let room = if random.percent(other_room) {
        random.pick(&[0, 1, 63, ROOM - 1, ROOM, ROOM + 1, ROOM + 2, 1_100, 2_048])
    } else {
        ROOM
    };
    (text, room)
}

/// Every so-manieth dossier of a seed, from the first on.
fn run(seed: u64, first: u64) -> Counts {
    let mut counts = Counts::default();
    for place in (first..EACH).step_by(THREADS as usize) {
        let (text, room) = dossier(seed, place);
        let ours = judge(room, &text);
        let theirs = judge_in(room, place as u8 | 1, &text);
        if theirs == Ok(ours) {
            counts.meet(ours, room, &text);
        } else {
            counts.differences += 1;
            if counts.differences <= SHOWN {
                differ(
                    &format!("seed {seed}, place {place}, room {room}"),
                    &text,
                    ours,
                    theirs,
                );
            }
        }
    }
    counts
}

/// Writes a dossier on which the judges differ to a file, and what they say of it to standard output.
fn differ(what: &str, text: &[u8], ours: Verdict, theirs: Result<Verdict, &str>) {
    let name: String = what
        .chars()
        .map(|c| if c.is_ascii_alphanumeric() { c } else { '-' })
        .collect();
    let file = Path::new(FOLDER).join(format!("{name}.dossier"));
    let written = std::fs::create_dir_all(FOLDER).and_then(|()| std::fs::write(&file, text));
    let show = |v: Verdict| format!("{} {} {}", v.word.text(), v.number, v.line);
    println!(
        "against: {what}: proved judge: {}; this one: {}",
        theirs.map_or_else(str::to_string, show),
        show(ours)
    );
    match written {
        Ok(()) => println!("against: the dossier is {}", file.display()),
        Err(error) => println!(
            "against: the dossier can't be written to {}: {error}",
            file.display()
        ),
    }
}

/// The dossiers with known verdicts of the requirements, fields parted by spaces, lines by commas.
const KNOWN: [(&str, &str, Word, u8, usize); 18] = {
    use Word::{Proved, Refused, Refuted};
    [
        ("K1", "atom 0,atom 1,left sub 0 1,left is 0 0,right is 0 1,proof,sub-l 0 0 1,id 0 1,", Proved, 0, 8),
        ("K2", "atom 0,atom 1,left sub 0 1,left is 0 0,right is 0 1,proof,sub-l 0 0 1,", Refused, 12, 8),
        ("K3", "", Refused, 12, 1),
        ("K4", "atom 0,atom 1,left sub 0 1,left is 0 0,right is 0 1,proof,id 0 1,id 0 1,", Refused, 7, 7),
        ("K5", "atom 0,atom 1,left sub 0 1,left is 0 0,right is 0 1,proof,sub-l 0 0 1,id 0 1,id 0 1,", Refused, 9, 9),
        ("K6", "atom 0,some 0 0,left is 0 1,right is 0 0,proof,some-l 0 1 0,", Refused, 8, 6),
        ("K7", "atom 0,some 0 0,left is 0 1,right is 0 0,model,size 2,name 0 0,has 0 1,edge 0 0 1,", Refuted, 0, 9),
        ("K8", "atom 0,some 0 0,left is 0 1,right is 0 0,model,size 2,name 0 0,has 0 0,edge 0 0 1,", Refused, 13, 3),
        ("K9", "atom 0,some 0 0,left is 0 1,right is 0 0,model,size 2,has 0 1,edge 0 0 1,", Refused, 12, 9),
        ("K10", "atom 0,atom 0,", Refused, 4, 2),
        ("K11", "not 0,", Refused, 3, 1),
        ("K12", "atom 0,some 0 0,left link 0 0 1,left is 1 0,right is 0 1,proof,some-r 0 1 1,id 1 0,", Proved, 0, 8),
        ("K13", "atom 0,not 0,left is 0 1,right is 0 1,proof,id 0 1,", Refused, 6, 6),
        ("K14 at 0", "atom 0,some 0 0,left is 0 1,right is 0 0,model,size 0,name 0 0,has 0 1,edge 0 0 1,", Refused, 3, 6),
        ("K14 at 33", "atom 0,some 0 0,left is 0 1,right is 0 0,model,size 33,name 0 0,has 0 1,edge 0 0 1,", Refused, 3, 6),
        ("K14 at 32", "atom 0,some 0 0,left is 0 1,right is 0 0,model,size 32,name 0 0,has 0 1,edge 0 0 1,", Refuted, 0, 9),
        (
            "K15",
            "atom 0,atom 1,atom 2,not 1,not 2,left sub 0 3,left sub 2 1,left link 0 0 1,left is 0 0,right is 0 4,proof,\
             sub-l 0 0 3,not-l 0 3,not-r 0 4,sub-l 0 2 1,id 0 1,",
            Proved,
            0,
            16,
        ),
        ("K16", "atom 0,some 0 0,left is 0 1,right is 1 0,proof,some-l 0 1 0,", Refused, 8, 6),
    ]
};

/// How many of the known dossiers get another verdict from a judge, in rooms of one record too few, of just enough and of one more, full of
/// records that are not blank.
fn known() -> u64 {
    let mut wrong = 0;
    for (name, lines, word, number, line) in KNOWN {
        let text = lines.replace(' ', "\t").replace(',', "\n").into_bytes();
        for room in [ROOM - 1, ROOM, ROOM + 1] {
            let expected = if room < ROOM {
                Verdict {
                    word: Word::Refused,
                    number: 14,
                    line: 0,
                }
            } else {
                Verdict { word, number, line }
            };
            let ours = judge(room, &text);
            let theirs = judge_in(room, 1, &text);
            if ours != expected || theirs != Ok(expected) {
                wrong += 1;
                differ(&format!("{name}, room {room}"), &text, ours, theirs);
            }
        }
    }
    wrong
}

fn seed() -> Result<u64, String> {
    let given = std::env::args()
        .nth(1)
        .or(std::env::var("AGAINST_SEED").ok());
    match given {
        Some(text) => text
            .parse()
            .map_err(|_| format!("against: the seed is not a number: {text}")),
        None => {
            let now = std::time::SystemTime::now().duration_since(std::time::UNIX_EPOCH);
            Ok(now.map_or(2, |now| now.as_nanos() as u64))
        }
    }
}

fn main() -> ExitCode {
    let seed = match seed() {
        Ok(seed) => seed,
        Err(message) => {
            println!("{message}");
            return ExitCode::from(2);
        }
    };
    println!("against: {EACH} dossiers of seed {FIXED}, {EACH} of seed {seed}");
    let mut counts = Counts {
        differences: known(),
        ..Counts::default()
    };
    std::thread::scope(|scope| {
        let part = |first| move || [run(FIXED, first), run(seed, first)];
        let threads: Vec<_> = (0..THREADS).map(|first| scope.spawn(part(first))).collect();
        for thread in threads {
            // A thread that panics fails the run.
            for met in thread.join().expect("a thread ended before its run") {
                counts.add(&met);
            }
        }
    });
    println!(
        "against: {}; differences {}",
        counts.verdicts(),
        counts.differences
    );
    let seldom = counts.seldom();
    if !seldom.is_empty() {
        println!("against: met too seldom: {}", seldom.join(", "));
    }
    if counts.differences == 0 && seldom.is_empty() {
        ExitCode::SUCCESS
    } else {
        ExitCode::FAILURE
    }
}
