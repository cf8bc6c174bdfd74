//! The judging program: a dossier from standard input, one line out: word, number and line, parted by tabs.

use against::judge::{judge, ROOM, TEXT};
use std::io::{Read, Write};

fn main() -> std::io::Result<()> {
    // One byte more than is read is enough to decide.
    let mut text = Vec::with_capacity(TEXT + 1);
    std::io::stdin()
        .lock()
        .take(TEXT as u64 + 1)
        .read_to_end(&mut text)?;
    let verdict = judge(ROOM, &text);
    let word = verdict.word.text();
    let mut out = std::io::stdout().lock();
    writeln!(out, "{word}\t{}\t{}", verdict.number, verdict.line)
}
