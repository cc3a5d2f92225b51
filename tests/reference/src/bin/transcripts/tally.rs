//! Which answers were met in a run, and how often.

use crate::report::{first_word, lines};
use reference::commands::{from_hexadecimal, Dialect, Session};
use reference::generate::{hyphened, Part, Transcript};
use std::collections::BTreeMap;
use std::fmt::Write;

/// The rows of what has no letter, beside those of `Part`: the book, the book again where hyphens
/// have a part in its answer, and every line that is no command of the dialect.
const BOOK: &str = "book.txt";
const HYPHENS: &str = "hyphens";
const NONE: &str = "none";

/// Each command's letter, the first words of its answers, and the programs that must have given
/// all of them in a run. No program may give any other; 23 cannot happen, nor can 6 and 7 to a line
/// with a hyphen, which is a card's or has no form.
const ANSWERS: &[(&str, &str, &[Dialect])] = &[
    (BOOK, "book 1 2 3 4 5 6 7 bad", &Dialect::ALL),
    (HYPHENS, "book 1 2 3 4 5", &Dialect::ALL),
    ("I", "0 8 9 10", &Dialect::ALL),
    ("D", "0 8 9 11", &Dialect::ALL),
    ("H", "= 8 9", &Dialect::ALL),
    ("S", "0 12 13 14 15 16 17 18 19 20 21 22", &Dialect::ALL),
    (NONE, "bad", &Dialect::ALL),
];

/// How often one program gave each answer.
pub struct Tally {
    dialect: Dialect,
    /// By the command and the answer's first word.
    answers: BTreeMap<(String, String), u64>,
}

impl Tally {
    pub fn new(dialect: Dialect) -> Tally {
        Tally {
            dialect,
            answers: BTreeMap::new(),
        }
    }

    pub fn add(&mut self, transcript: &Transcript, output: &[u8]) {
        let mut answers = lines(output).map(first_word);
        if let Some(word) = answers.next() {
            self.count(BOOK.as_bytes(), word);
            if transcript.book.text().is_some_and(hyphened) {
                self.count(HYPHENS.as_bytes(), word);
            }
        }
        // The same run again, for what is held before each line.
        let unread = &mut Vec::new();
        let Some(mut session) = Session::open(self.dialect, transcript.book.text(), unread) else {
            return;
        };
        for (word, line) in answers.zip(lines(&transcript.input)) {
            let command = match word {
                b"bad" => NONE.as_bytes(),
                _ => line.get(..1).unwrap_or_default(),
            };
            self.count(command, word);
            if let (b"S", b"0" | b"22") = (command, word) {
                if let Some(part) = part(session.engine().holdings(), line) {
                    self.count(part.name().as_bytes(), word);
                }
            }
            session.feed(line, unread);
            session.finish(unread);
        }
    }

    fn count(&mut self, command: &[u8], word: &[u8]) {
        let text = |bytes| String::from_utf8_lossy(bytes).into_owned();
        let answer = (text(command), text(word));
        *self.answers.entry(answer).or_default() += 1;
    }

    fn of(&self, command: &str, word: &str) -> u64 {
        let answer = (command.into(), word.into());
        self.answers.get(&answer).copied().unwrap_or(0)
    }

    /// What a run that agreed still left untried, or showed that cannot be.
    pub fn complaint(&self) -> Option<String> {
        let name = self.dialect.name();
        let due: Vec<_> = answers()
            .filter(|(_, _, dialects)| dialects.contains(&self.dialect))
            .map(|(command, word, _)| (command, word))
            .collect();
        let mut untried = due
            .iter()
            .filter(|(command, word)| self.of(command, word) == 0);
        if let Some((command, word)) = untried.next() {
            return Some(format!("{name} never answered {word} to {command}"));
        }
        let mut given = self.answers.keys();
        let (command, word) = given.find(|(command, word)| !due.contains(&(command, word)))?;
        Some(format!("{name} cannot answer {word} to {command}, and did"))
    }
}

/// The part of receipts in the answer to a well-formed settlement.
fn part(holdings: &[u32], line: &[u8]) -> Option<Part> {
    let word = line.split(|&byte| byte == b' ').nth(1)?;
    let mut room = vec![0; word.len()];
    let (exchange, _) = from_hexadecimal(word, &mut room)?;
    let (transfers, _) = exchange.as_chunks();
    Part::of(holdings, transfers)
}

/// A row for each answer of a command, with a column for each program.
pub fn table(tallies: &[Tally]) -> String {
    let mut table = String::new();
    let mut row = |command: &str, word: &str, cell: &dyn Fn(&Tally) -> String| {
        let _ = write!(table, "{command:<10} {word:>4}");
        for tally in tallies {
            let _ = write!(table, " {:>9}", cell(tally));
        }
        table.push('\n');
    };
    row("", "", &|tally| tally.dialect.name().into());
    for (command, word, _) in answers() {
        row(command, word, &|tally| tally.of(command, word).to_string());
    }
    table
}

/// Each answer of the rows by itself, and those to `S` again in which receipts have a part.
fn answers() -> impl Iterator<Item = (&'static str, &'static str, &'static [Dialect])> {
    let rows = ANSWERS.iter().flat_map(|&(command, words, dialects)| {
        words.split(' ').map(move |word| (command, word, dialects))
    });
    let parts = Part::ALL.map(|part| (part.name(), part.word(), &Dialect::ALL[..]));
    rows.chain(parts)
}
