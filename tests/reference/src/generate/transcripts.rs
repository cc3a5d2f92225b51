//! Whole transcripts: a book and the command lines for it.

use super::books::{self, damaged, limits, small, valid};
use super::lines::{self, hexadecimal};
use super::receipts::{one_short, Giver};
use super::swaps::{Settlement, Swap};
use crate::book::KINDS;
use crate::commands::{Dialect, Session};
use crate::engine::{Engine, MAX_SUM};
use crate::random::Random;

/// What is where the program looks for its book.
pub enum BookFile {
    Text(Vec<u8>),
    Missing,
    /// A folder of that name, which cannot be read as a text.
    Folder,
}

impl BookFile {
    /// The bytes that can be read.
    pub fn text(&self) -> Option<&[u8]> {
        match self {
            BookFile::Text(text) => Some(text),
            BookFile::Missing | BookFile::Folder => None,
        }
    }

    fn some(random: &mut Random) -> BookFile {
        match random.below(40) {
            0 => BookFile::Missing,
            1 => BookFile::Folder,
            2..9 => BookFile::Text(damaged(random)),
            9..16 => BookFile::Text(limits(random)),
            _ => BookFile::Text(valid(random)),
        }
    }
}

/// A book and an input for a program of any dialect.
pub struct Transcript {
    pub book: BookFile,
    pub input: Vec<u8>,
}

impl Transcript {
    /// One of any length; most are short.
    pub fn some(random: &mut Random) -> Transcript {
        let book = BookFile::some(random);
        let mut script = Script::new(book.text().unwrap_or_default());
        let steps = match random.below(50) {
            0 => 800,
            _ => random.within(1, 12),
        };
        for _ in 0..steps {
            random.weighted(STEPS)(&mut script, random);
        }
        let mut input = script.input;
        if random.one_in(4) {
            input.pop();
        }
        Transcript { book, input }
    }

    /// Those that every run begins with, so that no line of the tables is left to chance.
    pub fn every(random: &mut Random) -> Vec<Transcript> {
        let talk = Transcript {
            book: BookFile::Text(small(random)),
            input: lines::every(random).join(&b'\n'),
        };
        books::every(random)
            .into_iter()
            .map(|text| Transcript {
                book: BookFile::Text(text),
                input: b"H 1 1".into(),
            })
            .chain([talk])
            .collect()
    }

    /// What the program of a dialect must print.
    pub fn expected(&self, dialect: Dialect) -> Vec<u8> {
        dialect.output(self.book.text(), &self.input)
    }
}

/// Writes one command, or a few that belong together.
type Step = fn(&mut Script, &mut Random);

/// The steps that a script may take, and how often each of them is taken.
const STEPS: &[(usize, Step)] = &[
    (3, Script::simple),
    (1, Script::extreme),
    (1, Script::fill_up),
    (1, Script::unlikely),
    (1, Script::noise),
    (9, Script::swap),
];

/// Command lines being written, and a run that has followed them so far.
pub struct Script {
    pub input: Vec<u8>,
    session: Session,
}

impl Script {
    pub fn new(text: &[u8]) -> Script {
        let (engine, _) = Engine::open(text);
        Script {
            input: Vec::new(),
            session: Session::new(Dialect::Thawcroft, engine),
        }
    }

    /// The engine that thawcroft has after the lines so far; ringswap, with fewer commands, may
    /// have another. After a text that does not open it is the empty text's, though a program
    /// stops there.
    pub fn engine(&self) -> &Engine {
        self.session.engine()
    }

    pub fn issue(&mut self, card: u32, kind: u32, count: u32) {
        self.line(format!("I {card} {kind} {count}"));
    }

    fn redeem(&mut self, card: u32, kind: u32, count: u32) {
        self.line(format!("D {card} {kind} {count}"));
    }

    fn query(&mut self, card: u32, kind: u32) {
        self.line(format!("H {card} {kind}"));
    }

    pub fn settle(&mut self, settlement: &Settlement) {
        self.line(settle_line(settlement));
    }

    fn line(&mut self, line: impl AsRef<[u8]>) {
        let start = self.input.len();
        self.input.extend_from_slice(line.as_ref());
        self.input.push(b'\n');
        self.session.feed(&self.input[start..], &mut Vec::new());
    }

    fn unlikely(&mut self, random: &mut Random) {
        self.line(lines::unlikely(random));
    }

    fn noise(&mut self, random: &mut Random) {
        self.settle(&Settlement::noise(random));
    }

    fn simple(&mut self, random: &mut Random) {
        let cards = self.engine().book().cards.len().max(1);
        let card = random.within(1, cards) as u32;
        let kind = random.within(1, 4) as u32;
        let count = random.pick(&[0, 1, 2, 3, 10, 1_000, 600_000_000]);
        self.account([card, kind, count], random);
    }

    /// A call whose numbers are at the ends of what they may be, or beyond.
    fn extreme(&mut self, random: &mut Random) {
        let cards = self.engine().book().cards.len() as u32;
        let card = random.pick(&[0, 1, cards, cards + 1, 32, 33, 256, 257, u32::MAX]);
        let kind = random.pick(&[0, 1, 16, 17, 32, 256, 257, u32::MAX]);
        let count = random.pick(&[0, 1, MAX_SUM, MAX_SUM + 1, 1 << 31, u32::MAX - 1, u32::MAX]);
        self.account([card, kind, count], random);
    }

    /// A call about one holding.
    fn account(&mut self, [card, kind, count]: [u32; 3], random: &mut Random) {
        match random.below(3) {
            0 => self.issue(card, kind, count),
            1 => self.redeem(card, kind, count),
            _ => self.query(card, kind),
        }
    }

    /// Issues all that may be issued of a kind, then more, and redeems it again.
    fn fill_up(&mut self, random: &mut Random) {
        let cards = self.engine().book().cards.len();
        if cards == 0 {
            return self.simple(random);
        }
        let card = random.within(1, cards) as u32;
        let kind = random.within(1, KINDS);
        let of_kind = self
            .engine()
            .holdings()
            .iter()
            .skip(kind - 1)
            .step_by(KINDS);
        let left = MAX_SUM - of_kind.sum::<u32>();
        let kind = kind as u32;
        self.issue(card, kind, left + 1);
        self.issue(card, kind, left);
        self.issue(
            random.within(1, cards) as u32,
            kind,
            random.pick(&[0, 1, u32::MAX]),
        );
        self.query(card, kind);
        let held = self.engine().holding(card, kind).unwrap_or(0);
        self.redeem(card, kind, held.saturating_add(random.pick(&[0, 1])));
        self.redeem(card, kind, held - random.pick(&[0, 1, 5]).min(held));
    }

    /// Settlements around one swap, where the book has any.
    fn swap(&mut self, random: &mut Random) {
        match Swap::some(self.engine().book(), random) {
            Some(swap) => self.settle_around(&swap, random),
            None => self.unlikely(random),
        }
    }

    /// Settlements around one swap: as it is, short of a token, or damaged.
    fn settle_around(&mut self, swap: &Swap, random: &mut Random) {
        let settlement = swap.settlement(random);
        match random.below(16) {
            0 | 1 => self.settle_and_query(swap, &settlement, random),
            2 | 3 => {
                self.leave_one_short(swap, random);
                self.settle(&settlement);
                self.settle_and_query(swap, &settlement, random);
            }
            4 if swap.transfers.len() > 1 => {
                let less = swap.without_one(random);
                self.settle_and_query(&less, &less.settlement(random), random);
            }
            5 => {
                let more = swap.with_one(self.engine().book(), random);
                self.settle_and_query(&more, &more.settlement(random), random);
            }
            6 => {
                self.cover(swap, random);
                let line = settle_line(&settlement).into_bytes();
                self.line(lines::damaged(line, random));
            }
            _ => {
                let mut damaged = settlement;
                for _ in 0..random.pick(&[1, 1, 1, 2]) {
                    damaged.damage(self.engine().book(), random);
                }
                self.settle_and_query(swap, &damaged, random);
            }
        }
    }

    /// Covers the swap, settles, and asks what came of it.
    fn settle_and_query(&mut self, swap: &Swap, settlement: &Settlement, random: &mut Random) {
        self.cover(swap, random);
        self.settle(settlement);
        for &[giver, kind, receiver] in swap.transfers.iter().take(3) {
            self.query(giver.into(), kind.into());
            self.query(receiver.into(), kind.into());
        }
    }

    /// Each giver holds at least all that it gives, or each just what receipts do not bring.
    fn cover(&mut self, swap: &Swap, random: &mut Random) {
        let all = random.one_in(2);
        for giver in Giver::all(&swap.transfers) {
            let count = match all {
                true => self.held(&giver).max(giver.given),
                false => giver.least(),
            };
            self.bring(&giver, count);
        }
    }

    /// Each giver holds just what receipts do not bring, and one of them, if any must hold some, a
    /// token less.
    fn leave_one_short(&mut self, swap: &Swap, random: &mut Random) {
        let givers = Giver::all(&swap.transfers);
        for (giver, count) in givers.iter().zip(one_short(&givers, random)) {
            self.bring(giver, count);
        }
    }

    /// Issues or redeems, so that the giver holds so many of its kind.
    fn bring(&mut self, giver: &Giver, count: u32) {
        let (card, kind, held) = (giver.card.into(), giver.kind.into(), self.held(giver));
        if held < count {
            self.issue(card, kind, count - held);
        }
        if held > count {
            self.redeem(card, kind, held - count);
        }
    }

    fn held(&self, giver: &Giver) -> u32 {
        self.engine().holdings()[giver.slot()]
    }
}

fn settle_line(settlement: &Settlement) -> String {
    format!(
        "S {} {}",
        hexadecimal(&settlement.exchange),
        hexadecimal(&settlement.proof)
    )
}
