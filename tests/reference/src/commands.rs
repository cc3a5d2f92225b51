//! The programs `ringswap` and `thawcroft` over the plain engine: command lines read, answers
//! printed.

use crate::book::{Book, Refusal};
use crate::engine::Engine;

const BAD: &[u8] = b"bad\n";

/// Most words of a command, its letter among them.
const MAX_WORDS: usize = 4;

/// Which commands a program answers, and how long its lines may be.
#[derive(Clone, Copy, Debug, PartialEq, Eq)]
pub enum Dialect {
    /// Document 01's four commands.
    Ringswap,
    /// Every command.
    Thawcroft,
}

impl Dialect {
    pub const ALL: [Dialect; 2] = [Dialect::Ringswap, Dialect::Thawcroft];

    /// The dialect of the program of this name.
    pub fn named(name: &str) -> Option<Dialect> {
        Dialect::ALL
            .into_iter()
            .find(|dialect| dialect.name() == name)
    }

    pub const fn name(self) -> &'static str {
        match self {
            Dialect::Ringswap => "ringswap",
            Dialect::Thawcroft => "thawcroft",
        }
    }

    /// Longest command line in bytes, its LF not counted.
    pub const fn longest_line(self) -> usize {
        match self {
            Dialect::Ringswap => 8_192,
            Dialect::Thawcroft => 40_960,
        }
    }

    /// What its program prints for the bytes of its book, if they can be read, and its input.
    pub fn output(self, book: Option<&[u8]>, input: &[u8]) -> Vec<u8> {
        let mut out = Vec::new();
        if let Some(mut session) = Session::open(self, book, &mut out) {
            session.feed(input, &mut out);
            session.finish(&mut out);
        }
        out
    }
}

/// A run of a program after its book was opened. Input may come in pieces of any size.
pub struct Session {
    dialect: Dialect,
    engine: Engine,
    /// A line whose LF has not come yet, up to one byte more than a line may have.
    partial: Vec<u8>,
    /// Room for the bytes of a command; a hexadecimal word is shorter than its line.
    bytes: Vec<u8>,
}

impl Session {
    /// Prints the book's answer; without an opened book there is nothing to run.
    pub fn open(dialect: Dialect, book: Option<&[u8]>, out: &mut Vec<u8>) -> Option<Session> {
        let Some(text) = book else {
            out.extend_from_slice(BAD);
            return None;
        };
        let (engine, answer) = Engine::open(text);
        if let Err(refusal) = answer {
            print_refusal(refusal, out);
            return None;
        }
        print_book(engine.book(), out);
        Some(Session::new(dialect, engine))
    }

    /// A run that goes on from an engine.
    pub fn new(dialect: Dialect, engine: Engine) -> Session {
        Session {
            dialect,
            engine,
            partial: Vec::with_capacity(dialect.longest_line() + 1),
            bytes: vec![0; dialect.longest_line() / 2],
        }
    }

    /// The engine after the lines that were answered so far.
    pub fn engine(&self) -> &Engine {
        &self.engine
    }

    /// Answers every line that ends in this piece of the input.
    pub fn feed(&mut self, mut input: &[u8], out: &mut Vec<u8>) {
        while let Some(end) = input.iter().position(|&byte| byte == b'\n') {
            let line = &input[..end];
            if self.partial.is_empty() {
                self.answer(line, out);
            } else {
                self.keep(line);
                self.finish(out);
            }
            input = &input[end + 1..];
        }
        self.keep(input);
    }

    /// Answers a last line without LF, if there is one.
    pub fn finish(&mut self, out: &mut Vec<u8>) {
        if !self.partial.is_empty() {
            let line = std::mem::take(&mut self.partial);
            self.answer(&line, out);
            self.partial = line;
            self.partial.clear();
        }
    }

    /// Keeps a piece of a line; of a line that is too long only so much that this shows.
    fn keep(&mut self, piece: &[u8]) {
        let room = self.dialect.longest_line() + 1 - self.partial.len();
        self.partial
            .extend_from_slice(&piece[..piece.len().min(room)]);
    }

    fn answer(&mut self, line: &[u8], out: &mut Vec<u8>) {
        let fits = line.len() <= self.dialect.longest_line();
        if !fits || self.command(line, out).is_none() {
            out.extend_from_slice(BAD);
        }
    }

    /// Makes the call of a line and prints its answer; an ill-formed line does neither. A command
    /// with a dialect in place of `_` is of that dialect alone.
    fn command(&mut self, line: &[u8], out: &mut Vec<u8>) -> Option<()> {
        let (engine, bytes) = (&mut self.engine, &mut self.bytes);
        let answer = match (self.dialect, words(line, &mut [&[]; MAX_WORDS + 1])) {
            (_, [b"I", card, kind, count]) => engine
                .issue(number(card)?, number(kind)?, number(count)?)
                .map(|()| print_done(out)),
            (_, [b"D", card, kind, count]) => engine
                .redeem(number(card)?, number(kind)?, number(count)?)
                .map(|()| print_done(out)),
            (_, [b"H", card, kind]) => engine
                .holding(number(card)?, number(kind)?)
                .map(|held| print_held(held, out)),
            (_, [b"S", exchange, proof]) => {
                let (exchange, bytes) = from_hexadecimal(exchange, bytes)?;
                let (proof, _) = from_hexadecimal(proof, bytes)?;
                engine.settle(exchange, proof).map(|()| print_done(out))
            }
            _ => return None,
        };
        if let Err(refusal) = answer {
            print_refusal(refusal, out);
        }
        Some(())
    }
}

/// The words of a line, put into the room. All that follows the most words of a command is one
/// word more, so that the line is none.
fn words<'r, 'l>(line: &'l [u8], room: &'r mut [&'l [u8]; MAX_WORDS + 1]) -> &'r [&'l [u8]] {
    let mut count = 0;
    for word in line.splitn(MAX_WORDS + 1, |&byte| byte == b' ') {
        room[count] = word;
        count += 1;
    }
    &room[..count]
}

/// A decimal number of up to 64 bits without a leading zero.
fn number<N: TryFrom<u64>>(word: &[u8]) -> Option<N> {
    const TENTH: u64 = u64::MAX / 10;
    let (&first, others) = word.split_first()?;
    if first == b'0' && !others.is_empty() {
        return None;
    }
    let mut number = digit(first)?;
    for &byte in others {
        let digit = digit(byte)?;
        // One comparison is enough for all but the largest numbers.
        if number >= TENTH && (number > TENTH || digit > u64::MAX % 10) {
            return None;
        }
        number = number * 10 + digit;
    }
    number.try_into().ok()
}

fn digit(byte: u8) -> Option<u64> {
    let digit = u64::from(byte).wrapping_sub(u64::from(b'0'));
    (digit < 10).then_some(digit)
}

/// Decodes a word into the front of the room; the bytes and the room left are answered.
pub fn from_hexadecimal<'b>(word: &[u8], room: &'b mut [u8]) -> Option<(&'b [u8], &'b mut [u8])> {
    if word == b"-" {
        return Some((&[], room));
    }
    let (pairs, rest) = word.as_chunks();
    if pairs.is_empty() || !rest.is_empty() {
        return None;
    }
    let (bytes, room) = room.split_at_mut(pairs.len());
    let mut wrong = 0;
    for (byte, &[high, low]) in bytes.iter_mut().zip(pairs) {
        let (high, low) = (NIBBLES[usize::from(high)], NIBBLES[usize::from(low)]);
        wrong |= high | low;
        *byte = high << 4 | low & 15;
    }
    (wrong < 16).then_some((bytes, room))
}

/// The value of each lower-case hexadecimal digit; other bytes have one over 15.
const NIBBLES: [u8; 256] = {
    let mut nibbles = [16; 256];
    let digits = b"0123456789abcdef";
    let mut value = 0;
    while value < digits.len() {
        nibbles[digits[value] as usize] = value as u8;
        value += 1;
    }
    nibbles
};

fn print_book(book: &Book, out: &mut Vec<u8>) {
    out.extend_from_slice(b"book ");
    print_number(book.cards.len() as u32, out);
    out.push(b' ');
    print_number(book.rules.len() as u32, out);
    out.push(b'\n');
}

fn print_done(out: &mut Vec<u8>) {
    out.extend_from_slice(b"0 0\n");
}

fn print_held(held: u32, out: &mut Vec<u8>) {
    out.extend_from_slice(b"= ");
    print_number(held, out);
    out.push(b'\n');
}

fn print_refusal(refusal: Refusal, out: &mut Vec<u8>) {
    print_number(refusal.number.into(), out);
    out.push(b' ');
    print_number(refusal.place, out);
    out.push(b'\n');
}

fn print_number(mut number: u32, out: &mut Vec<u8>) {
    let mut digits = [0; 10];
    let mut first = digits.len();
    loop {
        first -= 1;
        digits[first] = b'0' + (number % 10) as u8;
        number /= 10;
        if number == 0 {
            break;
        }
    }
    out.extend_from_slice(&digits[first..]);
}

#[cfg(test)]
mod tests {
    use super::number;

    #[test]
    fn numbers_end_where_their_width_does() {
        let table = [
            ("0", Some(0), Some(0)),
            ("00", None, None),
            ("01", None, None),
            ("", None, None),
            ("-1", None, None),
            ("4294967295", Some(u32::MAX), Some(u32::MAX.into())),
            ("4294967296", None, Some(1 << 32)),
            ("18446744073709551609", None, Some(u64::MAX - 6)),
            ("18446744073709551615", None, Some(u64::MAX)),
            ("18446744073709551616", None, None),
            ("18446744073709551620", None, None),
            ("20000000000000000000", None, None),
            ("99999999999999999999", None, None),
            ("184467440737095516150", None, None),
        ];
        for (word, narrow, wide) in table {
            assert_eq!(number(word.as_bytes()), narrow, "{word}");
            assert_eq!(number(word.as_bytes()), wide, "{word}");
        }
    }
}
