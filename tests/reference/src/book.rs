//! The rule text read into cards, groups and rules (questions 1 to 7).

use std::mem;
use std::ops::Deref;

/// Longest rule text in bytes.
pub const MAX_TEXT: usize = 16_384;
/// Most cards in a book.
pub const MAX_CARDS: usize = 32;
/// Most rules in a book.
pub const MAX_RULES: usize = 56;
/// Number of kinds, the letters A to P.
pub const KINDS: usize = 16;
/// Number of variables, the letters a to h.
pub const VARIABLES: usize = 8;
/// Where `*` is among the parties of a rule: after the variables.
pub const OWNER: u8 = VARIABLES as u8;

const MIN_DIGITS: usize = 12;
const MAX_DIGITS: usize = 19;

/// Giver, kind and receiver, as the exchange's bytes have them.
pub type Transfer = [u8; 3];

/// A refused question with its place.
#[derive(Clone, Copy, Debug, PartialEq, Eq)]
pub struct Refusal {
    pub number: u8,
    pub place: u32,
}

impl Refusal {
    /// A refusal whose place is 0.
    pub const fn plain(number: u8) -> Refusal {
        Refusal { number, place: 0 }
    }
}

/// Up to four items kept in place, so that a rule is one piece of memory.
#[derive(Clone, Copy, Debug, Default)]
pub struct Few<T> {
    items: [T; 4],
    count: u8,
}

impl<T> Few<T> {
    /// Adds an item, or answers nothing when four are there already.
    fn push(&mut self, item: T) -> Option<()> {
        *self.items.get_mut(usize::from(self.count))? = item;
        self.count += 1;
        Some(())
    }
}

impl<T> Deref for Few<T> {
    type Target = [T];

    fn deref(&self) -> &[T] {
        &self.items[..usize::from(self.count)]
    }
}

/// A card's digits in ASCII, then zero bytes, so that equal cards have equal rows.
type Digits = [u8; MAX_DIGITS];

/// A declared card.
#[derive(Clone, Copy, Debug, PartialEq)]
pub struct Card {
    digits: Digits,
    /// The first six digits as a number.
    pub issuer: u32,
    /// Bit g - 1 is set if the card is in group g.
    pub groups: u8,
}

/// "The giver gives one token of the kind to the receiver"; both are parties.
#[derive(Clone, Copy, Debug, Default)]
pub struct Price {
    pub giver: u8,
    pub kind: u8,
    pub receiver: u8,
}

/// What must hold of the cards that a rule is used with.
#[derive(Clone, Copy, Debug)]
pub enum Condition {
    /// The party's card has this bit among its groups.
    Group { bit: u8, party: u8 },
    /// Both parties' cards have the same issuer.
    Issuer { left: u8, right: u8 },
}

impl Default for Condition {
    fn default() -> Condition {
        Condition::Issuer { left: 0, right: 0 }
    }
}

/// A rule. A party is 0 to 7 for the variables a to h, or `OWNER`.
#[derive(Clone, Copy, Debug)]
pub struct Rule {
    pub owner: u8,
    pub kind: u8,
    pub head: u8,
    pub prices: Few<Price>,
    pub conditions: Few<Condition>,
    /// Bit i is set if variable i is in the head, a price or a condition.
    pub used: u8,
}

impl Rule {
    /// Notes that a party is in the rule; the owner is no variable.
    fn mention(&mut self, party: u8) {
        if party != OWNER {
            self.used |= 1 << party;
        }
    }
}

/// A rule text that was opened.
#[derive(Clone, Debug, Default)]
pub struct Book {
    pub cards: Vec<Card>,
    pub rules: Vec<Rule>,
}

impl Book {
    /// Reads a rule text line by line; the first failing line decides the refusal.
    pub fn read(text: &[u8]) -> Result<Book, Refusal> {
        if text.len() > MAX_TEXT {
            return Err(Refusal::plain(1));
        }
        let mut book = Book::default();
        for (place, line) in (1..).zip(text.split_inclusive(|&byte| byte == b'\n')) {
            book.add(line).map_err(|number| Refusal { number, place })?;
        }
        Ok(book)
    }

    /// Whether a number is that of a declared card.
    pub fn declares(&self, card: u32) -> bool {
        card.wrapping_sub(1) < self.cards.len() as u32
    }

    /// The card with a declared number.
    pub fn card(&self, number: u8) -> &Card {
        &self.cards[usize::from(number) - 1]
    }

    fn add(&mut self, line: &[u8]) -> Result<(), u8> {
        match Line::read(line).ok_or(2)? {
            Line::Card(printed) => self.add_card(&Number::read(printed).ok_or(2)?),
            Line::Group { bit, card } => {
                if !self.declares(card.into()) {
                    return Err(6);
                }
                self.cards[usize::from(card) - 1].groups |= bit;
                Ok(())
            }
            Line::Rule(rule) => {
                if !self.declares(rule.owner.into()) {
                    return Err(6);
                }
                if self.rules.len() == MAX_RULES {
                    return Err(7);
                }
                self.rules.push(rule);
                Ok(())
            }
        }
    }

    fn add_card(&mut self, number: &Number) -> Result<(), u8> {
        if self.cards.len() == MAX_CARDS {
            return Err(3);
        }
        let digits = number.digits;
        let length = number.length;
        if !(MIN_DIGITS..=MAX_DIGITS).contains(&length) || !passes_luhn(&digits[..length]) {
            return Err(4);
        }
        if self.cards.iter().any(|card| card.digits == digits) {
            return Err(5);
        }
        let issuer = digits[..6]
            .iter()
            .fold(0, |number, &digit| number * 10 + u32::from(digit - b'0'));
        self.cards.push(Card {
            digits,
            issuer,
            groups: 0,
        });
        Ok(())
    }
}

/// The Luhn formula over ASCII digits.
pub fn passes_luhn(text: &[u8]) -> bool {
    let sum: u32 = text
        .iter()
        .rev()
        .enumerate()
        .map(|(from_right, &digit)| {
            let digit = u32::from(digit - b'0');
            match (from_right % 2, digit) {
                (0, _) => digit,
                (_, 0..=4) => 2 * digit,
                _ => 2 * digit - 9,
            }
        })
        .sum();
    sum.is_multiple_of(10)
}

/// A card line's digits without its hyphens: as many of the first as a card may have, and how many
/// there are.
struct Number {
    digits: Digits,
    length: usize,
}

impl Number {
    /// Digits, with one hyphen or none between two of them.
    fn read(printed: &[u8]) -> Option<Number> {
        let mut digits = [0; MAX_DIGITS];
        let mut length = 0;
        let mut after_digit = false;
        for &byte in printed {
            if byte.is_ascii_digit() {
                if length < MAX_DIGITS {
                    digits[length] = byte;
                }
                length += 1;
            } else if byte != b'-' || !after_digit {
                return None;
            }
            after_digit = byte != b'-';
        }
        after_digit.then_some(Number { digits, length })
    }
}

/// A line that has one of the three forms, but for a card's digits and hyphens, which `Number` reads.
enum Line<'t> {
    Card(&'t [u8]),
    Group { bit: u8, card: u8 },
    Rule(Rule),
}

impl<'t> Line<'t> {
    fn read(line: &'t [u8]) -> Option<Line<'t>> {
        let mut rest = Rest(line.strip_suffix(b"\n")?);
        let letter = rest.next()?;
        rest.literal(b" ")?;
        let line = match letter {
            b'C' => Line::Card(mem::take(&mut rest.0)),
            b'G' => {
                let bit = rest.group()?;
                rest.literal(b" ")?;
                let card = rest.card()?;
                Line::Group { bit, card }
            }
            b'R' => Line::Rule(rest.rule()?),
            _ => return None,
        };
        rest.0.is_empty().then_some(line)
    }
}

/// What is left of a line; each reader takes its part from the front or answers nothing.
struct Rest<'t>(&'t [u8]);

impl Rest<'_> {
    fn next(&mut self) -> Option<u8> {
        let (&first, rest) = self.0.split_first()?;
        self.0 = rest;
        Some(first)
    }

    fn literal(&mut self, bytes: &[u8]) -> Option<()> {
        self.0 = self.0.strip_prefix(bytes)?;
        Some(())
    }

    /// A byte from first to last, told as its distance from the first.
    fn within(&mut self, first: u8, last: u8) -> Option<u8> {
        let byte = self.next()?;
        (first..=last).contains(&byte).then(|| byte - first)
    }

    fn group(&mut self) -> Option<u8> {
        Some(1 << self.within(b'1', b'8')?)
    }

    fn card(&mut self) -> Option<u8> {
        let first = self.within(b'1', b'9')? + 1;
        match self.0.first() {
            Some(b'0'..=b'9') => Some(first * 10 + self.within(b'0', b'9')?),
            _ => Some(first),
        }
    }

    fn kind(&mut self) -> Option<u8> {
        Some(self.within(b'A', b'P')? + 1)
    }

    fn variable(&mut self) -> Option<u8> {
        self.within(b'a', b'h')
    }

    fn party(&mut self) -> Option<u8> {
        if self.literal(b"*").is_some() {
            return Some(OWNER);
        }
        self.variable()
    }

    /// A rule line's part after `R `.
    fn rule(&mut self) -> Option<Rule> {
        let owner = self.card()?;
        self.literal(b" ")?;
        let kind = self.kind()?;
        self.literal(b" ")?;
        let head = self.variable()?;
        let mut rule = Rule {
            owner,
            kind,
            head,
            prices: Few::default(),
            conditions: Few::default(),
            used: 1 << head,
        };
        while self.literal(b" < ").is_some() {
            let giver = self.variable()?;
            self.literal(b" ")?;
            let kind = self.kind()?;
            self.literal(b" ")?;
            let receiver = self.party()?;
            if giver == receiver {
                return None;
            }
            rule.mention(giver);
            rule.mention(receiver);
            rule.prices.push(Price {
                giver,
                kind,
                receiver,
            })?;
        }
        while !self.0.is_empty() {
            rule.add_condition(self)?;
        }
        Some(rule)
    }
}

impl Rule {
    fn add_condition(&mut self, rest: &mut Rest) -> Option<()> {
        let condition = if rest.literal(b" ? ").is_some() {
            let bit = rest.group()?;
            rest.literal(b" ")?;
            let party = rest.party()?;
            self.mention(party);
            Condition::Group { bit, party }
        } else {
            rest.literal(b" = ")?;
            let left = rest.party()?;
            rest.literal(b" ")?;
            let right = rest.party()?;
            self.mention(left);
            self.mention(right);
            Condition::Issuer { left, right }
        };
        self.conditions.push(condition)
    }
}
