//! The largest call: a text of 16,384 bytes with 32 cards and 56 rules, and up to 32 transfers.

use crate::cases::Case;
use reference::book::{passes_luhn, KINDS, MAX_CARDS, MAX_RULES, MAX_TEXT};
use reference::engine::HOLDINGS;

/// The cards are in rings of so many; each gives to the next one for what the one before it gives.
const RING: usize = 4;
/// What every card holds of every kind: enough for millions of calls, and under the sum's limit.
const HELD: u32 = 30_000_000;

/// An exchange of so many transfers, a multiple of 4, with a proof that settles it.
pub fn accepted(transfers: usize) -> Case {
    let cards: Vec<usize> = (1..=transfers).collect();
    Case {
        text: text(),
        holdings: vec![HELD; HOLDINGS],
        exchange: cards.iter().flat_map(|&card| transfer(card)).collect(),
        proof: cards
            .iter()
            .flat_map(|&card| {
                let next = if card == transfers { 0 } else { card + 1 };
                let (giver, receiver) = (before(card), after(card));
                record([next, card, card], &[receiver, giver])
            })
            .collect(),
    }
}

/// The same over a text that has the cards and rules, and no group lines to fill it up.
pub fn unfilled(transfers: usize) -> Case {
    Case {
        text: needed().into_bytes(),
        ..accepted(transfers)
    }
}

/// The same with a hyphen between each two neighbouring digits of a card.
pub fn hyphened(transfers: usize) -> Case {
    let text = needed();
    let lines = text.lines().map(|line| match line.strip_prefix("C ") {
        Some(digits) => format!("C {}\n", spread(digits)),
        None => format!("{line}\n"),
    });
    Case {
        text: lines.collect::<String>().into_bytes(),
        ..accepted(transfers)
    }
}

/// All 32 transfers with one of them asked twice, which shows only after the last record: 21.
pub fn asked_twice() -> Case {
    let mut case = accepted(MAX_CARDS);
    let last = case.proof.len() - 12;
    case.proof.truncate(last);
    let cards = [after(MAX_CARDS), MAX_CARDS - 2, MAX_CARDS - 1];
    case.proof.extend(record([0, MAX_CARDS, MAX_RULES], &cards));
    case
}

fn spread(digits: &str) -> String {
    let digits: Vec<_> = digits.chars().map(String::from).collect();
    digits.join("-")
}

fn after(card: usize) -> usize {
    if card.is_multiple_of(RING) {
        card + 1 - RING
    } else {
        card + 1
    }
}

fn before(card: usize) -> usize {
    if card % RING == 1 {
        card + RING - 1
    } else {
        card - 1
    }
}

/// The kind that a card gives, from 1.
fn kind(card: usize) -> usize {
    (card - 1) % KINDS + 1
}

fn letter(kind: usize) -> char {
    char::from(b'@' + kind as u8)
}

fn transfer(card: usize) -> [u8; 3] {
    [card, kind(card), after(card)].map(|number| number as u8)
}

fn record([next, transfer, rule]: [usize; 3], cards: &[usize]) -> [u8; 12] {
    let mut record = [0; 12];
    for (byte, number) in record
        .iter_mut()
        .zip([next, transfer, rule, 0].iter().chain(cards))
    {
        *byte = *number as u8;
    }
    record
}

fn text() -> Vec<u8> {
    let mut text = needed();
    let left = MAX_TEXT - text.len();
    // Lines of seven bytes where a line of six would leave a rest.
    text += &"G 2 10\n".repeat(left % 6);
    text += &"G 2 1\n".repeat(left / 6 - left % 6);
    text.into_bytes()
}

/// All cards, all rules, and the groups that the rules ask for.
fn needed() -> String {
    let mut text: String = (1..=MAX_CARDS).map(card_line).collect();
    for card in 1..=MAX_CARDS {
        let (given, asked) = (letter(kind(card)), letter(kind(before(card))));
        text += &format!("R {card} {given} a < b {asked} * ? 1 a ? 8 b = a b = b *\n");
    }
    // These are never used, and have all that a rule may have.
    for rule in MAX_CARDS + 1..MAX_RULES {
        let owner = rule - MAX_CARDS;
        text += &format!("R {owner} A a < b A * < c B d < e C f < g D h = a b = c d ? 1 e ? 8 h\n");
    }
    let (given, asked) = (letter(kind(MAX_CARDS)), letter(kind(MAX_CARDS - 2)));
    text += &format!("R {MAX_CARDS} {given} a < b {asked} c = a b = b c ? 1 a ? 8 c\n");
    for card in 1..=MAX_CARDS {
        text += &format!("G 1 {card}\nG 8 {card}\n");
    }
    text
}

/// A card of 19 digits, all of one issuer, whose other digits are its own.
fn card_line(card: usize) -> String {
    let own = card as u64 * 61_803_398_875 % 1_000_000_000_000;
    (0..10)
        .map(|check| format!("700012{own:012}{check}"))
        .find(|digits| passes_luhn(digits.as_bytes()))
        .map(|digits| format!("C {digits}\n"))
        .expect("one of ten check digits is right")
}
