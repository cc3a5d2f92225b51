//! Finds a proof for a small exchange by trying rules and cards record by record.

use crate::book::{Book, Transfer, VARIABLES};
use crate::engine::{check_record, prices, Record};
use std::collections::BTreeMap;

/// A rule and the cards for its variables, with the prices that they ask for.
#[derive(Clone, Debug)]
pub struct Choice {
    pub rule: u8,
    pub cards: [u8; VARIABLES],
    pub prices: Vec<Transfer>,
}

impl Choice {
    /// The record that claims a transfer with this choice.
    pub fn record(&self, next: u8, transfer: u8) -> Record {
        let mut record = [0; 12];
        record[..3].copy_from_slice(&[next, transfer, self.rule]);
        record[4..].copy_from_slice(&self.cards);
        record
    }

    /// The choice of a rule and cards for a transfer, if its record passes questions 16 to 19.
    pub fn new(
        book: &Book,
        transfer: &Transfer,
        rule: u8,
        cards: [u8; VARIABLES],
    ) -> Option<Choice> {
        let mut choice = Choice {
            rule,
            cards,
            prices: Vec::new(),
        };
        let (rule, parties) = check_record(book, transfer, &choice.record(0, 1)).ok()?;
        choice.prices.extend(prices(rule, &parties));
        choice.prices.sort_unstable();
        Some(choice)
    }
}

/// The choices for a transfer. Of those that ask the same prices one is enough, as they do the
/// same for the whole proof.
pub fn choices(book: &Book, transfer: &Transfer) -> Vec<Choice> {
    let mut by_prices = BTreeMap::new();
    for (number, rule) in (1..).zip(&book.rules) {
        if rule.owner != transfer[0] || rule.kind != transfer[1] {
            continue;
        }
        let mut cards = [0; VARIABLES];
        cards[usize::from(rule.head)] = transfer[2];
        let free: Vec<usize> = (0..VARIABLES)
            .filter(|&variable| {
                rule.used >> variable & 1 == 1 && variable != usize::from(rule.head)
            })
            .collect();
        try_cards(book.cards.len() as u8, &free, &mut cards, &mut |cards| {
            if let Some(choice) = Choice::new(book, transfer, number, *cards) {
                by_prices.entry(choice.prices.clone()).or_insert(choice);
            }
        });
    }
    by_prices.into_values().collect()
}

/// Calls back with every way to fill the free variables.
fn try_cards(
    count: u8,
    free: &[usize],
    cards: &mut [u8; VARIABLES],
    found: &mut dyn FnMut(&[u8; VARIABLES]),
) {
    let Some((&first, others)) = free.split_first() else {
        return found(cards);
    };
    for card in 1..=count {
        cards[first] = card;
        try_cards(count, others, cards, found);
    }
}

/// Some proof that passes questions 14 to 21 for the exchange. Claiming the transfers in their
/// order is no loss, as the order of a chain changes nothing in these questions.
pub fn proof(book: &Book, exchange: &[Transfer]) -> Option<Vec<u8>> {
    let choices: Vec<_> = exchange
        .iter()
        .map(|transfer| choices(book, transfer))
        .collect();
    let mut chosen = Vec::new();
    choose(&choices, exchange.to_vec(), &mut chosen).then(|| in_order(&chosen))
}

/// The proof that claims the transfers in their order with the choices.
pub fn in_order(chosen: &[Choice]) -> Vec<u8> {
    let last = chosen.len() as u8;
    (1..)
        .zip(chosen)
        .flat_map(|(number, choice)| {
            let next = if number == last { 0 } else { number + 1 };
            choice.record(next, number)
        })
        .collect()
}

/// Extends the chosen by one choice for each transfer left, if their prices can all be met from
/// the transfers not asked yet.
fn choose(choices: &[Vec<Choice>], unasked: Vec<Transfer>, chosen: &mut Vec<Choice>) -> bool {
    let Some((first, others)) = choices.split_first() else {
        return true;
    };
    for choice in first {
        if let Some(unasked) = without(&unasked, &choice.prices) {
            chosen.push(choice.clone());
            if choose(others, unasked, chosen) {
                return true;
            }
            chosen.pop();
        }
    }
    false
}

fn without(transfers: &[Transfer], prices: &[Transfer]) -> Option<Vec<Transfer>> {
    let mut left = transfers.to_vec();
    for price in prices {
        let found = left.iter().position(|transfer| transfer == price)?;
        left.swap_remove(found);
    }
    Some(left)
}
