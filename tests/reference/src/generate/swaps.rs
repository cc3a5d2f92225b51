//! Exchanges with proofs: right ones by construction, and ones with damage.

use crate::book::{Book, Rule, Transfer, KINDS, VARIABLES};
use crate::random::Random;
use crate::search::Choice;

const MAX_TRANSFERS: usize = 32;
const MAX_RECORDS: usize = 255;
const RECORD: usize = 12;

/// A fair exchange with a choice for each of its transfers.
#[derive(Clone, Default)]
pub struct Swap {
    pub transfers: Vec<Transfer>,
    pub choices: Vec<Choice>,
}

/// The bytes of a settlement.
pub struct Settlement {
    pub exchange: Vec<u8>,
    pub proof: Vec<u8>,
}

impl Swap {
    /// One of any sort, where the book has any.
    pub fn some(book: &Book, random: &mut Random) -> Option<Swap> {
        match random.below(6) {
            0 => Swap::find_long(book, random),
            1 => Swap::find(book, random),
            2 | 3 => Swap::find_passed_on(book, random),
            // Short swaps are found most easily, and try the least.
            _ => (0..4)
                .filter_map(|_| Swap::find(book, random))
                .max_by_key(|swap| swap.transfers.len()),
        }
    }

    /// Starts from a gift and adds what is asked for it, and what is asked for that, until
    /// nothing is left to ask. Most books allow it for some gift.
    fn find(book: &Book, random: &mut Random) -> Option<Swap> {
        let rules: Vec<_> = book.rules.iter().collect();
        Swap::find_by(&rules, book, random)
    }

    /// As many swaps together as fit into one exchange; together they are fair again.
    fn find_long(book: &Book, random: &mut Random) -> Option<Swap> {
        let mut long = Swap::find(book, random)?;
        for _ in 0..60 {
            let Some(more) = Swap::find(book, random) else {
                break;
            };
            long.join(more);
        }
        Some(long)
    }

    /// Swaps together in which receivers give of the kinds that they receive, where they can. The
    /// transfers are in any order, as a receipt counts wherever it is.
    fn find_passed_on(book: &Book, random: &mut Random) -> Option<Swap> {
        let mut swap = Swap::find(book, random)?;
        for _ in 0..random.within(1, 6) {
            let [_, kind, receiver] = random.pick(&swap.transfers);
            let gives_on = |rule: &&Rule| (rule.owner, rule.kind) == (receiver, kind);
            let rules: Vec<_> = book.rules.iter().filter(gives_on).collect();
            if let Some(more) = Swap::find_by(&rules, book, random) {
                swap.join(more);
            }
        }
        let mut transfers: Vec<_> = swap.transfers.into_iter().zip(swap.choices).collect();
        random.shuffle(&mut transfers);
        let (transfers, choices) = transfers.into_iter().unzip();
        Some(Swap { transfers, choices })
    }

    /// A swap that starts from a gift by one of the rules.
    fn find_by(rules: &[&Rule], book: &Book, random: &mut Random) -> Option<Swap> {
        if rules.is_empty() {
            return None;
        }
        (0..40).find_map(|_| Swap::grow(random.pick(rules), book, random))
    }

    /// Adds another swap, if it fits into the exchange too.
    fn join(&mut self, more: Swap) {
        if self.transfers.len() + more.transfers.len() <= MAX_TRANSFERS {
            self.transfers.extend(more.transfers);
            self.choices.extend(more.choices);
        }
    }

    fn grow(rule: &Rule, book: &Book, random: &mut Random) -> Option<Swap> {
        let receiver = random.within(1, book.cards.len()) as u8;
        // A gift that asks nothing tries little, so most of them are passed over.
        if receiver == rule.owner || (rule.prices.is_empty() && !random.one_in(6)) {
            return None;
        }
        let mut swap = Swap {
            transfers: vec![[rule.owner, rule.kind, receiver]],
            choices: Vec::new(),
        };
        let mut unasked = swap.transfers.clone();
        while let Some(&transfer) = swap.transfers.get(swap.choices.len()) {
            let choice = (0..30).find_map(|_| some_choice(book, transfer, random))?;
            for &price in &choice.prices {
                match unasked.iter().position(|&other| other == price) {
                    Some(found) => {
                        unasked.swap_remove(found);
                    }
                    None => swap.transfers.push(price),
                }
            }
            if swap.transfers.len() > MAX_TRANSFERS {
                return None;
            }
            swap.choices.push(choice);
        }
        Some(swap)
    }

    /// The same without one transfer; what was asked of it is then missing.
    pub fn without_one(&self, random: &mut Random) -> Swap {
        let mut swap = self.clone();
        let place = random.below(swap.transfers.len());
        swap.transfers.remove(place);
        swap.choices.remove(place);
        swap
    }

    /// The same with one more transfer, which asks for transfers that are there, but may be asked
    /// for already; none is added if no such transfer is found.
    pub fn with_one(&self, book: &Book, random: &mut Random) -> Swap {
        let mut swap = self.clone();
        let extra = (0..60).find_map(|_| {
            let rule = &book.rules[random.below(book.rules.len())];
            let receiver = random.within(1, book.cards.len()) as u8;
            let transfer = [rule.owner, rule.kind, receiver];
            let choice = some_choice(book, transfer, random)?;
            let asked = |price| self.transfers.contains(price);
            let double = receiver != rule.owner
                && !choice.prices.is_empty()
                && choice.prices.iter().all(asked);
            double.then_some((transfer, choice))
        });
        if let Some((transfer, choice)) = extra {
            swap.transfers.push(transfer);
            swap.choices.push(choice);
        }
        swap
    }

    /// The settlement's bytes, with the chain in a random order and records off the chain.
    pub fn settlement(&self, random: &mut Random) -> Settlement {
        let count = self.transfers.len();
        let spare = match random.below(12) {
            0 => MAX_RECORDS - count,
            1..4 => random.below(5),
            _ => 0,
        };
        let mut order: Vec<usize> = (0..count).collect();
        random.shuffle(&mut order);
        let mut places: Vec<usize> = (0..count + spare).collect();
        random.shuffle(&mut places[1..]);
        let mut proof = random.bytes((count + spare) * RECORD);
        for (step, &transfer) in order.iter().enumerate() {
            let next = if step + 1 == count {
                0
            } else {
                places[step + 1] + 1
            };
            let record = self.choices[transfer].record(next as u8, transfer as u8 + 1);
            proof[places[step] * RECORD..][..RECORD].copy_from_slice(&record);
        }
        Settlement {
            exchange: self.transfers.concat(),
            proof,
        }
    }
}

impl Settlement {
    /// Any bytes.
    pub fn noise(random: &mut Random) -> Settlement {
        let transfers = random.below(MAX_TRANSFERS + 2);
        let records = random.below(8);
        Settlement {
            exchange: random.bytes(transfers * 3),
            proof: random.bytes(records * RECORD),
        }
    }

    /// Changes one thing, mostly so that some question refuses it.
    pub fn damage(&mut self, book: &Book, random: &mut Random) {
        let Settlement { exchange, proof } = self;
        let transfers = exchange.len() / 3;
        let records = proof.len() / RECORD;
        let (cards, rules) = (book.cards.len(), book.rules.len());
        match random.below(24) {
            0 => exchange.truncate(random.pick(&[0, 1, 2, 3, exchange.len() / 2])),
            1 => exchange.extend(random.bytes(1)),
            2 => exchange.resize(random.pick(&[96, 97, 99, 102, 2048]), 1),
            3 if transfers > 0 => {
                let place = random.below(transfers) * 3;
                exchange[place + 2] = exchange[place];
            }
            4 if transfers > 0 => {
                let place = random.below(transfers) * 3;
                exchange[place + 1] = near(KINDS, random);
            }
            5 if transfers > 0 => {
                let place = random.below(transfers) * 3;
                exchange[place + random.pick(&[0, 2])] = near(cards, random);
            }
            6 if transfers > 1 => {
                let (chunks, _) = exchange.as_chunks_mut::<3>();
                chunks.swap(0, random.below(transfers));
            }
            7 => proof.truncate(random.pick(&[0, 1, 11, 12, 13, proof.len() / 2])),
            8 => proof.extend(random.bytes(1)),
            9 => proof.resize(random.pick(&[3_060, 3_061, 3_072]), 0),
            _ if records == 0 => exchange.clear(),
            place => {
                // The chain's first records decide most, so they are damaged most.
                let record = random.below(records.min(1 + transfers));
                let record = &mut proof[record * RECORD..][..RECORD];
                let rule = book.rules.get(usize::from(record[2]).wrapping_sub(1));
                let head = rule.map(|rule| usize::from(rule.head) + 4);
                let others: Vec<usize> = (4..RECORD)
                    .filter(|&at| record[at] != 0 && Some(at) != head)
                    .collect();
                match place {
                    10 | 11 => record[0] = near(records, random),
                    12 | 13 => record[1] = near(transfers, random),
                    14 => record[2] = near(rules, random),
                    15 => record[3] = random.pick(&[1, 128, 255]),
                    // A card of the exchange in another part: the owner would pay, or a card
                    // would pay itself.
                    16..22 if transfers > 0 && !others.is_empty() => {
                        let party = random.below(transfers) * 3 + random.pick(&[0, 2]);
                        record[random.pick(&others)] = exchange[party];
                    }
                    _ => record[random.within(4, 11)] = near(cards, random),
                }
            }
        }
    }
}

/// A small exchange that is fair, nearly fair or nothing of the kind.
pub fn small_exchange(book: &Book, random: &mut Random) -> Vec<Transfer> {
    let found = Swap::find(book, random).filter(|swap| swap.transfers.len() < 5);
    let mut swap = found.unwrap_or_default();
    if random.one_in(3) {
        swap = swap.with_one(book, random);
    }
    let mut exchange = swap.transfers;
    match random.below(6) {
        0 if exchange.len() > 1 => {
            let place = random.below(exchange.len());
            exchange.remove(place);
        }
        1 if (1..5).contains(&exchange.len()) => exchange.push(random.pick(&exchange)),
        2 if exchange.len() < 5 => exchange.push(some_transfer(book, random)),
        3 if !exchange.is_empty() => {
            let place = random.below(exchange.len());
            exchange[place] = some_transfer(book, random);
        }
        _ => (),
    }
    while exchange.is_empty() || (exchange.len() < 5 && random.one_in(6)) {
        exchange.push(some_transfer(book, random));
    }
    exchange
}

/// A transfer between two cards, of a kind that some rule gives or asks.
fn some_transfer(book: &Book, random: &mut Random) -> Transfer {
    let cards = book.cards.len();
    let giver = random.within(1, cards);
    let receiver = (giver + random.within(1, cards - 1) - 1) % cards + 1;
    let rule = &book.rules[random.below(book.rules.len())];
    let asked = rule.prices.iter().map(|price| price.kind);
    let kinds: Vec<u8> = asked.chain([rule.kind]).collect();
    [giver as u8, random.pick(&kinds), receiver as u8]
}

/// A rule and cards for a transfer, tried once at random.
fn some_choice(book: &Book, transfer: Transfer, random: &mut Random) -> Option<Choice> {
    let fitting: Vec<_> = (1..)
        .zip(&book.rules)
        .filter(|(_, rule)| rule.owner == transfer[0] && rule.kind == transfer[1])
        .collect();
    if fitting.is_empty() {
        return None;
    }
    let (number, rule) = random.pick(&fitting);
    let mut cards = [0; VARIABLES];
    for (variable, card) in cards.iter_mut().enumerate() {
        if rule.used >> variable & 1 == 1 {
            *card = random.within(1, book.cards.len()) as u8;
        }
    }
    for price in rule.prices.iter() {
        // Only a card with a rule for the kind can give what is asked of it.
        let able: Vec<u8> = book
            .rules
            .iter()
            .filter(|other| other.kind == price.kind)
            .map(|other| other.owner)
            .collect();
        if !able.is_empty() {
            cards[usize::from(price.giver)] = random.pick(&able);
        }
    }
    cards[usize::from(rule.head)] = transfer[2];
    Choice::new(book, &transfer, number, cards)
}

/// A number from 1 to the last, one just outside, or any.
fn near(last: usize, random: &mut Random) -> u8 {
    match random.below(6) {
        0 => 0,
        1 => last as u8,
        2 => (last + 1) as u8,
        3 => random.byte(),
        _ => random.within(1, last.max(1)) as u8,
    }
}
