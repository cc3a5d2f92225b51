//! Calls of every sort: random ones, and every length and every holding in turn.

use crate::large;
use reference::book::{Book, KINDS, MAX_CARDS, MAX_TEXT};
use reference::engine::{Engine, HOLDINGS, MAX_SUM};
use reference::generate::{self, Giver, Settlement, Swap, Transcript};
use reference::random::Random;
use reference::search;

/// Longest exchange and proof that a sweep goes to; both are over their limits.
const EXCHANGE: usize = 99;
const PROOF: usize = 3_072;
/// How far the sweep of a text goes past its end.
const PAST_TEXT: usize = 16;

/// The four buffers of a call.
#[derive(Clone)]
pub struct Case {
    pub text: Vec<u8>,
    pub holdings: Vec<u32>,
    pub exchange: Vec<u8>,
    pub proof: Vec<u8>,
}

impl Case {
    /// One of any sort.
    pub fn some(random: &mut Random) -> Case {
        let text = match random.below(16) {
            0..3 => return Case::searched(random),
            3 | 4 => generate::damaged(random),
            5 => generate::limits(random),
            6 => cut_text(random),
            _ => generate::valid(random),
        };
        let (engine, _) = Engine::open(&text);
        let book = engine.book();
        let settlement = some_settlement(book, random);
        Case::new(book, text, settlement, random)
    }

    /// A small exchange, with the proof that the search finds for it, if it finds one.
    fn searched(random: &mut Random) -> Case {
        let text = generate::small(random);
        let (engine, _) = Engine::open(&text);
        let book = engine.book();
        let exchange = generate::small_exchange(book, random);
        let proof = search::proof(book, &exchange);
        let settlement = Settlement {
            exchange: exchange.concat(),
            proof: proof.unwrap_or_else(|| Settlement::noise(random).proof),
        };
        Case::new(book, text, settlement, random)
    }

    /// Mostly with holdings that cover the exchange: each giver holds all that it gives, or just
    /// what receipts do not bring. Some are one token short of that.
    fn new(book: &Book, text: Vec<u8>, settlement: Settlement, random: &mut Random) -> Case {
        let Settlement { exchange, proof } = settlement;
        let cards = book.cards.len();
        let mut holdings = vec![0; HOLDINGS];
        let givers = givers(&exchange, cards);
        let counts = match random.below(5) {
            0 => generate::one_short(&givers, random),
            1 | 2 => givers.iter().map(Giver::least).collect(),
            _ => givers.iter().map(|giver| giver.given).collect(),
        };
        for (giver, count) in givers.iter().zip(counts) {
            holdings[giver.slot()] = count;
        }
        if cards > 0 {
            for _ in 0..random.below(8) {
                let slot = random.below(cards * KINDS);
                holdings[slot] += random.pick(&[1, 2, 1_000, 10_000_000]);
            }
        }
        change(&mut holdings, cards, &givers, random);
        Case {
            text,
            holdings,
            exchange,
            proof,
        }
    }

    /// Those that every run begins with, so that no length and no holding is left to chance.
    pub fn every(random: &mut Random) -> impl Iterator<Item = Case> {
        let texts = Transcript::every(random)
            .into_iter()
            .filter_map(|transcript| transcript.book.text().map(Vec::from))
            .map(|text| Case {
                text,
                ..large::accepted(4)
            });
        let larges = [
            large::accepted(8),
            large::accepted(32),
            large::hyphened(32),
            large::asked_twice(),
        ];
        texts
            .chain(larges)
            .chain(every_text(large::accepted(4)))
            .chain(every_text(large::hyphened(4)))
            .chain(every_exchange())
            .chain(every_proof(random))
            .chain(every_holding())
    }
}

/// The case's text and a piece of it after it, cut at every length.
fn every_text(whole: Case) -> impl Iterator<Item = Case> {
    let more = whole.text[..PAST_TEXT].to_vec();
    let text = [whole.text.clone(), more].concat();
    (0..=text.len()).map(move |length| Case {
        text: text[..length].to_vec(),
        ..whole.clone()
    })
}

/// Exchanges of every length; those of whole rings settle.
fn every_exchange() -> impl Iterator<Item = Case> {
    let exchange = large::accepted(32).exchange;
    (0..=EXCHANGE).map(move |length| Case {
        exchange: exchange.iter().cycle().take(length).copied().collect(),
        ..large::accepted((length / 12 * 4).clamp(4, 32))
    })
}

/// A proof, with records off the chain after it, cut at every length.
fn every_proof(random: &mut Random) -> impl Iterator<Item = Case> {
    let whole = large::accepted(32);
    let mut proof = whole.proof.clone();
    proof.extend(random.bytes(PROOF - proof.len()));
    (0..=PROOF).map(move |length| Case {
        proof: proof[..length].to_vec(),
        ..whole.clone()
    })
}

/// Each number of the holdings changed, each kind's sum about its limit, and other counts of
/// numbers, over the ring's book, which declares three cards, and the large one, which declares all.
fn every_holding() -> impl Iterator<Item = Case> {
    let large = large::accepted(4);
    let few = Case {
        text: reference::ring::BOOK.into(),
        holdings: vec![0; HOLDINGS],
        ..large.clone()
    };
    let mut cases = Vec::new();
    for (case, cards) in [(few, 3), (large, MAX_CARDS)] {
        let mut add = |change: &dyn Fn(&mut Vec<u32>)| {
            let mut changed = case.clone();
            change(&mut changed.holdings);
            cases.push(changed);
        };
        for slot in 0..HOLDINGS {
            for number in [1, MAX_SUM, MAX_SUM + 1, 1 << 31, u32::MAX] {
                add(&|holdings| holdings[slot] = number);
            }
        }
        for kind in 1..=KINDS {
            for sum in sums() {
                add(&|holdings| fill(holdings, cards, kind, sum));
            }
        }
        for count in (0..=HOLDINGS + 1).chain([1_024]) {
            add(&|holdings| holdings.resize(count, 0));
        }
    }
    cases.into_iter()
}

/// Sums of a kind about the limit, and ones that 32 bits would take for small ones.
fn sums() -> [u64; 7] {
    let limit = u64::from(MAX_SUM);
    let past = 1 << 32;
    [
        limit - 1,
        limit,
        limit + 1,
        past - 1,
        past,
        past + 1,
        2 * past + limit,
    ]
}

/// Brings a kind's sum over the first cards to the number, where so many cards can hold it.
fn fill(holdings: &mut [u32], cards: usize, kind: usize, sum: u64) {
    let of_kind = || holdings.iter().skip(kind - 1).step_by(KINDS);
    let mut left = sum.saturating_sub(of_kind().map(|&held| u64::from(held)).sum());
    for held in holdings
        .iter_mut()
        .skip(kind - 1)
        .step_by(KINDS)
        .take(cards)
    {
        let more = left.min(u64::from(u32::MAX - *held));
        *held += more as u32;
        left -= more;
    }
}

/// The declared cards that give of a kind that there is.
fn givers(exchange: &[u8], cards: usize) -> Vec<Giver> {
    let (transfers, _) = exchange.as_chunks();
    let mut givers = Giver::all(transfers);
    givers.retain(|giver| {
        (1..=cards).contains(&giver.card.into()) && (1..=KINDS).contains(&giver.kind.into())
    });
    givers
}

/// Leaves most holdings as they are, and others about a limit or over it.
fn change(holdings: &mut Vec<u32>, cards: usize, givers: &[Giver], random: &mut Random) {
    let kind = match givers {
        [] => random.within(1, KINDS),
        givers => givers[random.below(givers.len())].kind.into(),
    };
    match random.below(20) {
        0 => {
            let fewer = random.below(HOLDINGS);
            let count = random.pick(&[0, 1, 511, 513, 1_024, fewer]);
            holdings.resize(count, random.pick(&[0, 1]));
        }
        1 if cards < MAX_CARDS => {
            let slot = random.within(cards * KINDS, HOLDINGS - 1);
            holdings[slot] = random.pick(&[1, MAX_SUM, u32::MAX]);
        }
        2 => fill(holdings, cards, kind, random.pick(&sums())),
        3 => {
            // One card, perhaps a receiver, holds all or nearly all that there may be.
            let (_, from) = holdings.split_at_mut(random.below(cards.max(1)) * KINDS);
            fill(from, 1, kind, u64::from(MAX_SUM) - random.pick(&[0, 1, 32]));
        }
        4 | 5 if !givers.is_empty() => {
            let held = &mut holdings[givers[random.below(givers.len())].slot()];
            *held = random.below(*held as usize + 1) as u32;
        }
        6 => holdings.fill_with(|| random.draw() as u32),
        7 => holdings.fill(0),
        _ => (),
    }
}

fn some_settlement(book: &Book, random: &mut Random) -> Settlement {
    let swap = match random.below(8) {
        0 => None,
        _ => Swap::some(book, random),
    };
    let Some(swap) = swap else {
        return some_bytes(random);
    };
    let mut settlement = swap.settlement(random);
    match random.below(16) {
        0..4 => (),
        4 if swap.transfers.len() > 1 => settlement = swap.without_one(random).settlement(random),
        5 | 6 => settlement = swap.with_one(book, random).settlement(random),
        7 => settlement.exchange.truncate(random.below(EXCHANGE)),
        8 => settlement.proof.truncate(random.below(PROOF)),
        _ => {
            for _ in 0..random.pick(&[1, 1, 1, 2]) {
                settlement.damage(book, random);
            }
        }
    }
    settlement
}

/// Bytes of any lengths; half of them small numbers, which cards, kinds and records are.
fn some_bytes(random: &mut Random) -> Settlement {
    let mut settlement = Settlement {
        exchange: bytes_to(EXCHANGE, random),
        proof: bytes_to(PROOF, random),
    };
    if random.one_in(2) {
        let bytes = settlement.exchange.iter_mut().chain(&mut settlement.proof);
        bytes.for_each(|byte| *byte %= 4);
    }
    settlement
}

/// A text cut anywhere, or bytes that are no text, of lengths past the limit too.
fn cut_text(random: &mut Random) -> Vec<u8> {
    if random.one_in(3) {
        return bytes_to(MAX_TEXT + 100, random);
    }
    let mut text = generate::limits(random);
    let length = random.below(text.len() + 1);
    text.truncate(length);
    text
}

/// Bytes of any length to the most.
fn bytes_to(most: usize, random: &mut Random) -> Vec<u8> {
    let length = random.within(0, most);
    random.bytes(length)
}
