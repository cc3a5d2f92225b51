//! What an exchange's receipts have to do with question 22.

use crate::book::Transfer;
use crate::engine::slot;
use crate::random::Random;
use std::collections::BTreeMap;

/// What a card gives of a kind in an exchange, and what it receives of it.
pub struct Giver {
    pub card: u8,
    pub kind: u8,
    pub given: u32,
    received: u32,
}

impl Giver {
    /// Each card with each kind that it gives.
    pub fn all(exchange: &[Transfer]) -> Vec<Giver> {
        let mut givers = BTreeMap::new();
        for &[card, kind, _] in exchange {
            let giver = Giver {
                card,
                kind,
                given: 0,
                received: 0,
            };
            givers.entry((card, kind)).or_insert(giver).given += 1;
        }
        for &[_, kind, card] in exchange {
            if let Some(receiver) = givers.get_mut(&(card, kind)) {
                receiver.received += 1;
            }
        }
        givers.into_values().collect()
    }

    /// Where its tokens of the kind are among the holdings.
    pub fn slot(&self) -> usize {
        slot(self.card, self.kind)
    }

    /// What it must hold before the exchange, as receipts do not bring it.
    pub fn least(&self) -> u32 {
        self.given.saturating_sub(self.received)
    }
}

/// The least that each giver must hold, but a token less for one of them, if any must hold some:
/// for one that receives of its kind, where there is one.
pub fn one_short(givers: &[Giver], random: &mut Random) -> Vec<u32> {
    let mut counts: Vec<_> = givers.iter().map(Giver::least).collect();
    let mut places: Vec<usize> = (0..counts.len()).collect();
    places.retain(|&place| counts[place] > 0);
    random.shuffle(&mut places);
    places.sort_by_key(|&place| givers[place].received == 0);
    if let Some(&place) = places.first() {
        counts[place] -= 1;
    }
    counts
}

/// What receipts have to do with the answer to an exchange that comes to question 22.
#[derive(Clone, Copy)]
pub enum Part {
    /// No token is lacking, though some giver holds less than it gives.
    PassedOn,
    /// The same, and of some kind no giver holds any.
    Round,
    /// One token is lacking, of a kind that its giver receives and does not hold.
    Twice,
    /// One token is lacking, of a kind that its giver both receives and holds.
    OneShort,
    /// One token is lacking, and its giver receives other kinds only.
    OtherKind,
}

impl Part {
    pub const ALL: [Part; 5] = [
        Part::PassedOn,
        Part::Round,
        Part::Twice,
        Part::OneShort,
        Part::OtherKind,
    ];

    pub fn name(self) -> &'static str {
        match self {
            Part::PassedOn => "passed on",
            Part::Round => "round",
            Part::Twice => "twice",
            Part::OneShort => "one short",
            Part::OtherKind => "other kind",
        }
    }

    /// The answer to an exchange in which they have this part.
    pub fn answer(self) -> u8 {
        match self {
            Part::PassedOn | Part::Round => 0,
            Part::Twice | Part::OneShort | Part::OtherKind => 22,
        }
    }

    /// The same as the programs print it.
    pub fn word(self) -> &'static str {
        match self.answer() {
            0 => "0",
            _ => "22",
        }
    }

    /// The part that they have, if any.
    pub fn of(holdings: &[u32], exchange: &[Transfer]) -> Option<Part> {
        let givers = Giver::all(exchange);
        let held = |giver: &Giver| holdings[giver.slot()];
        let lacks = |giver: &Giver| giver.least().saturating_sub(held(giver));
        let short: Vec<_> = givers.iter().filter(|giver| lacks(giver) > 0).collect();

        let needs_receipts = |giver: &Giver| held(giver) < giver.given;
        let nobody_holds = |kind| {
            givers
                .iter()
                .all(|giver| giver.kind != kind || held(giver) == 0)
        };
        let receives = |card| exchange.iter().any(|&[.., receiver]| receiver == card);
        match short.as_slice() {
            [] if givers.iter().any(|giver| nobody_holds(giver.kind)) => Some(Part::Round),
            [] if givers.iter().any(needs_receipts) => Some(Part::PassedOn),
            [giver] if lacks(giver) == 1 => match (giver.received, held(giver)) {
                (0, _) => receives(giver.card).then_some(Part::OtherKind),
                (_, 0) => Some(Part::Twice),
                _ => Some(Part::OneShort),
            },
            _ => None,
        }
    }
}
