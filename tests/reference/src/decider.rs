//! Fairness straight from its definition: approvals, acceptance because of W, and all the W
//! together within the exchange. It knows nothing of proofs and takes exponential time, so it
//! serves small books and small exchanges.

use crate::book::{Book, Condition, Rule, Transfer, OWNER};
use std::collections::{BTreeMap, BTreeSet};

/// Transfers counted with repeats, in ascending order.
type Multiset = Vec<Transfer>;

/// The card of each party that is in a rule.
type Filling = BTreeMap<u8, u8>;

/// The head's transfer and the prices of a rule under a filling that its owner agrees to.
#[derive(PartialEq, Eq, PartialOrd, Ord)]
struct Approval {
    head: Transfer,
    prices: Multiset,
}

/// Decides fairness over one book.
pub struct Decider {
    /// The approvals of card m at m - 1; what two rules or fillings approve alike counts once.
    approvals: Vec<BTreeSet<Approval>>,
}

impl Decider {
    pub fn new(book: &Book) -> Decider {
        let mut approvals: Vec<_> = book.cards.iter().map(|_| BTreeSet::new()).collect();
        for rule in &book.rules {
            let of_owner = &mut approvals[usize::from(rule.owner) - 1];
            for filling in fillings(book, rule) {
                of_owner.extend(approval(book, rule, &filling));
            }
        }
        Decider { approvals }
    }

    /// Whether every card has a W, and all of them together are contained in the exchange.
    pub fn fair(&self, exchange: &[Transfer]) -> bool {
        let exchange = sorted(exchange.to_vec());
        let reasons: Vec<_> = (1..)
            .zip(&self.approvals)
            .map(|(card, approvals)| reasons(card, approvals, &exchange))
            .collect();
        some_choice_fits(&reasons, exchange)
    }
}

/// Every W because of which a card with these approvals accepts an exchange.
fn reasons(card: u8, approvals: &BTreeSet<Approval>, exchange: &Multiset) -> BTreeSet<Multiset> {
    let mut found = BTreeSet::new();
    if exchange.iter().all(|&[giver, ..]| giver != card) {
        found.insert(Multiset::new());
    }
    for Approval { head, prices } in approvals {
        let rest = minus(exchange, &[*head]).and_then(|rest| minus(&rest, prices));
        for reason in rest.map_or_else(BTreeSet::new, |rest| reasons(card, approvals, &rest)) {
            found.insert(sorted([prices.as_slice(), &reason].concat()));
        }
    }
    found
}

/// Whether one W can be taken from each set so that together they are contained in what is left.
fn some_choice_fits(reasons: &[BTreeSet<Multiset>], left: Multiset) -> bool {
    let Some((first, others)) = reasons.split_first() else {
        return true;
    };
    first
        .iter()
        .filter_map(|reason| minus(&left, reason))
        .any(|left| some_choice_fits(others, left))
}

/// Every way to give each variable of a rule a declared card.
fn fillings(book: &Book, rule: &Rule) -> Vec<Filling> {
    let mut fillings = vec![Filling::from([(OWNER, rule.owner)])];
    for party in parties(rule) {
        if party == OWNER {
            continue;
        }
        fillings = fillings
            .iter()
            .flat_map(|filling| {
                (1..=book.cards.len() as u8).map(move |card| {
                    let mut longer = filling.clone();
                    longer.insert(party, card);
                    longer
                })
            })
            .collect();
    }
    fillings
}

/// The parties that are anywhere in a rule.
fn parties(rule: &Rule) -> BTreeSet<u8> {
    let mut parties = BTreeSet::from([rule.head]);
    for price in rule.prices.iter() {
        parties.extend([price.giver, price.receiver]);
    }
    for condition in rule.conditions.iter() {
        match *condition {
            Condition::Group { party, .. } => parties.extend([party]),
            Condition::Issuer { left, right } => parties.extend([left, right]),
        }
    }
    parties
}

/// The approval that a filling makes of a rule, if it makes one.
fn approval(book: &Book, rule: &Rule, filling: &Filling) -> Option<Approval> {
    let conditions_hold = rule.conditions.iter().all(|condition| match condition {
        Condition::Group { bit, party } => book.card(filling[party]).groups & bit != 0,
        Condition::Issuer { left, right } => {
            book.card(filling[left]).issuer == book.card(filling[right]).issuer
        }
    });
    let head = [rule.owner, rule.kind, filling[&rule.head]];
    let prices: Multiset = rule
        .prices
        .iter()
        .map(|price| [filling[&price.giver], price.kind, filling[&price.receiver]])
        .collect();
    let differ = |&[giver, _, receiver]: &Transfer| giver != receiver;
    let others_pay = prices.iter().all(|&[giver, ..]| giver != rule.owner);
    (conditions_hold && differ(&head) && prices.iter().all(differ) && others_pay).then(|| {
        Approval {
            head,
            prices: sorted(prices),
        }
    })
}

fn sorted(mut transfers: Vec<Transfer>) -> Multiset {
    transfers.sort_unstable();
    transfers
}

/// What is left when the part is taken out, if it is contained in the whole.
fn minus(whole: &Multiset, part: &[Transfer]) -> Option<Multiset> {
    let mut left = whole.clone();
    for transfer in part {
        let place = left.iter().position(|other| other == transfer)?;
        left.remove(place);
    }
    Some(left)
}
