//! The till host's one call: everything is in its arguments, nothing is kept.

use crate::book::{Book, Refusal, KINDS};
use crate::engine::{settle, Holdings, MAX_SUM};

/// Answers 0 or a refusal number, and rewrites the holdings only on 0.
pub fn call(text: &[u8], holdings: &mut [u32], exchange: &[u8], proof: &[u8]) -> u8 {
    let book = match Book::read(text) {
        Ok(book) => book,
        Err(refusal) => return refusal.number,
    };
    let Ok(holdings) = <&mut Holdings>::try_from(holdings) else {
        return 24;
    };
    if !in_order(&book, holdings) {
        return 24;
    }
    number(settle(&book, holdings, exchange, proof))
}

/// 0, or the refusal's number.
pub fn number<T>(answer: Result<T, Refusal>) -> u8 {
    answer.map_or_else(|refusal| refusal.number, |_| 0)
}

/// Whether undeclared cards hold nothing and no kind passes the most that it may sum to.
fn in_order(book: &Book, holdings: &Holdings) -> bool {
    let (declared, undeclared) = holdings.split_at(book.cards.len() * KINDS);
    let mut sums = [0u64; KINDS];
    for (slot, &held) in declared.iter().enumerate() {
        sums[slot % KINDS] += u64::from(held);
    }
    undeclared.iter().all(|&held| held == 0) && sums.iter().all(|&sum| sum <= u64::from(MAX_SUM))
}
