//! Holdings, and the calls that change or tell them (questions 8 to 23).

use crate::book::{Book, Condition, Refusal, Rule, Transfer, KINDS, MAX_CARDS, OWNER, VARIABLES};

/// Number of holdings: every card by every kind.
pub const HOLDINGS: usize = MAX_CARDS * KINDS;
/// Most tokens of a kind that all cards together may hold.
pub const MAX_SUM: u32 = 1_000_000_000;

/// All holdings; card m, kind k is at (m - 1) * 16 + k - 1.
pub type Holdings = [u32; HOLDINGS];
/// One record of a proof.
pub type Record = [u8; 12];
/// The cards of a rule's parties: those for a to h, then the owner.
pub type Parties = [u8; VARIABLES + 1];

/// The engine: what was opened, what every card holds, and the sum of every kind.
#[derive(Clone, Debug)]
pub struct Engine {
    book: Book,
    holdings: Holdings,
    sums: [u32; KINDS],
}

impl Engine {
    /// Opens a rule text; a refused one yields the engine of the empty text.
    pub fn open(text: &[u8]) -> (Engine, Result<(), Refusal>) {
        let (book, answer) = match Book::read(text) {
            Ok(book) => (book, Ok(())),
            Err(refusal) => (Book::default(), Err(refusal)),
        };
        let engine = Engine {
            book,
            holdings: [0; HOLDINGS],
            sums: [0; KINDS],
        };
        (engine, answer)
    }

    pub fn book(&self) -> &Book {
        &self.book
    }

    pub fn holdings(&self) -> &Holdings {
        &self.holdings
    }

    pub fn issue(&mut self, card: u32, kind: u32, count: u32) -> Result<(), Refusal> {
        let slot = self.slot(card, kind)?;
        let sum = &mut self.sums[slot % KINDS];
        if count > MAX_SUM - *sum {
            return Err(Refusal::plain(10));
        }
        *sum += count;
        self.holdings[slot] += count;
        Ok(())
    }

    pub fn redeem(&mut self, card: u32, kind: u32, count: u32) -> Result<(), Refusal> {
        let slot = self.slot(card, kind)?;
        let held = &mut self.holdings[slot];
        if count > *held {
            return Err(Refusal::plain(11));
        }
        *held -= count;
        self.sums[slot % KINDS] -= count;
        Ok(())
    }

    pub fn holding(&self, card: u32, kind: u32) -> Result<u32, Refusal> {
        Ok(self.holdings[self.slot(card, kind)?])
    }

    /// Settles an exchange; the sums stay, as transfers only move tokens between cards.
    pub fn settle(&mut self, exchange: &[u8], proof: &[u8]) -> Result<(), Refusal> {
        settle(&self.book, &mut self.holdings, exchange, proof)
    }

    fn slot(&self, card: u32, kind: u32) -> Result<usize, Refusal> {
        if !self.book.declares(card) {
            return Err(Refusal::plain(8));
        }
        if !(1..=KINDS as u32).contains(&kind) {
            return Err(Refusal::plain(9));
        }
        Ok(slot(card as u8, kind as u8))
    }
}

/// Questions 12 to 23, and on none refused the move itself.
pub fn settle(
    book: &Book,
    holdings: &mut Holdings,
    exchange: &[u8],
    proof: &[u8],
) -> Result<(), Refusal> {
    let transfers = read_exchange(book, exchange)?;
    let records = read_proof(proof)?;
    judge(book, transfers, records)?;
    move_tokens(holdings, transfers)
}

/// Questions 16 to 19 on a record that claims the transfer; the refusal's number is answered.
pub fn check_record<'b>(
    book: &'b Book,
    transfer: &Transfer,
    record: &Record,
) -> Result<(&'b Rule, Parties), u8> {
    let [giver, kind, receiver] = *transfer;
    let [_, _, rule, zero, cards @ ..] = record;
    let rule = book
        .rules
        .get(usize::from(*rule).wrapping_sub(1))
        .filter(|rule| rule.owner == giver && rule.kind == kind)
        .ok_or(16)?;

    let mut in_order = *zero == 0 && cards[usize::from(rule.head)] == receiver;
    for (variable, &card) in cards.iter().enumerate() {
        let used = rule.used >> variable & 1 == 1;
        in_order &= if used {
            book.declares(card.into())
        } else {
            card == 0
        };
    }
    if !in_order {
        return Err(17);
    }

    let mut parties = [giver; VARIABLES + 1];
    parties[..VARIABLES].copy_from_slice(cards);
    let card_of = |party: u8| parties[usize::from(party)];
    for price in rule.prices.iter() {
        let giver = card_of(price.giver);
        if giver == card_of(price.receiver) || giver == card_of(OWNER) {
            return Err(18);
        }
    }
    for condition in rule.conditions.iter() {
        let holds = match *condition {
            Condition::Group { bit, party } => book.card(card_of(party)).groups & bit != 0,
            Condition::Issuer { left, right } => {
                book.card(card_of(left)).issuer == book.card(card_of(right)).issuer
            }
        };
        if !holds {
            return Err(19);
        }
    }
    Ok((rule, parties))
}

/// The transfers that a rule's prices ask for.
pub fn prices<'r>(rule: &'r Rule, parties: &'r Parties) -> impl Iterator<Item = Transfer> + 'r {
    rule.prices.iter().map(|price| {
        [
            parties[usize::from(price.giver)],
            price.kind,
            parties[usize::from(price.receiver)],
        ]
    })
}

/// Questions 12 and 13.
fn read_exchange<'e>(book: &Book, exchange: &'e [u8]) -> Result<&'e [Transfer], Refusal> {
    let (transfers, rest) = exchange.as_chunks();
    if !(1..=32).contains(&transfers.len()) || !rest.is_empty() {
        return Err(Refusal::plain(12));
    }
    for (place, &[giver, kind, receiver]) in (1..).zip(transfers) {
        let good = book.declares(giver.into())
            && book.declares(receiver.into())
            && giver != receiver
            && (1..=KINDS as u8).contains(&kind);
        if !good {
            return Err(Refusal { number: 13, place });
        }
    }
    Ok(transfers)
}

/// Question 14.
fn read_proof(proof: &[u8]) -> Result<&[Record], Refusal> {
    let (records, rest) = proof.as_chunks();
    if !(1..=255).contains(&records.len()) || !rest.is_empty() {
        return Err(Refusal::plain(14));
    }
    Ok(records)
}

/// Questions 15 to 21. Every record followed claims one more transfer, so the chain ends.
fn judge(book: &Book, transfers: &[Transfer], records: &[Record]) -> Result<(), Refusal> {
    let all = u32::MAX >> (32 - transfers.len());
    let mut unclaimed = all;
    let mut unasked = Some(all);
    let mut number = 1;
    loop {
        let record = &records[number - 1];
        let refuse = |question| {
            Err(Refusal {
                number: question,
                place: number as u32,
            })
        };
        let claimed = usize::from(record[1]).wrapping_sub(1);
        if claimed >= transfers.len() || unclaimed >> claimed & 1 == 0 {
            return refuse(15);
        }
        unclaimed &= !(1 << claimed);
        let (rule, parties) = match check_record(book, &transfers[claimed], record) {
            Ok(checked) => checked,
            Err(question) => return refuse(question),
        };
        // 21 is asked after the whole chain, so a price that finds no transfer is only noted.
        for price in prices(rule, &parties) {
            unasked = unasked.and_then(|left| ask(transfers, left, price));
        }
        match (unclaimed, usize::from(record[0])) {
            (0, 0) => break,
            (1.., next) if (1..=records.len()).contains(&next) => number = next,
            _ => return refuse(20),
        }
    }
    unasked.map(|_| ()).ok_or(Refusal::plain(21))
}

/// Marks one equal transfer among those not asked yet; none is left if it is asked too often.
fn ask(transfers: &[Transfer], unasked: u32, price: Transfer) -> Option<u32> {
    let mut left = unasked;
    while left != 0 {
        if transfers[left.trailing_zeros() as usize] == price {
            let found = left & left.wrapping_neg();
            return Some(unasked & !found);
        }
        left &= left - 1;
    }
    None
}

/// Questions 22 and 23. All receipts are added before any gift is taken, so that a card can pass on
/// what the exchange itself brings; a refusal puts everything back. Nothing wraps, as no holding is
/// over `MAX_SUM` before.
fn move_tokens(holdings: &mut Holdings, transfers: &[Transfer]) -> Result<(), Refusal> {
    for &[_, kind, receiver] in transfers {
        holdings[slot(receiver, kind)] += 1;
    }
    for (taken, &[giver, kind, _]) in transfers.iter().enumerate() {
        let held = &mut holdings[slot(giver, kind)];
        if *held == 0 {
            put_back(holdings, transfers, taken);
            return Err(Refusal::plain(22));
        }
        *held -= 1;
    }
    // Only a receiver can have grown.
    let within = |&[_, kind, receiver]: &Transfer| holdings[slot(receiver, kind)] <= MAX_SUM;
    if !transfers.iter().all(within) {
        put_back(holdings, transfers, transfers.len());
        return Err(Refusal::plain(23));
    }
    Ok(())
}

/// Undoes so many gifts, and all receipts.
fn put_back(holdings: &mut Holdings, transfers: &[Transfer], taken: usize) {
    for &[giver, kind, _] in &transfers[..taken] {
        holdings[slot(giver, kind)] += 1;
    }
    for &[_, kind, receiver] in transfers {
        holdings[slot(receiver, kind)] -= 1;
    }
}

/// Where a card's tokens of a kind are among the holdings.
pub fn slot(card: u8, kind: u8) -> usize {
    (usize::from(card) - 1) * KINDS + usize::from(kind) - 1
}
