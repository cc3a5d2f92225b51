//! The ring of three, the swaps that document 01 lists, and tokens that are passed on, over the
//! plain engine and the decider.

use reference::book::{Book, Refusal, Transfer};
use reference::commands::Dialect;
use reference::decider::Decider;
use reference::engine::{self, slot, Engine, HOLDINGS, MAX_SUM};
use reference::{ring, search, till};

const RING: &str = "1 A 2, 2 B 3, 3 C 1";
const PAID: &str = "3 D 2, 1 B 3";
const PAID_TWICE: &str = "3 D 2, 1 B 3, 2 B 3";
const PAID_APART: &str = "3 D 2, 1 B 3, 2 B 3, 3 D 2";
const CROSSED: &str = "1 A 2, 2 D 1, 2 B 3, 3 D 2";

/// Ana, card 1, gives a stamp (A) for an egg token (C); Bram, card 2, an egg token for a stamp, and a
/// bread voucher (B) for an egg token; Cora, card 3, an egg token for a bread voucher. All three give
/// a D to anybody, and Ana an E.
const MARKET: &str = "C 700056000016
C 700012000019
C 700012000027
R 1 A a < a C *
R 2 C a < a A *
R 2 B a < a C *
R 3 C a < a B *
R 1 D a
R 2 D a
R 3 D a
R 1 E a
";
const SUPPLY: &str = "3 C 2, 2 B 3, 2 C 1, 1 A 2";

/// Reads `1 A 2, 2 B 3` into transfers.
fn transfers(text: &str) -> Vec<Transfer> {
    text.split(", ")
        .map(|transfer| match *transfer.as_bytes() {
            [giver, b' ', kind, b' ', receiver] => [giver - b'0', kind - b'A' + 1, receiver - b'0'],
            _ => panic!("{transfer} is no transfer"),
        })
        .collect()
}

/// A record from its chain, transfer and rule numbers and the cards for a, b and so on.
fn record(next: u8, transfer: u8, rule: u8, cards: &[u8]) -> Vec<u8> {
    let mut record = vec![next, transfer, rule, 0];
    record.extend(cards);
    record.resize(12, 0);
    record
}

fn open(text: &str) -> (Engine, Result<(), Refusal>) {
    Engine::open(text.as_bytes())
}

/// The ring's engine, with some of every kind for each card.
fn stocked(count: u32) -> Engine {
    let (mut engine, answer) = open(ring::BOOK);
    assert_eq!(answer, Ok(()));
    for card in 1..=3 {
        for kind in 1..=16 {
            assert_eq!(engine.issue(card, kind, count), Ok(()));
        }
    }
    engine
}

/// The proof that the search finds for an exchange over a book, which it does exactly if the decider
/// has it fair.
fn proof(text: &str, exchange: &str) -> Option<Vec<u8>> {
    let book = Book::read(text.as_bytes()).expect("the book opens");
    let exchange = transfers(exchange);
    let proof = search::proof(&book, &exchange);
    let fair = Decider::new(&book).fair(&exchange);
    assert_eq!(proof.is_some(), fair, "{exchange:?}");
    proof
}

fn settle(engine: &mut Engine, exchange: &str, proof: &[u8]) -> Result<(), Refusal> {
    engine.settle(&transfers(exchange).concat(), proof)
}

fn refused(number: u8, place: u32) -> Result<(), Refusal> {
    Err(Refusal { number, place })
}

/// Fair, and settled by a proof that the search finds.
fn assert_settles(exchange: &str) {
    let proof = proof(ring::BOOK, exchange).expect(exchange);
    assert_eq!(settle(&mut stocked(9), exchange, &proof), Ok(()));
}

fn assert_unfair(exchange: &str) {
    assert_eq!(proof(ring::BOOK, exchange), None, "{exchange}");
}

/// The engine's and the till's answer to a fair exchange over a book while such tokens are held as
/// `1 A, 2 B` lists; after it each transfer has moved one, or the refusal none.
fn settle_holding(text: &str, held: &str, exchange: &str) -> Result<(), Refusal> {
    let (mut engine, _) = open(text);
    for token in held.split_terminator(", ") {
        let [card, b' ', kind] = *token.as_bytes() else {
            panic!("{token} is no token");
        };
        let (card, kind) = (card - b'0', kind - b'A' + 1);
        assert_eq!(engine.issue(card.into(), kind.into(), 1), Ok(()));
    }
    let mut expected = *engine.holdings();
    let mut handed_in = expected;
    let proof = proof(text, exchange).expect(exchange);
    let answer = settle(&mut engine, exchange, &proof);
    let transfers = transfers(exchange);
    let number = till::call(text.as_bytes(), &mut handed_in, &transfers.concat(), &proof);
    assert_eq!(number, till::number(answer));
    if answer.is_ok() {
        for &[_, kind, receiver] in &transfers {
            expected[slot(receiver, kind)] += 1;
        }
        for &[giver, kind, _] in &transfers {
            expected[slot(giver, kind)] -= 1;
        }
    }
    assert_eq!(*engine.holdings(), expected, "{held}: {exchange}");
    assert_eq!(handed_in, expected, "{held}: {exchange}");
    answer
}

#[test]
fn ring_whole() {
    for dialect in Dialect::ALL {
        let output = dialect.output(Some(ring::BOOK.as_bytes()), ring::INPUT.as_bytes());
        assert_eq!(String::from_utf8(output).as_deref(), Ok(ring::OUTPUT));
    }
}

#[test]
fn p1_p2_check_digit() {
    assert_eq!(open("C 700012000019\n").1, Ok(()));
    assert_eq!(open("C 700012000018\n").1, refused(4, 1));
}

#[test]
fn p3_ring_is_fair() {
    assert_settles(RING);
}

#[test]
fn p4_broken_ring_is_unfair() {
    assert_unfair("1 A 2, 2 B 3");
}

#[test]
fn p5_paid_is_fair() {
    assert_settles(PAID);
}

#[test]
fn p6_one_token_pays_twice() {
    assert_unfair(PAID_TWICE);
    let proof = [
        record(2, 1, 5, &[2, 2]),
        record(3, 2, 6, &[3, 2]),
        record(0, 3, 4, &[3]),
    ]
    .concat();
    let mut engine = stocked(9);
    assert_eq!(settle(&mut engine, PAID_TWICE, &proof), refused(21, 0));
    assert_eq!(engine.holdings(), stocked(9).holdings());
}

#[test]
fn p7_second_token_pays() {
    assert_settles(PAID_APART);
}

#[test]
fn p8_what_comes_in_is_passed_on() {
    for (held, answer) in [
        ("1 A, 2 B, 3 D", Ok(())),
        ("1 A, 2 B, 2 D, 3 D", Ok(())),
        ("1 A, 2 B", refused(22, 0)),
        ("1 A, 2 B, 2 D", refused(22, 0)),
        ("1 A, 3 D", refused(22, 0)),
    ] {
        assert_eq!(settle_holding(ring::BOOK, held, CROSSED), answer, "{held}");
    }
}

#[test]
fn p9_condition_fails() {
    assert_unfair("2 B 1");
    let answer = settle(&mut stocked(9), "2 B 1", &record(0, 1, 4, &[1]));
    assert_eq!(answer, refused(19, 1));
}

#[test]
fn p10_owner_pays_itself() {
    assert_unfair("1 A 2");
    let answer = settle(&mut stocked(9), "1 A 2", &record(0, 1, 1, &[2, 1]));
    assert_eq!(answer, refused(18, 1));
}

#[test]
fn p11_empty_text_opens() {
    let (engine, answer) = open("");
    assert_eq!(answer, Ok(()));
    assert!(engine.book().cards.is_empty() && engine.book().rules.is_empty());
    for dialect in Dialect::ALL {
        assert_eq!(dialect.output(Some(b""), b"H 1 1\n"), b"book 0 0\n8 0\n");
    }
}

#[test]
fn p12_card_twice() {
    let (engine, answer) = open("C 700012000019\nC 700012000019\n");
    assert_eq!(answer, refused(5, 2));
    assert!(engine.book().cards.is_empty());
}

#[test]
fn longest_exchange() {
    let mut exchange = vec![RING; 10];
    exchange.push(PAID);
    let full = exchange.join(", ");
    let mut engine = stocked(99);
    let proof = proof(ring::BOOK, &full).expect("fair exchanges together are fair");
    assert_eq!(transfers(&full).concat().len(), 96);
    assert_eq!(settle(&mut engine, &full, &proof), Ok(()));
    assert_eq!(engine.holding(1, 1), Ok(89));
    let longer = format!("{full}, 1 A 2");
    assert_eq!(settle(&mut engine, &longer, &proof), refused(12, 0));
}

#[test]
fn largest_sum() {
    let (mut engine, _) = open(ring::BOOK);
    assert_eq!(engine.issue(1, 1, 999_999_999), Ok(()));
    assert_eq!(engine.issue(2, 1, 1), Ok(()));
    assert_eq!(engine.issue(3, 1, 1), refused(10, 0));
    assert_eq!(engine.issue(3, 2, 1_000_000_001), refused(10, 0));
    assert_eq!(engine.issue(3, 1, 0), Ok(()));
    assert_eq!(engine.redeem(2, 1, 1), Ok(()));
    assert_eq!(engine.issue(3, 1, 1), Ok(()));
}

#[test]
fn one_record_claims_one_of_two_equal_transfers() {
    let one = record(0, 1, 1, &[2, 3]);
    let answer = settle(&mut stocked(9), "1 A 2, 1 A 2", &one);
    assert_eq!(answer, refused(20, 1));
}

#[test]
fn chain_that_comes_back() {
    let back = record(1, 1, 1, &[2, 3]);
    let answer = settle(&mut stocked(9), "1 A 2, 1 A 2", &back);
    assert_eq!(answer, refused(15, 1));
}

#[test]
fn who_pays_needs_a_rule_too() {
    // Card 3 pays D for A, but wants B for its D, and nobody gives it any.
    assert_unfair("1 A 2, 3 D 1");
}

#[test]
fn receipts_count_for_their_card_and_kind() {
    let short = refused(22, 0);
    for (held, exchange, answer) in [
        ("1 A, 2 B, 3 C", SUPPLY, Ok(())),
        ("1 A, 2 B", SUPPLY, short),
        // The gift is listed after the receipt, and before it.
        ("1 D", "1 D 2, 2 D 3", Ok(())),
        ("1 D", "2 D 3, 1 D 2", Ok(())),
        // One receipt is passed on twice.
        ("1 D", "1 D 2, 2 D 3, 2 D 1", short),
        ("1 D", "2 D 3, 1 D 2, 2 D 3", short),
        ("1 D, 2 D", "2 D 3, 1 D 2, 2 D 3", Ok(())),
        // A token that nobody holds goes round a ring, and nowhere else.
        ("", "1 D 2, 2 D 3, 3 D 1", Ok(())),
        ("", "3 D 1, 2 D 3, 1 D 2, 2 D 1", short),
        ("", "1 D 2, 2 D 3", short),
        // Receipts of another kind or another card do not help.
        ("1 E", "1 E 2, 2 D 3", short),
        ("1 D", "1 D 3, 2 D 3", short),
        ("1 D", "1 D 3, 2 D 1", short),
        ("3 D", "2 D 3", short),
    ] {
        let given = settle_holding(MARKET, held, exchange);
        assert_eq!(given, answer, "{held}: {exchange}");
    }
}

#[test]
fn holding_plus_received_is_at_least_given() {
    for (held, received) in (0..4).flat_map(|held| (0..4).map(move |received| (held, received))) {
        for given in 1..8 {
            let tokens = [vec!["2 D"; held], vec!["1 D"; received]].concat();
            let mut transfers = [vec!["1 D 2"; received], vec!["2 D 3"; given]].concat();
            let expected = match held + received >= given {
                true => Ok(()),
                false => refused(22, 0),
            };
            for _ in 0..2 {
                let answer = settle_holding(MARKET, &tokens.join(", "), &transfers.join(", "));
                assert_eq!(answer, expected, "{held}: {transfers:?}");
                transfers.reverse();
            }
        }
    }
}

/// Holdings are handed in here, as no call comes to more than 1,000,000,000 of a kind.
#[test]
fn who_lacks_a_token_is_asked_before_who_has_too_many() {
    let book = Book::read(MARKET.as_bytes()).expect("the book opens");
    for (held, exchange, answer) in [
        (0, "1 D 2", refused(22, 0)),
        (1, "1 D 2", refused(23, 0)),
        (1, "1 D 2, 2 D 3", Ok(())),
        (1, "2 D 3, 1 D 2", Ok(())),
    ] {
        let mut holdings = [0; HOLDINGS];
        holdings[slot(1, 4)] = held;
        holdings[slot(2, 4)] = MAX_SUM;
        let before = holdings;
        let proof = proof(MARKET, exchange).expect(exchange);
        let transfers = transfers(exchange).concat();
        let given = engine::settle(&book, &mut holdings, &transfers, &proof);
        assert_eq!(given, answer, "{exchange}");
        assert_eq!(holdings == before, answer.is_err(), "{exchange}");
    }
}
