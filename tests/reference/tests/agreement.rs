//! The parts set beside each other over generated input.

use reference::book::{Book, Refusal, MAX_TEXT};
use reference::commands::{Dialect, Session};
use reference::decider::Decider;
use reference::engine::{Engine, HOLDINGS, MAX_SUM};
use reference::generate::{self, long_settlement, Giver, Part, Settlement, Swap, Transcript};
use reference::random::Random;
use reference::{ring, search, till};
use std::collections::BTreeSet;

/// Issues so many tokens of its kind to a giver.
fn issue(engine: &mut Engine, giver: &Giver, count: u32) {
    let answer = engine.issue(giver.card.into(), giver.kind.into(), count);
    assert_eq!(answer, Ok(()));
}

#[test]
fn some_proof_settles_exactly_the_fair_and_covered() {
    let mut counts = [0; 2];
    for case in 0..200 {
        let random = &mut Random::new(7, case);
        let text = generate::small(random);
        let (engine, _) = Engine::open(&text);
        let decider = Decider::new(engine.book());
        for _ in 0..4 {
            let exchange = generate::small_exchange(engine.book(), random);
            let fair = decider.fair(&exchange);
            let proof = search::proof(engine.book(), &exchange);
            assert_eq!(fair, proof.is_some(), "{}", text.escape_ascii());
            counts[usize::from(fair)] += 1;
            let Some(proof) = proof else { continue };
            let mut engine = engine.clone();
            for giver in Giver::all(&exchange) {
                for _ in 0..giver.least() {
                    let answer = engine.settle(&exchange.concat(), &proof);
                    assert_eq!(answer, Err(Refusal::plain(22)));
                    issue(&mut engine, &giver, 1);
                }
            }
            assert_eq!(engine.settle(&exchange.concat(), &proof), Ok(()));
        }
    }
    assert!(counts.iter().all(|&count| count > 100), "{counts:?}");
}

#[test]
fn till_answers_as_the_engine_does() {
    let mut settled = 0;
    for case in 0..2_000 {
        let random = &mut Random::new(8, case);
        let text = generate::valid(random);
        let (mut engine, _) = Engine::open(&text);
        let swap = Swap::some(engine.book(), random);
        let settlement = match &swap {
            Some(swap) => {
                for giver in Giver::all(&swap.transfers) {
                    let least = giver.least();
                    let held = random.pick(&[giver.given, least, least, least.saturating_sub(1)]);
                    issue(&mut engine, &giver, held);
                }
                let mut settlement = swap.settlement(random);
                if random.one_in(2) {
                    settlement.damage(engine.book(), random);
                }
                settlement
            }
            None => Settlement::noise(random),
        };
        let Settlement { exchange, proof } = settlement;
        let mut holdings = *engine.holdings();
        let answer = till::call(&text, &mut holdings, &exchange, &proof);
        let expected = engine.settle(&exchange, &proof);
        assert_eq!(answer, till::number(expected));
        assert_eq!(holdings, *engine.holdings());
        settled += u32::from(answer == 0);
    }
    assert!(settled > 300, "{settled}");
}

#[test]
fn receipts_have_each_part_in_generated_swaps() {
    let mut counts = [0; Part::ALL.len()];
    for case in 0..2_000 {
        let random = &mut Random::new(14, case);
        let (mut engine, _) = Engine::open(&generate::valid(random));
        let Some(swap) = Swap::some(engine.book(), random) else {
            continue;
        };
        let givers = Giver::all(&swap.transfers);
        let held = match random.below(2) {
            0 => givers.iter().map(Giver::least).collect(),
            _ => generate::one_short(&givers, random),
        };
        for (giver, count) in givers.iter().zip(held) {
            issue(&mut engine, giver, count);
        }
        let Some(part) = Part::of(engine.holdings(), &swap.transfers) else {
            continue;
        };
        let Settlement { exchange, proof } = swap.settlement(random);
        let answer = engine.settle(&exchange, &proof);
        assert_eq!(till::number(answer), part.answer(), "{exchange:?}");
        counts[part as usize] += 1;
    }
    assert!(counts.iter().all(|&count| count > 30), "{counts:?}");
}

#[test]
fn till_asks_about_holdings_between_text_and_exchange() {
    let text = ring::BOOK.as_bytes();
    let call = |text: &[u8], holdings: &mut [u32]| till::call(text, holdings, &[], &[]);
    let mut holdings = [0; HOLDINGS + 1];
    assert_eq!(call(text, &mut holdings[..HOLDINGS]), 12);
    assert_eq!(call(text, &mut holdings), 24);
    assert_eq!(call(text, &mut holdings[..HOLDINGS - 1]), 24);
    assert_eq!(call(b"C 1\n", &mut holdings), 4);

    holdings[3 * 16] = 1;
    assert_eq!(call(text, &mut holdings[..HOLDINGS]), 24);
    holdings[3 * 16] = 0;
    holdings[2 * 16 + 15] = MAX_SUM;
    assert_eq!(call(text, &mut holdings[..HOLDINGS]), 12);
    holdings[15] = 1;
    assert_eq!(call(text, &mut holdings[..HOLDINGS]), 24);
    holdings[15] = u32::MAX;
    assert_eq!(call(text, &mut holdings[..HOLDINGS]), 24);
}

#[test]
fn pieces_of_input_change_nothing() {
    for case in 0..100 {
        let random = &mut Random::new(9, case);
        let transcript = Transcript::some(random);
        let size = random.pick(&[1, 7, 8_191, 8_192, 40_959, 40_960]);
        for dialect in Dialect::ALL {
            let mut out = Vec::new();
            if let Some(mut session) = Session::open(dialect, transcript.book.text(), &mut out) {
                for piece in transcript.input.chunks(size) {
                    session.feed(piece, &mut out);
                }
                session.finish(&mut out);
            }
            assert_eq!(out, transcript.expected(dialect));
        }
    }
}

#[test]
fn tables_have_lines_at_each_limit() {
    let transcripts = Transcript::every(&mut Random::new(11, 0));
    for limit in [8_192, 40_960] {
        for length in limit - 1..=limit + 1 {
            let line = long_settlement(length);
            let has = |transcript: &Transcript| {
                let mut lines = transcript.input.split(|&byte| byte == b'\n');
                lines.any(|other| other == line)
            };
            assert!(transcripts.iter().any(has), "{length}");
        }
    }
}

#[test]
fn tables_have_hyphens_in_each_answer() {
    let transcripts = Transcript::every(&mut Random::new(12, 0));
    let texts = transcripts.iter().filter_map(|case| case.book.text());
    let hyphened = texts.filter(|text| generate::hyphened(text));
    let answers: BTreeSet<_> = hyphened
        .map(|text| till::number(Book::read(text)))
        .collect();
    assert_eq!(answers, BTreeSet::from([0, 1, 2, 3, 4, 5]));
}

/// Where a text is refused for its size or a line's form, its hyphens may be why; nowhere else.
#[test]
fn without_its_hyphens_a_text_is_answered_the_same() {
    let mut counts = [0; 8];
    for case in 0..4_000 {
        let random = &mut Random::new(13, case);
        let text = match random.below(3) {
            0 => generate::valid(random),
            1 => generate::limits(random),
            _ => generate::damaged(random),
        };
        let answer = |text: &[u8]| Book::read(text).map(|book| book.cards);
        let number = till::number(answer(&text));
        if generate::hyphened(&text) {
            counts[usize::from(number)] += 1;
        }
        if number == 1 || number == 2 {
            continue;
        }
        let mut bare = text.clone();
        bare.retain(|&byte| byte != b'-');
        assert_eq!(answer(&text), answer(&bare), "{}", text.escape_ascii());
    }
    let met = counts.map(|count| count >= 20);
    assert_eq!(met, [true, true, true, true, true, true, false, false]);
}

#[test]
fn generated_books_are_what_they_are_called() {
    let mut limits = [0; 8];
    let mut longest = 0;
    for case in 0..4_000 {
        let random = &mut Random::new(10, case);
        assert!(Book::read(&generate::valid(random)).is_ok());
        let text = generate::limits(random);
        match Book::read(&text) {
            Ok(_) => longest = longest.max(text.len()),
            Err(refusal) => limits[usize::from(refusal.number)] += 1,
        }
    }
    assert_eq!(longest, MAX_TEXT);
    // Whatever is at a limit has a form, so only question 2 is never refused.
    let never: Vec<_> = (1..8).filter(|&number| limits[number] == 0).collect();
    assert_eq!(never, [2]);
}

#[test]
fn book_that_does_not_open_ends_the_run() {
    for dialect in Dialect::ALL {
        let output = |book| dialect.output(book, b"H 1 1\n");
        assert_eq!(output(None), b"bad\n");
        assert_eq!(output(Some(b"X\n")), b"2 1\n");
        assert_eq!(output(Some(&[b'X'; MAX_TEXT + 1])), b"1 0\n");
    }
}
