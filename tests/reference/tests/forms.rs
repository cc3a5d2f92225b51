//! Tables of rule texts, command lines and proofs with the answers that they must get.

use reference::book::{passes_luhn, Book, Refusal, MAX_CARDS, MAX_TEXT};
use reference::commands::Dialect;
use reference::engine::Engine;
use reference::generate::long_settlement;
use reference::ring;

const CARD: &str = "C 700012000019\n";

/// The refusal's number and place, or zeros for a text that opens.
fn opening(text: &[u8]) -> (u8, u32) {
    match Book::read(text) {
        Ok(_) => (0, 0),
        Err(Refusal { number, place }) => (number, place),
    }
}

/// Asks of each line, in a text after the card's, which number it is refused with, or 0.
fn check_second_lines(table: &[(&[u8], u8)]) {
    for &(line, number) in table {
        let text = [CARD.as_bytes(), line].concat();
        let place = if number == 0 { 0 } else { 2 };
        assert_eq!(opening(&text), (number, place), "{}", line.escape_ascii());
    }
}

#[test]
fn second_lines() {
    check_second_lines(&[
        (b"C 700056000016\n", 0),
        (b"C 700056000016", 2),
        (b"C 700056000016\r\n", 2),
        (b"C  700056000016\n", 2),
        (b"C 70005600001\n", 4),
        (b"C 0\n", 4),
        (b"C \n", 2),
        (b"C\n", 2),
        (b"C 7000120000190\n", 4),
        (b"C 7000120000198\n", 0),
        (b"\n", 2),
        (b"G 1 1\n", 0),
        (b"G 8 1\n", 0),
        (b"G 0 1\n", 2),
        (b"G 9 1\n", 2),
        (b"G 1 0\n", 2),
        (b"G 1 00\n", 2),
        (b"G 1 01\n", 2),
        (b"G 1 100\n", 2),
        (b"G 1 2\n", 6),
        (b"G 1 33\n", 6),
        (b"G 1 99\n", 6),
        (b"R 2 A a\n", 6),
        (b"R 1 A a\n", 0),
        (b"R 1 P h\n", 0),
        (b"R 1 Q a\n", 2),
        (b"R 1 A i\n", 2),
        (b"R 1 A *\n", 2),
        (b"R 1 A a \n", 2),
        (b"R 1 A a < b B *\n", 0),
        (b"R 1 A a < b B a\n", 0),
        (b"R 1 A a < b B b\n", 2),
        (b"R 1 A a < * B b\n", 2),
        (b"R 1 A a < b B * < b B * < b B * < b B *\n", 0),
        (b"R 1 A a < b B * < b B * < b B * < b B * < b B *\n", 2),
        (b"R 1 A a ? 8 a = a a = * * ? 1 *\n", 0),
        (b"R 1 A a ? 8 a = a a = * * ? 1 * ? 1 *\n", 2),
        (b"R 1 A a ? 1 a < b B *\n", 2),
        (b"R 1 A a ? 9 a\n", 2),
        (b"R 1 A a = a\n", 2),
        (b"R 1 A \xe1\n", 2),
    ]);
}

#[test]
fn printed_groups() {
    check_second_lines(&[
        (b"C 7000-5600-0016\n", 0),
        (b"C 7-00056000016\n", 0),
        (b"C 70005600001-6\n", 0),
        (b"C 7-0-0-0-5-6-0-0-0-0-1-6\n", 0),
        (b"C 7000120000000000008\n", 0),
        (b"C 7-0-0-0-1-2-0-0-0-0-0-0-0-0-0-0-0-0-8\n", 0),
        (b"C 7000-1200-0019\n", 5),
        (b"C 7-0-0-0-1-2-0-0-0-0-1-9\n", 5),
        (b"C 7000-1200-0018\n", 4),
        (b"C 7000-5600-0017\n", 4),
        (b"C 0-0\n", 4),
        (b"C 7000-5600-005\n", 4),
        (b"C 7-0-0-0-5-6-0-0-0-0-5\n", 4),
        (b"C 7000-1200-0000-0000-0001\n", 4),
        (b"C 7000-1200-0000-0000-0084\n", 4),
        (b"C 7-0-0-0-1-2-0-0-0-0-0-0-0-0-0-0-0-0-0-1\n", 4),
        (b"C -\n", 2),
        (b"C -", 2),
        (b"C --\n", 2),
        (b"C  -\n", 2),
        (b"C - \n", 2),
        (b"C-\n", 2),
        (b"C -7\n", 2),
        (b"C 7-\n", 2),
        (b"C -7000-5600-0016\n", 2),
        (b"C -700056000016\n", 2),
        (b"C 7000-5600-0016-\n", 2),
        (b"C 700056000016-\n", 2),
        (b"C 700056000016-", 2),
        (b"C 7000--5600-0016\n", 2),
        (b"C 7000-5600--0016\n", 2),
        (b"C 7000---5600-0016\n", 2),
        (b"C- 7000-5600-0016\n", 2),
        (b"C-7000-5600-0016\n", 2),
        (b"-C 7000-5600-0016\n", 2),
        (b"C  7000-5600-0016\n", 2),
        (b"C 7000 -5600-0016\n", 2),
        (b"C 7000- 5600-0016\n", 2),
        (b"C 7000-5600-0016 \n", 2),
        (b"C 7000-5600-0016\r\n", 2),
        (b"C 7000-5600-0016", 2),
        (b"C 7000-5600-\n0016\n", 2),
        // Its eight digits are a card line, and the hyphen is the next line's.
        (b"C 7000-5600\n-0016\n", 4),
        (b"C 7000,5600,0016\n", 2),
        (b"C 7000.5600.0016\n", 2),
        (b"C 7000\xad5600\xad0016\n", 2),
        (b"C 7000\xe2\x80\x935600\xe2\x80\x930016\n", 2),
        (b"G -1 1\n", 2),
        (b"G 1-1\n", 2),
        (b"G 1 -1\n", 2),
        (b"G 1 1-\n", 2),
        (b"G 1 1-0\n", 2),
        (b"R -1 A a\n", 2),
        (b"R 1- A a\n", 2),
        (b"R 1-0 A a\n", 2),
        (b"R 1-A-a\n", 2),
        (b"R 1 A a-\n", 2),
    ]);
}

#[test]
fn repeated_in_another_print() {
    let prints = [
        "C 700012000019\n",
        "C 7000-1200-0019\n",
        "C 7-0-0-0-1-2-0-0-0-0-1-9\n",
    ];
    for first in prints {
        for second in prints {
            let text = [first, second].concat();
            assert_eq!(opening(text.as_bytes()), (5, 2), "{text}");
        }
    }
}

#[test]
fn thirty_third_in_printed_groups() {
    let cards: String = (1..=MAX_CARDS).map(numbered_card).collect();
    assert_eq!(opening(cards.as_bytes()), (0, 0));
    let table = [
        ("C 7000-5600-0016\n", 3),
        ("C 7000-5600-0017\n", 3),
        ("C 7-0\n", 3),
        ("C 7000-5600-0016-\n", 2),
        ("C 7000--5600-0016\n", 2),
        ("C 7000-5600-0016", 2),
    ];
    for (line, number) in table {
        let text = format!("{cards}{line}");
        assert_eq!(opening(text.as_bytes()), (number, 33), "{line}");
    }
}

/// A card line in printed groups, of a number that has the card's in it.
fn numbered_card(card: usize) -> String {
    let check = |check: &usize| passes_luhn(format!("7000120{card:04}{check}").as_bytes());
    let check = (0..10).find(check).expect("one of ten is right");
    format!("C 7000-120{}-{:03}{check}\n", card / 1_000, card % 1_000)
}

#[test]
fn long_card_lines() {
    let hyphens = "-7".repeat(4_500);
    let table = [
        (format!("C 7{hyphens}\n"), 4),
        (format!("C {}\n", "7".repeat(9_000)), 4),
        (format!("C {}{hyphens}\n", "7".repeat(5_000)), 4),
        (format!("C 7{hyphens}-\n"), 2),
        (format!("C 7-{hyphens}\n"), 2),
        (format!("C {hyphens}\n"), 2),
        (format!("C 7{hyphens}"), 2),
        (format!("C {}\n", "-".repeat(9_000)), 2),
    ];
    for (line, number) in table {
        let text = format!("{CARD}{line}");
        assert_eq!(opening(text.as_bytes()), (number, 2));
    }
}

#[test]
fn hyphens_are_bytes_of_the_text() {
    let table = [
        ("C 700012000019\n", 16_383, (0, 0)),
        ("C 7000-12000019\n", 16_384, (0, 0)),
        ("C 7000-1200-0019\n", 16_385, (1, 0)),
    ];
    for (card, bytes, expected) in table {
        let text = format!("{card}{}", "G 1 1\n".repeat(2_728));
        assert_eq!(text.len(), bytes);
        assert_eq!(opening(text.as_bytes()), expected, "{card}");
    }
    // One line of the most bytes, and with one of its digits in a printed group of its own.
    let line = format!("C {}\n", "7".repeat(MAX_TEXT - 3));
    assert_eq!(opening(line.as_bytes()), (4, 1));
    let longer = line.replacen("C 7", "C 7-", 1);
    assert_eq!(opening(longer.as_bytes()), (1, 0));
}

#[test]
fn ring_in_printed_groups() {
    let printed = ring::BOOK
        .replace("C 700056000016", "C 7000-5600-0016")
        .replace("C 700012000019", "C 7-0-0-0-1-2-0-0-0-0-1-9")
        .replace("C 700012000027", "C 70001200002-7");
    assert_eq!(printed.matches('-').count(), 14);
    let cards = |text: &str| Book::read(text.as_bytes()).map(|book| book.cards);
    assert_eq!(cards(&printed), cards(ring::BOOK));
    for dialect in Dialect::ALL {
        let output = dialect.output(Some(printed.as_bytes()), ring::INPUT.as_bytes());
        assert_eq!(output, ring::OUTPUT.as_bytes());
    }
}

#[test]
fn issuer_without_its_hyphens() {
    let text = "C 7-0-0-0-1-2000019\nC 700012000027\nC 7000-5600-0016\nR 1 A a = a *\n";
    let (mut engine, answer) = Engine::open(text.as_bytes());
    assert_eq!(answer, Ok(()));
    assert_eq!(engine.issue(1, 1, 1), Ok(()));
    let proof = |card| [0, 1, 1, 0, card, 0, 0, 0, 0, 0, 0, 0];
    let other = Refusal {
        number: 19,
        place: 1,
    };
    assert_eq!(engine.settle(&[1, 1, 3], &proof(3)), Err(other));
    assert_eq!(engine.settle(&[1, 1, 2], &proof(2)), Ok(()));
}

#[test]
fn first_failing_line_decides() {
    assert_eq!(opening(b"G 1 1\nC 700012000019\n"), (6, 1));
    assert_eq!(opening(b"C 700012000018\nX\nC 1"), (4, 1));
    assert_eq!(opening(format!("{CARD}{CARD}X").as_bytes()), (5, 2));
    assert_eq!(opening(b"C 7000-1200-0018\nC -\n"), (4, 1));
    assert_eq!(opening(b"C -7000-1200-0018\nC 1\n"), (2, 1));
}

#[test]
fn group_below_its_rule_counts() {
    let text = "C 700056000016\nC 700012000019\nR 1 A a ? 1 a\nG 1 2\nG 1 2\n";
    let (mut engine, answer) = Engine::open(text.as_bytes());
    assert_eq!(answer, Ok(()));
    assert_eq!(engine.issue(1, 1, 1), Ok(()));
    let proof = [0, 1, 1, 0, 2, 0, 0, 0, 0, 0, 0, 0];
    assert_eq!(engine.settle(&[1, 1, 2], &proof), Ok(()));
}

/// A program's answers to some lines over the ring's book, after one token each was issued.
fn answers(dialect: Dialect, lines: &[u8]) -> String {
    let input = [b"I 1 1 1\nI 2 2 1\nI 3 3 1\n", lines].concat();
    let output = dialect.output(Some(ring::BOOK.as_bytes()), &input);
    let output = String::from_utf8(output).expect("answers are ASCII");
    let answers: Vec<_> = output.lines().skip(4).collect();
    answers.join("|")
}

#[test]
fn command_lines() {
    let table: &[(&[u8], &str)] = &[
        (b"", ""),
        (b"\n", "bad"),
        (b"\n\n", "bad|bad"),
        (b"H 1 1", "= 1"),
        (b"H 1 1\n", "= 1"),
        (b"H 1 1\r\n", "bad"),
        (b"H 1 1 \n", "bad"),
        (b"H  1 1\n", "bad"),
        (b" H 1 1\n", "bad"),
        (b"H 1\n", "bad"),
        (b"h 1 1\n", "bad"),
        (b"H 01 1\n", "bad"),
        (b"H 0 1\n", "8 0"),
        (b"H 4 17\n", "8 0"),
        (b"H 3 0\n", "9 0"),
        (b"H 3 17\n", "9 0"),
        (b"H 4294967295 4294967295\n", "8 0"),
        (b"H 4294967296 1\n", "bad"),
        (b"H 4294967297 1\n", "bad"),
        (b"I 257 1 1\n", "8 0"),
        (b"I 1 1 4294967295\n", "10 0"),
        (b"I 1 1 999999999\nI 2 1 1\n", "0 0|10 0"),
        (b"D 1 1 1\nD 1 1 0\nD 1 1 1\n", "0 0|0 0|11 0"),
        (b"D 1 1 4294967295\n", "11 0"),
        (b"S - -\n", "12 0"),
        (b"S 0101 -\n", "12 0"),
        (b"S 010 -\n", "bad"),
        (b"S 010101 -\n", "13 1"),
        (b"S 010102010402 -\n", "14 0"),
        (b"S 010102011102 -\n", "13 2"),
        (b"S 010102 -\n", "14 0"),
        (b"S 01010A -\n", "bad"),
        (b"S 010102\n", "bad"),
        (b"S 010102 - -\n", "bad"),
        (b"S 010102 0001010002030000000000\n", "14 0"),
        (b"S 010102 000001000203000000000000\n", "15 1"),
        (b"S 010102 000201000203000000000000\n", "15 1"),
        (b"S 010102 000100000203000000000000\n", "16 1"),
        (b"S 010102 000102000203000000000000\n", "16 1"),
        (b"S 010102 000109000203000000000000\n", "16 1"),
        (b"S 010102 000101010203000000000000\n", "17 1"),
        (b"S 010102 000101000303000000000000\n", "17 1"),
        (b"S 010102 000101000200000000000000\n", "17 1"),
        (b"S 010102 000101000204000000000000\n", "17 1"),
        (b"S 010102 000101000203000000000001\n", "17 1"),
        (b"S 010102 000101000201000000000000\n", "18 1"),
        (b"S 010102 010101000203000000000000\n", "20 1"),
        (b"S 010102 000101000203000000000000\n", "21 0"),
        (
            b"S 010102010102 020101000203000000000000010201000203000000000000\n",
            "20 2",
        ),
        (
            b"S 010102010102 020101000203000000000000010101000203000000000000\n",
            "15 2",
        ),
        (b"S 010102010102 020101000203000000000000\n", "20 1"),
    ];
    for &(line, expected) in table {
        for dialect in Dialect::ALL {
            let answers = answers(dialect, line);
            assert_eq!(answers, expected, "{dialect:?}: {}", line.escape_ascii());
        }
    }
}

#[test]
fn commands_that_01_does_not_have() {
    // With thawcroft's answer; ringswap's is always the same.
    let table = [
        ("F 010102", "bad"),
        ("A 1 1 1", "bad"),
        ("R 1 1 1", "bad"),
        ("T -", "bad"),
        ("X 010102 01000000010100000203000000000000", "bad"),
        ("M 1", "bad"),
        ("B 18446744073709551615", "bad"),
    ];
    for (line, expected) in table {
        assert_eq!(answers(Dialect::Ringswap, line.as_bytes()), "bad", "{line}");
        let answers = answers(Dialect::Thawcroft, line.as_bytes());
        assert_eq!(answers, expected, "{line}");
    }
}

#[test]
fn long_lines() {
    // By ringswap and by thawcroft.
    let table = [
        (8_191, ["14 0", "14 0"]),
        (8_192, ["12 0", "12 0"]),
        (8_193, ["bad", "14 0"]),
        (8_194, ["bad", "12 0"]),
        (40_959, ["bad", "14 0"]),
        (40_960, ["bad", "12 0"]),
        (40_961, ["bad", "bad"]),
        (40_962, ["bad", "bad"]),
        (300_001, ["bad", "bad"]),
    ];
    for (length, expected) in table {
        let line = long_settlement(length);
        assert_eq!(line.len(), length);
        let odd = [&line[..], b"0"].concat();
        for (dialect, expected) in Dialect::ALL.into_iter().zip(expected) {
            let input = [&line[..], b"\nH 1 1\n", &odd, b"\nH 2 2"].concat();
            let expected = format!("{expected}|= 1|bad|= 1");
            assert_eq!(answers(dialect, &input), expected, "{dialect:?} {length}");
        }
    }
    for dialect in Dialect::ALL {
        assert_eq!(answers(dialect, &[b'x'; 100_000]), "bad");
    }
}

#[test]
fn long_words() {
    // Bytes of the exchange and of the proof, with thawcroft's answer.
    let table = [
        (96, 3_060, "13 1"),
        (99, 3_060, "12 0"),
        (20_475, 0, "12 0"),
        (0, 20_475, "12 0"),
    ];
    for (exchange, proof, expected) in table {
        let word = |bytes| {
            if bytes == 0 {
                "-".into()
            } else {
                "00".repeat(bytes)
            }
        };
        let line = format!("S {} {}", word(exchange), word(proof));
        assert_eq!(answers(Dialect::Thawcroft, line.as_bytes()), expected);
    }
}
