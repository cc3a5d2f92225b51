//! Rule texts: valid ones, ones at each limit, and ones with damage.

use crate::book::{passes_luhn, Book, Refusal, MAX_CARDS, MAX_RULES, MAX_TEXT};
use crate::random::Random;

/// Few issuers, so that cards often share one, and some that differ in an outer digit only.
const ISSUERS: [&str; 4] = ["700012", "700056", "700057", "000057"];

/// Bytes next to a form's own, or of another part of it.
const NEAR_MISSES: &[u8] = b"\0\t\n\r  *,-.<=?@ACGPQRaghi0123489`\x7f\x80\xff";

/// Lines that no form has, whatever is above them.
const FORMLESS: [&str; 103] = [
    "",
    " ",
    "C",
    "C ",
    "C  700012000019",
    "C 70001200001x",
    "C 7000 12000019",
    "C 700012000019\t",
    "C700012000019",
    "c 700012000019",
    "C -",
    "C --",
    "C -7",
    "C 7-",
    "C -700012000019",
    "C 700012000019-",
    "C 7000--12000019",
    "C -7000-1200-0019",
    "C 7000-1200-0019-",
    "C 7000-1200--0019",
    "C 7000--1200-0019",
    "C 7000---1200-0019",
    "C 7-0-0-0-1-2-0-0-0-0-1-9-",
    "C  7000-1200-0019",
    "C 7000-1200-0019 ",
    "C 7000-1200- 0019",
    "C 7000 -1200-0019",
    "C 7000-1200-001x",
    "C 7000,1200,0019",
    "C 7000.1200.0019",
    "C 7000\u{2013}1200\u{2013}0019",
    "C 7000-1200-0019\r",
    "C 7000-1200-0019-\r",
    "C- 700012000019",
    "C-700012000019",
    "C-",
    "-C 700012000019",
    "G 0 1",
    "G 9 1",
    "G 01 1",
    "G 10 1",
    "G 1 0",
    "G 1 00",
    "G 1 01",
    "G 1 100",
    "G 1 *",
    "G 1 1 1",
    "G -1 1",
    "G 1-1",
    "G 1- 1",
    "G 1 -1",
    "G 1 1-",
    "G 1 1-0",
    "G-1 1",
    "G 1",
    "G  1 1",
    "g 1 1",
    "X 1 1",
    "# 1 1",
    "R",
    "R 1",
    "R 1 A",
    "R 0 A a",
    "R 00 A a",
    "R 01 A a",
    "R 100 A a",
    "R 1 Q a",
    "R 1 @ a",
    "R 1 a a",
    "R 1 1 a",
    "R 1 A A",
    "R 1 A i",
    "R 1 A `",
    "R 1 A *",
    "R -1 A a",
    "R 1- A a",
    "R 1-0 A a",
    "R 1-A-a",
    "R 1 A -a",
    "R 1 A a-",
    "R 1 A a < b-B *",
    "R 1 A a ? 1-1 a",
    "R 1 AB a",
    "R 1 A ab",
    "r 1 A a",
    "R 1 A a <",
    "R 1 A a < b B",
    "R 1 A a <b B *",
    "R 1 A a < * B a",
    "R 1 A a < * B *",
    "R 1 A a < b B b",
    "R 1 A a < b Q *",
    "R 1 A a < b B i",
    "R 1 A a < b B * < b B * < b B * < b B * < b B *",
    "R 1 A a ? 1 a ? 1 a ? 1 a ? 1 a ? 1 a",
    "R 1 A a = a * ? 1 a = a * ? 1 a = a *",
    "R 1 A a ? 1 a < b B *",
    "R 1 A a ? 0 a",
    "R 1 A a ? 9 a",
    "R 1 A a ? 1 i",
    "R 1 A a = a",
    "R 1 A a = a a a",
    "R 1 A a = a  a",
];

/// Unusual lines that have a form; they are right wherever card 1 is declared above.
const UNUSUAL: [&str; 9] = [
    "G 1 1",
    "G 8 1",
    "R 1 P h",
    "R 1 A a = a a",
    "R 1 A a = * *",
    "R 1 A a ? 8 *",
    "R 1 A a < h P *",
    "R 1 A a < b B * < b B * < b B * < b B *",
    "R 1 A a < a A b < b B a < c C d < d D c ? 1 e = f * = * g ? 8 h",
];

/// Whether a hyphen comes after so many digits of a card number, which has so many in all.
type Hyphens = fn(usize, usize) -> bool;

/// Ways to print a card number: bare, in printed groups of one digit or of four, and with one
/// hyphen, as far left or right as may be.
const PRINTS: [Hyphens; 5] = [
    |_, _| false,
    |_, _| true,
    |before, _| before % 4 == 0,
    |before, _| before == 1,
    |before, digits| before + 1 == digits,
];

/// Digits of a card line that is far too long, while the text is not, however it is printed.
const LONG_CARD: usize = 4_000;

/// How much a rule text has of everything.
struct Shape {
    cards: usize,
    groups: usize,
    rules: usize,
    kinds: usize,
    variables: usize,
}

/// A book of few cards, kinds and variables, so that fairness can be decided over it.
pub fn small(random: &mut Random) -> Vec<u8> {
    let shape = Shape {
        cards: random.within(2, 4),
        groups: random.below(6),
        rules: random.within(2, 10),
        kinds: random.within(1, 3),
        variables: random.within(1, 4),
    };
    text(&lines(&shape, random))
}

/// A book that opens, of any size.
pub fn valid(random: &mut Random) -> Vec<u8> {
    match random.below(12) {
        0 => Vec::new(),
        1..6 => small(random),
        6..11 => text(&middling(random)),
        _ => text(&full(random)),
    }
}

/// Books whose last line is, in turn, each of the tables or at a limit.
pub fn every(random: &mut Random) -> Vec<Vec<u8>> {
    let card = card_line(12, random);
    [
        after_small(&card, random),
        after_full(&card, random),
        twice(&card),
        about_longest(random),
    ]
    .concat()
}

/// Small books, each with a line more: those of the tables, and cards of every sort.
fn after_small(card: &str, random: &mut Random) -> Vec<Vec<u8>> {
    let undeclared = ["G 1 33", "G 1 99", "R 33 A a", "R 99 A a"];
    let tables = [&FORMLESS[..], &UNUSUAL, &undeclared].concat();
    let mut cards = [1, 2, 11, 12, 19, 20, 40, LONG_CARD]
        .map(|digits| card_line(digits, random))
        .to_vec();
    cards.push(spoiled(card.into()));
    // One digit too many, after a number that is right without it.
    cards.push(checked(&digits(&card_line(19, random))));
    let cards = cards.iter().flat_map(|card| prints(card));
    let last_lines = tables.into_iter().map(String::from).chain(cards);
    last_lines
        .map(|line| [small(random), text(&[line])].concat())
        .collect()
}

/// Full books, each with a line more.
fn after_full(card: &str, random: &mut Random) -> Vec<Vec<u8>> {
    let others = ["G 1 32", "R 32 A a", "R 33 A a", "C 7000-1200-0019-"].map(String::from);
    let wrong = spoiled(card.into());
    let last_lines = [&others[..], &prints(card), &prints(&wrong)].concat();
    let after_full = |line| {
        let mut lines = full(random);
        lines.push(line);
        text(&lines)
    };
    last_lines.into_iter().map(after_full).collect()
}

/// A card twice, printed in each way after each.
fn twice(card: &str) -> Vec<Vec<u8>> {
    let mut books = Vec::new();
    for first in prints(card) {
        for second in prints(card) {
            books.push(format!("{first}\n{second}\n").into());
        }
    }
    books
}

/// Books of the most bytes, and of one more.
fn about_longest(random: &mut Random) -> Vec<Vec<u8>> {
    let sizes = [MAX_TEXT, MAX_TEXT + 1].into_iter();
    sizes
        .flat_map(|bytes| PRINTS.map(|hyphens| sized(bytes, hyphens, random)))
        .collect()
}

/// A rule text that goes up to a limit or just over it.
pub fn limits(random: &mut Random) -> Vec<u8> {
    let mut lines = match random.below(3) {
        0 => full(random),
        _ => middling(random),
    };
    let line = match random.below(10) {
        0 => {
            lines = full(random);
            let card = card_line(12, random);
            if random.one_in(2) {
                card
            } else {
                spoiled(card)
            }
        }
        1 => {
            lines = full(random);
            format!("R {} A a", random.pick(&[1, 32, 33]))
        }
        2 | 3 => {
            let longer = random.pick(&[MAX_TEXT + 1, 20_000, 100_000]);
            let bytes = random.pick(&[MAX_TEXT, longer]);
            return sized(bytes, random.pick(&PRINTS), random);
        }
        4 => {
            let digits = random.pick(&[1, 2, 11, 12, 19, 20, 40, LONG_CARD, 2 * LONG_CARD]);
            card_line(digits, random)
        }
        5 => spoiled(card_line(12, random)),
        6 => some_card(&lines, random),
        7 => longer_card(&some_card(&lines, random), random),
        8 => {
            let card: u8 = random.pick(&[1, 2, 9, 10, 31, 32, 33, 99]);
            let form = random.pick(&["G 1 m", "R m A a"]);
            form.replace('m', &card.to_string())
        }
        _ => random.pick(&UNUSUAL).into(),
    };
    let line = copied(line, random);
    insert(&mut lines, line, random);
    text(&lines)
}

/// A rule text with one damage or two; now and then it opens in spite of them.
pub fn damaged(random: &mut Random) -> Vec<u8> {
    let mut text = match random.below(4) {
        0 => limits(random),
        _ => valid(random),
    };
    damage(&mut text, random);
    if random.one_in(4) {
        damage(&mut text, random);
    }
    text
}

/// Whether what decides the answer to a text has a hyphen: the line that is refused, or else all
/// of the text.
pub fn hyphened(text: &[u8]) -> bool {
    let mut lines = text.split(|&byte| byte == b'\n');
    let decides = match Book::read(text) {
        Err(Refusal { place, .. }) if place > 0 => {
            lines.nth(place as usize - 1).unwrap_or_default()
        }
        _ => text,
    };
    decides.contains(&b'-')
}

fn damage(text: &mut Vec<u8>, random: &mut Random) {
    let place = random.below(text.len() + 1);
    let line_start = start_of_line(text, place);
    let byte = random.pick(NEAR_MISSES);
    match random.below(10) {
        0 | 1 if place < text.len() => text[place] = byte,
        2 if place < text.len() => {
            text.remove(place);
        }
        3 => text.insert(place, byte),
        4 => {
            text.pop();
        }
        // Before an LF is the end of a line, after it the beginning of the next.
        5 if line_start > 0 => text.insert(line_start - 1, random.pick(b" \r")),
        6 => text.insert(line_start, b' '),
        7 => {
            let spaces = (place..text.len()).find(|&at| text[at] == b' ');
            text.insert(spaces.unwrap_or(place), b' ');
        }
        8 => text.insert(beside_word(text, line_start, random), b'-'),
        _ => {
            let line = random.pick(&FORMLESS).bytes().chain([b'\n']);
            text.splice(line_start..line_start, line);
        }
    }
}

/// A place about the line's letter, at the line's end, or before the next hyphen; the text's end where
/// there is none.
fn beside_word(text: &[u8], line_start: usize, random: &mut Random) -> usize {
    let rest = &text[line_start..];
    let next = |byte| rest.iter().position(|&other| other == byte);
    let place = match random.below(3) {
        0 => Some(random.below(4)),
        1 => next(b'\n'),
        _ => next(b'-'),
    };
    line_start + place.unwrap_or(rest.len()).min(rest.len())
}

fn start_of_line(text: &[u8], place: usize) -> usize {
    text[..place]
        .iter()
        .rposition(|&byte| byte == b'\n')
        .map_or(0, |end| end + 1)
}

fn middling(random: &mut Random) -> Vec<String> {
    let shape = Shape {
        cards: random.within(1, 9),
        groups: random.below(12),
        rules: random.below(24),
        kinds: random.within(1, 16),
        variables: random.within(1, 8),
    };
    lines(&shape, random)
}

/// A book with all the cards and rules that there may be.
fn full(random: &mut Random) -> Vec<String> {
    let shape = Shape {
        cards: MAX_CARDS,
        groups: random.below(60),
        rules: MAX_RULES,
        kinds: random.within(1, 16),
        variables: random.within(1, 8),
    };
    lines(&shape, random)
}

/// A book of exactly so many bytes, filled up with lines of six and seven bytes, whose first card
/// is printed this way.
fn sized(bytes: usize, hyphens: Hyphens, random: &mut Random) -> Vec<u8> {
    let mut lines = full(random);
    lines[0] = printed(&lines[0], hyphens);
    let mut text = text(&lines);
    let left = bytes - text.len();
    text.extend(b"G 1 32\n".repeat(left % 6));
    text.extend(b"G 1 1\n".repeat(left / 6 - left % 6));
    text
}

/// Lines in a random order in which every line follows the card that it names.
fn lines(shape: &Shape, random: &mut Random) -> Vec<String> {
    let mut letters = [
        "C".repeat(shape.cards),
        "G".repeat(shape.groups),
        "R".repeat(shape.rules),
    ]
    .concat()
    .into_bytes();
    random.shuffle(&mut letters[1..]);
    let groups = random.within(1, 8);
    let mut cards = 0;
    let mut lines: Vec<String> = Vec::new();
    for letter in letters {
        let line = match letter {
            b'C' => {
                cards += 1;
                loop {
                    let digits = random.within(12, 19);
                    let line = card_line(digits, random);
                    if !lines.contains(&line) {
                        break line;
                    }
                }
            }
            b'G' => format!("G {} {}", random.within(1, groups), random.within(1, cards)),
            _ => rule_line(shape, groups, cards, random),
        };
        lines.push(line);
    }
    // A ring somewhere in place of the last rules gives most books a swap worth trying.
    let rules = lines.iter().filter(|line| line.starts_with('R')).count();
    let length = random.below(shape.cards.min(rules).min(6) + 1);
    for rule in ring_lines(shape, length, random) {
        if let Some(last) = lines.iter().rposition(|line| line.starts_with('R')) {
            lines.remove(last);
        }
        lines.push(rule);
    }
    // In half of the books the cards are as somebody copied them.
    if random.one_in(2) {
        lines = lines.into_iter().map(|line| copied(line, random)).collect();
    }
    lines
}

/// Rules of so many cards, each of which gives if the one before it in the ring pays.
fn ring_lines(shape: &Shape, length: usize, random: &mut Random) -> Vec<String> {
    let mut cards: Vec<usize> = (1..=shape.cards).collect();
    random.shuffle(&mut cards);
    let mut kinds: Vec<char> = (0..length)
        .map(|_| char::from(b'A' + random.below(shape.kinds) as u8))
        .collect();
    // Often one kind for all, so that a token may go round.
    if length > 0 && random.one_in(3) {
        kinds = vec![kinds[0]; length];
    }
    (0..length)
        .map(|place| {
            let before = kinds[(place + length - 1) % length];
            let (giver, condition) = random.pick(&[
                ("b", ""),
                ("c", " = c c"),
                ("a", ""),
                ("h", " = * *"),
                ("b", " = b *"),
                ("b", " ? 1 b"),
                ("b", " ? 1 c"),
                ("b", " < b A *"),
            ]);
            format!(
                "R {} {} a < {giver} {before} *{condition}",
                cards[place], kinds[place]
            )
        })
        .collect()
}

fn rule_line(shape: &Shape, groups: usize, cards: usize, random: &mut Random) -> String {
    let kind = |random: &mut Random| char::from(b'A' + random.below(shape.kinds) as u8);
    let variable = |random: &mut Random| char::from(b'a' + random.below(shape.variables) as u8);
    let party = |random: &mut Random| match random.below(3) {
        0 => '*',
        _ => variable(random),
    };
    let owner = random.within(1, cards);
    let mut line = format!("R {owner} {} {}", kind(random), variable(random));
    for _ in 0..random.pick(&[0, 0, 1, 1, 1, 1, 2, 2, 3, 4]) {
        let giver = variable(random);
        // Many owners want the price for themselves, and so rings come about.
        let receiver = match random.below(2) {
            0 => Some(variable(random)).filter(|&letter| letter != giver),
            _ => None,
        };
        let receiver = receiver.unwrap_or('*');
        line += &format!(" < {giver} {} {receiver}", kind(random));
    }
    for _ in 0..random.pick(&[0, 0, 0, 0, 0, 1, 1, 2, 3, 4]) {
        line += &match random.below(2) {
            0 => format!(" ? {} {}", random.within(1, groups), party(random)),
            _ => format!(" = {} {}", party(random), party(random)),
        };
    }
    line
}

/// A card line of so many digits whose check digit is right.
fn card_line(digits: usize, random: &mut Random) -> String {
    let issuer = random.pick(&ISSUERS);
    let random_digits = (0..digits).map(|_| char::from(b'0' + random.below(10) as u8));
    let number: String = issuer.chars().chain(random_digits).collect();
    checked(&number[..digits - 1])
}

/// A card line as it may be copied, in printed groups or not; another line stays as it is.
fn copied(line: String, random: &mut Random) -> String {
    if !line.starts_with('C') {
        return line;
    }
    let gaps = random.draw();
    match random.below(3) {
        0 => printed(&line, |_, _| false),
        1 => printed(&line, |before, _| gaps >> (before % 64) & 1 == 1),
        _ => printed(&line, random.pick(&PRINTS)),
    }
}

/// The card line printed in each way.
fn prints(line: &str) -> [String; PRINTS.len()] {
    PRINTS.map(|hyphens| printed(line, hyphens))
}

/// The card line printed this way, however it was before.
fn printed(line: &str, hyphens: impl Fn(usize, usize) -> bool) -> String {
    let digits = digits(line);
    let mut printed = String::from("C ");
    for (before, digit) in digits.chars().enumerate() {
        if before > 0 && hyphens(before, digits.len()) {
            printed.push('-');
        }
        printed.push(digit);
    }
    printed
}

fn digits(line: &str) -> String {
    line.chars().filter(char::is_ascii_digit).collect()
}

/// A card line that begins with another's digits.
fn longer_card(line: &str, random: &mut Random) -> String {
    let digits = digits(line);
    let more = "0123456";
    checked(&format!("{digits}{}", &more[..random.below(more.len())]))
}

/// A card line of these digits and the check digit that they need.
fn checked(digits: &str) -> String {
    let number = (0..10)
        .map(|check| format!("{digits}{check}"))
        .find(|number| passes_luhn(number.as_bytes()))
        .expect("one of ten check digits is right");
    format!("C {number}")
}

/// The card line with another last digit.
fn spoiled(mut line: String) -> String {
    let last = line.pop().and_then(|digit| digit.to_digit(10)).unwrap_or(0);
    line + &((last + 1) % 10).to_string()
}

fn some_card(lines: &[String], random: &mut Random) -> String {
    let cards: Vec<_> = lines.iter().filter(|line| line.starts_with('C')).collect();
    random.pick(&cards).clone()
}

fn insert(lines: &mut Vec<String>, line: String, random: &mut Random) {
    let place = match random.below(3) {
        0 => random.below(lines.len() + 1),
        _ => lines.len(),
    };
    lines.insert(place, line);
}

fn text(lines: &[String]) -> Vec<u8> {
    lines
        .iter()
        .flat_map(|line| line.bytes().chain([b'\n']))
        .collect()
}
