//! Command lines that are ill-formed, nearly so, too long, or of one dialect alone.

use super::books::small;
use crate::commands::Dialect;
use crate::random::Random;

/// Bytes that spoil a line, or turn it into another right one.
const NEAR_MISSES: &[u8] = b"\0\t\r  -+.,0123456789AFafgxIDHSRTXMB\x80\xff";

/// Lines that are ill-formed in every dialect.
const ILL_FORMED: [&str; 87] = [
    "",
    " ",
    "-",
    "I",
    "I 1",
    "I 1 1",
    "I 1 1 1 1",
    "I 1 1 1 ",
    " I 1 1 1",
    "I  1 1 1",
    "I 1  1 1",
    "I 1 1  1",
    "I 01 1 1",
    "I 00 1 1",
    "I 1 00 1",
    "I 1 01 1",
    "I 1 1 00",
    "I 1 1 01",
    "I 1 1 +1",
    "I 1 1 -1",
    "I 1 1 -",
    "I - 1 1",
    "I 1 1 1.0",
    "I 1 1 1,000",
    "I 1 1 0x1",
    "I 1 1 a",
    "I 1 1 4294967296",
    "I 1 4294967297 1",
    "I 4294967297 1 1",
    "I 1 1 9999999999",
    "I 1 1 42949672950",
    "I 1 1 18446744073709551617",
    "I 1 1 1\r",
    "I\t1\t1\t1",
    "I 1 1 1\0",
    "I1 1 1",
    "II 1 1 1",
    "i 1 1 1",
    "D",
    "D 1 1",
    "D 1 1 0 0",
    "D 1 1 4294967296",
    "D 1 1 00",
    "d 1 1 1",
    "H",
    "H 1",
    "H 1 1 1",
    "H 1 1 ",
    "H 1 01",
    "H 1 4294967296",
    "H1 1",
    "h 1 1",
    "S",
    "S ",
    "S -",
    "S - ",
    "S  -",
    "S - - ",
    "S - - -",
    "S -  -",
    "S -- -",
    "S - --",
    "S 0 -",
    "S - 0",
    "S 01010 -",
    "S 01010A -",
    "S - 0A",
    "S 0x01 -",
    "S 01-02 -",
    "S 0101 02 -",
    "S 0g -",
    "S - -\r",
    "s - -",
    "F",
    "F 010",
    "F 010102 -",
    "A 1 1",
    "R 1 1 -1",
    "T",
    "X 010102",
    "X 1 1 1",
    "M",
    "M -1",
    "B 18446744073709551616",
    "= 1",
    "book 1 1",
    "bad",
];

/// Right lines with numbers at the ends of their range, and with no bytes or few.
const EXTREME: [&str; 16] = [
    "I 0 0 0",
    "I 1 0 0",
    "I 1 1 0",
    "I 1 1 4294967295",
    "I 1 4294967295 1",
    "I 4294967295 1 1",
    "D 1 1 4294967295",
    "D 1 17 1",
    "D 33 1 1",
    "H 0 1",
    "H 1 17",
    "H 4294967295 4294967295",
    "S - -",
    "S 01 -",
    "S 010102 -",
    "S - 000000000000000000000000",
];

/// Commands of forms that 01 does not have; `word` makes each of their words.
const FOREIGN: [&str; 7] = [
    "F exchange",
    "A card kind count",
    "R card kind count",
    "T text",
    "X exchange tree",
    "M name",
    "B name",
];

/// Beginnings of long lines, what fills them up, and their ends. Those of hexadecimal words are
/// right but for their length, if an even number of digits fills them: the first is then of even
/// length, and the second of odd. The last ends as a command does, and is none.
const LONG: [(&str, &str, &str); 11] = [
    ("S - ", "0", ""),
    ("S 010102 ", "0", ""),
    ("S 010102 ", "f", ""),
    ("S ", "0", " -"),
    ("S ", "0", " 00"),
    ("T ", "0", ""),
    ("I 1 1 ", "1", ""),
    ("S ", "A", ""),
    ("", "\0", ""),
    ("", " ", ""),
    ("", "x", "H 1 1"),
];

/// Every line of the tables, and the long lines about as long as a line may be.
pub fn every(random: &mut Random) -> Vec<Vec<u8>> {
    let short = ILL_FORMED.iter().chain(&EXTREME).map(|&line| line.into());
    let foreign = FOREIGN.iter().map(|form| foreign(form, random));
    let long = Dialect::ALL.into_iter().flat_map(|dialect| {
        let lengths = about_longest(dialect).into_iter();
        lengths.flat_map(|length| LONG.map(|form| filled(form, length)))
    });
    short.chain(foreign).chain(long).collect()
}

/// A line for which `bad` or a refusal is the likely answer.
pub fn unlikely(random: &mut Random) -> Vec<u8> {
    match random.below(7) {
        0 => EXTREME[random.below(EXTREME.len())].into(),
        1 => long(random),
        2 => noise(random),
        3 => foreign(random.pick(&FOREIGN), random),
        _ => ILL_FORMED[random.below(ILL_FORMED.len())].into(),
    }
}

/// A well-formed settlement of so many bytes, which is refused or too long.
pub fn long_settlement(length: usize) -> Vec<u8> {
    filled(LONG[length % 2], length)
}

/// The digits of a word, or `-` for no bytes.
pub fn hexadecimal(bytes: &[u8]) -> String {
    if bytes.is_empty() {
        return "-".into();
    }
    bytes.iter().map(|byte| format!("{byte:02x}")).collect()
}

/// The line with one byte changed, added or taken away.
pub fn damaged(mut line: Vec<u8>, random: &mut Random) -> Vec<u8> {
    let place = random.below(line.len());
    let byte = random.pick(NEAR_MISSES);
    match random.below(4) {
        0 => line[place] = byte,
        1 => line.insert(place, byte),
        2 => {
            line.remove(place);
        }
        _ => line.make_ascii_uppercase(),
    }
    line
}

/// A command of this form.
fn foreign(form: &str, random: &mut Random) -> Vec<u8> {
    let words: Vec<_> = form.split(' ').map(|name| word(name, random)).collect();
    words.join(" ").into()
}

/// A right word of this name; a command's letter is its own.
fn word(name: &str, random: &mut Random) -> String {
    match name {
        "card" | "kind" => random.within(1, 4).to_string(),
        "count" => random.below(10).to_string(),
        "name" => random.pick(&[0, 1, 2, 3, 4, u64::MAX]).to_string(),
        "exchange" => {
            let numbers = 3 * random.below(4);
            let transfers: Vec<u8> = (0..numbers).map(|_| random.within(1, 3) as u8).collect();
            hexadecimal(&transfers)
        }
        "tree" => {
            let records = random.below(4);
            hexadecimal(&random.bytes(16 * records))
        }
        "text" => hexadecimal(&small(random)),
        letter => letter.into(),
    }
}

/// A line about as long as a line may be, between the dialects' limits, or far longer.
fn long(random: &mut Random) -> Vec<u8> {
    let [shorter, longer] = Dialect::ALL;
    let length = match random.below(16) {
        0 => 300_000,
        1..3 => random.within(shorter.longest_line(), longer.longest_line()),
        3..7 => random.pick(&about_longest(longer)),
        _ => random.pick(&about_longest(shorter)),
    };
    filled(random.pick(&LONG), length)
}

/// Lengths about as long as a line may be; after the limit there may be a whole command.
fn about_longest(dialect: Dialect) -> Vec<usize> {
    let limit = dialect.longest_line();
    (limit - 3..=limit + 6).collect()
}

fn filled((start, filler, end): (&str, &str, &str), length: usize) -> Vec<u8> {
    let filling = filler.repeat(length - start.len() - end.len());
    [start, &filling, end].concat().into()
}

fn noise(random: &mut Random) -> Vec<u8> {
    let length = random.below(40);
    let mut line = random.bytes(length);
    line.retain(|&byte| byte != b'\n');
    line
}
