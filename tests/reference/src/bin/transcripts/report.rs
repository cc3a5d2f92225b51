//! What a failed run tells.

use reference::generate::{BookFile, Transcript};
use reference::program::shown;
use std::fmt::Write;

/// Longest part of a line that a report shows.
const SHOWN: usize = 7_000;

/// What happened, and the transcript to repeat it with.
pub fn report(what: &str, transcript: &Transcript) -> String {
    let mut report = format!("{what}\nbook.txt:\n");
    match &transcript.book {
        BookFile::Text(text) => list(&mut report, text),
        BookFile::Missing => report += "    (missing)\n",
        BookFile::Folder => report += "    (a folder)\n",
    }
    report += "input:\n";
    list(&mut report, &transcript.input);
    report
}

/// The first answer that is not as expected.
pub fn difference(transcript: &Transcript, expected: &[u8], actual: &[u8]) -> String {
    let (mut expected, mut actual) = (lines(expected), lines(actual));
    let mut commands = commands(transcript);
    let mut number = 1;
    loop {
        let command = commands.next();
        let (wanted, given) = (expected.next(), actual.next());
        if wanted != given || wanted.is_none() {
            let shown =
                |line: Option<&[u8]>| line.map_or("(none)".into(), |line| shown(line, SHOWN));
            return format!(
                "answer {number} differs
  command:  {}
  expected: {}
  actual:   {}",
                shown(command),
                shown(wanted),
                shown(given),
            );
        }
        number += 1;
    }
}

/// What each answer belongs to; the first one is the book's.
fn commands(transcript: &Transcript) -> impl Iterator<Item = &[u8]> {
    std::iter::once(b"book.txt".as_slice()).chain(lines(&transcript.input))
}

pub fn lines(bytes: &[u8]) -> impl Iterator<Item = &[u8]> {
    bytes
        .split_inclusive(|&byte| byte == b'\n')
        .map(|line| line.strip_suffix(b"\n").unwrap_or(line))
}

/// Whether the call was accepted; only the answer's first word tells.
pub fn accepted(answer: &[u8]) -> bool {
    first_word(answer) == b"0"
}

pub fn first_word(answer: &[u8]) -> &[u8] {
    let mut words = answer.split(|&byte| byte == b' ');
    words.next().unwrap_or_default()
}

fn list(report: &mut String, bytes: &[u8]) {
    for line in lines(bytes) {
        let _ = writeln!(report, "    {}", shown(line, SHOWN));
    }
}
