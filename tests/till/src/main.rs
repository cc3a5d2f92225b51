//! Sets the till's library beside the second engine, call by call: the answer, every number of the
//! holdings, and what surrounds the four buffers.

#![forbid(unsafe_code)]

mod room;

use reference::generate::{hyphened, Part};
use reference::random::Random;
use reference::till;
use room::Room;
use std::fmt::Write;
use std::process::ExitCode;
use std::thread;
use till_host::cases::Case;

/// What surrounds bytes and numbers.
const BYTE: u8 = 0xa5;
const NUMBER: u32 = 0xa5a5_a5a5;
/// Two threads may call at once, so two do.
const THREADS: u64 = 2;
/// The largest answer.
const LAST: usize = 24;
/// What a run must meet. 23 is no answer of this call: 24 rules it out.
const EXPECTED: [&[usize]; 3] = [
    &[0, 1, 2, 3, 4, 5, 6, 7],
    &[24],
    &[12, 13, 14, 15, 16, 17, 18, 19, 20, 21, 22],
];
/// No answers to a line with a hyphen, which is a card's or has no form.
const UNHYPHENED: [usize; 2] = [6, 7];

fn main() -> ExitCode {
    let arguments: Vec<String> = std::env::args().skip(1).collect();
    let [seed, count] = arguments.as_slice() else {
        return usage();
    };
    let (Ok(seed), Ok(count)) = (seed.parse(), count.parse()) else {
        return usage();
    };
    match run(seed, count) {
        Err(report) => {
            println!("{report}");
            ExitCode::FAILURE
        }
        Ok(tally) => {
            println!("{}", tally.table());
            match tally.complaint() {
                // The cases of every run alone do not meet every answer.
                Some(complaint) if count > 0 => {
                    println!("{complaint}");
                    ExitCode::FAILURE
                }
                _ => ExitCode::SUCCESS,
            }
        }
    }
}

fn usage() -> ExitCode {
    eprintln!("usage: till-host SEED COUNT");
    ExitCode::from(2)
}

/// How often each answer was given, and how often hyphens or receipts had a part in it.
#[derive(Default)]
struct Tally {
    all: [u64; LAST + 1],
    hyphened: [u64; LAST + 1],
    /// By the receipts' part.
    receipts: [[u64; LAST + 1]; Part::ALL.len()],
}

impl Tally {
    fn count(&mut self, answer: usize, case: &Case) {
        self.all[answer] += 1;
        self.hyphened[answer] += u64::from(hyphened(&case.text));
        if answer == 0 || answer == 22 {
            let (transfers, _) = case.exchange.as_chunks();
            if let Some(part) = Part::of(&case.holdings, transfers) {
                self.receipts[part as usize][answer] += 1;
            }
        }
    }

    fn add(&mut self, other: &Tally) {
        let counts = self.all.iter_mut().chain(&mut self.hyphened);
        let counts = counts.chain(self.receipts.as_flattened_mut());
        let more = other.all.iter().chain(&other.hyphened);
        let more = more.chain(other.receipts.as_flattened());
        for (count, more) in counts.zip(more) {
            *count += more;
        }
    }

    fn table(&self) -> String {
        let calls: u64 = self.all.iter().sum();
        let mut table = format!("{calls} calls: each answer, in all and with hyphens\n");
        for answer in EXPECTED.concat() {
            let (all, hyphened) = (self.all[answer], self.hyphened[answer]);
            let _ = writeln!(table, "{answer:>5} {all:>8} {hyphened:>8}");
        }
        table.push_str("each answer in which receipts have a part\n");
        for part in Part::ALL {
            let (answer, name) = (part.answer(), part.name());
            let count = self.receipts[part as usize][usize::from(answer)];
            let _ = writeln!(table, "{answer:>5} {count:>8} {name}");
        }
        table.pop();
        table
    }

    /// What a run that agreed still left untried, or showed that cannot be.
    fn complaint(&self) -> Option<String> {
        let expected = EXPECTED.concat();
        let mut hyphened = expected.clone();
        hyphened.retain(|answer| !UNHYPHENED.contains(answer));
        let receipts = |part: Part| {
            let counts = &self.receipts[part as usize];
            let when = format!(" where receipts have a part: {}", part.name());
            complaint(counts, &[part.answer().into()], &when)
        };
        complaint(&self.all, &expected, "")
            .or_else(|| complaint(&self.hyphened, &hyphened, " where there are hyphens"))
            .or_else(|| Part::ALL.into_iter().find_map(receipts))
    }
}

fn complaint(counts: &[u64], expected: &[usize], when: &str) -> Option<String> {
    let mut answers = counts.iter().enumerate();
    answers.find_map(
        |(answer, count)| match (expected.contains(&answer), count) {
            (true, 0) => Some(format!("answer {answer} was never given{when}")),
            (false, 1..) => Some(format!("answer {answer} cannot be given{when}, and was")),
            _ => None,
        },
    )
}

/// The cases of every run, then so many random ones; an error is a report to print.
fn run(seed: u64, count: u64) -> Result<Tally, String> {
    let mut tally = Tally::default();
    let random = &mut Random::new(seed, u64::MAX);
    for (number, case) in Case::every(random).enumerate() {
        let room = &mut Random::new(seed, number as u64);
        compare(&case, room, &mut tally)
            .map_err(|what| report(&format!("seed {seed}, table {number}"), &case, &what))?;
    }
    let some = |first: u64| {
        let mut tally = Tally::default();
        for number in (first..count).step_by(THREADS as usize) {
            let random = &mut Random::new(seed, number);
            let case = Case::some(random);
            compare(&case, random, &mut tally)
                .map_err(|what| report(&format!("seed {seed}, case {number}"), &case, &what))?;
        }
        Ok::<_, String>(tally)
    };
    thread::scope(|scope| {
        let threads: Vec<_> = (0..THREADS)
            .map(|first| scope.spawn(move || some(first)))
            .collect();
        for thread in threads {
            tally.add(&thread.join().map_err(|_| "a thread ended early")??);
        }
        Ok(tally)
    })
}

/// Makes the call on both sides. What is wrong is an error.
fn compare(case: &Case, random: &mut Random, tally: &mut Tally) -> Result<(), String> {
    let mut text = Room::new(&case.text, BYTE, random);
    let mut holdings = Room::new(&case.holdings, NUMBER, random);
    let mut exchange = Room::new(&case.exchange, BYTE, random);
    let mut proof = Room::new(&case.proof, BYTE, random);
    let answer = till_host::call(text.lent(), holdings.lent(), exchange.lent(), proof.lent());

    let mut expected = case.holdings.clone();
    let number = till::call(&case.text, &mut expected, &case.exchange, &case.proof);
    if answer != u32::from(number) {
        return Err(format!("answer {answer}, expected {number}"));
    }
    if number != 0 && expected != case.holdings {
        return Err("the second engine changed the holdings and refused".into());
    }
    if !holdings.holds(&expected, NUMBER) {
        return Err(format!(
            "answer {answer}: the holdings, or what is around them"
        ));
    }
    for (name, room, content) in [
        ("text", text, &case.text),
        ("exchange", exchange, &case.exchange),
        ("proof", proof, &case.proof),
    ] {
        if !room.holds(content, BYTE) {
            return Err(format!("answer {answer}: the {name}, or what is around it"));
        }
    }
    tally.count(number.into(), case);
    Ok(())
}

fn report(name: &str, case: &Case, what: &str) -> String {
    let mut report = format!("{name}: {what}\ntext:\n");
    for line in case.text.split_inclusive(|&byte| byte == b'\n') {
        let _ = writeln!(report, "    {}", line.escape_ascii());
    }
    let _ = writeln!(report, "{} holdings:", case.holdings.len());
    for (slot, held) in case
        .holdings
        .iter()
        .enumerate()
        .filter(|(_, &held)| held != 0)
    {
        let _ = writeln!(
            report,
            "    card {} kind {}: {held}",
            slot / 16 + 1,
            slot % 16 + 1
        );
    }
    let _ = writeln!(report, "exchange: {:02x?}", case.exchange);
    let _ = write!(report, "proof: {:02x?}", case.proof);
    report
}
