//! The till call on both sides, row by row.

use crate::median;
use reference::engine::HOLDINGS;
use reference::{ring, till};
use std::hint::black_box;
use std::time::{Duration, Instant};
use till_host::cases::Case;
use till_host::large;

/// Samples of each row and side.
const SAMPLES: usize = 501;
/// About how long a sample takes, so that reading the clock is no part of it.
const SAMPLE: Duration = Duration::from_micros(200);

struct Row {
    name: &'static str,
    about: &'static str,
    case: Case,
    answer: u8,
}

/// Holdings are high enough that an accepted call is accepted in every sample.
fn rows() -> Vec<Row> {
    let row = |name, about, case, answer| Row {
        name,
        about,
        case,
        answer,
    };
    vec![
        row("empty", "an empty book, refused by 13", empty(), 13),
        row("ring", "the ring of three, settled", ring_of_three(), 0),
        row("8", "16 KB, 8 transfers, settled", large::accepted(8), 0),
        row("32", "16 KB, 32 transfers, settled", large::accepted(32), 0),
        row(
            "21",
            "16 KB, 32 transfers, refused by 21",
            large::asked_twice(),
            21,
        ),
        row(
            "rules-8",
            "4 KB of rules, 8 transfers, settled",
            large::unfilled(8),
            0,
        ),
        row(
            "rules-32",
            "4 KB of rules, 32 transfers, settled",
            large::unfilled(32),
            0,
        ),
    ]
}

fn empty() -> Case {
    Case {
        text: Vec::new(),
        holdings: vec![0; HOLDINGS],
        ..ring_of_three()
    }
}

pub fn ring_of_three() -> Case {
    let mut holdings = vec![0; HOLDINGS];
    for slot in [0, 16 + 1, 2 * 16 + 2] {
        holdings[slot] = 30_000_000;
    }
    Case {
        text: ring::BOOK.into(),
        holdings,
        exchange: [[1, 1, 2], [2, 2, 3], [3, 3, 1]].concat(),
        proof: [
            [2, 1, 1, 0, 2, 3, 0, 0, 0, 0, 0, 0],
            [3, 2, 2, 0, 3, 1, 0, 0, 0, 0, 0, 0],
            [0, 3, 3, 0, 1, 2, 0, 0, 0, 0, 0, 0],
        ]
        .concat(),
    }
}

fn ours(case: &mut Case) -> u32 {
    till_host::call(
        black_box(&case.text),
        &mut case.holdings,
        black_box(&case.exchange),
        black_box(&case.proof),
    )
}

fn plain(case: &mut Case) -> u32 {
    let answer = till::call(
        black_box(&case.text),
        &mut case.holdings,
        black_box(&case.exchange),
        black_box(&case.proof),
    );
    answer.into()
}

/// One side of a row, with holdings of its own.
struct Side {
    call: fn(&mut Case) -> u32,
    case: Case,
    calls: u32,
    samples: Vec<Duration>,
}

impl Side {
    fn new(call: fn(&mut Case) -> u32, case: &Case) -> Side {
        Side {
            call,
            case: case.clone(),
            calls: 1,
            samples: Vec::new(),
        }
    }

    fn time(&mut self) -> Duration {
        let start = Instant::now();
        for _ in 0..self.calls {
            black_box((self.call)(&mut self.case));
        }
        start.elapsed()
    }

    /// Finds how many calls a sample has.
    fn warm_up(&mut self) {
        while self.time() < SAMPLE {
            self.calls *= 2;
        }
    }

    fn sample(&mut self) {
        let time = self.time() / self.calls;
        self.samples.push(time);
    }

    fn nanoseconds(&mut self) -> f64 {
        median(&mut self.samples).as_nanos() as f64
    }
}

/// Both sides of a row, which agree.
fn sides(row: &Row) -> Result<[Side; 2], String> {
    let mut sides = [ours, plain].map(|call| Side::new(call, &row.case));
    for side in &mut sides {
        let answer = (side.call)(&mut side.case);
        if answer != row.answer.into() {
            return Err(format!("{}: answer {answer}", row.about));
        }
    }
    if sides[0].case.holdings != sides[1].case.holdings {
        return Err(format!("{}: the holdings differ", row.about));
    }
    Ok(sides)
}

/// Times every row and prints the table.
pub fn bench() -> Result<(), String> {
    let rows = rows();
    let mut timed = rows.iter().map(sides).collect::<Result<Vec<_>, _>>()?;
    timed.iter_mut().flatten().for_each(Side::warm_up);
    // All rows and sides in turn, so that a slow spell of the machine falls on each of them.
    for _ in 0..SAMPLES {
        timed.iter_mut().flatten().for_each(Side::sample);
    }

    println!("| till call | ours, ns | plain Rust, ns | ours / plain |");
    println!("|---|---:|---:|---:|");
    let mut times = Vec::new();
    for (row, [ours, plain]) in rows.iter().zip(&mut timed) {
        let (ours, plain) = (ours.nanoseconds(), plain.nanoseconds());
        println!(
            "| {} | {ours:.0} | {plain:.0} | {:.2} |",
            row.about,
            ours / plain
        );
        times.push((row.name, [ours, plain]));
    }
    let of = |name| times.iter().find(|(row, _)| *row == name);
    for (few, many, about) in [
        ("8", "32", "16 KB"),
        ("rules-8", "rules-32", "4 KB of rules"),
    ] {
        if let (Some((_, few)), Some((_, many))) = (of(few), of(many)) {
            let [ours, plain] = [0, 1].map(|side| many[side] / few[side]);
            println!(
                "| {about}, from 8 to 32 transfers, times | {ours:.2} | {plain:.2} | {:.2} |",
                ours / plain
            );
        }
    }
    println!();
    Ok(())
}

/// Makes one side's call of a row so many times.
pub fn repeat(row: &str, side: &str, count: &str) -> Result<(), String> {
    let rows = rows();
    let row = rows
        .iter()
        .find(|other| other.name == row)
        .ok_or_else(|| format!("no row {row}"))?;
    let [ours, plain] = sides(row)?;
    let mut side = match side {
        "ours" => ours,
        "plain" => plain,
        _ => return Err(format!("no side {side}")),
    };
    side.calls = count.parse().map_err(|_| format!("no count {count}"))?;
    side.time();
    Ok(())
}
