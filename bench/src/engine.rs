//! The engine's calls, over and over in one process: the program `bench_calls` beside the second engine, and beside a copy of the engine.

use crate::calls::ring_of_three;
use crate::median;
use reference::engine::Engine;
use std::fmt::{self, Display, Formatter};
use std::hint::black_box;
use std::io::{self, Write};
use std::process::{Command, Stdio};
use std::time::{Duration, Instant};
use till_host::cases::Case;
use till_host::large;

/// From the repository's folder.
const PROGRAM: &str = "target/bin/bench_calls";
/// How often it makes each call that is timed.
const REPEATS: u32 = 100_000;
/// Runs of each side of a row.
const RUNS: usize = 21;

/// The engine's bytes.
const ENGINE: usize = 4796;

#[derive(Clone)]
enum Call {
    Issue(u32, u32, u32),
    Redeem(u32, u32, u32),
    Holding(u32, u32),
    Settle(Vec<u8>, Vec<u8>),
}

impl Call {
    /// Whether it is not refused. What a query tells is the kind that is asked next, as in the program.
    fn make(&mut self, engine: &mut Engine) -> bool {
        match self {
            Call::Issue(card, kind, count) => engine.issue(*card, *kind, *count).is_ok(),
            Call::Redeem(card, kind, count) => engine.redeem(*card, *kind, *count).is_ok(),
            Call::Holding(card, kind) => {
                let told = engine.holding(*card, *kind);
                *kind = told.unwrap_or(0);
                told.is_ok()
            }
            Call::Settle(exchange, proof) => engine.settle(exchange, proof).is_ok(),
        }
    }
}

/// As a command line.
impl Display for Call {
    fn fmt(&self, line: &mut Formatter) -> fmt::Result {
        let hexadecimal =
            |bytes: &[u8]| -> String { bytes.iter().map(|byte| format!("{byte:02x}")).collect() };
        match self {
            Call::Issue(card, kind, count) => writeln!(line, "I {card} {kind} {count}"),
            Call::Redeem(card, kind, count) => writeln!(line, "D {card} {kind} {count}"),
            Call::Holding(card, kind) => writeln!(line, "H {card} {kind}"),
            Call::Settle(exchange, proof) => {
                writeln!(line, "S {} {}", hexadecimal(exchange), hexadecimal(proof))
            }
        }
    }
}

/// A call over a text, after some calls that are not timed.
struct Row {
    about: &'static str,
    text: Vec<u8>,
    once: Vec<Call>,
    call: Call,
}

impl Row {
    /// Over the ring's book, where card 1 holds so many of kind 1.
    fn account(about: &'static str, held: u32, call: Call) -> Row {
        Row {
            about,
            text: ring_of_three().text,
            once: vec![Call::Issue(1, 1, held)],
            call,
        }
    }

    /// Each giver is issued enough for every repeat.
    fn settlement(about: &'static str, case: Case) -> Row {
        let gifts = case.exchange.chunks(3);
        Row {
            about,
            once: gifts
                .map(|gift| Call::Issue(gift[0].into(), gift[1].into(), REPEATS))
                .collect(),
            text: case.text,
            call: Call::Settle(case.exchange, case.proof),
        }
    }

    /// The program's input, with or without the call that is timed.
    fn input(&self, timed: bool) -> Vec<u8> {
        let mut input = self.text.clone();
        input.push(b'\n');
        for call in &self.once {
            input.extend(call.to_string().bytes());
        }
        input.push(b'\n');
        if timed {
            input.extend(self.call.to_string().bytes());
        }
        input
    }

    /// The time of all repeats in plain Rust, which refuses none of them.
    fn plain(&self) -> Result<Duration, String> {
        let (mut engine, _) = Engine::open(&self.text);
        for call in &mut self.once.clone() {
            call.make(&mut engine);
        }
        let mut call = self.call.clone();
        let mut accepted = 0;
        let start = Instant::now();
        for _ in 0..REPEATS {
            accepted += u32::from(black_box(&mut call).make(&mut engine));
        }
        let time = start.elapsed();
        match accepted {
            REPEATS => Ok(time),
            _ => Err(format!("{}: plain Rust accepts {accepted}", self.about)),
        }
    }

    /// The median times of a call: ours, in plain Rust, and of a copy, by turns.
    fn times(&self) -> Result<[f64; 3], String> {
        let (with, without) = (self.input(true), self.input(false));
        let accepted = REPEATS.to_string();
        let mut times = [const { Vec::new() }; 4];
        for _ in 0..RUNS {
            let (time, output) = run(&with).map_err(|error| error.to_string())?;
            if output.lines().last() != Some(&accepted) {
                return Err(format!("{}: not all accepted:\n{output}", self.about));
            }
            let (rest, _) = run(&without).map_err(|error| error.to_string())?;
            for (times, time) in times.iter_mut().zip([time, rest, self.plain()?, copies()]) {
                times.push(time);
            }
        }
        let [with, without, plain, copy] = times.map(|mut times| median(&mut times));
        let each = |time: Duration| time.as_nanos() as f64 / f64::from(REPEATS);
        Ok([each(with.saturating_sub(without)), each(plain), each(copy)])
    }
}

fn rows() -> Vec<Row> {
    vec![
        Row::account("issue", 0, Call::Issue(1, 1, 1)),
        Row::account("redeem", REPEATS, Call::Redeem(1, 1, 1)),
        Row::account("holding", 1, Call::Holding(1, 1)),
        Row::settlement("settle of 3", ring_of_three()),
        Row::settlement("settle of 32", large::unfilled(32)),
    ]
}

/// How long the program takes, and what it prints.
fn run(input: &[u8]) -> io::Result<(Duration, String)> {
    let mut command = Command::new(PROGRAM);
    command.stdin(Stdio::piped()).stdout(Stdio::piped());
    let start = Instant::now();
    let mut program = command.spawn()?;
    if let Some(mut stdin) = program.stdin.take() {
        stdin.write_all(input)?;
    }
    let output = program.wait_with_output()?;
    let time = start.elapsed();
    Ok((time, String::from_utf8_lossy(&output.stdout).into_owned()))
}

/// The time of as many copies of an engine.
fn copies() -> Duration {
    let (from, mut to) = ([1_u8; ENGINE], [0; ENGINE]);
    let start = Instant::now();
    for _ in 0..REPEATS {
        // An assignment would go by way of a third array.
        black_box(&mut to).copy_from_slice(black_box(&from));
    }
    start.elapsed()
}

/// Times every row and prints the table.
pub fn bench() -> Result<(), String> {
    println!(
        "| engine call | ours, ns | plain Rust, ns | ours / plain | a copy, ns | ours / copy |"
    );
    println!("|---|---:|---:|---:|---:|---:|");
    for row in rows() {
        let [ours, plain, copy] = row.times()?;
        println!(
            "| {} | {ours:.0} | {plain:.1} | {:.2} | {copy:.0} | {:.2} |",
            row.about,
            ours / plain,
            ours / copy
        );
    }
    Ok(())
}
