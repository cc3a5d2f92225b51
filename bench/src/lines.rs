//! Issue lines from a file through each program and through the second one of its dialect.

use crate::median;
use reference::commands::Dialect;
use reference::random::Random;
use std::fmt::Write;
use std::fs::{self, File};
use std::io;
use std::path::Path;
use std::process::{Command, Stdio};
use std::time::{Duration, Instant};

const LINES: usize = 1_000_000;
/// Runs of each program.
const RUNS: usize = 21;

/// From the repository's folder.
const OURS: &str = "target/bin";
const PLAIN: &str = "tests/reference/target/release/plain";
const FOLDER: &str = "examples/ring";
const INPUT: &str = "target/issues.txt";

/// Times all programs and prints the table.
pub fn bench() -> Result<(), String> {
    let rows = rows().map_err(|error| error.to_string())?;
    println!("| program | ours, commands/s | plain Rust, commands/s | ours / plain |");
    println!("|---|---:|---:|---:|");
    for Row { dialect, sides } in rows {
        let [ours, plain] = sides.map(Side::rate);
        println!(
            "| {}, 1,000,000 issue lines | {ours:.0} | {plain:.0} | {:.2} |",
            dialect.name(),
            ours / plain
        );
    }
    println!();
    Ok(())
}

/// A dialect's programs: ours and the second one.
struct Row {
    dialect: Dialect,
    sides: [Side; 2],
}

/// A program, and how long its runs took.
struct Side {
    command: Command,
    times: Vec<Duration>,
}

/// The programs of each dialect, timed by turns.
fn rows() -> io::Result<Vec<Row>> {
    fs::write(INPUT, issues())?;
    let mut rows = Dialect::ALL
        .into_iter()
        .map(Row::new)
        .collect::<io::Result<Vec<_>>>()?;
    for _ in 0..RUNS {
        for side in rows.iter_mut().flat_map(|row| &mut row.sides) {
            side.time()?;
        }
    }
    Ok(rows)
}

impl Row {
    /// The programs, once both have accepted every line.
    fn new(dialect: Dialect) -> io::Result<Row> {
        let ours = Command::new(Path::new(OURS).join(dialect.name()).canonicalize()?);
        let mut plain = Command::new(Path::new(PLAIN).canonicalize()?);
        plain.arg(dialect.name());
        let mut sides = [ours, plain].map(Side::new);
        for side in &mut sides {
            let output = side.output()?;
            if output != accepted().into_bytes() {
                return Err(io::Error::other(format!(
                    "{:?}: not all accepted",
                    side.command
                )));
            }
        }
        Ok(Row { dialect, sides })
    }
}

impl Side {
    fn new(mut command: Command) -> Side {
        command.current_dir(FOLDER);
        Side {
            command,
            times: Vec::new(),
        }
    }

    fn output(&mut self) -> io::Result<Vec<u8>> {
        let output = self.command.stdin(File::open(INPUT)?).output()?;
        Ok(output.stdout)
    }

    fn time(&mut self) -> io::Result<()> {
        self.command.stdin(File::open(INPUT)?).stdout(Stdio::null());
        let start = Instant::now();
        let status = self.command.status()?;
        self.times.push(start.elapsed());
        if !status.success() {
            return Err(io::Error::other(format!("{:?}: {status}", self.command)));
        }
        Ok(())
    }

    /// The commands that it answers in a second.
    fn rate(mut self) -> f64 {
        LINES as f64 / median(&mut self.times).as_secs_f64()
    }
}

/// What is printed if every line is accepted over the ring's book.
fn accepted() -> String {
    format!("book 3 8\n{}", "0 0\n".repeat(LINES))
}

/// Lines that are all accepted over the ring's book.
fn issues() -> String {
    let random = &mut Random::new(1, 0);
    let mut lines = String::new();
    for _ in 0..LINES {
        let (card, kind) = (random.within(1, 3), random.within(1, 16));
        let _ = writeln!(lines, "I {card} {kind} {}", random.below(1_000));
    }
    lines
}
