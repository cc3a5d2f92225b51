//! Talks with each program over pipes, one command at a time, and expects every answer before the
//! next command is written. Then its input fails, and its output.

#![forbid(unsafe_code)]

use reference::commands::{Dialect, Session};
use reference::generate::{long_settlement, BookFile};
use reference::program::{shown, Program, PATIENCE};
use reference::ring;
use std::io::{self, BufRead, BufReader, Read, Write};
use std::os::fd::OwnedFd;
use std::os::unix::net::UnixStream;
use std::process::{ExitCode, Stdio};
use std::sync::mpsc::{self, Receiver};
use std::thread;
use std::time::Duration;

/// Longest part of a line that a complaint shows.
const SHOWN: usize = 100;

fn main() -> ExitCode {
    let paths: Vec<String> = std::env::args().skip(1).collect();
    if paths.is_empty() {
        eprintln!("usage: conversation PROGRAM...");
        return ExitCode::from(2);
    }
    for path in &paths {
        match Program::at(path).and_then(|program| talk(&program)) {
            Ok(answers) => println!("{path}: {answers} answers, each in time"),
            Err(complaint) => {
                println!("{path}: {complaint}");
                return ExitCode::FAILURE;
            }
        }
    }
    ExitCode::SUCCESS
}

fn talk(program: &Program) -> Result<usize, String> {
    let answers = converse(program)?;
    fail_to_read(program).map_err(|error| format!("input that fails: {error}"))?;
    fail_to_write(program).map_err(|error| format!("output that fails: {error}"))?;
    Ok(answers)
}

fn ring_book() -> BookFile {
    BookFile::Text(ring::BOOK.into())
}

fn converse(program: &Program) -> Result<usize, String> {
    let book = ring_book();
    let mut process = program.start(&book).map_err(|error| error.to_string())?;
    let mut input = process.input();
    let answers = watch(process.output());

    let mut expected = Vec::new();
    let mut session = Session::open(program.dialect, book.text(), &mut expected)
        .ok_or("the ring's book does not open")?;
    expect(&answers, &mut expected, "the book")?;
    let lines = lines();
    for (line, cut) in &lines {
        session.feed(line, &mut expected);
        let (first, second) = line.split_at(*cut);
        write(&mut input, first)?;
        // A line in two parts must be waited for; the pause lets the first part arrive alone.
        if !second.is_empty() {
            thread::sleep(Duration::from_millis(20));
            write(&mut input, second)?;
        }
        expect(&answers, &mut expected, &shown(line, SHOWN))?;
    }

    let last = b"H 1 3";
    session.feed(last, &mut expected);
    session.finish(&mut expected);
    write(&mut input, last)?;
    drop(input);
    expect(&answers, &mut expected, "a last line without LF")?;
    if let Ok(more) = answers.recv_timeout(PATIENCE) {
        return Err(format!("an answer too many: {}", shown(&more, SHOWN)));
    }
    match process.end() {
        Ok(status) if status.success() => Ok(lines.len() + 2),
        Ok(status) => Err(format!("no clean end: {status}")),
        Err(error) => Err(format!("no end: {error}")),
    }
}

/// A read fails in the middle of a line: what came of the line is not answered.
fn fail_to_read(program: &Program) -> io::Result<()> {
    let (mut ours, theirs) = failing_socket()?;
    ours.write_all(b"H 1 1\nI 1 1 2")?;
    let mut process = program.start_between(&ring_book(), theirs, Stdio::piped())?;
    let mut output = process.output();
    process.end()?;
    let mut answers = String::new();
    output.read_to_string(&mut answers)?;
    match answers.as_str() {
        "book 3 8\n= 0\n" => Ok(()),
        _ => Err(io::Error::other(answers)),
    }
}

/// A write fails: the program ends though there is more input.
fn fail_to_write(program: &Program) -> io::Result<()> {
    let (_ours, theirs) = failing_socket()?;
    let mut process = program.start_between(&ring_book(), Stdio::piped(), theirs)?;
    let mut input = process.input();
    // More answers than the socket holds, since nobody reads them. The program ends meanwhile, or
    // is ended; its input stays open until then.
    let writer = thread::spawn(move || {
        let _ = input.write_all(&b"H 1 1\n".repeat(1 << 20));
        input
    });
    let status = process.end()?;
    drop(writer.join());
    match status.success() {
        true => Ok(()),
        false => Err(io::Error::other(status.to_string())),
    }
}

/// Our end of a socket, and a program's: there a call that would have to wait fails.
fn failing_socket() -> io::Result<(UnixStream, Stdio)> {
    let (ours, theirs) = UnixStream::pair()?;
    theirs.set_nonblocking(true)?;
    Ok((ours, OwnedFd::from(theirs).into()))
}

/// Lines, and where each of them is cut; those that are not are cut at their end.
fn lines() -> Vec<(Vec<u8>, usize)> {
    let cut = |line: Vec<u8>| {
        let parts = if line.len().is_multiple_of(3) { 2 } else { 1 };
        let cut = line.len() / parts;
        (line, cut)
    };
    let mut lines: Vec<_> = short_lines().into_iter().map(cut).collect();
    for limit in Dialect::ALL.map(Dialect::longest_line) {
        for length in [limit - 1, limit, limit + 1, 3 * limit] {
            lines.push(cut([&long_settlement(length)[..], b"\n"].concat()));
        }
        // What follows when a line is too long already is no line of its own.
        for length in [limit, limit + 1, 3 * limit] {
            lines.push((format!("{}H 1 1\n", "x".repeat(length)).into(), length));
        }
    }
    lines
}

/// The ring again and again, with refusals and ill-formed lines between.
fn short_lines() -> Vec<Vec<u8>> {
    let mut lines = Vec::new();
    for round in 0..20 {
        lines.extend(ring::INPUT.lines().map(|line| format!("{line}\n").into()));
        lines.push(b"\n".into());
        lines.push(format!("D 1 1 {round}\n").into());
        lines.push(format!("I 9 1 {round}\n").into());
        lines.push(format!("{}\n", "x".repeat(round)).into());
    }
    lines
}

/// Hands on every line that the program prints, so that waiting for one can have an end.
fn watch(output: impl std::io::Read + Send + 'static) -> Receiver<Vec<u8>> {
    let (sender, receiver) = mpsc::channel();
    thread::spawn(move || {
        for line in BufReader::new(output).split(b'\n') {
            let Ok(line) = line else { break };
            if sender.send(line).is_err() {
                break;
            }
        }
    });
    receiver
}

fn write(input: &mut impl Write, bytes: &[u8]) -> Result<(), String> {
    input
        .write_all(bytes)
        .and_then(|()| input.flush())
        .map_err(|error| format!("the program reads no more: {error}"))
}

/// Waits for one answer, which must be the one expected.
fn expect(
    answers: &Receiver<Vec<u8>>,
    expected: &mut Vec<u8>,
    command: &str,
) -> Result<(), String> {
    let mut answer = answers
        .recv_timeout(PATIENCE)
        .map_err(|_| format!("no answer in time to {command}"))?;
    answer.push(b'\n');
    if answer != *expected {
        return Err(format!(
            "{command}: expected {}, got {}",
            shown(expected, SHOWN),
            shown(&answer, SHOWN)
        ));
    }
    expected.clear();
    Ok(())
}
