//! Sets programs beside the plain engine over random transcripts, and fairness beside what some
//! proof settles.

#![forbid(unsafe_code)]

mod report;
mod tally;

use reference::book::{Book, Transfer, KINDS, VARIABLES};
use reference::decider::Decider;
use reference::generate::{self, BookFile, Script, Settlement, Transcript};
use reference::program::Program;
use reference::random::Random;
use reference::search::{self, Choice};
use report::{accepted, difference, lines, report};
use std::process::ExitCode;
use tally::{table, Tally};

/// Exchanges tried over each small book.
const EXCHANGES: usize = 8;
/// Proofs tried for an exchange that none should settle.
const ATTEMPTS: usize = 6;

fn main() -> ExitCode {
    let arguments: Vec<String> = std::env::args().skip(1).collect();
    let [seed, count, paths @ ..] = arguments.as_slice() else {
        return usage();
    };
    let (Ok(seed), Ok(count), [_, ..]) = (seed.parse(), count.parse(), paths) else {
        return usage();
    };
    match Runner::new(paths).and_then(|runner| runner.run(seed, count)) {
        Ok(()) => ExitCode::SUCCESS,
        Err(complaint) => {
            println!("{complaint}");
            ExitCode::FAILURE
        }
    }
}

fn usage() -> ExitCode {
    eprintln!("usage: transcripts SEED COUNT PROGRAM...");
    ExitCode::from(2)
}

/// The programs over the same transcripts, and what came of it.
struct Runner {
    programs: Vec<Program>,
    tallies: Vec<Tally>,
    transcripts: u64,
    fair: u64,
    unfair: u64,
}

impl Runner {
    fn new(paths: &[String]) -> Result<Runner, String> {
        let programs: Vec<_> = paths
            .iter()
            .map(|path| Program::at(path))
            .collect::<Result<_, _>>()?;
        Ok(Runner {
            tallies: programs
                .iter()
                .map(|program| Tally::new(program.dialect))
                .collect(),
            programs,
            transcripts: 0,
            fair: 0,
            unfair: 0,
        })
    }

    /// Prints the table of a run in which all agreed; an error is what else to print.
    fn run(mut self, seed: u64, count: u64) -> Result<(), String> {
        self.compare_all(seed, count)?;
        let Runner {
            tallies,
            transcripts,
            fair,
            unfair,
            ..
        } = self;
        print!("{}", table(&tallies));
        println!("{transcripts} transcripts; {fair} fair exchanges, {unfair} unfair");
        let complaint = tallies.iter().find_map(Tally::complaint);
        complaint.map_or(Ok(()), Err)
    }

    /// The tables' transcripts, so many random ones, and half as many small books for fairness.
    fn compare_all(&mut self, seed: u64, count: u64) -> Result<(), String> {
        let mut random = Random::new(seed, u64::MAX);
        for (case, transcript) in Transcript::every(&mut random).iter().enumerate() {
            let case = format!("seed {seed}, table {case}");
            self.compare(transcript, &case, &mut random)?;
        }
        for case in 0..count {
            let mut random = Random::new(seed, 2 * case);
            let transcript = Transcript::some(&mut random);
            let case = format!("seed {seed}, transcript {case}");
            self.compare(&transcript, &case, &mut random)?;
        }
        for case in 0..count.div_ceil(2) {
            let mut random = Random::new(seed, 2 * case + 1);
            let case = format!("seed {seed}, small book {case}");
            self.fairness(&case, &mut random)?;
        }
        Ok(())
    }

    /// Runs the programs on a transcript and answers their outputs, which are as expected.
    fn compare(
        &mut self,
        transcript: &Transcript,
        case: &str,
        random: &mut Random,
    ) -> Result<Vec<Vec<u8>>, String> {
        self.transcripts += 1;
        let pieces = pieces(&transcript.input, random);
        let mut outputs = Vec::new();
        for (program, tally) in self.programs.iter().zip(&mut self.tallies) {
            let output = agreed(program, transcript, &pieces).map_err(|what| {
                let name = program.dialect.name();
                report(&format!("{case}, {name}: {what}"), transcript)
            })?;
            tally.add(transcript, &output);
            outputs.push(output);
        }
        Ok(outputs)
    }

    /// With ample holdings, some proof settles an exchange exactly if it is fair: the search
    /// finds a proof that the programs settle, or nothing that is tried settles it.
    fn fairness(&mut self, case: &str, random: &mut Random) -> Result<(), String> {
        let text = generate::small(random);
        let mut script = stocked(&text);
        let verdicts = self.try_exchanges(&mut script, random);
        let transcript = Transcript {
            book: BookFile::Text(text),
            input: script.input,
        };
        let failed = |what| report(&format!("{case}: {what}"), &transcript);
        let verdicts = verdicts.map_err(failed)?;
        for output in self.compare(&transcript, case, random)? {
            let answers: Vec<_> = lines(&output).collect();
            for &(number, fair) in &verdicts {
                if accepted(answers[number]) != fair {
                    return Err(failed(format!(
                        "answer {} while fair is {fair}",
                        number + 1
                    )));
                }
            }
        }
        Ok(())
    }

    /// Writes settlements of some exchanges, and answers which lines they are and whether they are
    /// fair; an error is an exchange that decider and search disagree on.
    fn try_exchanges(
        &mut self,
        script: &mut Script,
        random: &mut Random,
    ) -> Result<Vec<(usize, bool)>, String> {
        let book = script.engine().book().clone();
        let decider = Decider::new(&book);
        let mut verdicts = Vec::new();
        for _ in 0..EXCHANGES {
            let exchange = generate::small_exchange(&book, random);
            let fair = decider.fair(&exchange);
            let found = search::proof(&book, &exchange);
            if fair != found.is_some() {
                return Err(format!(
                    "{exchange:?}: fair is {fair}, a proof is {found:?}"
                ));
            }
            let proofs = match found {
                Some(proof) => {
                    self.fair += 1;
                    vec![proof]
                }
                None => {
                    self.unfair += 1;
                    let attempts = (0..ATTEMPTS).map(|_| attempt(&book, &exchange, random));
                    attempts.collect()
                }
            };
            for proof in proofs {
                script.settle(&Settlement {
                    exchange: exchange.concat(),
                    proof,
                });
                verdicts.push((lines(&script.input).count(), fair));
            }
        }
        Ok(verdicts)
    }
}

/// What the program prints, which is as expected; an error tells the difference.
fn agreed(program: &Program, transcript: &Transcript, pieces: &[&[u8]]) -> Result<Vec<u8>, String> {
    let expected = transcript.expected(program.dialect);
    let actual = program
        .run(&transcript.book, pieces)
        .map_err(|error| format!("the program: {error}"))?;
    if actual != expected {
        return Err(difference(transcript, &expected, &actual));
    }
    Ok(actual)
}

/// A script in which every card was issued plenty of every kind.
fn stocked(text: &[u8]) -> Script {
    let mut script = Script::new(text);
    for card in 1..=script.engine().book().cards.len() as u32 {
        for kind in 1..=KINDS as u32 {
            script.issue(card, kind, 1_000);
        }
    }
    script
}

/// A proof that claims every transfer with some choice, without regard to who pays what twice.
fn attempt(book: &Book, exchange: &[Transfer], random: &mut Random) -> Vec<u8> {
    let chosen: Vec<_> = exchange
        .iter()
        .map(|transfer| {
            let mut choices = search::choices(book, transfer);
            if choices.is_empty() {
                return any_choice(book, random);
            }
            choices.swap_remove(random.below(choices.len()))
        })
        .collect();
    search::in_order(&chosen)
}

/// Some rule with some cards, for a transfer that no choice is right for.
fn any_choice(book: &Book, random: &mut Random) -> Choice {
    let mut cards = [0; VARIABLES];
    let rule = random.below(book.rules.len());
    for (variable, card) in cards.iter_mut().enumerate() {
        if book.rules[rule].used >> variable & 1 == 1 {
            *card = random.within(1, book.cards.len()) as u8;
        }
    }
    Choice {
        rule: rule as u8 + 1,
        cards,
        prices: Vec::new(),
    }
}

/// The input cut at random, so that lines come to the program in parts, but not in too many.
fn pieces<'i>(mut input: &'i [u8], random: &mut Random) -> Vec<&'i [u8]> {
    let mut pieces = Vec::new();
    let most = random.pick(&[50, 1_000, 100_000, 10_000_000]);
    let most = most.max(input.len() / 1_000);
    while !input.is_empty() {
        let (piece, rest) = input.split_at(random.within(1, most).min(input.len()));
        pieces.push(piece);
        input = rest;
    }
    pieces
}
