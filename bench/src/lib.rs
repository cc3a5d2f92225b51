//! The till's library, the programs and the engine's calls beside the second engine. The engine's calls have a program of their own, so that
//! what it uses of the second engine changes nothing in how the compiler lays out the other rows.

#![forbid(unsafe_code)]

pub mod calls;
pub mod engine;
pub mod lines;

use std::process::ExitCode;
use std::time::Duration;

/// The middle one; what else the machine does falls on the ends.
fn median(times: &mut [Duration]) -> Duration {
    times.sort_unstable();
    times[times.len() / 2]
}

/// Prints what went wrong.
pub fn report(done: Result<(), String>) -> ExitCode {
    match done {
        Ok(()) => ExitCode::SUCCESS,
        Err(complaint) => {
            eprintln!("{complaint}");
            ExitCode::FAILURE
        }
    }
}
