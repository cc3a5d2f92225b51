//! The engine's calls beside the second engine's and a copy of the engine, timed in one run.

#![forbid(unsafe_code)]

use std::process::ExitCode;

fn main() -> ExitCode {
    bench::report(bench::engine::bench())
}
