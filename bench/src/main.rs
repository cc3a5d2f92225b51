//! The till's call and the programs beside the second engine, timed in one run.

#![forbid(unsafe_code)]

use bench::{calls, lines, report};
use std::process::ExitCode;

fn main() -> ExitCode {
    let arguments: Vec<String> = std::env::args().skip(1).collect();
    let arguments: Vec<&str> = arguments.iter().map(String::as_str).collect();
    report(match arguments.as_slice() {
        [] => calls::bench().and_then(|()| lines::bench()),
        // For a profiler: nothing but the calls of one side.
        [row, side, count] => calls::repeat(row, side, count),
        _ => Err("usage: bench [ROW ours|plain COUNT]".into()),
    })
}
