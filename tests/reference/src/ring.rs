//! The ring of three, whole: its book, input and output.

pub const BOOK: &str = include_str!("../../../examples/ring/book.txt");

pub const INPUT: &str = include_str!("../../../examples/ring/input");

pub const OUTPUT: &str = include_str!("../../../examples/ring/output");
