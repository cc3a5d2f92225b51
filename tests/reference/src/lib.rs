//! A second token exchange engine in plain Rust, written from document 01 and the requests alone,
//! with a fairness decider, a proof search and a generator, so that tests can set it beside the
//! real one.

#![forbid(unsafe_code)]

pub mod book;
pub mod commands;
pub mod decider;
pub mod engine;
pub mod generate;
pub mod program;
pub mod random;
pub mod ring;
pub mod search;
pub mod till;
