//! The till's static library for Rust: its one call, and cases to make it with.

#![deny(unsafe_op_in_unsafe_fn)]

pub mod cases;
pub mod large;

extern "C" {
    // As include/thawcroft.h has it.
    fn thawcroft_settle(
        text: *const u8,
        text_length: usize,
        holdings: *mut u32,
        holding_count: usize,
        exchange: *const u8,
        exchange_length: usize,
        proof: *const u8,
        proof_length: usize,
    ) -> u32;
}

/// The library's call; the twin of `reference::till::call`.
pub fn call(text: &[u8], holdings: &mut [u32], exchange: &[u8], proof: &[u8]) -> u32 {
    // SAFETY: each pointer is to so many elements, and what is lent mutably overlaps
    // nothing else and is changed by nobody during the call, as these are slices.
    unsafe {
        thawcroft_settle(
            text.as_ptr(),
            text.len(),
            holdings.as_mut_ptr(),
            holdings.len(),
            exchange.as_ptr(),
            exchange.len(),
            proof.as_ptr(),
            proof.len(),
        )
    }
}
