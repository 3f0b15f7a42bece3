//! The other implementation: the proved board, libnergutsai.a, as the Rust
//! wrapper reaches it. The callers put guard words around each of the slices.

use crate::fields::{Figures, Record};
pub use nergutsai::{call, rate_call};

pub const NAME: &str = "libnergutsai.a";

/// Words beside the figures, and what the figures are before they are asked.
const GUARD: u32 = 0xA5A5_5A5A;
/// What a rate question that was not understood, or that wrote beside its
/// figures, is told as: no figures of the model's.
const SPOILT: Figures = [u32::MAX; 3];

/// The rate question, with guard words beside its figures.
pub fn rate(record: &Record) -> Figures {
    let mut figures = [GUARD; 3 + 8];
    let status = rate_call(record, &mut figures[4..7]);
    let beside = figures[..4].iter().chain(&figures[7..]);
    if status != 0 || beside.copied().any(|word| word != GUARD) {
        return SPOILT;
    }
    [figures[4], figures[5], figures[6]]
}
