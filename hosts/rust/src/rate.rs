//! The rate question.

use crate::raw::rate_call;
use crate::{Record, Refusal};

/// What a rate question answers.
#[derive(Clone, Copy, Debug, PartialEq, Eq)]
pub struct Figures {
    /// The reference frequency, in whole hertz.
    pub reference: u32,
    /// The sample rate, in whole hertz.
    pub rate: u32,
}

/// The rate question. It is refused for a damaged record, then where EXTERNAL CLOCK is set, then where the divisor is 0.
pub fn rate(record: &Record) -> Result<Figures, Refusal> {
    let mut figures = [0; 3];
    let status = rate_call(&record.0, &mut figures);
    assert_eq!(status, 0, "the lengths are right by their types");
    let [refusal, reference, rate] = figures;
    Refusal::told(refusal)?;
    Ok(Figures { reference, rate })
}
