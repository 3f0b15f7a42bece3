//! What is wrong with an event, told from the kinds and the widths of their
//! fields. Only for `--coverage`; the comparison itself never asks.

use compare::fields::Event;
use compare::file::{held, widths};

#[derive(Clone, Copy, PartialEq)]
pub enum Fault {
    /// "13 an unknown kind"
    Kind,
    /// "30 a field too large for its bytes or not 0 where the kind has none"
    Field,
}

/// "13 before 30"
pub fn first(event: &Event) -> Option<Fault> {
    if widths(event[0]).is_none() {
        return Some(Fault::Kind);
    }
    (held(event) != *event).then_some(Fault::Field)
}
