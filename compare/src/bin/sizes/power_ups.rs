//! Power-ups, accepted and refused.

pub use compare::power_ups::of;

use compare::fields::Event;
use compare::power_ups::{self, DEEPEST};
use compare::rng::Rng;

/// One of the depths that most sessions have.
pub fn any(rng: &mut Rng) -> Event {
    let fitted = rng.pick(&[0, 0, 1, 1, 2, 2, 3, 4, 6, DEEPEST]);
    of(fitted, rng)
}

pub fn refused(rng: &mut Rng) -> Event {
    let good = any(rng);
    power_ups::refused(good, rng)
}
