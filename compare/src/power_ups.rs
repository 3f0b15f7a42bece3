//! Power-ups for session files, accepted and refused.

use crate::fields::*;
use crate::file::MEMORY;
use crate::rng::Rng;

/// The fitted code that the usual memory is just deep enough for.
pub const DEEPEST: u32 = (MEMORY / 8).ilog2();

/// Of this fitted code; the other settings are any good ones.
pub fn of(fitted: u32, rng: &mut Rng) -> Event {
    let firmware = rng.below(4096);
    [
        POWER_UP,
        fitted,
        rng.below(3),
        rng.below(3),
        rng.below(3),
        firmware,
    ]
}

/// This one, but one setting is bad, or the usual memory is too short.
pub fn refused(mut event: Event, rng: &mut Rng) -> Event {
    let setting = rng.below(7) as usize;
    match SETTINGS.get(setting) {
        Some((_, most)) => event[1 + setting] = most + 1 + rng.below(2),
        None => event[1] = DEEPEST + 1 + rng.below(4),
    }
    event
}
