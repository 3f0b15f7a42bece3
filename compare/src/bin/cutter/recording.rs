//! The numbers of a recording.

use compare::rng::Rng;

/// The ends of the span, and where the two codings meet.
pub const CORNERS: [u16; 4] = [0x0000, 0x7FFF, 0x8000, 0xFFFF];

pub fn choose(length: usize, rng: &mut Rng) -> Vec<u16> {
    if rng.chance(1, 2) {
        return distinct(length, rng);
    }
    let mut number = || {
        let (corner, any) = (rng.pick(&CORNERS), rng.word() as u16);
        rng.pick(&[corner, any])
    };
    (0..length).map(|_| number()).collect()
}

/// No number twice, up to 65,536 of them, so that a wrong column shows.
fn distinct(length: usize, rng: &mut Rng) -> Vec<u16> {
    let (start, step) = (rng.word() as u16, rng.word() as u16 | 1);
    let number = |place: usize| start.wrapping_add(step.wrapping_mul(place as u16));
    (0..length).map(number).collect()
}
