//! What comes between loads and clocks: writes to BOR that are taken or refused,
//! and what sets the buffer or the clocks back.

use super::board::Board;
use super::{power_ups, stretches};
use compare::bits::*;
use compare::fields::*;
use compare::rng::Rng;

pub fn aside(rng: &mut Rng, board: &mut Board) {
    match rng.below(12) {
        0..=3 => {
            for _ in 0..1 + rng.below(3) {
                let request = rng.pick(&[0, REQUEST_BIT]);
                board.put_bor(rng, board.bor() | request);
            }
        }
        4 => board.put_bor(rng, board.bor() | CLEAR),
        5 | 6 => calibration(rng, board),
        7 => reference(rng, board),
        8 => {
            board.put(write(BCR, INITIALISE | rng.below(16)));
            // More than one of the small sizes, if the buffer is deeper.
            let top = rng.pick(&[12, 20, 40]).min(8 << board.record[FITTED]);
            if rng.chance(3, 4) {
                stretches::set_up(rng, board, top);
            } else {
                board.load(rng, top);
            }
        }
        9 => board.put(power_ups::refused(rng)),
        10 => board.put(write(0x04, rng.word() & rng.word())),
        _ => {
            let registers = [read(BOR), read(BCR), read(0x18), write(0x08, rng.word())];
            let refused = [read(0x20), write(0x0D, rng.word()), write(0x10, 0)];
            let kinds = [simple(TRIGGER), simple(OUTSIDE), simple(SETTLED)];
            board.put(rng.pick(&[registers.as_slice(), &refused, &kinds].concat()));
        }
    }
}

/// Before a power-up nothing is taken: no size code, no load.
pub fn unpowered(rng: &mut Rng, board: &mut Board) {
    for _ in 0..1 + rng.below(3) {
        match rng.below(6) {
            0 | 1 => board.put_bor(rng, ENABLED_BIT),
            2 => board.load(rng, 1),
            3 => board.load(rng, 9),
            4 => board.put(power_ups::refused(rng)),
            _ => board.put(rng.pick(&[simple(TICK), read(BOR), write(BCR, INITIALISE)])),
        }
    }
}

/// A calibration, in which writes are refused: those to BOR would do much if
/// they were taken. Now and then it does not end.
pub fn calibration(rng: &mut Rng, board: &mut Board) {
    board.put(write(BCR, board.bcr() | CALIBRATE));
    for _ in 0..1 + rng.below(4) {
        let other = rng.pick(&[CLEAR, CIRCULAR_BIT, ENABLED_BIT]);
        match rng.below(6) {
            0..=2 => board.put_bor(rng, board.bor() ^ other),
            3 => board.load(rng, 1),
            4 => board.put(write(BCR, INITIALISE)),
            _ => board.put(simple(TICK)),
        }
    }
    if rng.chance(7, 8) {
        board.put(simple(rng.pick(&[PASSED, PASSED, FAILED])));
    }
}

/// A write to 1Ch: with EXTERNAL CLOCK set, another Nclk starts settling, and
/// outside clocks wait.
pub fn reference(rng: &mut Rng, board: &mut Board) {
    let alt = rng.pick(&[0, 0, 0, 1 << 9]);
    let (now, other) = (board.record[NCLK], rng.below(512));
    let nclk = rng.pick(&[now, now, now ^ 1, other]);
    board.put(write(0x1C, alt | nclk));
    if rng.chance(1, 2) {
        board.put(simple(SETTLED));
    }
}
