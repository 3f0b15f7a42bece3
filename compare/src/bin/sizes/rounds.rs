//! Frames that go round in a circular buffer. Where a small size loses the end
//! of a frame, a burst does not end, and a buffer does not open or close when it
//! would: so the replays leave different values in the memory, in other places.

use super::board::Board;
use compare::bits::*;
use compare::fields::*;
use compare::rng::Rng;

/// A frame up to so many stored values, and what happens while it goes round.
pub fn round(rng: &mut Rng, board: &mut Board, top: u32) {
    let open = board.bor() & !CIRCULAR_BIT | ENABLED_BIT;
    if board.is_closed() {
        board.put_bor(rng, open);
    }
    if board.stored() < top {
        board.load(rng, top - board.stored() - 1);
        board.load_last(rng);
    }
    if rng.chance(1, 3) {
        let trigger = rng.pick(&[0, SOFTWARE_TRIGGER]);
        board.put(write(BCR, board.bcr() | BURSTS_BIT | trigger));
    }
    let request = rng.pick(&[0, REQUEST_BIT, REQUEST_BIT]);
    board.put_bor(rng, open | CIRCULAR_BIT | request);
    let loads = rng.pick(&[0, 1, 2, 6]);
    for _ in 0..8 + rng.below(8 * top) {
        step(rng, board, top, loads);
    }
    if rng.chance(3, 4) {
        let clear = rng.pick(&[0, CLEAR]);
        board.put_bor(rng, open | clear);
    }
}

/// A clock, or a load in so many of 16 times: never more than `top` values are
/// stored. Where loads are few, values that go on going round get further than
/// others do by loads.
fn step(rng: &mut Rng, board: &mut Board, top: u32, loads: u32) {
    let room = board.is_closed() || board.stored() < top;
    match rng.below(16) {
        15 => board.put_bor(rng, board.bor() | REQUEST_BIT),
        n if n < loads && room && rng.chance(3, 4) => board.load(rng, 1),
        n if n < loads && room => board.load_last(rng),
        _ => board.clock(rng),
    }
}
