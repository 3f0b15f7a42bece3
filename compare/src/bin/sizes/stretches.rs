//! Events for the sizes: stretches of loads and clocks, each after a power-up,
//! taken or not, an initialise, or nothing. One of them fills its buffer as far
//! as the session is to fill any.

use super::aim::{least, Aim};
use super::board::Board;
use super::{asides, power_ups, rounds};
use compare::bits::*;
use compare::fields::*;
use compare::rng::Rng;

/// Frames of at most so many values go round.
const ROUND: u32 = 64;

/// One to three stretches; a long one is alone.
pub fn events(rng: &mut Rng, aim: Aim) -> Vec<Event> {
    let mut board = Board::new(aim.fitted);
    let stretches = if aim.is_long() { 1 } else { 1 + rng.below(3) };
    let fullest = rng.below(stretches);
    if rng.chance(1, 6) {
        asides::unpowered(rng, &mut board);
    }
    for stretch in 0..stretches {
        if stretch == fullest {
            board.put(power_ups::of(aim.fitted, rng));
            play(rng, &mut board, aim);
        } else {
            begin(rng, &mut board);
            let most = aim.top.min(8 << board.record[FITTED]);
            let top = 1 + rng.below(most);
            play(rng, &mut board, Aim { top, ..aim });
        }
    }
    board.events
}

/// The same, but every power-up is refused.
pub fn refused_events(rng: &mut Rng) -> Vec<Event> {
    let mut board = Board::new(0);
    for _ in 0..rng.below(4) {
        asides::unpowered(rng, &mut board);
        board.put(power_ups::refused(rng));
        let aim = Aim::small(rng);
        play(rng, &mut board, aim);
    }
    asides::unpowered(rng, &mut board);
    board.events
}

/// A buffer of this fitted code, more than half full, and nothing that would be
/// in its way: there are too few of them to miss one.
pub fn deep_events(rng: &mut Rng, fitted: u32) -> Vec<Event> {
    let mut board = Board::new(fitted);
    board.put(power_ups::of(fitted, rng));
    board.put_bor(rng, ENABLED_BIT);
    climb(rng, &mut board, least(fitted));
    sink(rng, &mut board);
    asides::aside(rng, &mut board);
    board.events
}

/// What a stretch other than the fullest begins with.
fn begin(rng: &mut Rng, board: &mut Board) {
    match rng.below(6) {
        0..=2 => board.put(power_ups::any(rng)),
        3 => board.put(power_ups::refused(rng)),
        4 => board.put(write(BCR, INITIALISE | rng.below(16))),
        _ => {}
    }
}

/// A set-up, and hills, one of them up to the top.
fn play(rng: &mut Rng, board: &mut Board, aim: Aim) {
    set_up(rng, board, aim.top);
    let hills = if aim.is_long() { 1 } else { 1 + rng.below(3) };
    let highest = rng.below(hills);
    for hill in 0..hills {
        let top = if hill == highest {
            make_ready(rng, board);
            aim.top
        } else {
            1 + rng.below(aim.top)
        };
        if top <= ROUND && rng.chance(1, 3) {
            rounds::round(rng, board, top);
        } else {
            climb(rng, board, top);
            sink(rng, board);
        }
        if rng.chance(1, 2) {
            asides::aside(rng, board);
        }
    }
}

/// The mask, the mode and the buffer: each mostly. Without the write to BOR the
/// size code 15 of the power-up or of the initialise stays, and no clock moves.
pub fn set_up(rng: &mut Rng, board: &mut Board, top: u32) {
    let (all, any) = (channels(2), rng.word() & channels(2));
    let one = 1 << rng.below(20);
    let few = one | 1 << rng.below(6) | 1 << rng.below(6);
    let mask = rng.pick(&[1, one | 1, few, few, any, all]);
    let mode = rng.pick(&[0, 0, 0, SIMULTANEOUS_BIT]);
    let bursts = rng.pick(&[0, 0, 0, 0, 0, BURSTS_BIT]);
    if rng.chance(3, 4) {
        board.put(write(0x04, mask));
    }
    if rng.chance(3, 4) {
        board.put(write(BCR, BINARY_BIT | mode | bursts));
    }
    if rng.chance(1, 6) {
        asides::calibration(rng, board);
    }
    if rng.chance(1, 4) {
        let missing = top.saturating_sub(board.stored());
        let some = rng.below(missing + 1);
        board.load(rng, some);
    }
    if rng.chance(7, 8) {
        let external = rng.pick(&[0, 0, EXTERNAL_BIT]);
        let circular = rng.pick(&[0, 0, 0, 0, 0, 0, 0, 0, 0, CIRCULAR_BIT]);
        board.put_bor(rng, ENABLED_BIT | external | circular);
        if external != 0 && rng.chance(1, 2) {
            asides::reference(rng, board);
        }
    }
}

/// So that loads are stored, mostly.
fn make_ready(rng: &mut Rng, board: &mut Board) {
    if board.record[CALIBRATING] == 1 && rng.chance(7, 8) {
        board.put(simple(PASSED));
    }
    if board.is_closed() && rng.chance(7, 8) {
        board.put_bor(rng, board.bor() & !CIRCULAR_BIT);
    }
}

/// Loads until so many values are stored: in one go, or with clocks or writes to
/// BOR between.
fn climb(rng: &mut Rng, board: &mut Board, top: u32) {
    for _ in 0..rng.below(4) {
        let missing = top.saturating_sub(board.stored());
        let some = rng.below(missing + 1);
        board.load(rng, some);
        if rng.chance(1, 2) {
            for _ in 0..1 + rng.below(3) {
                board.clock(rng);
            }
        } else {
            board.put_bor(rng, board.bor());
        }
    }
    board.load(rng, top.saturating_sub(board.stored()));
}

/// At most so many clocks: sinking a long session would make it twice as long.
const SINK: u32 = 150;

/// Clocks until few values are left, or some, or while they still move any.
fn sink(rng: &mut Rng, board: &mut Board) {
    let stored = board.stored();
    let (some, one) = (rng.below(stored + 1), stored.min(1));
    let down_by = rng.pick(&[stored, stored, stored - one, some, one, 0]);
    let floor = stored - down_by.min(SINK);
    while board.stored() > floor {
        let before = board.stored();
        board.clock(rng);
        if board.stored() == before && rng.chance(1, 2) {
            break;
        }
    }
}
