//! The rate question through the wrapper: its figures, and each refusal by name.

mod power_up;

use nergutsai::register::{adjustable_clock, bor, ADJUSTABLE_CLOCK, BOR, SAMPLE_RATE};
use nergutsai::{event, rate, rate_call, Event, Figures, Record, Refusal};
use power_up::UP;

/// A board after a power-up and these writes.
fn board(writes: &[(u32, u32)]) -> Record {
    let mut board = Record::unpowered();
    let writes = writes
        .iter()
        .map(|&(offset, value)| Event::Write { offset, value });
    for happening in [UP].into_iter().chain(writes) {
        event(&mut board, &mut [0; 8], happening).expect("it is no refused event");
    }
    board
}

#[test]
fn the_figures_are_those_of_the_clock() {
    // 01: "ALT = 1, Nclk 100: 19131115 Hz; divisor 100: 191311"
    let clock = adjustable_clock::SELECT_ALTERNATE_REFERENCE | 100;
    let figures = |reference, rate| Ok(Figures { reference, rate });
    assert_eq!(rate(&board(&[])), figures(30_000_000, 300_000));
    assert_eq!(
        rate(&board(&[(ADJUSTABLE_CLOCK, clock)])),
        figures(19_131_115, 191_311)
    );
}

#[test]
fn each_refusal_has_its_name() {
    let external = (BOR, bor::EXTERNAL_CLOCK);
    let zero = (SAMPLE_RATE, 0);
    let cases = [
        (Record::unpowered(), Refusal::NotSound, 3),
        (board(&[zero]), Refusal::DivisorIsZero, 8),
        (board(&[external]), Refusal::ClockIsExternal, 9),
        // 01: "rate 3, 9, 8"
        (board(&[external, zero]), Refusal::ClockIsExternal, 9),
    ];
    for (board, refusal, number) in cases {
        assert_eq!(rate(&board), Err(refusal));
        let mut figures = [123; 3];
        assert_eq!(rate_call(&board.0, &mut figures), 0);
        assert_eq!(figures, [number, 0, 0]);
        assert_eq!(refusal.number(), number);
    }
}
