//! Calls at once, each thread on memory of its own: every one answers as it does alone.

mod common;

use common::{damaged, session, JUNK};
use nergutsai::register::{bcr, bor, BCR, BOR, EOF, OUTPUT_DATA_BUFFER};
use nergutsai::{list, smallest_size, volts, Event};
use std::thread;

/// A frame of eight values that goes round, for so many ticks.
fn file(ticks: usize) -> Vec<u8> {
    let set = |offset, value| Event::Write { offset, value };
    let mut events = vec![
        Event::PowerUp {
            fitted: 0,
            range: 2,
            filter: 0,
            kit: 2,
            firmware: 0,
        },
        set(BCR, bcr::OFFSET_BINARY),
    ];
    events.extend((1..8).map(|i| set(OUTPUT_DATA_BUFFER, 0x1000 * i)));
    events.push(set(OUTPUT_DATA_BUFFER, 0x8000 | EOF));
    events.push(set(BOR, bor::ENABLE_CLOCK | bor::CIRCULAR_BUFFER));
    events.extend(vec![Event::Tick; ticks]);
    session(&events)
}

#[test]
fn threads_may_call_at_once() {
    let all = |file: &[u8]| {
        let mut memory = [JUNK; 8];
        let text = list(file, &mut memory);
        (
            text,
            volts(file, &mut memory),
            smallest_size(file, &mut memory),
            memory,
        )
    };
    let mut files: Vec<Vec<u8>> = (0..8).map(|i| file(1000 + 7 * i)).collect();
    files.extend(damaged(&files[0]).map(|(file, ..)| file));
    let alone: Vec<_> = files.iter().map(|file| all(file)).collect();
    thread::scope(|scope| {
        for (file, alone) in files.iter().zip(&alone) {
            scope.spawn(move || {
                for _ in 0..20 {
                    assert_eq!(all(file), *alone);
                }
            });
        }
    });
}
