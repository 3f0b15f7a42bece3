//! The table of volts through the wrapper: its numbers, each refusal by name, and the sample memory afterwards.

mod common;

use common::{damaged, session, JUNK};
use nergutsai::{list, volts, volts_call, Event, Extremes, Refusal};

const ZERO: Extremes = Extremes {
    lowest: 0.0,
    highest: 0.0,
    last: 0.0,
};

/// A depth of 8 values, and all twenty channels.
fn power_up(range: u32) -> Event {
    Event::PowerUp {
        fitted: 0,
        range,
        filter: 0,
        kit: 2,
        firmware: 0,
    }
}

/// Plays these levels on channel 3.
fn play(levels: &[u32]) -> Vec<Event> {
    let set = |offset, value| Event::Write { offset, value };
    let mut events = vec![set(0x04, 1 << 3), set(0x0C, 0x2F)];
    for level in levels {
        events.extend([set(0x18, *level), Event::Tick]);
    }
    events
}

/// A session with a power-up and three values, and what they leave in a memory of 9.
fn good() -> (Vec<u8>, [u32; 9]) {
    let file = session(&[&[power_up(1)], &play(&[0x0000, 0xFFFF, 0x8001])[..]].concat());
    let mut memory = [JUNK; 9];
    memory[..3].copy_from_slice(&[0x0000, 0xFFFF, 0x8001]);
    (file, memory)
}

#[test]
fn the_volts_of_each_range_are_exact() {
    // Full scale down, one step below full scale up, and one step below 0.
    let levels = [0x0000, 0xFFFF, 0x7FFF];
    let cases = [
        (0, 5.0, [-2.5, 2.499_923_7, -0.000_076_293_945]),
        (1, 10.0, [-5.0, 4.999_847_4, -0.000_152_587_89]),
        (2, 20.0, [-10.0, 9.999_695, -0.000_305_175_78]),
    ];
    for (range, factor, numbers) in cases {
        let file = session(&[&[power_up(range)], &play(&levels)[..]].concat());
        let table = volts(&file, &mut [JUNK; 8]).expect("it has a power-up");
        let [lowest, highest, last] = numbers;
        for (channel, extremes) in table.into_iter().enumerate() {
            let three = Extremes {
                lowest,
                highest,
                last,
            };
            assert_eq!(extremes, if channel == 3 { three } else { ZERO });
        }
        // "times 65,536 each is the level less 32,768, times 5, 10 or 20"
        for (volts, level) in numbers.into_iter().zip(levels) {
            assert_eq!(volts * 65_536.0, (level as f32 - 32_768.0) * factor);
        }
    }
}

#[test]
fn another_power_up_starts_afresh_and_a_refused_one_does_not() {
    let mut events = [&[power_up(2)], &play(&[0x0000])[..]].concat();
    // Range 3 is refused, and so is a depth of 16 in a memory of 8.
    let deep = Event::PowerUp {
        fitted: 1,
        range: 0,
        filter: 0,
        kit: 2,
        firmware: 0,
    };
    events.extend([power_up(3), deep]);
    events.extend(play(&[0x8000]));
    let on_3 = |events: &[Event]| volts(&session(events), &mut [0; 8]).map(|table| table[3]);
    let lowest = Extremes {
        lowest: -10.0,
        ..ZERO
    };
    let zero = on_3(&events).expect("one power-up is accepted");
    assert_eq!(zero, lowest);
    assert_eq!(zero.last.to_bits(), 0);
    events.push(power_up(0));
    assert_eq!(on_3(&events), Ok(ZERO));
}

#[test]
fn each_refusal_has_its_name_and_sixty_positive_zeros() {
    let (good, left) = good();
    let junk = [JUNK; 9];
    let no_power_up = session(&[power_up(3), Event::Tick]);
    let short = session(&[Event::PowerUp {
        fitted: 1,
        range: 0,
        filter: 0,
        kit: 0,
        firmware: 0,
    }]);
    // The records before are played.
    let damaged = damaged(&good).map(|(file, refusal, number)| (file, refusal, number, left));
    let cases = [
        (vec![], Refusal::NotASession, 10, junk),
        ([&[2], &good[1..]].concat(), Refusal::NotASession, 10, junk),
        (good[..5].to_vec(), Refusal::Cut, 11, junk),
        (vec![1], Refusal::NoPowerUp, 18, junk),
        (no_power_up.clone(), Refusal::NoPowerUp, 18, junk),
        (short, Refusal::NoPowerUp, 18, junk),
        // What is wrong with the file is told first.
        ([&no_power_up[..], &[0]].concat(), Refusal::Cut, 11, junk),
    ];
    for (file, refusal, number, left) in damaged.into_iter().chain(cases) {
        let mut memory = junk;
        assert_eq!(volts(&file, &mut memory), Err(refusal));
        assert_eq!(memory, left);
        let mut memory = junk;
        let mut numbers = [123.456; 60];
        assert_eq!(volts_call(&file, &mut memory, &mut numbers), number);
        assert_eq!(memory, left);
        assert_eq!(numbers.map(f32::to_bits), [0; 60]);
        assert_eq!(refusal.number(), number);
        assert!(refusal.to_string().contains(": "));
    }
}

#[test]
fn the_memory_is_as_the_run_left_it() {
    let (file, left) = good();
    let mut memory = [JUNK; 9];
    assert!(volts(&file, &mut memory).is_ok());
    assert_eq!(memory, left);
    let mut listed = [JUNK; 9];
    assert!(list(&file, &mut listed).starts_with("REHEARSAL 1\n"));
    assert_eq!(listed, left);
}

#[test]
fn a_session_may_be_longer_than_a_listing_takes() {
    let mut events = [&[power_up(0)], &play(&[])[..]].concat();
    events.resize(16_384, Event::Read { offset: 0x0C });
    events.extend(play(&[0x0000, 0xC000]));
    let file = session(&events);
    assert!(file.len() > 65_536);
    let table = volts(&file, &mut [0; 8]).expect("it has a power-up");
    let three = Extremes {
        lowest: -2.5,
        highest: 1.25,
        last: 1.25,
    };
    assert_eq!(table[3], three);
}
