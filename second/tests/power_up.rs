//! Request 2026-02, "Say which power-up setting is bad": "1 now means the fitted
//! code only; 14 range, 15 filter, 16 kit, 17 firmware; checked in that order,
//! then 2."

use second::{listing, step, Answer, Event, Record};

// The settings in the session file's order: d, range, filter, kit, firmware.
const SMALLEST: [u32; 5] = [0, 0, 0, 0, 0];
const LARGEST: [u32; 5] = [15, 2, 2, 2, 4095];
const FIRST_BAD: [u32; 5] = [16, 3, 3, 3, 4096];
const LAST_BAD: [u32; 5] = [u32::MAX; 5];
// Their places.
const FITTED: usize = 0;
const RANGE: usize = 1;
const FILTER: usize = 2;
const KIT: usize = 3;
const FIRMWARE: usize = 4;

/// 8·2^15, enough for every good fitted code.
const ENOUGH: usize = 262_144;

fn power_up([fitted, range, filter, kit, firmware]: [u32; 5]) -> Event {
    Event::PowerUp {
        fitted,
        range,
        filter,
        kit,
        firmware,
    }
}

/// The settings of `good`, but at the given places those of `bad`.
fn with(good: [u32; 5], bad: [u32; 5], places: &[usize]) -> [u32; 5] {
    let mut settings = good;
    for place in places {
        settings[*place] = bad[*place];
    }
    settings
}

/// A board in use: loaded, playing and with a request to load.
fn in_use() -> (Record, Vec<u32>) {
    let mut record = Record::unpowered();
    let mut memory = vec![0xDEAD_BEEF; 19];
    let write = |offset, value| Event::Write { offset, value };
    for event in [
        power_up([1, 2, 1, 2, 0xABC]),
        write(0x04, 0x0005),
        write(0x18, 0x1111),
        write(0x18, 0x2222),
        write(0x18, 0x1_3333),
        write(0x0C, 0x0323),
        Event::Tick,
    ] {
        assert_eq!(step(&mut record, &mut memory, &event).refusal, 0);
    }
    assert!(record.is_sound() && record.count == 3 && record.pending);
    (record, memory)
}

/// The refusal of a power-up over a memory of so many entries. "On refusal the
/// last three are 0, the given record comes back and memory is unchanged.", "any
/// old record is accepted": unpowered, in use or not sound. No entry is ever
/// written by a power-up.
fn refusal(settings: [u32; 5], length: usize) -> u32 {
    let (used, _) = in_use();
    let unsound = Record {
        range: 3,
        cursor: 21,
        ..used.clone()
    };
    let lent = vec![0xDEAD_BEEF; length];
    let mut memory = lent.clone();
    let refusals = [Record::unpowered(), used, unsound].map(|old| {
        let mut record = old.clone();
        let answer = step(&mut record, &mut memory, &power_up(settings));
        assert_eq!((answer.register, answer.moved, answer.fate), (0, 0, 0));
        assert!(memory == lent);
        if answer.refusal == 0 {
            assert!(record.is_sound() && record.count == 0);
        } else {
            assert_eq!(record, old);
        }
        answer.refusal
    });
    assert_eq!(refusals, [refusals[0]; 3]);
    refusals[0]
}

// ---- one setting -----------------------------------------------------------

#[test]
fn good_settings() {
    assert_eq!(refusal(SMALLEST, ENOUGH), 0);
    assert_eq!(refusal(LARGEST, ENOUGH), 0);
    for place in [FITTED, RANGE, FILTER, KIT, FIRMWARE] {
        assert_eq!(refusal(with(SMALLEST, LARGEST, &[place]), ENOUGH), 0);
        assert_eq!(refusal(with(LARGEST, SMALLEST, &[place]), ENOUGH), 0);
    }
}

/// "1 now means the fitted code only; 14 range, 15 filter, 16 kit, 17 firmware"
fn each_alone(good: [u32; 5], bad: [u32; 5], length: usize) {
    let alone = |place| refusal(with(good, bad, &[place]), length);
    assert_eq!(alone(FITTED), 1);
    assert_eq!(alone(RANGE), 14);
    assert_eq!(alone(FILTER), 15);
    assert_eq!(alone(KIT), 16);
    assert_eq!(alone(FIRMWARE), 17);
}

#[test]
fn one_bad_setting() {
    for good in [SMALLEST, LARGEST] {
        for bad in [FIRST_BAD, LAST_BAD] {
            each_alone(good, bad, ENOUGH);
        }
    }
}

#[test]
fn bad_in_their_high_bits() {
    // Numbers that are 0 in their lowest byte or two bytes: none is cut off.
    for number in [0x1_0000, 0x100_0000, 0x8000_0000] {
        each_alone(SMALLEST, [number; 5], ENOUGH);
    }
}

// ---- the order -------------------------------------------------------------

#[test]
fn two_bad_settings() {
    for good in [SMALLEST, LARGEST] {
        for bad in [FIRST_BAD, LAST_BAD] {
            let both = |one, other| refusal(with(good, bad, &[one, other]), ENOUGH);
            assert_eq!(both(FITTED, RANGE), 1);
            assert_eq!(both(FITTED, FILTER), 1);
            assert_eq!(both(FITTED, KIT), 1);
            assert_eq!(both(FITTED, FIRMWARE), 1);
            assert_eq!(both(RANGE, FILTER), 14);
            assert_eq!(both(RANGE, KIT), 14);
            assert_eq!(both(RANGE, FIRMWARE), 14);
            assert_eq!(both(FILTER, KIT), 15);
            assert_eq!(both(FILTER, FIRMWARE), 15);
            assert_eq!(both(KIT, FIRMWARE), 16);
        }
    }
}

#[test]
fn more_bad_settings() {
    for bad in [FIRST_BAD, LAST_BAD] {
        let all = |places: &[usize]| refusal(with(SMALLEST, bad, places), ENOUGH);
        assert_eq!(all(&[FITTED, RANGE, FILTER, KIT, FIRMWARE]), 1);
        assert_eq!(all(&[RANGE, FILTER, KIT, FIRMWARE]), 14);
        assert_eq!(all(&[FILTER, KIT, FIRMWARE]), 15);
    }
}

#[test]
fn short_memory() {
    // Alone: 2, with 8 values for d = 0 and 16 for d = 1.
    assert_eq!(refusal([0, 2, 2, 2, 4095], 7), 2);
    assert_eq!(refusal([0, 2, 2, 2, 4095], 8), 0);
    assert_eq!(refusal([1, 0, 0, 0, 0], 15), 2);
    assert_eq!(refusal([1, 0, 0, 0, 0], 16), 0);
    assert_eq!(refusal([15, 0, 0, 0, 0], 262_143), 2);
    assert_eq!(refusal([0, 0, 0, 0, 0], 0), 2);
    // With a bad setting: "then 2".
    for good in [SMALLEST, LARGEST] {
        for bad in [FIRST_BAD, LAST_BAD] {
            for length in [0, 7] {
                each_alone(good, bad, length);
                assert_eq!(refusal(bad, length), 1);
            }
        }
    }
}

// ---- what a refused power-up leaves ----------------------------------------

#[test]
fn play_goes_on() {
    // A board in use, refused in every way, plays on as if nothing had been
    // asked of it.
    let (mut record, mut memory) = in_use();
    let (old, lent) = in_use();
    for (settings, number) in [
        ([16, 0, 0, 0, 0], 1),
        ([0, 3, 0, 0, 0], 14),
        ([0, 0, 3, 0, 0], 15),
        ([0, 0, 0, 3, 0], 16),
        ([0, 0, 0, 0, 4096], 17),
        ([2, 0, 0, 0, 0], 2),
    ] {
        let refused = Answer {
            refusal: number,
            register: 0,
            moved: 0,
            fate: 0,
        };
        let answer = step(&mut record, &mut memory, &power_up(settings));
        assert_eq!(answer, refused);
        assert_eq!((&record, &memory), (&old, &lent));
    }
    let answer = step(&mut record, &mut memory, &Event::Tick);
    assert_eq!((answer.refusal, answer.moved), (0, 1));
    assert_eq!(record.levels[..4], [0x1111, 0x8000, 0x2222, 0x8000]);
}

#[test]
fn bad_settings_in_a_record() {
    // "settings in range" is one of the things that make a record sound: any
    // other event answers 3, whichever setting is bad.
    let (used, lent) = in_use();
    let holding = |[fitted, range, filter, kit, firmware]: [u32; 5]| Record {
        fitted,
        range,
        filter,
        kit,
        firmware,
        ..used.clone()
    };
    assert!(holding(LARGEST).is_sound());
    for bad in [FIRST_BAD, LAST_BAD] {
        for place in [FITTED, RANGE, FILTER, KIT, FIRMWARE] {
            let given = holding(with(LARGEST, bad, &[place]));
            for event in [Event::Read { offset: 0x10 }, Event::Tick] {
                let (mut record, mut memory) = (given.clone(), lent.clone());
                assert_eq!(step(&mut record, &mut memory, &event).refusal, 3);
                assert_eq!((&record, &memory), (&given, &lent));
            }
        }
    }
}

// ---- in a session file -----------------------------------------------------

#[test]
fn session() {
    // A refused power-up is an event's refusal: it has its line, and the run
    // "goes on past refused events". First bad numbers, then the largest that
    // their bytes hold, then all of these at once; a memory too short for d = 12,
    // alone and with bad firmware; and a value loaded early that stays.
    let records: [&[u8]; 15] = [
        &[0, 7, 1, 0, 0, 0, 0, 0x00, 0x00],
        &[0, 6, 2, 0x18, 0x00, 0x00, 0x12, 0x34],
        &[0, 7, 1, 16, 0, 0, 0, 0x00, 0x00],
        &[0, 7, 1, 0, 3, 0, 0, 0x00, 0x00],
        &[0, 7, 1, 0, 0, 3, 0, 0x00, 0x00],
        &[0, 7, 1, 0, 0, 0, 3, 0x00, 0x00],
        &[0, 7, 1, 0, 0, 0, 0, 0x10, 0x00],
        &[0, 7, 1, 255, 0, 0, 0, 0x00, 0x00],
        &[0, 7, 1, 0, 255, 0, 0, 0x00, 0x00],
        &[0, 7, 1, 0, 0, 255, 0, 0x00, 0x00],
        &[0, 7, 1, 0, 0, 0, 255, 0x00, 0x00],
        &[0, 7, 1, 0, 0, 0, 0, 0xFF, 0xFF],
        &[0, 7, 1, 255, 255, 255, 255, 0xFF, 0xFF],
        &[0, 7, 1, 12, 0, 0, 0, 0x00, 0x00],
        &[0, 7, 1, 12, 0, 0, 0, 0x10, 0x00],
    ];
    let expected = "REHEARSAL 1
1 0 00000000 0 0 0
2 0 00000000 0 1 1
3 1 00000000 0 0 1
4 14 00000000 0 0 1
5 15 00000000 0 0 1
6 16 00000000 0 0 1
7 17 00000000 0 0 1
8 1 00000000 0 0 1
9 14 00000000 0 0 1
10 15 00000000 0 0 1
11 16 00000000 0 0 1
12 17 00000000 0 0 1
13 1 00000000 0 0 1
14 2 00000000 0 0 1
15 17 00000000 0 0 1
LEVELS 8000 8000 8000 8000 8000 8000 8000 8000 8000 8000 8000 8000 8000 8000 8000 8000 8000 8000 8000 8000
";
    let file = [&[1], records.concat().as_slice()].concat();
    assert_eq!(listing(&file), expected);
}
