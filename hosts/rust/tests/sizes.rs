//! The smallest size through the wrapper: its codes, each refusal by name, and the sample memory afterwards.

mod common;

use common::{damaged, session, JUNK};
use nergutsai::{list, smallest_size, smallest_size_call, Event, Refusal};

/// 0Ch: the clock enabled, with size code 0; circular too.
const RUNNING: u32 = 0x20;
const CIRCULAR: u32 = 0x100;
/// Of a value that is loaded.
const EOF: u32 = 0x1_0000;

/// A depth of 8·2^fitted values, and all twenty channels.
fn power_up(fitted: u32) -> Event {
    Event::PowerUp {
        fitted,
        range: 0,
        filter: 0,
        kit: 2,
        firmware: 0,
    }
}

fn set(offset: u32, value: u32) -> Event {
    Event::Write { offset, value }
}

/// Loads the values 0, 1 and so on, 16 bits each.
fn loads(count: u32) -> Vec<Event> {
    (0..count).map(|i| set(0x18, i & 0xFFFF)).collect()
}

/// The smallest size of these events, and then of so many loads, in a memory of 128 values: the depth of fitted code 4.
fn size(before: &[Event], count: u32) -> Result<u32, Refusal> {
    let file = session(&[before, &loads(count)].concat());
    smallest_size(&file, &mut [JUNK; 128])
}

#[test]
fn the_lowest_code_that_holds_the_values_is_named() {
    // Nothing takes a value away, so all of them must fit: 8·2^code, for the lesser of this code and the fitted one.
    let cases = [
        (0, Ok(0)),
        (8, Ok(0)),
        (9, Ok(1)),
        (16, Ok(1)),
        (17, Ok(2)),
        (32, Ok(2)),
        (33, Ok(3)),
        (64, Ok(3)),
        (65, Ok(4)),
        (128, Ok(4)),
        (129, Err(Refusal::NoSizePlays)),
    ];
    for (count, answer) in cases {
        // "one size code put into every buffer operations write": the one that stands there does not matter.
        for code in [0, 2, 15] {
            let before = [power_up(4), set(0x0C, RUNNING | code)];
            assert_eq!(size(&before, count), answer);
        }
    }
}

#[test]
fn clocks_make_room_where_they_are_enabled() {
    let events = |enabled| {
        let mut events = [&[power_up(4), set(0x0C, enabled)], &loads(8)[..]].concat();
        events.extend([Event::Tick, set(0x18, 8)].repeat(20));
        events
    };
    // A tick takes one of the eight values away before the next is loaded. D5 is kept: where it is clear, the 28 values
    // are held together, and 32 is the smallest size that holds them.
    assert_eq!(size(&events(RUNNING), 0), Ok(0));
    assert_eq!(size(&events(0), 0), Ok(2));
}

#[test]
fn code_15_stays_until_a_write_is_accepted() {
    // A depth of 16. With code 15 all of it is active, whichever code is put into the writes.
    let up = power_up(1);
    let run = set(0x0C, RUNNING);
    assert_eq!(size(&[up], 16), Ok(0));
    assert_eq!(size(&[up], 17), Err(Refusal::NoSizePlays));
    assert_eq!(size(&[up, run], 16), Ok(1));
    // 00h: initialise. It sets code 15 once more.
    assert_eq!(size(&[up, run, set(0x00, 0x8000)], 16), Ok(0));
    assert_eq!(size(&[up, set(0x00, 0x8000), run], 16), Ok(1));
    // 00h: a calibration starts, and no write is accepted until it ends.
    let [starts, ends] = [set(0x00, 0x2010), Event::CalibrationPassed];
    assert_eq!(size(&[up, starts, run, ends], 16), Ok(0));
    assert_eq!(size(&[up, starts, ends, run], 16), Ok(1));
    // Another board: its own depth, and code 15.
    assert_eq!(size(&[power_up(0), run, up], 16), Ok(0));
    assert_eq!(size(&[power_up(0), run, up, run], 16), Ok(1));
}

#[test]
fn only_what_is_lost_to_a_full_buffer_counts() {
    // A circular buffer is closed: all twenty values are lost to that, and none to a full one.
    let closed = [power_up(0), set(0x0C, RUNNING | CIRCULAR)];
    assert_eq!(size(&closed, 20), Ok(0));
    // A refused power-up loses nothing, and leaves the board of eight values as it was.
    let before = [power_up(0), set(0x0C, RUNNING), power_up(16)];
    assert_eq!(size(&before, 8), Ok(0));
    assert_eq!(size(&before, 9), Err(Refusal::NoSizePlays));
}

#[test]
fn without_an_accepted_power_up_the_code_is_0() {
    // A depth of 16 is more than the memory has, and fitted code 16 is out of range: all that follows is refused too.
    let run = set(0x0C, RUNNING);
    for before in [vec![run], vec![power_up(1), run], vec![power_up(16), run]] {
        let file = session(&[before, loads(20)].concat());
        let mut memory = [JUNK; 15];
        assert_eq!(smallest_size(&file, &mut memory), Ok(0));
        assert_eq!(memory, [JUNK; 15]);
    }
    assert_eq!(smallest_size(&[1], &mut []), Ok(0));
}

#[test]
fn each_refusal_has_its_name_and_code_0() {
    // Nine values in a depth of 8: the first eight are stored at every code, and the ninth is lost.
    let lost = session(&[&[power_up(0), set(0x0C, RUNNING)], &loads(9)[..]].concat());
    let stored = [0, 1, 2, 3, 4, 5, 6, 7, JUNK];
    let junk = [JUNK; 9];
    // What is wrong with the file is told first, and the records before it are not played.
    let damaged = damaged(&lost).map(|(file, refusal, number)| (file, refusal, number, junk));
    let cases = [
        (vec![], Refusal::NotASession, 10, junk),
        ([&[2], &lost[1..]].concat(), Refusal::NotASession, 10, junk),
        (lost[..lost.len() - 1].to_vec(), Refusal::Cut, 11, junk),
        (lost, Refusal::NoSizePlays, 19, stored),
    ];
    for (file, refusal, number, left) in damaged.into_iter().chain(cases) {
        let mut memory = junk;
        assert_eq!(smallest_size(&file, &mut memory), Err(refusal));
        assert_eq!(memory, left);
        let mut memory = junk;
        let mut code = 123;
        assert_eq!(smallest_size_call(&file, &mut memory, &mut code), number);
        assert_eq!(memory, left);
        assert_eq!(code, 0);
        assert_eq!(refusal.number(), number);
        assert!(refusal.to_string().contains(": "));
    }
}

#[test]
fn the_memory_is_as_all_replays_left_it() {
    // Nine values in a depth of 32, the last with the end-of-frame mark, go round in a burst of twenty ticks at most.
    let nine: [u32; 9] = std::array::from_fn(|i| 0x1000 + i as u32 + if i == 8 { EOF } else { 0 });
    let mut events = vec![power_up(2), set(0x00, 0x11), set(0x0C, RUNNING | 1)];
    events.extend(nine.map(|value| set(0x18, value)));
    events.extend([set(0x0C, RUNNING | CIRCULAR | 1), Event::Trigger]);
    events.extend([Event::Tick; 20]);
    // With code 0 the ninth is lost, and its mark with it: the burst does not end. Each tick stores the oldest value
    // once more, behind the others: entry 8 has value 0, entry 9 value 1 and so on, by eights, up to entry 27.
    // With code 1 all nine are stored, and the ninth tick ends the burst: entries 9 to 17 have values 0 to 8. That
    // leaves entries 18 to 27 as code 0 left them, from value 18 mod 8 on.
    let mut left = [JUNK; 33];
    left[..9].copy_from_slice(&nine);
    left[9..18].copy_from_slice(&nine);
    let mut once = left;
    left[18..28].copy_from_slice(&[2, 3, 4, 5, 6, 7, 0, 1, 2, 3].map(|i| nine[i]));
    let file = session(&events);
    let mut memory = [JUNK; 33];
    assert_eq!(smallest_size(&file, &mut memory), Ok(1));
    assert_eq!(memory, left);
    // The session has code 1 itself: one replay leaves less.
    let mut memory = [JUNK; 33];
    assert!(list(&file, &mut memory).starts_with("REHEARSAL 1\n"));
    assert_eq!(memory, once);
    // Then another board, of eight values, loses its ninth at every code: all sixteen are replayed.
    events.push(power_up(0));
    events.extend(loads(9));
    for memory in [&mut left, &mut once] {
        memory[..8].copy_from_slice(&[0, 1, 2, 3, 4, 5, 6, 7]);
    }
    let file = session(&events);
    let mut memory = [JUNK; 33];
    assert_eq!(smallest_size(&file, &mut memory), Err(Refusal::NoSizePlays));
    assert_eq!(memory, left);
    let mut memory = [JUNK; 33];
    assert!(list(&file, &mut memory).starts_with("REHEARSAL 1\n"));
    assert_eq!(memory, once);
}

#[test]
fn a_session_may_be_longer_than_a_listing_takes() {
    // Fitted code 15: a depth of 262,144. Code 14 holds 131,072 values, and one more takes code 15.
    for (count, code) in [(131_072, 14), (131_073, 15)] {
        let file = session(&[&[power_up(15), set(0x0C, RUNNING)], &loads(count)[..]].concat());
        assert!(file.len() > 65_536);
        let mut memory = vec![JUNK; 262_144];
        assert_eq!(smallest_size(&file, &mut memory), Ok(code));
        let (stored, rest) = memory.split_at(count as usize);
        assert!((0..count).map(|i| i & 0xFFFF).eq(stored.iter().copied()));
        assert!(rest.iter().all(|entry| *entry == JUNK));
    }
}
