//! Sessions written through the wrapper: what stands where, and each refusal.

use nergutsai::{session_room, write, write_call, Event, Refusal};

const JUNK: u8 = 0xA5;

fn rows(events: &[Event]) -> Vec<u32> {
    events.iter().flat_map(|event| event.row()).collect()
}

/// An event of each sort, and the session of them.
fn session() -> (Vec<u32>, Vec<u8>) {
    let rows = rows(&[
        Event::PowerUp {
            fitted: 0x12,
            range: 0x34,
            filter: 0x56,
            kit: 0x78,
            firmware: 0x9ABC,
        },
        Event::Write {
            offset: 0xFF,
            value: 0x89AB_CDEF,
        },
        Event::Read { offset: 0x0C },
        Event::Tick,
        Event::Outside,
        Event::Trigger,
        Event::CalibrationPassed,
        Event::CalibrationFailed,
        Event::Settled,
    ]);
    let mut bytes = vec![1];
    bytes.extend([0, 7, 1, 0x12, 0x34, 0x56, 0x78, 0x9A, 0xBC]);
    bytes.extend([0, 6, 2, 0xFF, 0x89, 0xAB, 0xCD, 0xEF]);
    bytes.extend([0, 2, 3, 0x0C]);
    bytes.extend((4..=9).flat_map(|kind| [0, 1, kind]));
    (rows, bytes)
}

#[test]
fn a_session_stands_from_its_place_on() {
    let (rows, bytes) = session();
    assert!(bytes.len() <= session_room(9));
    for place in [0, 1, 17] {
        let mut output = vec![JUNK; place + bytes.len() + 3];
        let end = place + bytes.len();
        assert_eq!(write(&rows, &mut output, place), Ok(end));
        assert!(output[..place].iter().all(|byte| *byte == JUNK));
        assert_eq!(output[place..end], bytes);
        assert_eq!(output[end..], [JUNK; 3]);
    }
}

#[test]
fn the_longest_session_of_so_many_events_fits_its_room() {
    let up = Event::PowerUp {
        fitted: 0,
        range: 0,
        filter: 0,
        kit: 0,
        firmware: 0,
    };
    for events in 0..5 {
        let rows = rows(&vec![up; events]);
        let mut output = vec![JUNK; session_room(events)];
        assert_eq!(write(&rows, &mut output, 0), Ok(output.len()));
        output.pop();
        assert_eq!(write(&rows, &mut output, 0), Err(Refusal::NoRoom));
    }
}

#[test]
fn a_refusal_changes_nothing_and_says_why() {
    let (good, bytes) = session();
    let unknown = [&good[..], &[10, 0, 0, 0, 0, 0]].concat();
    let large = [&good[..], &[3, 0x100, 0, 0, 0, 0]].concat();
    let not_0 = [&good[..], &[4, 0, 0, 0, 0, 1]].concat();
    let length = bytes.len();
    let cases = [
        (&good[1..], 0, Refusal::NotWholeEvents, 32),
        (&unknown, 0, Refusal::UnknownKind, 13),
        (&large, 0, Refusal::FieldTooLarge, 30),
        (&not_0, 0, Refusal::FieldTooLarge, 30),
        (&good, length + 1, Refusal::PlacePastEnd, 20),
        (&good, usize::MAX, Refusal::PlacePastEnd, 20),
        (&good, length, Refusal::NoRoom, 21),
        (&good, 1, Refusal::NoRoom, 21),
    ];
    for (rows, place, refusal, number) in cases {
        let mut output = vec![JUNK; length];
        assert_eq!(write(rows, &mut output, place), Err(refusal));
        let mut end = 5;
        assert_eq!(write_call(rows, &mut output, place, &mut end), number);
        assert_eq!(end, 0);
        assert!(output.iter().all(|byte| *byte == JUNK));
        assert_eq!(refusal.number(), number);
        assert!(refusal.to_string().contains(": "));
    }
}
