//! Cuts through the wrapper: what stands where, each refusal, and what a board plays of one.

use nergutsai::register::{bcr, bor, BCR, BOR};
use nergutsai::{cut, cut_call, cut_room, event, Event, Fate, Order, Record, Refusal};

const JUNK: u8 = 0xA5;

/// Three groups of four channels. The first digit is the group, the last the channel.
const RECORDING: [u16; 12] = [
    0x1000, 0x1001, 0x1002, 0x1003, //
    0x2000, 0x2001, 0x2002, 0x2003, //
    0x3000, 0x3001, 0x3002, 0x3003,
];

/// Channels 1 and 3 of the groups 1 and 2.
const FOUR: Order = Order {
    recording: &RECORDING,
    channels: 4,
    first: 1,
    last: 2,
    mask: 0b1010,
};

/// Its session.
fn session() -> Vec<u8> {
    let mut bytes = vec![1, 0, 6, 2, 0x04, 0, 0, 0, 0b1010];
    for (mark, number) in [(0, 0x2001_u16), (0, 0x2003), (0, 0x3001), (1, 0x3003)] {
        let [high, low] = number.to_be_bytes();
        bytes.extend([0, 6, 2, 0x18, 0, mark, high, low]);
    }
    bytes
}

#[test]
fn a_cut_stands_from_its_place_on() {
    let bytes = session();
    assert_eq!(bytes.len(), cut_room(2, 2));
    for place in [0, 1, 17] {
        let mut output = vec![JUNK; place + bytes.len() + 3];
        let end = place + bytes.len();
        assert_eq!(cut(&FOUR, &mut output, place), Ok(end));
        assert!(output[..place].iter().all(|byte| *byte == JUNK));
        assert_eq!(output[place..end], bytes);
        assert_eq!(output[end..], [JUNK; 3]);
    }
}

#[test]
fn a_refusal_changes_nothing_and_says_why() {
    let length = session().len();
    let groups = |channels| Order { channels, ..FOUR };
    let choice = |first, last, mask| Order {
        first,
        last,
        mask,
        ..FOUR
    };
    let empty = Order {
        recording: &[],
        ..FOUR
    };
    let cases = [
        (groups(0), 0, Refusal::BadGroups, 22),
        (groups(5), 0, Refusal::BadGroups, 22),
        (groups(21), 0, Refusal::BadGroups, 22),
        (groups(u32::MAX), 0, Refusal::BadGroups, 22),
        (empty, 0, Refusal::BadChoice, 23),
        (choice(1, 2, 0), 0, Refusal::BadChoice, 23),
        (choice(1, 2, 0b10010), 0, Refusal::BadChoice, 23),
        (choice(2, 1, 1), 0, Refusal::BadChoice, 23),
        (choice(1, 3, 1), 0, Refusal::BadChoice, 23),
        (choice(1, usize::MAX, 1), 0, Refusal::BadChoice, 23),
        (choice(0, usize::MAX, 1), 0, Refusal::BadChoice, 23),
        (groups(0), length + 1, Refusal::BadGroups, 22),
        (choice(2, 1, 1), length + 1, Refusal::BadChoice, 23),
        (FOUR, length + 1, Refusal::PlacePastEnd, 20),
        (FOUR, usize::MAX, Refusal::PlacePastEnd, 20),
        (FOUR, length, Refusal::NoRoom, 21),
        (FOUR, 1, Refusal::NoRoom, 21),
    ];
    for (order, place, refusal, number) in cases {
        let mut output = vec![JUNK; length];
        assert_eq!(cut(&order, &mut output, place), Err(refusal), "{order:?}");
        let mut end = 5;
        assert_eq!(cut_call(&order, &mut output, place, &mut end), number);
        assert_eq!(end, 0);
        assert!(output.iter().all(|byte| *byte == JUNK));
        assert_eq!(refusal.number(), number);
        assert!(refusal.to_string().contains(": "));
    }
}

#[test]
fn channel_k_plays_on_output_k() {
    let mut output = [0; 41];
    assert_eq!(cut(&FOUR, &mut output, 0), Ok(41));
    let mut board = Record::unpowered();
    let mut memory = [0; 8];
    let mut done = |happening| {
        let answer = event(&mut board, &mut memory, happening).expect("it is no refused event");
        (answer.fate, board.levels())
    };
    done(Event::PowerUp {
        fitted: 0,
        range: 0,
        filter: 0,
        kit: 0,
        firmware: 0,
    });
    for (index, record) in output[1..].chunks(8).enumerate() {
        let value = u32::from_be_bytes(record[4..].try_into().unwrap());
        let offset = record[3].into();
        let fate = done(Event::Write { offset, value }).0;
        let first = [Fate::NoLoad, Fate::Stored][(index > 0) as usize];
        assert_eq!(fate, first);
    }
    let together = bcr::OFFSET_BINARY | bcr::SIMULTANEOUS_OUTPUTS;
    for (offset, value) in [(BCR, together), (BOR, bor::ENABLE_CLOCK)] {
        done(Event::Write { offset, value });
    }
    for group in [1, 2] {
        let levels = done(Event::Tick).1;
        for (channel, level) in levels.iter().enumerate() {
            let chosen = FOUR.mask & 1 << channel != 0;
            let expected = if chosen {
                RECORDING[4 * group + channel]
            } else {
                0x8000
            };
            assert_eq!(*level, expected, "channel {channel}");
        }
    }
}
