//! Events through the wrapper: each refusal by its name, each fate, what a read finds, and the levels.

use nergutsai::register::{bcr, bor, BCR, BOR, CHANNEL_SELECTION, EOF, OUTPUT_DATA_BUFFER};
use nergutsai::{event, Answer, Event, Fate, Record, Refusal};

/// Fitted code, range, filter, kit and firmware: the depth of 8 values, the largest of the others, and the first numbers
/// that are out of range.
const GOOD: [u32; 5] = [0, 2, 2, 2, 4095];
const BAD: [u32; 5] = [16, 3, 3, 3, 4096];
const NAMES: [Refusal; 5] = [
    Refusal::BadFitted,
    Refusal::BadRange,
    Refusal::BadFilter,
    Refusal::BadKit,
    Refusal::BadFirmware,
];

fn power_up([fitted, range, filter, kit, firmware]: [u32; 5]) -> Event {
    Event::PowerUp {
        fitted,
        range,
        filter,
        kit,
        firmware,
    }
}

/// The last answer of these events, on a new board with a memory of so many values.
fn last(memory: usize, events: &[Event]) -> Result<Answer, Refusal> {
    let mut board = Record::unpowered();
    let mut memory = vec![0; memory];
    let answers = events
        .iter()
        .map(|happening| event(&mut board, &mut memory, *happening));
    answers.last().expect("there is an event")
}

#[test]
fn a_power_up_names_its_first_bad_setting() {
    for choice in 0..32 {
        let is_bad = |setting: usize| choice >> setting & 1 == 1;
        let settings = std::array::from_fn(|i| if is_bad(i) { BAD[i] } else { GOOD[i] });
        let first = (0..5).find(|i| is_bad(*i)).map(|i| NAMES[i]);
        assert_eq!(last(8, &[power_up(settings)]).err(), first);
        // One value less is told after all of them.
        let short = first.or(Some(Refusal::MemoryTooShort));
        assert_eq!(last(7, &[power_up(settings)]).err(), short);
    }
}

fn write(offset: u32, value: u32) -> Event {
    Event::Write { offset, value }
}

#[test]
fn every_other_refusal_has_its_name() {
    let refusals = [
        (Event::Tick, Refusal::NotSound),
        (write(0x20, 0), Refusal::NoRegister),
        (write(0x10, 0), Refusal::ReadOnly),
        (write(CHANNEL_SELECTION, 0), Refusal::Busy),
        (Event::Settled, Refusal::NothingToEnd),
    ];
    let calibrating = [power_up(GOOD), write(BCR, bcr::AUTOCALIBRATION)];
    for (happening, refusal) in refusals {
        let before: &[Event] = match refusal {
            Refusal::NotSound => &[],
            _ => &calibrating,
        };
        assert_eq!(last(8, &[before, &[happening]].concat()), Err(refusal));
    }
}

#[test]
fn a_refused_event_changes_nothing() {
    let mut board = Record(std::array::from_fn(|i| 1000 + i as u32));
    let mut memory = [7; 8];
    let before = board.clone();
    assert_eq!(
        event(&mut board, &mut memory, Event::Tick),
        Err(Refusal::NotSound)
    );
    assert_eq!((board, memory), (before, [7; 8]));
}

#[test]
fn each_load_has_its_fate() {
    let load = write(OUTPUT_DATA_BUFFER, 1);
    let fate = |events: &[Event]| last(8, events).map(|answer| answer.fate);
    let up = power_up(GOOD);
    let full = [&[up], &[load; 9][..]].concat();
    let closed = [up, write(BOR, bor::CIRCULAR_BUFFER), load];
    assert_eq!(fate(&[up]), Ok(Fate::NoLoad));
    assert_eq!(fate(&[up, load]), Ok(Fate::Stored));
    assert_eq!(fate(&full), Ok(Fate::LostToFull));
    assert_eq!(fate(&closed), Ok(Fate::LostToClosed));
}

#[test]
fn an_answer_has_what_was_read_and_how_many_values_moved() {
    let up = [power_up(GOOD), write(BOR, bor::ENABLE_CLOCK)];
    let then = |events: &[Event]| last(8, &[&up, events].concat());
    let answer = |register, moved| {
        Ok(Answer {
            register,
            moved,
            fate: Fate::NoLoad,
        })
    };
    let empty = bor::LOAD_READY | bor::BUFFER_EMPTY | bor::BUFFER_LOW_QUARTER;
    let read = Event::Read { offset: BOR };
    assert_eq!(then(&[read]), answer(bor::ENABLE_CLOCK | empty, 0));
    assert_eq!(then(&[Event::Tick]), answer(0, 0));
    let load = write(OUTPUT_DATA_BUFFER, 1);
    assert_eq!(then(&[load, Event::Tick]), answer(0, 1));
}

#[test]
fn levels_have_16_bits_and_an_entry_17() {
    let mut board = Record::unpowered();
    let mut memory = [0; 8];
    let mut play = |happening| event(&mut board, &mut memory, happening).map(|_| ());
    assert_eq!(play(power_up(GOOD)), Ok(()));
    assert_eq!(play(write(BOR, bor::ENABLE_CLOCK)), Ok(()));
    assert_eq!(play(write(OUTPUT_DATA_BUFFER, 0xFFFF_FFFF)), Ok(()));
    assert_eq!(play(Event::Tick), Ok(()));
    let mut levels = [0x8000_u16; 20];
    levels[0] = 0xFFFF;
    assert_eq!(board.levels(), levels);
    assert_eq!((board.first(), board.count()), (1, 0));
    assert!(board.request());
    assert_eq!(memory[0], 0xFFFF | EOF);
    // A record that was handed in may have more bits: the board takes 16 of them.
    board.0[36] = 0x1_2345;
    assert_eq!(board.levels()[1], 0x2345);
}
