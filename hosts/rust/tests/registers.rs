//! The named bits are those of the board: what is written by a name is read by it, and stands in the record.

use nergutsai::register::*;
use nergutsai::{event, Event, Record};

/// Places in a record (hosts/c/nergutsai.h).
const BURSTS: usize = 7;
const EXTERNAL: usize = 14;
const SELECTION: usize = 13;
const DIVISOR: usize = 20;
const NCLK: usize = 21;
const ALT: usize = 22;
const MASK: usize = 30;

struct Board {
    record: Record,
    memory: [u32; 16],
}

impl Board {
    /// A depth of 16 values, 10 V, a filter of 10 kHz, twelve channels and firmware ABCh.
    fn new() -> Board {
        let mut board = Board {
            record: Record::unpowered(),
            memory: [0; 16],
        };
        board.play(Event::PowerUp {
            fitted: 1,
            range: 2,
            filter: 1,
            kit: 1,
            firmware: 0xABC,
        });
        board
    }

    fn play(&mut self, happening: Event) -> u32 {
        let answer = event(&mut self.record, &mut self.memory, happening);
        answer.expect("it is no refused event").register
    }

    fn write(&mut self, offset: u32, value: u32) {
        self.play(Event::Write { offset, value });
    }

    fn read(&mut self, offset: u32) -> u32 {
        self.play(Event::Read { offset })
    }
}

#[test]
fn a_power_up_leaves_what_the_manual_says() {
    let mut board = Board::new();
    let control = bcr::OFFSET_BINARY | bcr::INTERRUPT_REQUEST_FLAG;
    assert_eq!((board.read(BCR), control), (0x810, 0x810));
    let flags = bor::LOAD_READY | bor::BUFFER_EMPTY | bor::BUFFER_LOW_QUARTER;
    assert_eq!((board.read(BOR), flags | bor::SIZE_MASK), (0x340F, 0x340F));
    assert_eq!(board.read(SAMPLE_RATE), 0x64);
    let channels = (0..12).map(enable_channel).sum();
    assert_eq!(board.read(CHANNEL_SELECTION), channels);
    let said = board.read(FIRMWARE_AND_OPTIONS);
    assert_eq!(said & options::FIRMWARE_MASK, 0xABC);
    assert_eq!((said & options::RANGE_MASK) >> options::RANGE_SHIFT, 2);
    assert_eq!((said & options::FILTER_MASK) >> options::FILTER_SHIFT, 1);
    assert_eq!((said & options::KIT_MASK) >> options::KIT_SHIFT, 1);
    for offset in [AUTOCAL_VALUES, OUTPUT_DATA_BUFFER, ADJUSTABLE_CLOCK] {
        assert_eq!(board.read(offset), 0);
    }
}

#[test]
fn bits_that_are_written_are_read_and_stand_in_the_record() {
    let control = [
        bcr::BURST_ENABLED,
        bcr::REMOTE_GROUND_SENSE,
        bcr::OFFSET_BINARY,
        bcr::DIFFERENTIAL_SYNC_IO,
        bcr::DISABLE_EXT_BURST_TRIG,
        bcr::SIMULTANEOUS_OUTPUTS,
    ];
    for (place, bit) in control.into_iter().enumerate() {
        let mut board = Board::new();
        board.write(BCR, bit);
        let ready = if place == 0 { bcr::BURST_READY } else { 0 };
        assert_eq!(board.read(BCR), bit | ready);
        assert_eq!(board.record.0[BURSTS + place], 1);
    }
    let buffer = [bor::EXTERNAL_CLOCK, bor::ENABLE_CLOCK, bor::CIRCULAR_BUFFER];
    for (place, bit) in buffer.into_iter().enumerate() {
        let mut board = Board::new();
        board.write(BOR, bit);
        assert_ne!(board.read(BOR) & bit, 0);
        assert_eq!(board.record.0[EXTERNAL + place], 1);
        // An outside clock is accepted, and a circular buffer is closed.
        let told = [place == 0, place != 2];
        let bits = [bor::CLOCK_READY, bor::LOAD_READY];
        assert_eq!(bits.map(|bit| board.read(BOR) & bit != 0), told);
    }
    let mut board = Board::new();
    board.write(SAMPLE_RATE, SAMPLE_RATE_MASK);
    board.write(CHANNEL_SELECTION, enable_channel(3) | enable_channel(11));
    board.write(ADJUSTABLE_CLOCK, adjustable_clock::NCLK_MASK);
    assert_eq!(
        [DIVISOR, NCLK, ALT, MASK].map(|i| board.record.0[i]),
        [0xFFFF, 511, 0, 0x808]
    );
    board.write(
        ADJUSTABLE_CLOCK,
        adjustable_clock::SELECT_ALTERNATE_REFERENCE,
    );
    assert_eq!([NCLK, ALT].map(|i| board.record.0[i]), [0, 1]);
}

#[test]
fn the_flags_of_the_buffer_are_those_of_its_size() {
    let mut board = Board::new();
    board.write(BOR, 0);
    let flags =
        bor::BUFFER_EMPTY | bor::BUFFER_LOW_QUARTER | bor::BUFFER_HIGH_QUARTER | bor::BUFFER_FULL;
    let expected = [
        bor::BUFFER_EMPTY | bor::BUFFER_LOW_QUARTER,
        bor::BUFFER_LOW_QUARTER,
        0,
        0,
        0,
        0,
        bor::BUFFER_HIGH_QUARTER,
        bor::BUFFER_HIGH_QUARTER,
        bor::BUFFER_HIGH_QUARTER | bor::BUFFER_FULL,
    ];
    for flag in expected {
        assert_eq!(board.read(BOR) & flags, flag);
        assert_eq!(board.read(BOR) & bor::BUFFER_OVERFLOW, 0);
        board.write(OUTPUT_DATA_BUFFER, 5);
    }
    assert_ne!(board.read(BOR) & bor::BUFFER_OVERFLOW, 0);
    board.write(BOR, bor::CLEAR_BUFFER | bor::CIRCULAR_BUFFER);
    board.write(OUTPUT_DATA_BUFFER, DATA_MASK);
    assert_eq!(
        board.read(BOR) & (bor::BUFFER_OVERFLOW | bor::FRAME_OVERFLOW),
        bor::FRAME_OVERFLOW
    );
    assert_eq!(board.record.count(), 0);
    // A request to load waits for the end of a frame, and reads as itself until then.
    board.write(BOR, bor::CIRCULAR_BUFFER | bor::LOAD_REQUEST);
    assert_ne!(board.read(BOR) & bor::LOAD_REQUEST, 0);
}

#[test]
fn a_software_clock_and_a_software_trigger_are_taken() {
    let mut board = Board::new();
    board.write(OUTPUT_DATA_BUFFER, 0x1234);
    board.write(BOR, bor::EXTERNAL_CLOCK | bor::ENABLE_CLOCK | bor::SW_CLOCK);
    assert_eq!(board.record.levels()[0], 0x1234);
    board.write(BCR, bcr::BURST_ENABLED | bcr::BURST_TRIGGER);
    assert_eq!(board.read(BCR), bcr::BURST_ENABLED | bcr::BURST_TRIGGER);
}

#[test]
fn an_interrupt_is_requested_by_the_condition_that_is_selected() {
    let conditions: [(u32, &[Event]); 7] = [
        (interrupt::AUTOCAL_COMPLETED, &[Event::CalibrationFailed]),
        (interrupt::BUFFER_EMPTY, &[Event::Tick; 8]),
        (interrupt::BUFFER_LOW_QUARTER, &[Event::Tick; 7]),
        (
            interrupt::BUFFER_HIGH_QUARTER,
            &[
                Event::Tick,
                Event::Tick,
                Event::Tick,
                Event::Write {
                    offset: OUTPUT_DATA_BUFFER,
                    value: 1,
                },
            ],
        ),
        (interrupt::BURST_READY, &[Event::Tick; 8]),
        (
            interrupt::LOAD_READY,
            &[Event::Write {
                offset: BOR,
                value: bor::ENABLE_CLOCK,
            }],
        ),
        (
            interrupt::END_LOAD_READY,
            &[Event::Write {
                offset: BOR,
                value: bor::ENABLE_CLOCK | bor::CIRCULAR_BUFFER,
            }],
        ),
    ];
    for (selection, events) in conditions {
        let mut board = Board::new();
        let chosen = selection << bcr::INTERRUPT_SHIFT;
        assert_eq!(chosen & bcr::INTERRUPT_MASK, chosen);
        let circular = [0, bor::CIRCULAR_BUFFER][(selection == interrupt::LOAD_READY) as usize];
        for i in 1..=8 {
            let mark = if i == 8 { EOF } else { 0 };
            board.write(OUTPUT_DATA_BUFFER, i | mark);
        }
        board.write(BOR, bor::ENABLE_CLOCK | circular);
        let more = match selection {
            interrupt::AUTOCAL_COMPLETED => bcr::AUTOCALIBRATION,
            interrupt::BURST_READY => bcr::BURST_ENABLED | bcr::BURST_TRIGGER,
            _ => 0,
        };
        board.write(BCR, chosen | more);
        assert_eq!(board.record.0[SELECTION], selection);
        assert!(!board.record.request(), "selection {selection}");
        for happening in events {
            assert!(!board.record.request(), "selection {selection}");
            board.play(*happening);
        }
        assert!(board.record.request(), "selection {selection}");
        let read = board.read(BCR);
        assert_ne!(read & bcr::INTERRUPT_REQUEST_FLAG, 0);
        let failed = selection == interrupt::AUTOCAL_COMPLETED;
        assert_eq!(read & bcr::AUTOCAL_STATUS_FLAG != 0, failed);
        board.write(BCR, chosen);
        assert!(!board.record.request(), "selection {selection}");
        board.write(BCR, bcr::INITIALIZE);
        assert_eq!(board.read(BCR), 0x810);
        assert_eq!(board.record.0[SELECTION], interrupt::IDLE);
    }
}
