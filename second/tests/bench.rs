//! Document 01's bench cases, its printed example, and some checks of rules
//! that the bench cases leave out.

mod common {
    pub mod bench;
    pub mod bits;
    pub mod dice;
    pub mod more_bits;
    pub mod stored;
}

use common::bench::{answer, Bench};
use common::bits::{BINARY, CALIBRATE, CIRCULAR, EOF, EXTERNAL, INITIALISE, SOFT_CLOCK};
use common::dice::Dice;
use common::more_bits::{BURSTS, CLEAR, ENABLED, LOAD_REQUEST};
use second::{list, listing, rates, step, Event, Record};

// BCR bits
const BURST_TRIGGER: u32 = 1 << 2;
const BARRED: u32 = 1 << 6;
const SIMULTANEOUS: u32 = 1 << 7;
const REQUEST: u32 = 1 << 11;

// ---- the bench cases -------------------------------------------------------

#[test]
fn flags_of_size_8() {
    // size 8: low at 1, not 2; high at 6, not 5 (01 has 7, not 6, which request
    // 2026-06 amends: "At size 8 it rises at 6, not at 5"); full at 8, not 7.
    let mut b = Bench::new(0, 2);
    for count in 1..=8 {
        assert_eq!(b.load(count), 1);
        assert!(!b.bor_bit(12), "empty at {count}");
        assert_eq!(b.bor_bit(13), count < 2, "low at {count}");
        assert_eq!(b.bor_bit(14), count > 5, "high at {count}");
        assert_eq!(b.bor_bit(15), count == 8, "full at {count}");
    }
}

#[test]
fn full_and_closed() {
    // full and closed: a load gives fate 3 only.
    let mut b = Bench::new(0, 2);
    for i in 0..8 {
        b.load(i);
    }
    b.write(0x0C, 0xF | CIRCULAR);
    let memory = b.memory.clone();
    assert_eq!(b.load(9), 3);
    assert!(b.record.frame_overflow && !b.record.buffer_overflow);
    assert_eq!((b.record.count, &b.memory), (8, &memory));
}

#[test]
fn twos_complement() {
    // two's complement 0001h, FFFFh, 8000h: levels 8001h, 7FFFh, 0000h.
    let mut b = Bench::new(0, 2);
    b.write(0x00, REQUEST);
    b.write(0x0C, 0xF | ENABLED);
    for value in [0x0001, 0xFFFF, 0x8000] {
        b.load(value);
    }
    assert_eq!((b.tick(), b.tick(), b.tick(), b.tick()), (1, 1, 1, 0));
    assert_eq!(b.record.levels[..4], [0x8001, 0x7FFF, 0x0000, 0x8000]);
}

#[test]
fn simultaneous_group() {
    // mask 5, simultaneous, one value stored: moves 0; two stored: moves 2.
    let mut b = Bench::new(0, 0);
    b.write(0x00, BINARY | SIMULTANEOUS);
    b.write(0x04, 5);
    b.write(0x0C, ENABLED);
    b.load(0x1111);
    assert_eq!(b.tick(), 0);
    b.load(0x2222);
    assert_eq!(b.tick(), 2);
    assert_eq!(b.record.levels[..4], [0x1111, 0x8000, 0x2222, 0x8000]);
    assert_eq!((b.record.first, b.record.count, b.record.cursor), (2, 0, 0));
}

#[test]
fn burst() {
    // burst, one channel, A000h then B000h with EOF: tick moves 0; trigger; two
    // ticks move 1 each; D1 is 1 again.
    let mut b = Bench::new(0, 0);
    b.write(0x00, BINARY | BURSTS);
    b.write(0x04, 1);
    b.write(0x0C, ENABLED);
    b.load(0xA000);
    b.load(0xB000 | EOF);
    assert_eq!(b.tick(), 0);
    assert!(b.bcr_bit(1));
    assert_eq!(b.go(Event::Trigger), answer(0, 0, 0, 0));
    assert!(!b.bcr_bit(1) && !b.bcr_bit(2));
    assert_eq!(b.tick(), 1);
    assert_eq!(b.record.levels[0], 0xA000);
    assert!(!b.bcr_bit(1));
    assert_eq!(b.tick(), 1);
    assert_eq!(b.record.levels[0], 0xB000);
    assert!(b.bcr_bit(1));
}

#[test]
fn circular() {
    // closed 1, 2, 3+EOF: three ticks leave 1, 2, 3.
    let mut b = Bench::new(0, 0);
    b.write(0x04, 1);
    for value in [1, 2, 3 | EOF] {
        b.load(value);
    }
    b.write(0x0C, ENABLED | CIRCULAR);
    for _ in 0..3 {
        assert_eq!(b.tick(), 1);
    }
    assert_eq!(b.stored(), [1, 2, 3 | EOF]);
    assert_eq!((b.record.first, b.record.count), (3, 3));
    // With a request pending the third opens; load 7, 8+EOF; three more ticks
    // leave 7, 8, closed.
    b.write(0x0C, ENABLED | CIRCULAR | LOAD_REQUEST);
    for opened in [false, false, true] {
        assert!(b.record.pending && b.bor_bit(9) && !b.bor_bit(10));
        assert_eq!(b.load(5), 3);
        assert_eq!(b.tick(), 1);
        assert_eq!(b.record.opened, opened);
    }
    assert!(!b.record.pending && b.bor_bit(9) && b.bor_bit(10));
    assert_eq!(b.stored(), [1, 2, 3 | EOF]);
    assert_eq!(b.load(7), 1);
    assert_eq!(b.load(8 | EOF), 1);
    for _ in 0..3 {
        assert_eq!(b.tick(), 1);
    }
    assert_eq!(b.stored(), [7, 8 | EOF]);
    assert!(!b.record.pending && !b.bor_bit(9) && !b.bor_bit(10));
    // Memory: 3 loads, 6 recirculated, 2 loads, on 8 entries.
    assert_eq!(
        b.memory,
        [
            3 | EOF,
            7,
            8 | EOF,
            1,
            2,
            3 | EOF,
            1,
            2,
            0xDEAD_BEEF,
            0xDEAD_BEEF,
            0xDEAD_BEEF
        ]
    );
}

#[test]
fn mask_0() {
    // mask 0: a tick moves 0.
    let mut b = Bench::new(0, 0);
    b.write(0x04, 0);
    b.write(0x0C, ENABLED);
    b.load(1);
    assert_eq!(b.tick(), 0);
    // Bits of channels that are not fitted are not kept.
    b.write(0x04, 0xFFFF_FFC0);
    assert_eq!((b.tick(), b.read(0x04)), (0, 0));
}

#[test]
fn size_cut() {
    // size cut from 16 to 8 with 10 stored: full, 10 kept, next load fate 2.
    let mut b = Bench::new(1, 0);
    for i in 0..10 {
        b.load(i);
    }
    assert!(!b.bor_bit(15));
    b.write(0x0C, 0);
    assert!(b.bor_bit(15));
    assert_eq!((b.record.count, b.stored().len()), (10, 10));
    assert_eq!(b.load(11), 2);
    assert!(b.record.buffer_overflow && b.record.count == 10);
}

#[test]
fn rate_figures() {
    // ALT = 1, Nclk 100: 19131115 Hz; divisor 100: 191311.
    let mut b = Bench::new(0, 0);
    b.write(0x1C, 100 | 1 << 9);
    assert_eq!(b.read(0x08), 100);
    assert_eq!(rates(&b.record), (0, 19_131_115, 191_311));
    // Nclk 0 and 511 give 16000000 and 32000000
    b.write(0x1C, 1 << 9);
    assert_eq!(rates(&b.record), (0, 16_000_000, 160_000));
    b.write(0x1C, 511 | 1 << 9);
    assert_eq!(rates(&b.record), (0, 32_000_000, 320_000));
    // ALT = 0
    b.write(0x1C, 511);
    assert_eq!(rates(&b.record), (0, 30_000_000, 300_000));
    // 3, 9, 8
    b.write(0x08, 0xFFFF_0000);
    assert_eq!(rates(&b.record), (8, 0, 0));
    b.write(0x0C, EXTERNAL);
    assert_eq!(rates(&b.record), (9, 0, 0));
    assert_eq!(rates(&Record::unpowered()), (3, 0, 0));
}

#[test]
fn rounded_down_once() {
    // Every Nclk, some divisors: the largest whole number that is not above
    // the exact quotient.
    let mut b = Bench::new(0, 0);
    for nclk in 0..512u64 {
        b.write(0x1C, nclk as u32 | 1 << 9);
        for divisor in [1u64, 2, 3, 75, 100, 511, 1000, 65_535] {
            b.write(0x08, divisor as u32);
            let (refusal, whole, rate) = rates(&b.record);
            let (whole, rate) = (whole as u64, rate as u64);
            let exact = 16_000_000 * (511 + nclk);
            assert_eq!(refusal, 0);
            assert!(whole * 511 <= exact && exact < (whole + 1) * 511);
            assert!(rate * 511 * divisor <= exact && exact < (rate + 1) * 511 * divisor);
        }
    }
}

#[test]
fn power_up_refusals() {
    // fitted code 16 is refused 1; memory 7 with d = 0 is refused 2.
    // The other settings have numbers of their own: power_up.rs.
    let up = |fitted, length| {
        let mut record = Record::unpowered();
        let event = Event::PowerUp {
            fitted,
            range: 0,
            filter: 0,
            kit: 0,
            firmware: 0,
        };
        let answer = step(&mut record, &mut vec![0; length], &event);
        assert_eq!(record == Record::unpowered(), answer.refusal != 0);
        answer.refusal
    };
    assert_eq!(up(16, 524_288), 1);
    assert_eq!(up(0, 7), 2);
    assert_eq!(up(0, 8), 0);
    assert_eq!(up(15, 262_143), 2);
    assert_eq!(up(15, 262_144), 0);
}

// ---- the printed example, and session files --------------------------------

/// "9000" and then 19 times "8000", and so on: the LEVELS line.
fn levels(first: &str, others: &str) -> String {
    format!("LEVELS {first}{}\n", format!(" {others}").repeat(19))
}

fn bytes(hex: &str) -> Vec<u8> {
    let digits: String = hex.split_whitespace().collect();
    (0..digits.len() / 2)
        .map(|i| u8::from_str_radix(&digits[2 * i..2 * i + 2], 16).unwrap())
        .collect()
}

const EXAMPLE: &str = "01 00070100010000 0010 0006020400000005 0006020C00000020 \
                       0006021800009000 0006021800007000 000104 0002030C";

#[test]
fn printed_example() {
    let expected = "REHEARSAL 1
1 0 00000000 0 0 0
2 0 00000000 0 0 0
3 0 00000000 0 0 0
4 0 00000000 0 1 1
5 0 00000000 0 1 2
6 0 00000000 1 0 1
7 0 00002420 0 0 1
LEVELS 9000 8000 8000 8000 8000 8000 8000 8000 8000 8000 8000 8000 8000 8000 8000 8000 8000 8000 8000 8000
";
    assert_eq!(listing(&bytes(EXAMPLE)), expected);
}

#[test]
fn file_refusals() {
    let unpowered = levels("0000", "0000");
    let only = |hex: &str| listing(&bytes(hex));
    // 10
    assert_eq!(only(""), format!("REHEARSAL 1\nFILE 10 0\n{unpowered}"));
    assert_eq!(
        only("02 000104"),
        format!("REHEARSAL 1\nFILE 10 0\n{unpowered}")
    );
    // no record at all
    assert_eq!(only("01"), format!("REHEARSAL 1\n{unpowered}"));
    // an event before power-up is refused 3, and the run goes on
    assert_eq!(
        only("01 000104 000109"),
        format!("REHEARSAL 1\n1 3 00000000 0 0 0\n2 3 00000000 0 0 0\n{unpowered}")
    );
    // 11, 12 and 13, after one good record of 3 bytes
    let after_one = |hex: &str, line: &str| {
        assert_eq!(
            only(&format!("01 000104 {hex}")),
            format!("REHEARSAL 1\n1 3 00000000 0 0 0\n{line}\n{unpowered}")
        );
    };
    after_one("00", "FILE 11 4");
    after_one("0001", "FILE 11 4");
    after_one("0007 01000000", "FILE 11 4");
    after_one("0003 FF00", "FILE 11 4"); // 11 before 13
    after_one("0000", "FILE 12 4");
    after_one("0000 000104", "FILE 12 4");
    after_one("0001 00", "FILE 13 4");
    after_one("0001 0A", "FILE 13 4");
    after_one("0002 0A00", "FILE 13 4");
    after_one("0001 03", "FILE 12 4");
    after_one("0002 0400", "FILE 12 4");
    after_one("0006 010000000000", "FILE 12 4");
    after_one("0007 02000000000000", "FILE 12 4");
    // The levels stay as the earlier records left them. The example has
    // 1 + 9 + 4·8 + 3 + 4 = 49 bytes.
    let text = listing(&bytes(&format!("{EXAMPLE} 0000")));
    assert!(text.ends_with(&format!("FILE 12 49\n{}", levels("9000", "8000"))));
}

#[test]
fn longest_file() {
    // 1 + 3·21845 = 65,536 bytes
    let mut file = vec![1];
    while file.len() < 65_536 {
        file.extend([0, 1, 4]);
    }
    assert_eq!(file.len(), 65_536);
    assert_eq!(listing(&file).lines().count(), 1 + 21_845 + 1);
    file.push(0);
    assert_eq!(listing(&file), "TOO LONG\n");
}

#[test]
fn rehearse_memory() {
    // 16,384 values: d = 11 fits, d = 12 is refused 2.
    let text = listing(&bytes("01 0007010B000000 0000 0007010C000000 0000"));
    assert!(text.starts_with("REHEARSAL 1\n1 0 00000000 0 0 0\n2 2 00000000 0 0 0\nLEVELS 8000 "));
}

#[test]
fn lent_memory() {
    // `list` writes in place of what `out` held, and into the memory lent:
    // "Only those 17 bits are used or written", "Entries from depth upward are
    // never touched".
    let mut memory = [0xDEAD_BEEF; 32];
    let mut out = b"what it held".to_vec();
    list(&bytes(EXAMPLE), &mut memory, &mut out);
    assert_eq!(out, listing(&bytes(EXAMPLE)).into_bytes());
    assert_eq!(memory[..3], [0x9000, 0x7000, 0xDEAD_BEEF]);
    // Shorter than the depth: power-up is refused 2, all others 3.
    list(
        &bytes("01 00070100000000 0000 000104"),
        &mut [0; 7],
        &mut out,
    );
    let text = format!(
        "REHEARSAL 1\n1 2 00000000 0 0 0\n2 3 00000000 0 0 0\n{}",
        levels("0000", "0000")
    );
    assert_eq!(out, text.into_bytes());
    // d = 12 fits a memory of 32,768 entries, which `listing` does not have.
    list(&bytes("01 0007010C000000 0000"), &mut [0; 32_768], &mut out);
    assert!(out.starts_with(b"REHEARSAL 1\n1 0 "));
    // No file at all.
    list(&[], &mut [], &mut out);
    let text = format!("REHEARSAL 1\nFILE 10 0\n{}", levels("0000", "0000"));
    assert_eq!(out, text.into_bytes());
    list(&[1; 65_537], &mut [], &mut out);
    assert_eq!(out, b"TOO LONG\n");
}

/// The record of an event in a session file.
fn file_record(event: &Event) -> Vec<u8> {
    let mut record = match *event {
        Event::PowerUp {
            fitted,
            range,
            filter,
            kit,
            firmware,
        } => {
            let settings = [fitted, range, filter, kit].map(|n| n as u8);
            let firmware = (firmware as u16).to_be_bytes();
            [&[0, 7, 1], &settings[..], &firmware[..]].concat()
        }
        Event::Write { offset, value } => {
            [&[0, 6, 2, offset as u8], &value.to_be_bytes()[..]].concat()
        }
        Event::Read { offset } => vec![0, 2, 3, offset as u8],
        Event::Tick => vec![4],
        Event::Outside => vec![5],
        Event::Trigger => vec![6],
        Event::Passed => vec![7],
        Event::Failed => vec![8],
        Event::Settled => vec![9],
    };
    if record.len() == 1 {
        record.splice(0..0, [0, 1]);
    }
    record
}

#[test]
fn lines_are_the_answers() {
    // "Fields: record number, the four answers, count after; the register value
    // in eight hex digits, the others decimal; levels in four, channel 00 first;
    // hex in capitals." Long runs, so that every width of a number occurs.
    let mut dice = Dice(0x00C0_FFEE_1234_5677);
    let (mut widest, mut letters) = (0, 0);
    for session in 0..40 {
        let mut record = Record::unpowered();
        let mut memory = vec![0; 16_384];
        let mut file = vec![1];
        let mut text = String::from("REHEARSAL 1\n");
        for number in 1..=12_000 {
            let event = match session {
                // many values stored
                0 if number == 1 => Event::PowerUp {
                    fitted: 11,
                    range: 0,
                    filter: 0,
                    kit: 0,
                    firmware: 0xABC,
                },
                0 if number < 1_200 => Event::Write {
                    offset: 0x18,
                    value: number,
                },
                // many records
                0 | 1 => Event::Read { offset: 0x10 },
                _ => dice.event(),
            };
            let bytes = file_record(&event);
            if file.len() + bytes.len() > 65_536 {
                break;
            }
            file.extend(bytes);
            let answer = step(&mut record, &mut memory, &event);
            let line = format!(
                "{number} {} {:08X} {} {} {}\n",
                answer.refusal, answer.register, answer.moved, answer.fate, record.count
            );
            widest = widest.max(line.len());
            letters += line.matches(['A', 'B', 'C', 'D', 'E', 'F']).count();
            text += &line;
        }
        text += "LEVELS";
        for level in record.levels {
            text += &format!(" {level:04X}");
        }
        text += "\n";
        assert_eq!(listing(&file), text);
    }
    assert!(widest >= 25 && letters > 1_000, "{widest} {letters}");
}

// ---- registers -------------------------------------------------------------

#[test]
fn registers_after_power_up() {
    for (kit, mask) in [(0, 0x3F), (1, 0xFFF), (2, 0xF_FFFF)] {
        let mut b = Bench::new(3, kit);
        assert_eq!(b.read(0x00), 0x0000_0810);
        assert_eq!(b.read(0x04), mask);
        assert_eq!(b.read(0x08), 0x0064);
        assert_eq!(b.read(0x0C), 0x0000_340F);
        assert_eq!(b.read(0x10), 0x123 | 1 << 16 | 2 << 18 | kit << 20);
        assert_eq!(b.read(0x14), 0);
        assert_eq!(b.read(0x18), 0);
        assert_eq!(b.read(0x1C), 0);
        assert_eq!(b.record.levels, [0x8000; 20]);
        assert!(b.record.is_sound());
    }
}

#[test]
fn refusal_order() {
    let mut b = Bench::new(0, 0);
    assert_eq!(b.write(0x02, 0).refusal, 4);
    assert_eq!(b.write(0x100, 0).refusal, 4);
    assert_eq!(b.write(0x10, 0).refusal, 5);
    assert_eq!(b.go(Event::Passed).refusal, 7);
    assert_eq!(b.go(Event::Failed).refusal, 7);
    assert_eq!(b.go(Event::Settled).refusal, 7);
    b.write(0x00, BINARY | REQUEST | CALIBRATE);
    assert_eq!(b.write(0x02, 0).refusal, 4);
    assert_eq!(b.write(0x14, 0).refusal, 5);
    assert_eq!(b.write(0x00, INITIALISE).refusal, 6);
    assert_eq!(b.write(0x18, 1), answer(6, 0, 0, 0));
    assert_eq!(b.go(Event::Read { offset: 0x20 }).refusal, 4);
    assert_eq!(b.go(Event::Read { offset: 0x0C }).register, 0x340F);
}

#[test]
fn calibration() {
    let mut b = Bench::new(0, 0);
    b.write(0x0C, EXTERNAL | ENABLED);
    b.write(0x00, BINARY | BURSTS | 1 << 8 | REQUEST);
    b.load(1);
    assert!(b.bor_bit(6));
    b.write(0x00, BINARY | BURSTS | CALIBRATE | 1 << 8);
    assert!(b.bcr_bit(13) && !b.bor_bit(6) && !b.bcr_bit(11));
    let quiet = b.record.clone();
    for event in [Event::Tick, Event::Outside, Event::Trigger] {
        assert_eq!(b.go(event), answer(0, 0, 0, 0));
        assert_eq!(b.record, quiet);
    }
    // End with a failure: D13 0, D14 1, the request is raised.
    b.go(Event::Failed);
    assert_eq!(
        (b.bcr_bit(13), b.bcr_bit(14), b.bcr_bit(11)),
        (false, true, true)
    );
    assert!(b.record.calibrated);
    // A new start clears D14 and "calibrated", and the condition's fall the request.
    b.write(0x00, BINARY | CALIBRATE | 1 << 8 | REQUEST);
    assert_eq!(
        (b.bcr_bit(13), b.bcr_bit(14), b.bcr_bit(11)),
        (true, false, false)
    );
    assert!(!b.record.calibrated);
    b.go(Event::Passed);
    assert_eq!((b.bcr_bit(14), b.bcr_bit(11)), (false, true));
}

#[test]
fn clocks_accepted() {
    // (EXTERNAL, ALT) -> tick, outside clock
    for (external, alt, tick, outside) in
        [(0, 0, 1, 0), (0, 1, 1, 0), (1, 0, 0, 1), (1, 1, 1, 0u32)]
    {
        let mut b = Bench::new(0, 0);
        b.load(1);
        b.load(2);
        b.write(0x1C, alt << 9);
        b.write(0x0C, external << 4);
        assert_eq!((b.tick(), b.go(Event::Outside).moved), (0, 0));
        b.write(0x0C, external << 4 | ENABLED);
        assert_eq!(b.tick(), tick);
        assert_eq!(b.go(Event::Outside).moved, outside);
        let software = b.write(0x0C, external << 4 | ENABLED | SOFT_CLOCK);
        assert_eq!(software, answer(0, 0, outside, 0));
        assert!(!b.bor_bit(7));
    }
}

#[test]
fn settling() {
    let mut b = Bench::new(0, 0);
    b.load(1);
    b.write(0x1C, 5);
    assert!(!b.record.settling); // EXTERNAL CLOCK not set
    b.write(0x0C, EXTERNAL | ENABLED);
    b.write(0x1C, 5);
    assert!(!b.record.settling); // Nclk not changed
    b.write(0x1C, 6);
    assert!(b.record.settling && !b.bor_bit(6));
    assert_eq!(b.go(Event::Outside).moved, 0);
    b.write(0x1C, 6);
    assert!(b.record.settling); // lasts until the settled event
    assert_eq!(b.go(Event::Settled), answer(0, 0, 0, 0));
    assert!(b.bor_bit(6));
    assert_eq!(b.go(Event::Outside).moved, 1);
}

#[test]
fn sequential_channels() {
    let mut b = Bench::new(1, 2);
    b.write(0x04, 1 << 3 | 1 << 16 | 1 << 19);
    b.write(0x0C, 0xF | ENABLED);
    // Nothing stored: the cursor stays.
    assert_eq!((b.tick(), b.record.cursor), (0, 0));
    for i in 1..=5 {
        b.load(i);
    }
    let mut cursors = vec![];
    for _ in 0..4 {
        b.tick();
        cursors.push(b.record.cursor);
    }
    assert_eq!(cursors, [4, 17, 20, 4]);
    assert_eq!(
        (b.record.levels[3], b.record.levels[16], b.record.levels[19]),
        (4, 2, 3)
    );
    // A write to 04h and a changed D7 set the cursor to 0.
    b.write(0x04, 1 << 3 | 1 << 16 | 1 << 19);
    assert_eq!(b.record.cursor, 0);
    b.tick();
    b.write(0x00, BINARY | REQUEST);
    assert_eq!(b.record.cursor, 4);
    b.write(0x00, BINARY | REQUEST | SIMULTANEOUS);
    assert_eq!(b.record.cursor, 0);
}

#[test]
fn one_end_of_frame_for_a_group() {
    // Both values carry EOF; the buffer was closed before, so both recirculate,
    // and the pending request opens once and is not closed again.
    let mut b = Bench::new(0, 0);
    b.write(0x00, BINARY | SIMULTANEOUS);
    b.write(0x04, 3);
    b.load(1 | EOF);
    b.load(2 | EOF);
    b.load(3);
    b.write(0x0C, ENABLED | CIRCULAR | LOAD_REQUEST);
    assert_eq!(b.tick(), 2);
    assert_eq!(b.stored(), [3, 1 | EOF, 2 | EOF]);
    assert!(b.record.opened && !b.record.pending);
}

#[test]
fn recirculating_a_full_memory() {
    // Depth 8, 8 stored: a value is stored where it left, with its 17 bits.
    let mut b = Bench::new(0, 0);
    b.write(0x04, 1);
    for i in 0..8 {
        b.load(i | EOF);
        b.memory[i as usize] |= 0xABC0_0000;
    }
    b.write(0x0C, ENABLED | CIRCULAR);
    assert_eq!(b.tick(), 1);
    assert_eq!((b.record.first, b.record.count), (1, 8));
    assert_eq!((b.memory[0], b.memory[1]), (EOF, 0xABC0_0001 | EOF));
}

#[test]
fn load_requests() {
    let mut b = Bench::new(0, 0);
    // Only if circular.
    b.write(0x0C, LOAD_REQUEST);
    assert!(!b.record.pending);
    b.write(0x0C, CIRCULAR | LOAD_REQUEST);
    assert!(b.record.pending);
    // pending = D9
    b.write(0x0C, CIRCULAR);
    assert!(!b.record.pending);
    // Opened: D9 = 0 changes nothing; D11 = 1 drops it and takes D9.
    b.record.opened = true;
    b.write(0x0C, CIRCULAR);
    assert!(b.record.opened && !b.record.pending);
    b.write(0x0C, CIRCULAR | LOAD_REQUEST);
    assert!(b.record.opened && !b.record.pending);
    b.write(0x0C, CIRCULAR | LOAD_REQUEST | CLEAR);
    assert!(!b.record.opened && b.record.pending);
    b.write(0x0C, LOAD_REQUEST);
    assert!(!b.record.opened && !b.record.pending);
}

#[test]
fn triggers_and_bursts() {
    let mut b = Bench::new(0, 0);
    // Not enabled.
    b.go(Event::Trigger);
    b.write(0x00, BINARY | BURST_TRIGGER);
    assert!(!b.record.burst);
    // Barred.
    b.write(0x00, BINARY | BURSTS | BARRED);
    b.go(Event::Trigger);
    assert!(!b.record.burst);
    // Software.
    b.write(0x00, BINARY | BURSTS | BARRED | BURST_TRIGGER);
    assert!(b.record.burst && b.record.software && b.bcr_bit(2) && !b.bcr_bit(1));
    // D2 = 0 leaves it; an outside trigger leaves it; D0 = 0 ends it.
    b.write(0x00, BINARY | BURSTS);
    b.go(Event::Trigger);
    assert!(b.record.burst && b.record.software);
    b.write(0x00, BINARY | BURST_TRIGGER);
    assert!(!b.record.burst && !b.record.software);
    // CLEAR BUFFER ends a burst.
    b.write(0x00, BINARY | BURSTS);
    b.go(Event::Trigger);
    assert!(b.record.burst && !b.record.software);
    b.write(0x00, BINARY | BURSTS | BURST_TRIGGER);
    assert!(b.record.burst && !b.record.software);
    b.write(0x0C, CLEAR);
    assert!(!b.record.burst);
    // A burst whose buffer goes empty without EOF goes on (READINGS.md, 1).
    b.write(0x0C, ENABLED);
    b.load(1);
    b.go(Event::Trigger);
    assert_eq!((b.tick(), b.record.count, b.record.burst), (1, 0, true));
}

#[test]
fn interrupts() {
    let mut b = Bench::new(0, 0);
    // A true condition newly selected raises nothing.
    b.write(0x00, BINARY | 2 << 8);
    assert!(!b.record.request);
    b.write(0x00, BINARY | 2 << 8 | REQUEST);
    assert!(!b.record.request);
    b.write(0x04, 1);
    b.write(0x0C, ENABLED);
    b.load(1);
    assert!(!b.record.request);
    b.tick();
    assert!(b.record.request);
    b.load(1); // true to false
    assert!(!b.record.request);
    b.tick();
    // An unchanged condition leaves it; D11 = 0 clears it.
    b.tick();
    assert!(b.record.request);
    b.write(0x00, BINARY | 2 << 8);
    assert!(!b.record.request);
    // Load ready and its end, by D8.
    b.write(0x00, BINARY | 7 << 8);
    b.write(0x0C, CIRCULAR);
    assert!(b.record.request);
    b.write(0x0C, 0);
    assert!(!b.record.request);
    // Burst ready rises in the write that clears D11: set after all else.
    b.write(0x00, BINARY | 5 << 8);
    b.write(0x00, BINARY | 5 << 8 | BURSTS);
    assert!(b.record.request);
    // Initialise just sets it.
    b.write(0x00, BINARY);
    assert!(!b.record.request);
    b.write(0x00, INITIALISE);
    assert!(b.record.request);
    assert_eq!(b.read(0x00), 0x810);
}

// ---- long random sessions --------------------------------------------------

impl Dice {
    fn event(&mut self) -> Event {
        match self.roll(40) {
            0..=11 => Event::Tick,
            12..=22 => Event::Write {
                offset: 0x18,
                value: self.any(),
            },
            23..=26 => Event::Outside,
            27 | 28 => Event::Trigger,
            29 => Event::Passed,
            30 => Event::Failed,
            31 => Event::Settled,
            32 => Event::Read {
                offset: self.roll(9) * 4,
            },
            33 | 34 => Event::Write {
                offset: 0x0C,
                value: self.any() & !(if self.roll(4) > 0 { CLEAR } else { 0 }) | ENABLED,
            },
            35 | 36 => Event::Write {
                offset: 0x00,
                value: self.any() & !(if self.roll(9) > 0 { INITIALISE } else { 0 }),
            },
            37 => Event::Write {
                offset: 0x04,
                value: self.any() & self.any() & self.any(),
            },
            38 => Event::Write {
                offset: self.roll(9) * 4,
                value: self.any(),
            },
            _ => Event::PowerUp {
                fitted: self.roll(3),
                range: self.roll(3),
                filter: self.roll(3),
                kit: self.roll(3),
                firmware: self.roll(4096),
            },
        }
    }
}

#[test]
fn random_sessions() {
    // The record stays sound, a refused event changes nothing, entries from
    // depth upward are never touched, and the stored list changes only by
    // values taken from its front and put at its back.
    let mut dice = Dice(0x1234_5678_9ABC_DEF1);
    let mut moved_total = 0;
    for session in 0..300 {
        let mut b = Bench::new(session % 3, session % 2 * 2);
        for _ in 0..400 {
            let event = dice.event();
            let (record, memory, list) = (b.record.clone(), b.memory.clone(), b.stored());
            let answer = b.go(event);
            if answer.refusal != 0 {
                assert_eq!((&b.record, &b.memory), (&record, &memory));
                assert_eq!((answer.register, answer.moved, answer.fate), (0, 0, 0));
                continue;
            }
            assert!(b.record.is_sound(), "{event:?}");
            let depth = 8 << b.record.fitted;
            assert_eq!(b.memory[depth..], memory[depth..]);
            moved_total += answer.moved;
            let mut expected = list.clone();
            match event {
                Event::PowerUp { .. } => expected.clear(),
                Event::Write { offset: 0, value } if value & INITIALISE != 0 => expected.clear(),
                Event::Write {
                    offset: 0x0C,
                    value,
                } if value & CLEAR != 0 => expected.clear(),
                Event::Write {
                    offset: 0x18,
                    value,
                } if answer.fate == 1 => expected.push(value & 0x1_FFFF),
                Event::Write {
                    offset: 0x0C,
                    value,
                } if answer.moved > 0 => {
                    // Closed by this very write, unless it was and stays opened.
                    if value & CIRCULAR != 0 && !record.opened {
                        expected.rotate_left(answer.moved as usize);
                    } else {
                        expected.drain(..answer.moved as usize);
                    }
                }
                Event::Tick | Event::Outside if record.circular && !record.opened => {
                    expected.rotate_left(answer.moved as usize)
                }
                Event::Tick | Event::Outside => {
                    expected.drain(..answer.moved as usize);
                }
                _ => (),
            }
            assert_eq!(b.stored(), expected, "{event:?}");
        }
    }
    assert!(moved_total > 1000);
}

#[test]
fn soundness() {
    // One fault each in a sound record.
    let sound = Bench::new(1, 1).record;
    assert!(sound.is_sound());
    assert!(!Record::unpowered().is_sound());
    let faults: Vec<fn(&mut Record)> = vec![
        |r| r.powered = false,
        |r| r.fitted = 16,
        |r| r.fitted = u32::MAX,
        |r| r.range = 3,
        |r| r.filter = 3,
        |r| r.kit = 3,
        |r| r.firmware = 4096,
        |r| r.first = 16,
        |r| r.count = 17,
        |r| r.mask = 0x1000,
        |r| r.cursor = 21,
        |r| (r.simultaneous, r.cursor) = (true, 1),
        |r| r.code = 16,
        |r| r.selection = 8,
        |r| r.nclk = 512,
        |r| r.pending = true,
        |r| r.opened = true,
        |r| (r.circular, r.pending, r.opened) = (true, true, true),
        |r| r.burst = true,
        |r| (r.bursts, r.software) = (true, true),
        |r| (r.calibrating, r.calibrated) = (true, true),
    ];
    for (i, fault) in faults.iter().enumerate() {
        let mut record = sound.clone();
        fault(&mut record);
        assert!(!record.is_sound(), "fault {i}");
        let mut memory = [0; 4];
        let given = record.clone();
        assert_eq!(
            step(&mut record, &mut memory, &Event::Tick),
            answer(3, 0, 0, 0)
        );
        assert_eq!(record, given);
    }
    let mut record = sound;
    assert_eq!(
        step(&mut record, &mut [0; 15], &Event::Read { offset: 1 }),
        answer(2, 0, 0, 0)
    );
}

#[test]
fn damaged_records() {
    // Any numbers at all: no event and no rate question may panic, a refused
    // event changes nothing, and an unsound record is refused 3 (or powered up).
    let mut dice = Dice(0x0F0F_1234_9ABC_7777);
    let (mut sound, mut unsound) = (0, 0);
    for _ in 0..200_000 {
        let number = |dice: &mut Dice, bound: u32| match dice.roll(60) {
            0 => dice.any(),
            1 => bound,
            2 => u32::MAX,
            _ => dice.roll(bound),
        };
        let flag = |dice: &mut Dice, sides: u32| dice.roll(sides) == 0;
        let mut r = Record::unpowered();
        r.powered = !flag(&mut dice, 20);
        r.fitted = number(&mut dice, 3);
        r.range = number(&mut dice, 3);
        r.filter = number(&mut dice, 3);
        r.kit = number(&mut dice, 3);
        r.firmware = number(&mut dice, 4096);
        r.code = number(&mut dice, 16);
        r.bursts = flag(&mut dice, 2);
        r.binary = flag(&mut dice, 2);
        r.barred = flag(&mut dice, 2);
        r.simultaneous = flag(&mut dice, 2);
        r.selection = number(&mut dice, 8);
        r.external = flag(&mut dice, 2);
        r.enabled = flag(&mut dice, 2);
        r.circular = flag(&mut dice, 2);
        r.calibrating = flag(&mut dice, 4);
        r.calibrated = flag(&mut dice, 4);
        r.cal_failed = flag(&mut dice, 4);
        r.divisor = number(&mut dice, 65_536);
        r.nclk = number(&mut dice, 512);
        r.alt = flag(&mut dice, 2);
        r.settling = flag(&mut dice, 4);
        r.burst = flag(&mut dice, 4);
        r.software = flag(&mut dice, 8);
        r.pending = flag(&mut dice, 8);
        r.opened = flag(&mut dice, 8);
        r.request = flag(&mut dice, 2);
        r.mask = number(&mut dice, 64);
        r.cursor = if r.simultaneous {
            0
        } else {
            number(&mut dice, 21)
        };
        r.first = number(&mut dice, 8);
        r.count = number(&mut dice, 9);
        let length = [7, 8, 31, 32, 40][dice.roll(5) as usize];
        let mut memory: Vec<u32> = (0..length).map(|_| dice.any()).collect();
        let event = dice.event();
        let (given, lent) = (r.clone(), memory.clone());
        rates(&r);
        let answer = step(&mut r, &mut memory, &event);
        if answer.refusal != 0 {
            assert_eq!((&r, &memory), (&given, &lent));
        } else {
            assert!(r.is_sound());
        }
        if given.is_sound() {
            sound += 1;
            assert_ne!(answer.refusal, 3);
        } else if !matches!(event, Event::PowerUp { .. }) {
            unsound += 1;
            assert_eq!(answer.refusal, 3);
        }
    }
    assert!(sound > 10_000 && unsound > 10_000, "{sound} {unsound}");
}
