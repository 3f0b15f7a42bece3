//! Calls that must not be understood: wrong lengths and unknown kinds. Each
//! returns its own number and writes nothing.

use crate::fields::*;
use crate::ours;

/// The calls made, and a line for each that went wrong.
pub fn check() -> (u32, Vec<String>) {
    let mut calls = 0;
    let mut wrong = Vec::new();
    let mut board = fresh(&[0; RECORD]);
    board[COUNT] = 3;
    board[ENABLED] = 1;
    let events = [
        simple(TICK),
        write(0x18, 0x1_2345),
        read(BOR),
        [1, 0, 1, 2, 0, 9],
    ];

    // What is wrong is looked for in this order: 1 the record's length, 2 the
    // event's, 3 the answer's, 4 the kind.
    let mut call = |record_len: usize, memory_len: usize, event: &[u32], answer_len: usize| {
        let must = if record_len != RECORD {
            1
        } else if event.len() != 6 {
            2
        } else if answer_len != 4 {
            3
        } else {
            4
        };
        // More than enough behind each pointer.
        let mut record = [0x5555_5555u32; 64];
        record[..RECORD].copy_from_slice(&board);
        let mut memory = [0x7777_7777u32; 24];
        let mut answer = [0x9999_9999u32; 16];
        let kept = (record, memory, answer);
        let status = ours::call(
            &mut record[..record_len],
            &mut memory[..memory_len],
            event,
            &mut answer[..answer_len],
        );
        calls += 1;
        let numbers: Vec<String> = event.iter().map(|n| format!("{n:X}")).collect();
        let what = format!(
            "record {record_len} long, memory {memory_len}, event {} long ({}), answer {answer_len}",
            event.len(),
            numbers.join(" ")
        );
        if status != must {
            wrong.push(format!("{what}: returned {status}, not {must}"));
        }
        if (record, memory, answer) != kept {
            wrong.push(format!("{what}: wrote something (returned {status})"));
        }
    };

    for event in &events {
        for memory in [0, 8, 20] {
            for record in [0, 1, 35, 54, 56, 64] {
                call(record, memory, event, 4);
                call(record, memory, &event[..5], 3);
            }
            for answer in [0, 1, 3, 5, 16] {
                call(RECORD, memory, event, answer);
            }
            let mut long = [0; 12];
            long[..6].copy_from_slice(event);
            for length in [0, 1, 3, 5, 7, 12] {
                call(RECORD, memory, &long[..length], 4);
                call(RECORD, memory, &long[..length], 5);
            }
        }
    }
    for kind in [
        0,
        10,
        11,
        16 + TICK,
        0x100 + TICK,
        0x1_0000 + TICK,
        0x8000_0000 + TICK,
        u32::MAX,
    ] {
        call(RECORD, 8, &[kind, 0, 0, 0, 0, 0], 4);
        call(RECORD, 0, &[kind, 0x18, 5, 0, 0, 0], 4);
        call(RECORD, 8, &[kind, 0, 0, 0, 0, 0], 3);
    }
    let (asked, rates) = check_rates(&board);
    wrong.extend(rates);
    (calls + asked, wrong)
}

/// The same of the rate question: 1 the record's length, 3 the figures'.
fn check_rates(board: &Record) -> (u32, Vec<String>) {
    let mut calls = 0;
    let mut wrong = Vec::new();
    for record_len in [0, 1, 35, 54, RECORD, 56, 64] {
        for figures_len in [0, 1, 2, 3, 4, 16] {
            let must = match (record_len, figures_len) {
                (RECORD, 3) => continue,
                (RECORD, _) => 3,
                _ => 1,
            };
            let mut record = [0x5555_5555u32; 64];
            record[..RECORD].copy_from_slice(board);
            let mut figures = [0x9999_9999u32; 16];
            let kept = (record, figures);
            let status = ours::rate_call(&record[..record_len], &mut figures[..figures_len]);
            calls += 1;
            let what = format!("rate question, record {record_len} long, figures {figures_len}");
            if status != must {
                wrong.push(format!("{what}: returned {status}, not {must}"));
            }
            if (record, figures) != kept {
                wrong.push(format!("{what}: wrote something (returned {status})"));
            }
        }
    }
    (calls, wrong)
}
