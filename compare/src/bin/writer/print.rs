//! A call in words.

use super::call::Call;
use super::rows::{events, ROW};
use compare::words::words;

/// So many events at most.
pub fn call(call: &Call, most: usize) -> String {
    let hex = |numbers: &[u32]| {
        let numbers: Vec<String> = numbers.iter().map(|n| format!("{n:X}")).collect();
        format!("(numbers, hex: {})", numbers.join(" "))
    };
    let mut text = format!("rows: {}\n", call.words());
    for (i, event) in events(&call.rows).take(most).enumerate() {
        text += &format!("  {:3}. {}\n", i + 1, words(&event));
        text += &format!("       {}\n", hex(&event));
    }
    let whole = call.rows.len() / ROW;
    if whole > most {
        text += &format!("       and {} more: --only prints them all\n", whole - most);
    }
    let rest = &call.rows[whole * ROW..];
    if !rest.is_empty() {
        text += &format!("       then {}\n", hex(rest));
    }
    text + &output(call)
}

pub fn output(call: &Call) -> String {
    format!("output: {} bytes, place {}\n", call.room, call.place)
}
