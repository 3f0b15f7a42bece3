//! An event in words.

use crate::fields::*;

/// An event in words and hex.
pub fn words(event: &Event) -> String {
    match event[0] {
        POWER_UP => format!(
            "power-up: fitted {}, range {}, filter {}, kit {}, firmware {}",
            show(FITTED, event[1]),
            show(RANGE, event[2]),
            show(FILTER, event[3]),
            show(KIT, event[4]),
            show(FIRMWARE, event[5])
        ),
        WRITE => format!(
            "write {}, value {:08X}h{}",
            register(event[1]),
            event[2],
            meaning(event[1], event[2])
        ),
        READ => format!("read {}", register(event[1])),
        TICK => "tick of the generator".to_string(),
        OUTSIDE => "outside clock".to_string(),
        TRIGGER => "outside trigger".to_string(),
        PASSED => "calibration passed".to_string(),
        FAILED => "calibration failed".to_string(),
        SETTLED => "settled".to_string(),
        other => format!("unknown kind {other}"),
    }
}

/// The event's place in the short lines.
pub fn short(event: &Event) -> String {
    match event[0] {
        POWER_UP => "power-up".to_string(),
        WRITE => format!("write {}", register(event[1])),
        READ => format!("read {}", register(event[1])),
        _ => words(event),
    }
}

fn register(offset: u32) -> String {
    let name = match offset {
        0x00 => " BCR",
        0x04 => " mask",
        0x08 => " divisor",
        0x0C => " BOR",
        0x10 => " settings",
        0x14 => " (reads 0)",
        0x18 => " load",
        0x1C => " reference",
        _ => " (no register)",
    };
    format!("{offset:02X}h{name}")
}

fn meaning(offset: u32, value: u32) -> String {
    let bits: &[(u32, &str)] = match offset {
        0x00 => &[
            (0, "bursts enabled"),
            (2, "start a burst"),
            (3, "ground"),
            (4, "offset binary"),
            (5, "differential"),
            (6, "trigger barred"),
            (7, "simultaneous"),
            (11, "leave the request"),
            (13, "calibrate"),
            (15, "initialise"),
        ],
        0x0C => &[
            (4, "EXTERNAL CLOCK"),
            (5, "clocks enabled"),
            (7, "software clock"),
            (8, "circular"),
            (9, "load request"),
            (11, "clear the buffer"),
            (16, "leave BUFFER OVERFLOW"),
            (17, "leave FRAME OVERFLOW"),
        ],
        0x18 => {
            let mark = if value & EOF != 0 { " with EOF" } else { "" };
            return format!(": data {:04X}h{mark}{}", value & 0xFFFF, junk(value >> 17));
        }
        0x1C => {
            let alt = value >> 9 & 1;
            return format!(": Nclk {}, ALT {alt}{}", value & 0x1FF, junk(value >> 10));
        }
        _ => return String::new(),
    };
    let mut parts = Vec::new();
    let mut rest = value;
    if offset == 0x00 {
        parts.push(format!("selection {}", value >> 8 & 7));
        rest &= !0x700;
    } else {
        parts.push(format!("size code {}", value & 15));
        rest &= !15;
    }
    for (bit, name) in bits {
        if value >> bit & 1 == 1 {
            parts.push(format!("D{bit} {name}"));
        }
        rest &= !(1 << bit);
    }
    format!(": {}{}", parts.join(", "), junk(rest))
}

fn junk(rest: u32) -> &'static str {
    if rest != 0 {
        ", and reserved bits"
    } else {
        ""
    }
}
