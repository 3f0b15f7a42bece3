//! The names here and in hosts/c/nergutsai.h are one list: refusals, fates, registers, bits and the version.

use nergutsai::register::{self, adjustable_clock, bcr, bor, interrupt, options};
use nergutsai::{Fate, Refusal, VERSION};
use std::collections::BTreeMap;

const HEADER: &str = include_str!("../../c/nergutsai.h");
const EXAMPLE: &str = include_str!("../../c/example.c");

/// What the header gives a number: a line each, `NERGUTSAI_NAME = 5,` in a list or `#define NERGUTSAI_NAME UINT32_C(0x5)`.
fn names() -> BTreeMap<&'static str, u32> {
    let lines = HEADER.lines().filter_map(|line| {
        let line = line.trim_start_matches("#define ").trim_start();
        let (name, rest) = line.strip_prefix("NERGUTSAI_")?.split_once(' ')?;
        let rest = rest.trim_start_matches("= ");
        let rest = rest.strip_prefix("UINT32_C(").unwrap_or(rest);
        let digits = rest.split([',', ')', ' ']).next()?;
        let number = match digits.strip_prefix("0x") {
            Some(hex) => u32::from_str_radix(hex, 16),
            None => digits.parse(),
        };
        Some((name, number.ok()?))
    });
    lines.collect()
}

/// `NotASession` as the header has it, `NOT_A_SESSION`.
fn in_c(name: &str) -> String {
    let mut text = String::new();
    for letter in name.chars() {
        if letter.is_uppercase() && !text.is_empty() {
            text.push('_');
        }
        text.push(letter.to_ascii_uppercase());
    }
    text
}

#[test]
fn refusals_and_fates_have_the_same_names_and_numbers() {
    let names = names();
    for refusal in Refusal::ALL {
        let name = in_c(&format!("{refusal:?}"));
        assert_eq!(names.get(&name[..]), Some(&refusal.number()), "{name}");
        // And the same words.
        assert!(EXAMPLE.contains(&format!("\"{refusal}\"")), "{refusal}");
    }
    for fate in (0..4).filter_map(Fate::of) {
        let name = "FATE_".to_owned() + &in_c(&format!("{fate:?}"));
        assert_eq!(names.get(&name[..]), Some(&fate.number()), "{name}");
        assert!(EXAMPLE.contains(&format!("\"{fate}\"")), "{fate}");
    }
}

/// Each with its name in the header: the folders of names that it stands in, and its own.
macro_rules! constants {
    ($($prefix:literal $module:ident: $($name:ident)*;)*) => {
        vec![$($((concat!($prefix, stringify!($name)), $module::$name)),*),*]
    };
}

#[test]
fn registers_have_the_same_names_and_numbers() {
    let constants = constants! {
        "" register: BCR CHANNEL_SELECTION SAMPLE_RATE BOR FIRMWARE_AND_OPTIONS AUTOCAL_VALUES OUTPUT_DATA_BUFFER
            ADJUSTABLE_CLOCK SAMPLE_RATE_MASK DATA_MASK EOF;
        "BCR_" bcr: BURST_ENABLED BURST_READY BURST_TRIGGER REMOTE_GROUND_SENSE OFFSET_BINARY DIFFERENTIAL_SYNC_IO
            DISABLE_EXT_BURST_TRIG SIMULTANEOUS_OUTPUTS INTERRUPT_MASK INTERRUPT_SHIFT INTERRUPT_REQUEST_FLAG
            AUTOCALIBRATION AUTOCAL_STATUS_FLAG INITIALIZE;
        "INTERRUPT_" interrupt: IDLE AUTOCAL_COMPLETED BUFFER_EMPTY BUFFER_LOW_QUARTER BUFFER_HIGH_QUARTER BURST_READY
            LOAD_READY END_LOAD_READY;
        "BOR_" bor: SIZE_MASK EXTERNAL_CLOCK ENABLE_CLOCK CLOCK_READY SW_CLOCK CIRCULAR_BUFFER LOAD_REQUEST LOAD_READY
            CLEAR_BUFFER BUFFER_EMPTY BUFFER_LOW_QUARTER BUFFER_HIGH_QUARTER BUFFER_FULL BUFFER_OVERFLOW FRAME_OVERFLOW;
        "OPTIONS_" options: FIRMWARE_MASK RANGE_MASK RANGE_SHIFT FILTER_MASK FILTER_SHIFT KIT_MASK KIT_SHIFT;
        "ADJUSTABLE_CLOCK_" adjustable_clock: NCLK_MASK SELECT_ALTERNATE_REFERENCE;
    };
    let mut names = names();
    for (name, number) in &constants {
        assert_eq!(names.remove(name), Some(*number), "{name}");
    }
    // All that is left of the header's are the refusals, the fates and the kinds of event.
    let kinds = [
        "POWER_UP", "WRITE", "READ", "TICK", "OUTSIDE", "TRIGGER", "PASSED", "FAILED", "SETTLED",
    ];
    for (name, number) in (1..).zip(kinds).map(|(number, name)| (name, number)) {
        assert_eq!(names.remove(name), Some(number), "{name}");
    }
    assert_eq!(names.remove("DONE"), Some(0));
    let left: Vec<&str> = names.into_keys().collect();
    assert_eq!(left.len(), Refusal::ALL.len() + 4, "{left:?}");
}

#[test]
fn the_version_is_the_projects() {
    let project = include_str!("../../../VERSION").trim_end();
    assert_eq!(VERSION, project);
    assert!(HEADER.contains(&format!("#define NERGUTSAI_VERSION \"{project}\"\n")));
}
