//! A play as a session file, as extracts are packed: the opening byte, the
//! power-up, the cutter's bytes from its second on, the two writes and the ticks.
//! And our listing of it.

use super::levels::Levels;
use super::order::Order;
use super::play::Play;
use compare::fields::{simple, TICK};
use compare::file::{self, OPENING};

pub fn file(order: &Order, play: &Play, session: &[u8]) -> Vec<u8> {
    let mut file = vec![OPENING];
    file::put(&mut file, &[play.power_up]);
    file.extend_from_slice(&session[1..]);
    file::put(&mut file, &play.settings());
    let tick = file::record(&simple(TICK));
    for _ in 0..play.ticks(order) {
        file.extend_from_slice(&tick);
    }
    file
}

/// Lists the file: a line for each record, none refused, and these levels last, with
/// no `FILE` before them. Answers the first other line.
pub fn look_at(file: &[u8], memory: &mut [u32], levels: &Levels) -> Result<(), String> {
    let mut output = vec![0; nergutsai::room(file.len())];
    let length = nergutsai::list_call(file, memory, &mut output);
    let text = String::from_utf8_lossy(output.get(..length).unwrap_or(&[]));
    let mut lines = text.lines();
    let mut look = |expected: &str, whole: bool| match lines.next().unwrap_or("(none)") {
        line if line == expected || !whole && line.starts_with(expected) => Ok(()),
        line => Err(format!("as a file: `{line}`, expected `{expected}`")),
    };
    look("REHEARSAL 1", true)?;
    for number in 1..=file::places(file).len() {
        look(&format!("{number} 0 "), false)?;
    }
    let hex: String = levels.iter().map(|level| format!(" {level:04X}")).collect();
    look(&format!("LEVELS{hex}"), true)?;
    look("(none)", true)
}
