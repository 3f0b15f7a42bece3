//! Session files: listed, and written from events.

use crate::raw::{list_call, write_call};
use crate::Refusal;

/// The room that `list_call` asks for a session file of so many bytes.
#[must_use]
pub fn room(file_length: usize) -> usize {
    if file_length > 65_536 {
        return 9;
    }
    160 + 22 * file_length
}

/// The listing of a session file on a board with this sample memory (16,384 values in `rehearse`). Any bytes may be handed
/// in: what is wrong with a file stands in its listing.
#[must_use]
pub fn list(file: &[u8], memory: &mut [u32]) -> String {
    let mut text = vec![0; room(file.len())];
    let length = list_call(file, memory, &mut text);
    text.truncate(length);
    String::from_utf8(text).expect("a listing has letters, digits, blanks and line ends alone")
}

/// The room that `write` asks for a session of so many events at most.
#[must_use]
pub fn session_room(events: usize) -> usize {
    1 + 9 * events
}

/// A session file of these events, a row of six numbers each (`Event::row`), into the output from the place on: the
/// place after its last byte, counted from the output's start. Bytes outside of it do not change, and none at all
/// where it is refused. A session may have any length; `list` takes up to 65,536 bytes.
///
/// Rows that are not whole events are told first; then the first bad event decides, its kind before its fields; then the
/// place; then the room.
pub fn write(rows: &[u32], output: &mut [u8], place: usize) -> Result<usize, Refusal> {
    let mut end = 0;
    Refusal::told(write_call(rows, output, place, &mut end))?;
    Ok(end)
}
