//! A session file as commented hex text, a record a line, as the example
//! sessions are written: `rehearse --hex` reads it.

use crate::file;
use crate::words::words;

/// Where the comments begin, and how many bytes stand in a line of a record
/// that has no event.
const COLUMN: usize = 24;
const BYTES: usize = 24;

pub fn text(bytes: &[u8]) -> String {
    let mut text = String::new();
    let Some(opening) = bytes.first() else {
        return "# an empty file\n".to_string();
    };
    let known = *opening == file::OPENING;
    let comment = if known {
        "   the byte that opens every session file"
    } else {
        "   not the byte that opens a session file"
    };
    line(&mut text, &digits(&bytes[..1]), comment);

    let mut read = known;
    for (i, place) in file::places(bytes).into_iter().enumerate() {
        let record = &bytes[place];
        let said = match file::event(record) {
            Some(event) => words(&event),
            None => file::trouble(record).to_string(),
        };
        let number = format!("{:2} ", i + 1);
        match file::fields(record).filter(|_| read) {
            Some(fields) => {
                let mut groups = vec![digits(&record[..2])];
                groups.extend(fields.into_iter().map(digits));
                line(&mut text, &groups.join(" "), &(number + &said));
            }
            None => {
                // "A file refusal stops it": what comes after is not read.
                let said = if read { said } else { "not read".to_string() };
                read = false;
                whole(&mut text, record, &(number + &said));
            }
        }
    }
    text
}

/// Prints a file, or so many lines of it.
pub fn print(bytes: &[u8], most: usize) {
    let text = text(bytes);
    for line in text.lines().take(most) {
        println!("{line}");
    }
    let more = text.lines().count().saturating_sub(most);
    if more > 0 {
        println!("# and {more} more lines: --only prints them all");
    }
}

/// Bytes of a record that has no event, or is not read.
fn whole(text: &mut String, record: &[u8], comment: &str) {
    for (i, bytes) in record.chunks(BYTES).enumerate() {
        line(text, &digits(bytes), if i == 0 { comment } else { "" });
    }
}

fn line(text: &mut String, hex: &str, comment: &str) {
    let both = format!("{hex:COLUMN$}  # {comment}");
    *text += both.trim_end_matches(&[' ', '#'][..]);
    *text += "\n";
}

fn digits(bytes: &[u8]) -> String {
    bytes.iter().map(|byte| format!("{byte:02X}")).collect()
}
