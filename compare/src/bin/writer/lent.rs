//! What is lent to both sides for a call, and what they made of it.

use super::call::Call;
use compare::guarded::{Guarded, Wrongs};
use compare::written::{junk, read_back, Said, Sides};

/// What stands beside the rows.
const GUARD: u32 = 0xC0DE_FACE;

pub struct Found {
    pub sides: Sides,
    /// A session was written, and read back.
    pub read: bool,
    /// What differs, each in words; model/ours.
    pub wrongs: Wrongs,
}

/// Both sides write into outputs with the same junk in them.
pub fn compare(call: &Call) -> Found {
    let output = junk(call.room, call.junk);
    let mut beside = Vec::new();
    let sides = Sides {
        model: Said::model(output.clone(), |output| {
            second::write_session(&call.rows, output, call.place)
        }),
        ours: ours(call, output, &mut beside),
    };
    let mut wrongs = sides.compare();
    wrongs.append(&mut beside);
    let session = sides.session(call.place, &mut wrongs);
    let read = session.is_some();
    if let Some(session) = session {
        look_at(session, call, &mut wrongs);
    }
    Found {
        sides,
        read,
        wrongs,
    }
}

/// The other side, and what it wrote where it may not.
fn ours(call: &Call, output: Vec<u8>, wrongs: &mut Wrongs) -> Said {
    let mut rows = Guarded::new(GUARD);
    rows.set(call.rows.iter().copied());
    let said = Said::ours(output, wrongs, |output, end| {
        nergutsai::write_call(rows.inside(), output, call.place, end)
    });
    rows.look_at("the rows were written to", &call.rows, wrongs);
    rows.look_beside("words beside the rows", wrongs);
    said
}

/// "Reading back gives the events, and writing what was read gives the same
/// bytes."
fn look_at(session: &[u8], call: &Call, wrongs: &mut Wrongs) {
    match read_back(session) {
        Ok(rows) if rows == call.rows => {}
        Ok(_) => wrongs.push("other events read back".to_string()),
        Err(wrong) => wrongs.push(wrong),
    }
    if call.file.as_ref().is_some_and(|file| file != session) {
        wrongs.push("other bytes than the file's".to_string());
    }
}
