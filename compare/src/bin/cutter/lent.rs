//! What is lent to both sides for a call, and what they made of it; and what is
//! asked of a cut without the model.

use super::board::Board;
use super::call::Call;
use super::faults::Faults;
use super::{listing, session};
use compare::file::LONGEST;
use compare::guarded::{Guarded, Wrongs};
use compare::written::{junk, Said, Sides};

/// What stands beside the recording.
const GUARD: u16 = 0xFACE;

/// The board that cuts are played on, one after the other.
pub struct Lent {
    board: Board,
}

pub struct Found {
    pub sides: Sides,
    /// A cut was written.
    pub written: bool,
    pub played: Option<Played>,
    /// What differs, each in words; model/ours.
    pub wrongs: Wrongs,
}

/// What became of a play.
#[derive(Clone, Copy)]
pub struct Played {
    pub ticks: usize,
    /// It was listed as a session file too.
    pub as_file: bool,
}

impl Lent {
    pub fn new() -> Lent {
        Lent {
            board: Board::new(),
        }
    }

    /// Both sides cut, into outputs with the same junk in them, and what ours wrote
    /// is looked at and played.
    pub fn compare(&mut self, call: &Call) -> Found {
        let output = junk(call.room, call.junk);
        let mut beside = Vec::new();
        let sides = Sides {
            model: model(call, output.clone()),
            ours: ours(call, output, &mut beside),
        };
        let mut wrongs = sides.compare();
        wrongs.append(&mut beside);
        let mut played = None;
        let session = sides.session(call.place, &mut wrongs);
        let written = session.is_some();
        if let Some(session) = session {
            let looked = self.look_at(session, call, &mut wrongs);
            played = looked.unwrap_or_else(|wrong| {
                wrongs.push(wrong);
                None
            });
        }
        Found {
            sides,
            written,
            played,
            wrongs,
        }
    }

    /// A session that ours wrote. Answers what became of the play, if it is played,
    /// or what is wrong first.
    fn look_at(
        &mut self,
        session: &[u8],
        call: &Call,
        wrongs: &mut Wrongs,
    ) -> Result<Option<Played>, String> {
        let order = &call.order;
        if !Faults::of(order).none() {
            return Err("a bad order was cut".to_string());
        }
        session::look_at(session, order).unwrap_or_else(|wrong| wrongs.push(wrong));
        let Some(play) = &call.play else {
            return Ok(None);
        };
        let levels = self.board.play(order, play, session);
        let memory = &mut self.board.memory;
        memory.look_beside("words beside the memory", wrongs);
        let levels = levels?;
        let file = play.as_file.then(|| listing::file(order, play, session));
        let file = file.filter(|file| file.len() <= LONGEST);
        if let Some(file) = &file {
            listing::look_at(file, memory.lent(), &levels)?;
        }
        Ok(Some(Played {
            ticks: play.ticks(order),
            as_file: file.is_some(),
        }))
    }
}

fn model(call: &Call, output: Vec<u8>) -> Said {
    let order = &call.order;
    Said::model(output, |output| {
        second::cut(
            &order.recording,
            order.channels,
            order.first as u64,
            order.last as u64,
            order.mask,
            output,
            call.place,
        )
    })
}

/// The other side, and what it wrote where it may not.
fn ours(call: &Call, output: Vec<u8>, wrongs: &mut Wrongs) -> Said {
    let order = &call.order;
    let mut recording = Guarded::new(GUARD);
    recording.set(order.recording.iter().copied());
    let lent = nergutsai::Order {
        recording: recording.inside(),
        channels: order.channels,
        first: order.first,
        last: order.last,
        mask: order.mask,
    };
    let said = Said::ours(output, wrongs, |output, end| {
        nergutsai::cut_call(&lent, output, call.place, end)
    });
    recording.look_at("the recording was written to", &order.recording, wrongs);
    recording.look_beside("numbers beside the recording", wrongs);
    said
}
