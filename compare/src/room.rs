//! The output of a call that writes a session, how long it is, and the place:
//! such that the session fits, just fits, or misses by one byte or by far.

use crate::file::LONGEST;
use crate::rng::Rng;

/// Where a session is to stand.
#[derive(Clone, Copy)]
pub struct Spot {
    /// How long the session is, or would be.
    pub length: usize,
    pub room: usize,
    pub place: usize,
}

impl Spot {
    /// How many bytes there are from the place on.
    pub fn left(&self) -> usize {
        self.room.saturating_sub(self.place)
    }

    /// "20 a place past the output's end"
    pub fn is_past(&self) -> bool {
        self.place > self.room
    }

    /// "21 when the whole session doesn't fit", and the place is not past the end.
    pub fn is_tight(&self) -> bool {
        !self.is_past() && self.length > self.left()
    }

    /// For `--coverage`: what a session that is written may meet.
    pub fn written(&self) -> [(&'static str, bool); 6] {
        let (length, left) = (self.length, self.left());
        [
            ("a session above 65,536 bytes", length > LONGEST),
            ("from place 0", self.place == 0),
            ("from a later place", self.place > 0),
            ("up to the output's last byte", left == length),
            ("one byte to spare", left == length + 1),
            ("many bytes to spare", left > length + 1),
        ]
    }

    /// And one whose place is past the end.
    pub fn past(&self) -> [(&'static str, bool); 5] {
        let (room, place) = (self.room, self.place);
        let low = place as u32 as usize;
        [
            ("one past the end", place.wrapping_sub(room) == 1),
            ("an empty output", room == 0),
            ("the largest place", place == usize::MAX),
            ("its low 32 bits inside", low < place && low <= room),
            (
                "the session's end wraps round to inside",
                place.wrapping_add(self.length) <= room,
            ),
        ]
    }

    /// And one that does not fit.
    pub fn tight(&self) -> [(&'static str, bool); 4] {
        [
            ("one byte short", self.left() + 1 == self.length),
            ("the place is the output's end", self.left() == 0),
            ("an empty output", self.room == 0),
            ("a session above 65,536 bytes", self.length > LONGEST),
        ]
    }
}

/// The output's length and the place, for a session of so many bytes.
pub fn choose(length: usize, rng: &mut Rng) -> (usize, usize) {
    let (near, far) = (rng.below(40) as usize, rng.below(2_000) as usize);
    let place = rng.pick(&[0, 0, 0, 1, near, near, far]);
    let end = place + length;
    let room = match rng.below(20) {
        0..=4 => end,
        5..=7 => end - 1,
        8 => end + 1,
        9..=11 => end + near,
        12..=13 => end + far,
        14 => place + rng.below(length as u32) as usize,
        15 => place,
        16 => return (0, place),
        _ => {
            let room = rng.pick(&[0, near, far, length]);
            return (room, past_the_end(room, length, rng));
        }
    };
    (room, place)
}

/// A place past the output's end: by one, by some, or so far that the end of the
/// session, or the place in 32 bits, would be inside.
fn past_the_end(room: usize, length: usize, rng: &mut Rng) -> usize {
    let some = 2 + rng.below(100) as usize;
    let inside = rng.below(1 + room as u32) as usize;
    let around = inside.wrapping_sub(length);
    let around = if around > room { around } else { usize::MAX };
    rng.pick(&[
        room + 1,
        room + 1,
        room + some,
        inside + (1 << 32),
        isize::MAX as usize,
        around,
        around,
        usize::MAX - some,
        usize::MAX,
    ])
}

/// The same for a session that must fit.
pub fn enough(length: usize, rng: &mut Rng) -> (usize, usize) {
    let near = rng.below(40) as usize;
    let place = rng.pick(&[0, 0, 1, near]);
    (place + length + rng.pick(&[0, 0, 1, near]), place)
}
