//! What the seven programs share: their words, records, events and answers as
//! numbers, the second model behind them, random sessions, session files, and
//! the way through these. Nothing here needs the archive.

pub mod bits;
pub mod calls;
pub mod counts;
pub mod crc;
pub mod damage;
pub mod fields;
pub mod file;
pub mod files;
pub mod generate;
pub mod guarded;
pub mod hex;
pub mod lending;
pub mod memory;
pub mod model;
pub mod options;
pub mod panics;
pub mod power_ups;
pub mod process;
pub mod question;
pub mod rng;
pub mod room;
pub mod rounds;
pub mod shorten;
pub mod trials;
pub mod words;
pub mod written;
