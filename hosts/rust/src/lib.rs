//! The proved model of the PC104P-16AO20 analog output board, for hosts in Rust.
//!
//! [`event`] plays one event on a board [`Record`] and its sample memory, and [`rate`] asks for its rate. [`list`] lists a
//! whole session file, [`write()`] writes one from events, and [`cut`] writes one from a recording; [`volts`] tells the
//! lowest, highest and last volts of its channels, and [`smallest_size`] the smallest buffer that plays it. What goes wrong
//! is told by a [`Refusal`], which knows its number and says in words what to do. The registers and their bits have the
//! manual's names in [`register`].
//!
//! ```
//! use nergutsai::register::{bor, BOR, OUTPUT_DATA_BUFFER};
//! use nergutsai::{event, Event, Fate, Record, Refusal};
//!
//! fn main() -> Result<(), Refusal> {
//!     let mut board = Record::unpowered();
//!     let mut memory = [0; 8];
//!     let mut play = |happening| event(&mut board, &mut memory, happening);
//!
//!     // A buffer of 8 values, 2.5 V, no filter, 6 channels.
//!     play(Event::PowerUp { fitted: 0, range: 0, filter: 0, kit: 0, firmware: 0 })?;
//!     play(Event::Write { offset: BOR, value: bor::ENABLE_CLOCK })?;
//!     let answer = play(Event::Write { offset: OUTPUT_DATA_BUFFER, value: 0x1234 })?;
//!     assert_eq!(answer.fate, Fate::Stored);
//!     assert_eq!(play(Event::Tick)?.moved, 1);
//!
//!     let refusal = play(Event::Read { offset: 0x20 }).unwrap_err();
//!     assert_eq!((refusal, refusal.number()), (Refusal::NoRegister, 4));
//!     assert_eq!(
//!         refusal.to_string(),
//!         "there is no register at this offset: 00, 04, 08, 0C, 10, 14, 18 or 1C (hex)"
//!     );
//!     assert_eq!(board.levels()[..2], [0x1234, 0x8000]);
//!     Ok(())
//! }
//! ```
//!
//! No call keeps anything for the next one, or touches anything but what it is lent: threads may call at once. Slices of any
//! length may be lent, empty ones too. The functions themselves, on bare numbers, are [`call`], [`rate_call`] and so on.
//!
//! The archive libnergutsai.a is for Linux on x86-64.

#![deny(missing_docs)]

mod cut;
mod event;
mod fate;
mod rate;
mod raw;
mod record;
mod refusal;
pub mod register;
mod session;
mod size;
mod volts;

pub use cut::{cut, cut_room, Order};
pub use event::{event, Answer, Event};
pub use fate::Fate;
pub use rate::{rate, Figures};
pub use raw::{call, cut_call, list_call, rate_call, smallest_size_call, volts_call, write_call};
pub use record::Record;
pub use refusal::Refusal;
pub use session::{list, room, session_room, write};
pub use size::smallest_size;
pub use volts::{volts, Extremes};

/// The version of the project whose crate this is.
pub const VERSION: &str = env!("CARGO_PKG_VERSION");
