//! Why a call did not do what it is for.

use std::error::Error;
use std::fmt;

/// Why an event or the rate question was refused, why `write` or `cut` wrote nothing, why `volts` has no table, or why
/// `smallest_size` names no code. Which is told where several things are wrong stands at each call.
#[derive(Clone, Copy, Debug, PartialEq, Eq)]
pub enum Refusal {
    /// Power-up: the fitted code is not 0 to 15.
    BadFitted,
    /// The sample memory is shorter than the depth.
    MemoryTooShort,
    /// The record is damaged, or the board is not powered up.
    NotSound,
    /// There is no register at the offset.
    NoRegister,
    /// 10h and 14h cannot be written.
    ReadOnly,
    /// No write while the board is calibrating.
    Busy,
    /// No calibration runs, or the clock is not settling.
    NothingToEnd,
    /// The rate: the divisor is 0.
    DivisorIsZero,
    /// The rate: EXTERNAL CLOCK is set.
    ClockIsExternal,
    /// The session file is empty, or its first byte is not 01.
    NotASession,
    /// The session file ends inside a record.
    Cut,
    /// A record's length is wrong for its kind, or 0.
    WrongLength,
    /// An event begins with a number that is no kind, or a record of a file does.
    UnknownKind,
    /// Power-up: the range code is not 0 to 2.
    BadRange,
    /// Power-up: the filter code is not 0 to 2.
    BadFilter,
    /// Power-up: the kit code is not 0 to 2.
    BadKit,
    /// Power-up: the firmware number is not 0 to 4095.
    BadFirmware,
    /// No power-up of the session is accepted.
    NoPowerUp,
    /// Values are lost to a full buffer at all sixteen size codes.
    NoSizePlays,
    /// The place is past the output's end.
    PlacePastEnd,
    /// The session does not fit into the output from the place on.
    NoRoom,
    /// A group has no channel or more than 20, or the recording is no whole number of groups.
    BadGroups,
    /// No channel is chosen or one that a group has not, or the groups are past the recording's end or the wrong way round.
    BadChoice,
    /// A field of an event is too large for its bytes, or a number is not 0 though the kind has no field there.
    FieldTooLarge,
    /// The rows are not a multiple of six numbers.
    NotWholeEvents,
}

impl Refusal {
    /// All of them, by their numbers.
    pub const ALL: [Refusal; 25] = [
        Refusal::BadFitted,
        Refusal::MemoryTooShort,
        Refusal::NotSound,
        Refusal::NoRegister,
        Refusal::ReadOnly,
        Refusal::Busy,
        Refusal::NothingToEnd,
        Refusal::DivisorIsZero,
        Refusal::ClockIsExternal,
        Refusal::NotASession,
        Refusal::Cut,
        Refusal::WrongLength,
        Refusal::UnknownKind,
        Refusal::BadRange,
        Refusal::BadFilter,
        Refusal::BadKit,
        Refusal::BadFirmware,
        Refusal::NoPowerUp,
        Refusal::NoSizePlays,
        Refusal::PlacePastEnd,
        Refusal::NoRoom,
        Refusal::BadGroups,
        Refusal::BadChoice,
        Refusal::FieldTooLarge,
        Refusal::NotWholeEvents,
    ];

    /// The refusal number, as an answer, the figures of a rate question or a call on bare numbers has it.
    #[must_use]
    pub fn number(self) -> u32 {
        match self {
            Refusal::BadFitted => 1,
            Refusal::MemoryTooShort => 2,
            Refusal::NotSound => 3,
            Refusal::NoRegister => 4,
            Refusal::ReadOnly => 5,
            Refusal::Busy => 6,
            Refusal::NothingToEnd => 7,
            Refusal::DivisorIsZero => 8,
            Refusal::ClockIsExternal => 9,
            Refusal::NotASession => 10,
            Refusal::Cut => 11,
            Refusal::WrongLength => 12,
            Refusal::UnknownKind => 13,
            Refusal::BadRange => 14,
            Refusal::BadFilter => 15,
            Refusal::BadKit => 16,
            Refusal::BadFirmware => 17,
            Refusal::NoPowerUp => 18,
            Refusal::NoSizePlays => 19,
            Refusal::PlacePastEnd => 20,
            Refusal::NoRoom => 21,
            Refusal::BadGroups => 22,
            Refusal::BadChoice => 23,
            Refusal::FieldTooLarge => 30,
            Refusal::NotWholeEvents => 32,
        }
    }

    /// The refusal of this number; none where no refusal has it, as 0, which is done.
    #[must_use]
    pub fn of(number: u32) -> Option<Refusal> {
        Refusal::ALL
            .into_iter()
            .find(|refusal| refusal.number() == number)
    }

    /// What a call has told by this number.
    pub(crate) fn told(number: u32) -> Result<(), Refusal> {
        match number {
            0 => Ok(()),
            _ => Err(Refusal::of(number).expect("no call has another number")),
        }
    }
}

impl fmt::Display for Refusal {
    fn fmt(&self, text: &mut fmt::Formatter) -> fmt::Result {
        text.write_str(match self {
            Refusal::BadFitted => "the fitted code is out of range: it is 0 to 15",
            Refusal::MemoryTooShort => "the sample memory is shorter than the depth: lend more, or fit a lower code",
            Refusal::NotSound => "the record is damaged, or the board is not powered up: begin with a power-up",
            Refusal::NoRegister => "there is no register at this offset: 00, 04, 08, 0C, 10, 14, 18 or 1C (hex)",
            Refusal::ReadOnly => "10h and 14h cannot be written: leave the write out",
            Refusal::Busy => "the board is calibrating: end the calibration first",
            Refusal::NothingToEnd => "no calibration runs, or the clock is not settling: leave the event out",
            Refusal::DivisorIsZero => "the divisor is 0 and there is no rate: write 1 or more to 08h",
            Refusal::ClockIsExternal => "the clock is external and its rate is not known: clear EXTERNAL CLOCK in 0Ch",
            Refusal::NotASession => "the file is no session: its first byte is 01",
            Refusal::Cut => "the file ends inside a record: hand in the whole of it",
            Refusal::WrongLength => "a record's length is wrong for its kind: 7, 6 and 2 for kinds 1 to 3, 1 for 4 to 9",
            Refusal::UnknownKind => "an event or a record is of no known kind: kinds are 1 to 9",
            Refusal::BadRange => "the range code is out of range: it is 0 to 2",
            Refusal::BadFilter => "the filter code is out of range: it is 0 to 2",
            Refusal::BadKit => "the kit code is out of range: it is 0 to 2",
            Refusal::BadFirmware => "the firmware number is out of range: it is 0 to 4095",
            Refusal::NoPowerUp => "no power-up is accepted: the listing says why each was refused",
            Refusal::NoSizePlays => "values are lost to a full buffer at every size: order a deeper one, or load less before clocks take values away",
            Refusal::PlacePastEnd => "the place is past the output's end: name one inside the output",
            Refusal::NoRoom => "the session does not fit from the place on: lend a longer output",
            Refusal::BadGroups => "the recording is no whole groups: a group has 1 to 20 channels, each of them a number in every group",
            Refusal::BadChoice => "there is nothing to cut: choose channels that a group has, and groups from first to last of the recording",
            Refusal::FieldTooLarge => "a field is too large for its bytes, or not 0 where the kind has none: correct the first such event",
            Refusal::NotWholeEvents => "the rows are not whole events: hand in all six numbers of every event",
        })
    }
}

impl Error for Refusal {}
