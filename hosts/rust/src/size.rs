//! The smallest size that plays a session file.

use crate::raw::smallest_size_call;
use crate::Refusal;

/// The lowest size code, 0 to 15, at which a session file loses nothing to a full buffer, on a board with this sample
/// memory. The session is replayed with the code in D3..0 of every write to 0Ch, and all else kept: the active buffer
/// holds 8·2^c values, for the lesser c of this code and the fitted one. The code 15 that power-up and initialise set is
/// no write: it stays until the next accepted write to 0Ch. What is lost to a closed buffer does not count, nor does a
/// refused power-up; where none is accepted the code is 0.
///
/// Every lower code loses a value, and every higher one plays too, with the same levels, stored values, burst and
/// loading states after each event. The memory is as the replays left it: those with code 0, 1 and so on up to the one
/// named, up to 15 where none plays, each over what the one before left; of a bad file it is as it was. So up to sixteen
/// replays are run. A file may have any length. What is wrong with the file is told before that no size plays it.
pub fn smallest_size(file: &[u8], memory: &mut [u32]) -> Result<u32, Refusal> {
    let mut code = 0;
    Refusal::told(smallest_size_call(file, memory, &mut code))?;
    Ok(code)
}
