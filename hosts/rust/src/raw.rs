//! The functions of libnergutsai.a themselves, on bare numbers (hosts/c/nergutsai.h). The declarations here, and that the
//! functions are what their promises say, are believed; all else of this crate is safe Rust.

use crate::Order;

extern "C" {
    fn nergutsai_event(
        record: *mut u32,
        record_length: usize,
        memory: *mut u32,
        memory_length: usize,
        event: *const u32,
        event_length: usize,
        answer: *mut u32,
        answer_length: usize,
    ) -> u32;

    fn nergutsai_rate(
        record: *const u32,
        record_length: usize,
        figures: *mut u32,
        figures_length: usize,
    ) -> u32;

    fn nergutsai_list(
        file: *const u8,
        file_length: usize,
        memory: *mut u32,
        memory_length: usize,
        output: *mut u8,
        output_length: usize,
    ) -> usize;

    fn nergutsai_write(
        rows: *const u32,
        rows_length: usize,
        output: *mut u8,
        output_length: usize,
        place: usize,
        end: *mut usize,
    ) -> u32;

    fn nergutsai_cut(
        recording: *const u16,
        recording_length: usize,
        channels: u32,
        first: usize,
        last: usize,
        mask: u32,
        output: *mut u8,
        output_length: usize,
        place: usize,
        end: *mut usize,
    ) -> u32;

    fn nergutsai_volts(
        file: *const u8,
        file_length: usize,
        memory: *mut u32,
        memory_length: usize,
        volts: *mut f32,
    ) -> u32;

    fn nergutsai_smallest_size(
        file: *const u8,
        file_length: usize,
        memory: *mut u32,
        memory_length: usize,
        code: *mut u32,
    ) -> u32;
}

// In each of these the borrows make what is lent valid and apart from each other, which is all that the function asks. The
// pointer of an empty slice is not null, but may be any other: nothing is read or written there.

/// `event` itself: answers 0, or why the call is not understood. Slices of any length may be handed in.
#[must_use]
pub fn call(record: &mut [u32], memory: &mut [u32], event: &[u32], answer: &mut [u32]) -> u32 {
    unsafe {
        nergutsai_event(
            record.as_mut_ptr(),
            record.len(),
            memory.as_mut_ptr(),
            memory.len(),
            event.as_ptr(),
            event.len(),
            answer.as_mut_ptr(),
            answer.len(),
        )
    }
}

/// `rate` itself: answers 0, or why the call is not understood. Slices of any length may be handed in.
#[must_use]
pub fn rate_call(record: &[u32], figures: &mut [u32]) -> u32 {
    unsafe {
        nergutsai_rate(
            record.as_ptr(),
            record.len(),
            figures.as_mut_ptr(),
            figures.len(),
        )
    }
}

/// `list` itself: how many bytes of text now stand at the start of the output; 0 if it is shorter than `room` says, and then
/// nothing was run and nothing written. Slices of any length may be handed in.
#[must_use]
pub fn list_call(file: &[u8], memory: &mut [u32], output: &mut [u8]) -> usize {
    unsafe {
        nergutsai_list(
            file.as_ptr(),
            file.len(),
            memory.as_mut_ptr(),
            memory.len(),
            output.as_mut_ptr(),
            output.len(),
        )
    }
}

/// `write` itself: answers 0, or the number of the refusal, and sets `end`. Slices of any length and any place may be handed
/// in.
#[must_use]
pub fn write_call(rows: &[u32], output: &mut [u8], place: usize, end: &mut usize) -> u32 {
    unsafe {
        nergutsai_write(
            rows.as_ptr(),
            rows.len(),
            output.as_mut_ptr(),
            output.len(),
            place,
            end,
        )
    }
}

/// `cut` itself: answers 0, or the number of the refusal, and sets `end`.
#[must_use]
pub fn cut_call(order: &Order, output: &mut [u8], place: usize, end: &mut usize) -> u32 {
    unsafe {
        nergutsai_cut(
            order.recording.as_ptr(),
            order.recording.len(),
            order.channels,
            order.first,
            order.last,
            order.mask,
            output.as_mut_ptr(),
            output.len(),
            place,
            end,
        )
    }
}

/// `volts` itself: answers 0, or the number of the refusal, and writes lowest, highest and last volts of channel 0, then of
/// channel 1, and so on; zeros where it is refused. Slices of any length may be handed in.
#[must_use]
pub fn volts_call(file: &[u8], memory: &mut [u32], volts: &mut [f32; 60]) -> u32 {
    unsafe {
        nergutsai_volts(
            file.as_ptr(),
            file.len(),
            memory.as_mut_ptr(),
            memory.len(),
            volts.as_mut_ptr(),
        )
    }
}

/// `smallest_size` itself: answers 0, or the number of the refusal, and sets `code`; to 0 where it is refused. Slices of any
/// length may be handed in.
#[must_use]
pub fn smallest_size_call(file: &[u8], memory: &mut [u32], code: &mut u32) -> u32 {
    unsafe {
        nergutsai_smallest_size(
            file.as_ptr(),
            file.len(),
            memory.as_mut_ptr(),
            memory.len(),
            code,
        )
    }
}
