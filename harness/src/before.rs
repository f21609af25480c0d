//! The proved engine as it was before it started from guesses and skipped members: it hands out every
//! unit singly and visits every member in every round. It is linked if `harness/before` has built it.

#[cfg(before)]
unsafe extern "C" {
    fn before_engine_clear(
        input: *const u8,
        input_length: usize,
        buffer: *mut u8,
        buffer_length: usize,
    ) -> usize;
}

pub const LINKED: bool = cfg!(before);

/// Puts what clear prints for the input at the front of the buffer, if there is room, and answers
/// its length.
#[cfg(before)]
pub fn clear_into(input: &[u8], buffer: &mut [u8]) -> usize {
    // SAFETY: both slices are valid for their lengths, and the engine keeps neither.
    unsafe {
        before_engine_clear(
            input.as_ptr(),
            input.len(),
            buffer.as_mut_ptr(),
            buffer.len(),
        )
    }
}

#[cfg(not(before))]
pub fn clear_into(_input: &[u8], _buffer: &mut [u8]) -> usize {
    unreachable!("the engine as it was before is not linked")
}
