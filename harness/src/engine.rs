//! The proved engine, linked as a static library.

unsafe extern "C" {
    fn engine_clear(
        input: *const u8,
        input_length: usize,
        buffer: *mut u8,
        buffer_length: usize,
    ) -> usize;

    fn engine_awards(
        network: *const u8,
        network_length: usize,
        house: u8,
        estate: u32,
        claims: *const u32,
        claims_length: usize,
        awards: *mut u32,
        awards_length: usize,
    ) -> u8;
}

/// Stands for the length of a text that there was no memory to make.
const NO_MEMORY: usize = usize::MAX;

/// Puts what clear prints for the input at the front of the buffer, if there is room, and answers
/// its length.
pub fn clear_into(input: &[u8], buffer: &mut [u8]) -> usize {
    // SAFETY: both slices are valid for their lengths, and the engine keeps neither.
    let length = unsafe {
        engine_clear(
            input.as_ptr(),
            input.len(),
            buffer.as_mut_ptr(),
            buffer.len(),
        )
    };
    assert_ne!(length, NO_MEMORY, "the engine has memory");
    length
}

/// A buffer with room for the text of any network.
pub fn text_buffer() -> Vec<u8> {
    vec![0; 1 << 16]
}

/// What clear prints for the input. The buffer grows as the text needs it.
pub fn clear<'a>(input: &[u8], buffer: &'a mut Vec<u8>) -> &'a [u8] {
    let mut length = clear_into(input, buffer);
    if length > buffer.len() {
        buffer.resize(length, 0);
        length = clear_into(input, buffer);
    }
    &buffer[..length]
}

/// Divides an estate under the ring's rulebook of the network whose file is given. Answers 0 or
/// the number of a fault.
pub fn awards(network: &[u8], house: u8, estate: u32, claims: &[u32], awards: &mut [u32]) -> u8 {
    // SAFETY: all slices are valid for their lengths, and the engine keeps none.
    unsafe {
        engine_awards(
            network.as_ptr(),
            network.len(),
            house,
            estate,
            claims.as_ptr(),
            claims.len(),
            awards.as_mut_ptr(),
            awards.len(),
        )
    }
}
