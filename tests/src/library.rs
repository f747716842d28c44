//! Safe wrappers over the symbols that the static library exports and `host/rippleshrug.h` declares.

/// What a call of the reader answers.
#[repr(C)]
#[derive(Clone, Copy, PartialEq, Eq, Debug)]
pub struct Answer {
    pub refusal: u32,
    pub node: u32,
    pub count: u32,
    pub end: u32,
}

/// What a call of the writer answers.
#[repr(C)]
#[derive(Clone, Copy, PartialEq, Eq, Debug)]
pub struct Written {
    pub refusal: u32,
    pub node: u32,
    pub bits: u32,
}

#[link(name = "host", kind = "static")]
extern "C" {
    fn rippleshrug_check_slice(desc: *const u8, desc_length: usize) -> u32;
    fn rippleshrug_read_slices(
        desc: *const u8,
        desc_length: usize,
        input: *const u8,
        input_length: usize,
        values: *mut u32,
        values_length: usize,
        descriptors: *mut u32,
        descriptors_length: usize,
    ) -> Answer;
    fn rippleshrug_write_slices(
        desc: *const u8,
        desc_length: usize,
        values: *const u32,
        values_length: usize,
        count: usize,
        buffer: *mut u8,
        buffer_length: usize,
    ) -> Written;
}

/// The refusal plus 256 times the node, 0 where the description is accepted.
pub fn check(desc: &[u8]) -> u32 {
    // SAFETY: the pointer and the length are those of one slice, which is not kept.
    unsafe { rippleshrug_check_slice(desc.as_ptr(), desc.len()) }
}

/// A call over tables that a caller holds, whatever stands in them.
pub fn read(desc: &[u8], input: &[u8], values: &mut [u32], descriptors: &mut [u32]) -> Answer {
    // SAFETY: each pointer and the length after it are those of one slice, the two that are written are lent to nobody else, and none is kept.
    unsafe {
        rippleshrug_read_slices(
            desc.as_ptr(),
            desc.len(),
            input.as_ptr(),
            input.len(),
            values.as_mut_ptr(),
            values.len(),
            descriptors.as_mut_ptr(),
            descriptors.len(),
        )
    }
}

/// A call with so many entries of a table, over a buffer that a caller holds, whatever stands in it.
pub fn write(desc: &[u8], values: &[u32], count: usize, buffer: &mut [u8]) -> Written {
    // SAFETY: each pointer and the length after it are those of one slice, the one that is written is lent to nobody else, and none is kept. The count
    // is a number of its own, of which nothing is asked.
    unsafe { rippleshrug_write_slices(desc.as_ptr(), desc.len(), values.as_ptr(), values.len(), count, buffer.as_mut_ptr(), buffer.len()) }
}
