//! The C door, as a Rust caller sees it: the functions of include/galebonnet.h over slices. A slice lies in the call as a pointer and a count of elements, and an
//! empty one has a pointer that is not null, so each wrapper is safe whatever it is given.

extern "C" {
    fn galebonnet_check(block: *const u8, length: usize) -> u64;
    fn galebonnet_read(
        block: *const u8,
        length: usize,
        table: *mut i32,
        numbers: usize,
        positions: *mut f64,
        floats: usize,
    ) -> u64;
    fn galebonnet_write(
        table: *const i32,
        numbers: usize,
        texts: *const u8,
        texts_length: usize,
        buffer: *mut u8,
        room: usize,
    ) -> u64;
    fn galebonnet_walk(file: *const u8, length: usize, place: usize) -> u64;
    fn galebonnet_name(block: *const u8, length: usize) -> u64;
}

/// Two numbers of 32 bits packed in one answer, the high one first.
fn apart(answer: u64) -> (u32, usize) {
    ((answer >> 32) as u32, (answer & 0xffff_ffff) as usize)
}

/// The refusal's number and its place.
pub fn check(block: &[u8]) -> (u32, usize) {
    // SAFETY: pointer and length are those of a slice, which the function only reads.
    apart(unsafe { galebonnet_check(block.as_ptr(), block.len()) })
}

/// The refusal's number and its place; the table and the positions are filled, zeroed or untouched.
pub fn read(block: &[u8], table: &mut [i32], positions: &mut [f64]) -> (u32, usize) {
    let (length, numbers, floats) = (block.len(), table.len(), positions.len());
    // SAFETY: the three pairs are those of slices that do not overlap.
    apart(unsafe {
        galebonnet_read(block.as_ptr(), length, table.as_mut_ptr(), numbers, positions.as_mut_ptr(), floats)
    })
}

/// The refusal's number and the count of bytes written; on a refusal the buffer is untouched.
pub fn write(table: &[i32], texts: &[u8], buffer: &mut [u8]) -> (u32, usize) {
    let (numbers, length, room) = (table.len(), texts.len(), buffer.len());
    // SAFETY: the three pairs are those of slices, and the one that is written to does not overlap the others.
    apart(unsafe {
        galebonnet_write(table.as_ptr(), numbers, texts.as_ptr(), length, buffer.as_mut_ptr(), room)
    })
}

/// The kind (0 finished, 1 block, 2 stray run, 31, 32) and the end.
pub fn walk(file: &[u8], place: usize) -> (u32, usize) {
    // SAFETY: pointer and length are those of a slice, which the function only reads.
    apart(unsafe { galebonnet_walk(file.as_ptr(), file.len(), place) })
}

/// The title's start and length; none where a stand-in is to be shown.
pub fn name(block: &[u8]) -> Option<(usize, usize)> {
    // SAFETY: pointer and length are those of a slice, which the function only reads.
    match unsafe { galebonnet_name(block.as_ptr(), block.len()) } {
        0 => None,
        part => Some(((part >> 32) as usize, (part & 0xffff_ffff) as usize)),
    }
}
