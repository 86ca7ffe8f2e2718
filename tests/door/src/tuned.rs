//! The tuned reader behind a door like the proved one's: the benchmark links both in the same way.

use galebonnet_tests::tuned;

/// The refusal's number and its place, packed as `galebonnet_read` packs them.
///
/// # Safety
///
/// The block has so many bytes, the table so many numbers and the positions so many floats, and they do
/// not overlap.
#[no_mangle]
pub unsafe extern "C" fn tuned_read(
    block: *const u8,
    length: usize,
    table: *mut i32,
    numbers: usize,
    positions: *mut f64,
    floats: usize,
) -> u64 {
    // SAFETY: the caller's word.
    let (block, table, positions) = unsafe {
        (
            std::slice::from_raw_parts(block, length),
            std::slice::from_raw_parts_mut(table, numbers),
            std::slice::from_raw_parts_mut(positions, floats),
        )
    };
    let (number, place) = tuned::read(block, table, positions);
    u64::from(number) << 32 | place as u64
}
