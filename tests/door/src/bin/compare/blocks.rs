//! One block: read into a structure table and a position table, checked, named.

use galebonnet::door;
use galebonnet_tests::generate::coordinates::refused_by_coordinates;
use galebonnet_tests::generate::helical::refused_by_helical;
use galebonnet_tests::independent;

use super::held::{Guarded, Held};

/// What stands around a lent table, and in it before.
const NUMBER: i32 = -77;

/// The same of lent positions: no number, with bits of its own.
const FLOAT: u64 = 0x7ff8_0bad_0000_0077;

/// What stands around a lent block: a byte that would be refused, were it read.
const BYTE: u8 = 0xfe;

/// Numbers and floats of long enough tables.
pub const LONG: (usize, usize) = (3856, 1024);

/// Compares everything that is said of a block with tables of so many numbers and floats.
pub fn compared(held: &mut Held, name: &str, block: &[u8], (numbers, floats): (usize, usize)) {
    held.blocks += 1;
    let lent = Guarded::new(block, BYTE);
    let before = lent.all.clone();
    let mut table = Guarded::new(&vec![NUMBER; numbers], NUMBER);
    let mut wanted = Guarded::new(&vec![NUMBER; numbers], NUMBER);
    let float = f64::from_bits(FLOAT);
    let mut positions = Guarded::new(&vec![float; floats], float);
    let mut wanted_positions = Guarded::new(&vec![float; floats], float);
    let read = door::read(lent.part(), table.part_mut(), positions.part_mut());
    let answer = independent::read(block, wanted.part_mut(), wanted_positions.part_mut());
    held.read(answer.number, refused_by_coordinates(block, answer));
    held.helical(refused_by_helical(block, answer));
    held.same(&format!("{name}, read"), block, read, (answer.number, answer.place));
    held.same_list(&format!("{name}, table"), block, &table.all, &wanted.all);
    held.same_list(&format!("{name}, positions"), block, &positions.bits(), &wanted_positions.bits());
    let check = independent::check(block);
    let wanted = ((check >> 32) as u32, (check & 0xffff_ffff) as usize);
    held.same(&format!("{name}, check"), block, door::check(lent.part()), wanted);
    let shown = match door::name(lent.part()) {
        Some((start, length)) => &lent.part()[start..start + length],
        None => b"stand-in",
    };
    held.same(&format!("{name}, name"), block, shown, independent::name(block, b"stand-in"));
    held.same_list(&format!("{name}, the block and around it"), block, &lent.all, &before);
}
