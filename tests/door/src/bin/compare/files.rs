//! One transfer file: walked from its pieces' starts and from places in their midst.

use galebonnet::door;
use galebonnet_tests::generate::neon::NEON;
use galebonnet_tests::generate::Random;
use galebonnet_tests::independent::{self, Walked};

use super::held::{Guarded, Held};

/// "Over 16,777,216 bytes: refusal 31."
const LONGEST: usize = 16_777_216;

/// What stands around a lent file: the byte with which a label would start, were it read.
const BYTE: u8 = b'#';

/// Compares the walk from every piece's start and from some other places.
pub fn compared(held: &mut Held, random: &mut Random, file: &[u8]) {
    held.files += 1;
    let lent = Guarded::new(file, BYTE);
    let before = lent.all.clone();
    let mut places: Vec<usize> = (0..6).map(|_| random.below(file.len() + 3)).collect();
    let mut place = 0;
    while let (1 | 2, end) = door::walk(lent.part(), place) {
        places.push(place);
        place = end;
    }
    places.push(place);
    for place in places {
        held.same(&format!("walk from {place}"), file, door::walk(lent.part(), place), walked(file, place));
    }
    held.same_list("the file and around it", file, &lent.all, &before);
}

/// The longest file and one byte more, of one block and a stray run, from places within and beyond.
pub fn limits(held: &mut Held) {
    for length in [LONGEST, LONGEST + 1] {
        let mut file = NEON.as_bytes().to_vec();
        file.resize(length, b' ');
        for place in [0, 88, 1000, length - 1, length, length + 1, usize::MAX] {
            held.same(
                &format!("walk of {length} bytes from {place}"),
                b"",
                door::walk(&file, place),
                walked(&file, place),
            );
        }
        held.files += 1;
    }
}

/// The independent walk as the door answers.
fn walked(file: &[u8], place: usize) -> (u32, usize) {
    match independent::walk(file, place) {
        Walked::Block { end, .. } => (1, end),
        Walked::Stray { end, .. } => (2, end),
        Walked::Finished => (0, 0),
        Walked::Refused(number) => (number, 0),
    }
}
