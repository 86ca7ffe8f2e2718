//! The files that are measured, about 1 MB each, with the places of their blocks.

use std::ops::Range;

use galebonnet_tests::generate::coordinates::has_coordinates;
use galebonnet_tests::generate::helical::has_helical;
use galebonnet_tests::generate::typical::{
    full_block, largest_block, typical_block, typical_coordinate_block, typical_fragment_block,
    typical_helical_block, worst_blocks,
};
use galebonnet_tests::generate::{sound_block, Random};

/// A transfer file of blocks and nothing else.
pub struct File {
    pub name: &'static str,
    pub bytes: Vec<u8>,
    pub blocks: Vec<Range<usize>>,
    /// Whether its blocks have records that older libraries skip.
    pub newer: bool,
}

const SIZE: usize = 1 << 20;

/// Blocks one after the other, as many as the size holds and at least one.
fn filled(name: &'static str, size: usize, mut block: impl FnMut() -> Vec<u8>) -> File {
    let mut file = File { name, bytes: Vec::new(), blocks: Vec::new(), newer: false };
    loop {
        let block = block();
        let end = file.bytes.len() + block.len();
        if end > size && !file.blocks.is_empty() {
            return file;
        }
        file.blocks.push(file.bytes.len()..end);
        file.bytes.extend(block);
    }
}

/// Typical blocks of 6 to 24 atoms, as programs write them.
pub fn typical(size: usize) -> File {
    let mut random = Random::new(5);
    filled("typical blocks", size, || typical_block(&mut random))
}

/// Typical blocks with bonds that do not join, so that most have several groups.
fn of_several_groups() -> File {
    let mut random = Random::new(9);
    filled("blocks of several groups", SIZE, || typical_fragment_block(&mut random))
}

/// Blocks of 20 to 30 atoms with the coordinates of each, as programs write them.
fn with_coordinates() -> File {
    let mut random = Random::new(7);
    let file = filled("blocks with coordinates", SIZE, || typical_coordinate_block(&mut random));
    File { newer: true, ..file }
}

/// Typical blocks that are handed as a whole.
fn helical() -> File {
    let mut random = Random::new(8);
    let file = filled("handed blocks", SIZE, || typical_helical_block(&mut random));
    File { newer: true, ..file }
}

/// Blocks as odd as the rules allow: labels, blanks, comments, orders at random; without coordinates and
/// STEREOMOLECULE, so that an older library does the same work.
fn odd() -> File {
    let mut random = Random::new(6);
    filled("oddly spelt blocks", SIZE, || loop {
        let block = sound_block(&mut random);
        let is_plain = block.ends_with(b"##END=\n") && !has_coordinates(&block) && !has_helical(&block);
        if (150..600).contains(&block.len()) && is_plain {
            return block;
        }
    })
}

pub fn files() -> Vec<File> {
    let mut blocks = vec![("largest blocks", largest_block()), ("every list full", full_block())];
    blocks.extend(worst_blocks());
    let one_block = |(name, block): (&'static str, Vec<u8>)| filled(name, SIZE, || block.clone());
    let several = [typical(SIZE), of_several_groups(), helical(), with_coordinates(), odd()];
    several.into_iter().chain(blocks.into_iter().map(one_block)).collect()
}
