//! The generator: blocks, tables and transfer files from a seed.

pub mod blocks;
pub mod cases;
pub mod coordinates;
pub mod crowded;
pub mod damage;
mod damage_coordinates;
mod damage_helical;
mod damage_records;
mod damage_rows;
pub mod extremes;
pub mod files;
mod formulas;
pub mod fragments;
pub mod helical;
pub mod limits;
pub mod limits_coordinates;
pub mod limits_fragments;
pub mod limits_helical;
pub mod molecules;
pub mod neighbours;
pub mod neon;
pub mod random;
pub mod spelling;
pub mod structures;
pub mod tables;
pub mod typical;

pub use blocks::sound_block;
pub use coordinates::coordinate_block;
pub use damage::damaged;
pub use extremes::extreme_case;
pub use files::{file, fragment_file, helical_file};
pub use fragments::{fragment_block, fragment_table_case};
pub use helical::{helical_block, helical_table_case};
pub use limits::limit_blocks;
pub use limits_fragments::fragment_limits;
pub use random::Random;
pub use tables::{table_case, TableCase};

/// A block of any kind, sound or damaged, mostly small; every refusal from 3 to 17, 41 and 42 come
/// often. About a quarter has coordinates, about a fifth STEREOMOLECULE, and about two thirds of those
/// that are accepted have several groups.
pub fn block(random: &mut Random) -> Vec<u8> {
    match random.below(100) {
        0..=15 => return coordinate_block(random),
        16..=22 => return helical_block(random),
        23..=26 => return fragment_block(random),
        _ => {}
    }
    match random.below(100) {
        0..=29 => sound_block(random),
        30..=35 => {
            let neon = neon::NEON.as_bytes();
            damaged(random, neon)
        }
        36..=38 => crowded::crowded_block(random),
        39..=89 => {
            let block = sound_block(random);
            damaged(random, &block)
        }
        _ => {
            let block = sound_block(random);
            let once = damaged(random, &block);
            damaged(random, &once)
        }
    }
}
