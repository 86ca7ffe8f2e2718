//! Transfer files of no to eight blocks, whole, damaged, open or nested, with stray runs between; and
//! files of helical blocks or of blocks with several groups alone.

use super::blocks::sound_block;
use super::damage::damaged;
use super::fragments::fragment_block;
use super::helical::helical_block;
use super::neon::NEON;
use super::random::Random;

const STRAY: [&str; 12] = [
    "\n",
    "junk\n",
    "##END=\n",
    "$$ note\n",
    " ##TITLE= a\n",
    "##TITLE\n",
    "##DATE= x\n##END=\n",
    "\r\n\r\n",
    "##TITLE\t= a\n",
    "x\n##END= x\ny\n",
    " \t\n",
    "##END\n",
];
const OPEN: [&str; 6] = [
    "##TITLE= a\n",
    "##title=\n",
    "## T-i/t_LE = open\n##JCAMP-CS= 3.7\n",
    "##TITLE= a\n##END\n",
    "##TITLE= \u{e9}\n##END=\n",
    "##TITLE=",
];

/// A transfer file.
pub fn file(random: &mut Random) -> Vec<u8> {
    let mut file = Vec::new();
    for _ in 0..random.below(9) {
        if random.chance(30) {
            file.extend(stray(random));
        }
        file.extend(file_block(random));
    }
    if random.chance(30) {
        file.extend(stray(random));
    }
    if random.chance(20) && file.last() == Some(&b'\n') {
        file.pop();
    }
    if random.chance(10) {
        file = damaged(random, &file);
    }
    file
}

/// A transfer file of blocks with STEREOMOLECULE.
pub fn helical_file(random: &mut Random) -> Vec<u8> {
    file_of(random, helical_block)
}

/// A transfer file of blocks with several groups.
pub fn fragment_file(random: &mut Random) -> Vec<u8> {
    file_of(random, fragment_block)
}

/// A transfer file of two to six blocks of a kind, with stray runs between.
fn file_of(random: &mut Random, block: fn(&mut Random) -> Vec<u8>) -> Vec<u8> {
    let mut file = Vec::new();
    for _ in 0..2 + random.below(5) {
        file.extend(block(random));
        if random.chance(30) {
            file.extend(stray(random));
        }
    }
    file
}

/// Lines that start no block.
fn stray(random: &mut Random) -> Vec<u8> {
    let mut run = Vec::new();
    for _ in 0..1 + random.below(3) {
        run.extend(random.pick(&STRAY).bytes());
    }
    run
}

fn file_block(random: &mut Random) -> Vec<u8> {
    match random.below(10) {
        0..=2 => NEON.as_bytes().to_vec(),
        3..=5 => sound_block(random),
        6 | 7 => {
            let block = sound_block(random);
            damaged(random, &block)
        }
        8 => random.pick(&OPEN).as_bytes().to_vec(),
        _ => nested(random),
    }
}

/// A block inside another one, which it cuts.
fn nested(random: &mut Random) -> Vec<u8> {
    let outer = sound_block(random);
    let feeds: Vec<usize> = (0..outer.len()).filter(|&place| outer[place] == b'\n').collect();
    let place = match feeds.len() {
        0 => 0,
        count => feeds[random.below(count)] + 1,
    };
    [&outer[..place], NEON.as_bytes(), &outer[place..]].concat()
}
