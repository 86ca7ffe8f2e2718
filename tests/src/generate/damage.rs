//! Damaged blocks: one fault, aimed at one of the refusals or at nothing in particular. What a
//! damaged block is answered is the reader's business; some are still sound.

use super::damage_rows::*;
use super::random::Random;

/// Kinds of damage with their shares.
pub(super) type Shares<const KINDS: usize> = [(usize, fn(&mut Random, &[u8]) -> Vec<u8>); KINDS];

const DAMAGES: Shares<22> = [
    (5, flipped_byte),
    (5, inserted_byte),
    (5, deleted_byte),
    (6, foreign_byte),
    (4, swapped_lines),
    (5, doubled_line),
    (5, dropped_line),
    (5, spoilt_first_line),
    (6, label_without_equals),
    (4, misspelt_label),
    (7, moved_record),
    (6, other_version),
    (5, dropped_record),
    (9, disturbed_number),
    (5, number_out_of_range),
    (5, unlisted_atom),
    (7, other_symbol),
    (8, clashing_row),
    (7, disturbed_formula),
    (4, truncated),
    (5, end_moved),
    (7, line_after_end),
];

/// The block with one kind of damage.
pub fn damaged(random: &mut Random, block: &[u8]) -> Vec<u8> {
    chosen(random, &DAMAGES, block)
}

/// The block with one of some kinds of damage.
pub(super) fn chosen<const KINDS: usize>(
    random: &mut Random,
    kinds: &Shares<KINDS>,
    block: &[u8],
) -> Vec<u8> {
    let all: usize = kinds.iter().map(|(share, _)| share).sum();
    let mut chosen = random.below(all);
    for &(share, damage) in kinds {
        if chosen < share {
            return damage(random, block);
        }
        chosen -= share;
    }
    block.to_vec()
}

/// The lines with their line feeds.
pub(super) fn lines(block: &[u8]) -> Vec<Vec<u8>> {
    block.split_inclusive(|&byte| byte == b'\n').map(|line| line.to_vec()).collect()
}

/// A byte that means something somewhere.
fn telling_byte(random: &mut Random) -> u8 {
    random.byte(b"##==$$  \t\r\n\n*^/+-_0123456789SDTQAPMHCNOabez.~")
}

fn flipped_byte(random: &mut Random, block: &[u8]) -> Vec<u8> {
    let mut bytes = block.to_vec();
    if !bytes.is_empty() {
        let place = random.below(bytes.len());
        bytes[place] =
            if random.chance(20) { bytes[place] ^ (1 << random.below(8)) } else { telling_byte(random) };
    }
    bytes
}

pub(super) fn inserted_byte(random: &mut Random, block: &[u8]) -> Vec<u8> {
    let mut bytes = block.to_vec();
    let place = random.below(bytes.len() + 1);
    bytes.insert(place, telling_byte(random));
    bytes
}

fn deleted_byte(random: &mut Random, block: &[u8]) -> Vec<u8> {
    let mut bytes = block.to_vec();
    if !bytes.is_empty() {
        bytes.remove(random.below(bytes.len()));
    }
    bytes
}

/// A byte not allowed, anywhere.
fn foreign_byte(random: &mut Random, block: &[u8]) -> Vec<u8> {
    let mut bytes = block.to_vec();
    let place = random.below(bytes.len() + 1);
    bytes.insert(place, random.byte(&[0, 8, 11, 12, 14, 31, 127, 128, 160, 233, 255]));
    bytes
}

fn swapped_lines(random: &mut Random, block: &[u8]) -> Vec<u8> {
    let mut lines = lines(block);
    if !lines.is_empty() {
        let one = random.below(lines.len());
        let near = (one + 1).min(lines.len() - 1);
        let other = if random.chance(50) { near } else { random.below(lines.len()) };
        lines.swap(one, other);
    }
    lines.concat()
}

fn doubled_line(random: &mut Random, block: &[u8]) -> Vec<u8> {
    let mut lines = lines(block);
    if !lines.is_empty() {
        let line = lines[random.below(lines.len())].clone();
        lines.insert(random.below(lines.len() + 1), line);
    }
    lines.concat()
}

fn dropped_line(random: &mut Random, block: &[u8]) -> Vec<u8> {
    let mut lines = lines(block);
    if !lines.is_empty() {
        lines.remove(random.below(lines.len()));
    }
    lines.concat()
}

/// Something before the TITLE line, or the TITLE line broken.
fn spoilt_first_line(random: &mut Random, block: &[u8]) -> Vec<u8> {
    let before = random.pick(&["\n", " ", "\r\n", "$$ x\n", "#", "##DATE= x\n", "\t", "x"]);
    let after = if random.chance(20) { block.get(1..).unwrap_or(&[]) } else { block };
    [before.as_bytes(), after].concat()
}

/// The places of the lines that start with `##`.
pub(super) fn label_lines(lines: &[Vec<u8>]) -> Vec<usize> {
    (0..lines.len()).filter(|&index| lines[index].starts_with(b"##")).collect()
}

fn label_without_equals(random: &mut Random, block: &[u8]) -> Vec<u8> {
    let mut lines = lines(block);
    let places = label_lines(&lines);
    if places.is_empty() || random.chance(40) {
        let line = random.pick(&["## remark\n", "##\n", "##END\n", "##TITLE\n", "##END $$ done\n"]);
        lines.insert(random.below(lines.len() + 1), line.as_bytes().to_vec());
    } else {
        lines[places[random.below(places.len())]].retain(|&byte| byte != b'=');
    }
    lines.concat()
}

/// One byte of a label changed, doubled, or a tab put into it.
fn misspelt_label(random: &mut Random, block: &[u8]) -> Vec<u8> {
    let mut lines = lines(block);
    let places = label_lines(&lines);
    if !places.is_empty() {
        let line = &mut lines[places[random.below(places.len())]];
        let length = line.iter().position(|&byte| byte == b'=').unwrap_or(line.len());
        let place = random.below(length);
        match random.below(4) {
            0 => line[place] = random.byte(b"AEXz"),
            1 => line.insert(place, random.byte(b"A-_/ ")),
            2 => line.insert(place, random.byte(b"\t\r$^")),
            _ => drop(line.remove(place)),
        }
    }
    lines.concat()
}

/// The lines from one label line to the next.
fn records(block: &[u8]) -> Vec<Vec<u8>> {
    let mut records: Vec<Vec<u8>> = Vec::new();
    for line in lines(block) {
        match records.last_mut() {
            Some(last) if !line.starts_with(b"##") => last.extend(line),
            _ => records.push(line),
        }
    }
    records
}

/// A record moved or repeated elsewhere.
fn moved_record(random: &mut Random, block: &[u8]) -> Vec<u8> {
    let mut records = records(block);
    if !records.is_empty() {
        let place = random.below(records.len());
        let record = if random.chance(50) { records.remove(place) } else { records[place].clone() };
        records.insert(random.below(records.len() + 1), record);
    }
    records.concat()
}

fn dropped_record(random: &mut Random, block: &[u8]) -> Vec<u8> {
    let mut records = records(block);
    if records.len() > 1 {
        records.remove(1 + random.below(records.len() - 1));
    }
    records.concat()
}

/// The block with the first line of which a test holds replaced.
fn with_line(block: &[u8], test: impl Fn(&[u8]) -> bool, line: &str) -> Vec<u8> {
    let mut lines = lines(block);
    if let Some(place) = lines.iter().position(|line| test(line)) {
        lines[place] = line.as_bytes().to_vec();
    }
    lines.concat()
}

fn other_version(random: &mut Random, block: &[u8]) -> Vec<u8> {
    let versions =
        ["3.70", "", "3.7 x", "03.7", "4.24", "3,7", "3.7 3.7", "$$ 3.7", "3 .7", "+3.7", "3.7 $ x"];
    let line = format!("##JCAMP-CS= {}\n", random.pick(&versions));
    with_line(block, |line| line.starts_with(b"##JCAMP") || line.starts_with(b"##jcamp"), &line)
}

fn truncated(random: &mut Random, block: &[u8]) -> Vec<u8> {
    block[..random.below(block.len() + 1)].to_vec()
}

/// The END line removed, moved up, or given a value.
fn end_moved(random: &mut Random, block: &[u8]) -> Vec<u8> {
    let mut lines = lines(block);
    let Some(place) = lines.iter().rposition(|line| line.starts_with(b"##END")) else {
        return block.to_vec();
    };
    let end = lines.remove(place);
    match random.below(3) {
        0 => {}
        1 => lines.insert(random.below(lines.len() + 1), end),
        _ => lines.push(b"##END= x\n".to_vec()),
    }
    lines.concat()
}

fn line_after_end(random: &mut Random, block: &[u8]) -> Vec<u8> {
    let after = [
        "x\n",
        "\n",
        " \t\r\n",
        "$$ x\n",
        "##DATE= x\n",
        "##X\n",
        "##title= x\n",
        "##END=\n",
        "1 Ne",
        "\n\n.\n",
        "##END= x\n",
        "##\n",
        " ",
        "\n##CHARGE=\n",
    ];
    [block, random.pick(&after).as_bytes()].concat()
}
