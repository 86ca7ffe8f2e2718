//! Damage to a record that is found by its label in any spelling: what the damages of coordinates and of
//! STEREOMOLECULE share.

use super::damage::lines;
use super::random::Random;
use crate::independent::lines::{label, value, Label};

/// The lines of a record: its label line's place and the place behind its last line.
pub fn record(lines: &[Vec<u8>], of: Label) -> Option<(usize, usize)> {
    let start = lines.iter().position(|line| label(line) == Some(of))?;
    let below = lines[start + 1..].iter().position(|line| line.starts_with(b"##"));
    Some((start, below.map_or(lines.len(), |below| start + 1 + below)))
}

/// The block with the value on a record's label line replaced.
pub fn with_value(block: &[u8], of: Label, new: &str) -> Vec<u8> {
    let mut lines = lines(block);
    if let Some((start, _)) = record(&lines, of) {
        let line = &mut lines[start];
        line.truncate(line.len() - value(line).len());
        line.extend(format!(" {new}\n").bytes());
    }
    lines.concat()
}

/// The block without a record.
pub fn without(block: &[u8], of: Label) -> Vec<u8> {
    let mut lines = lines(block);
    if let Some((start, end)) = record(&lines, of) {
        lines.drain(start..end);
    }
    lines.concat()
}

/// The block with further lines before its END line.
pub fn before_end(block: &[u8], further: &str) -> Vec<u8> {
    let mut lines = lines(block);
    if let Some((start, _)) = record(&lines, Label::End) {
        lines.insert(start, further.as_bytes().to_vec());
    }
    lines.concat()
}

/// A record again, or moved, to a place before some label line but the first.
pub fn moved_record(random: &mut Random, block: &[u8], of: Label) -> Vec<u8> {
    let mut lines = lines(block);
    let Some((start, end)) = record(&lines, of) else { return block.to_vec() };
    let moved: Vec<Vec<u8>> =
        if random.chance(50) { lines[start..end].to_vec() } else { lines.drain(start..end).collect() };
    let starts: Vec<usize> = (1..lines.len()).filter(|&index| lines[index].starts_with(b"##")).collect();
    let place = if starts.is_empty() { lines.len() } else { starts[random.below(starts.len())] };
    lines.splice(place..place, moved);
    lines.concat()
}

/// The block with an atom too many in its formula.
pub fn with_other_formula(block: &[u8]) -> Vec<u8> {
    let mut lines = lines(block);
    if let Some((start, _)) = record(&lines, Label::Molform) {
        let equals = lines[start].iter().position(|&byte| byte == b'=').map_or(0, |equals| equals + 1);
        lines[start].splice(equals..equals, b" He ".iter().copied());
    }
    lines.concat()
}
