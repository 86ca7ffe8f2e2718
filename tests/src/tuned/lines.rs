//! Lines, labels and comments.

/// A line's end, where the next one starts, and whether all its bytes are allowed.
pub struct Line {
    pub end: usize,
    pub next: usize,
    pub allowed: bool,
}

const FEED: u8 = 1;
const FOREIGN: u8 = 2;

/// What each byte is to a line: nothing, its line feed, or not allowed.
const CLASS: [u8; 256] = {
    let mut class = [FOREIGN; 256];
    let mut byte = 32;
    while byte < 127 {
        class[byte] = 0;
        byte += 1;
    }
    class[9] = 0;
    class[13] = 0;
    class[10] = FEED;
    class
};

/// The line that starts at a place, in one pass.
#[inline]
pub fn line(block: &[u8], at: usize) -> Line {
    let mut seen = 0;
    for (index, byte) in block[at..].iter().enumerate() {
        let class = CLASS[usize::from(*byte)];
        if class == FEED {
            return Line { end: at + index, next: at + index + 1, allowed: seen == 0 };
        }
        seen |= class;
    }
    Line { end: block.len(), next: block.len(), allowed: seen == 0 }
}

#[inline]
pub fn is_blank(byte: u8) -> bool {
    matches!(byte, b' ' | b'\t' | b'\r')
}

pub fn is_gap(byte: u8) -> bool {
    is_blank(byte) || byte == b'\n'
}

/// A row without `$$` and what follows it.
#[inline]
pub fn without_comment(row: &[u8]) -> &[u8] {
    let mut from = 0;
    while let Some(found) = row[from..].iter().position(|byte| *byte == b'$') {
        let at = from + found;
        if row.get(at + 1) == Some(&b'$') {
            return &row[..at];
        }
        from = at + 1;
    }
    row
}

/// The known labels by their bit among those seen; every other label is unknown.
#[derive(Clone, Copy, PartialEq, Eq)]
pub enum Label {
    Title,
    JcampCs,
    Origin,
    Owner,
    Molform,
    Atomlist,
    Bondlist,
    Charge,
    Radical,
    Stereocenter,
    Stereopair,
    Stereomolecule,
    MaxXyz,
    XyzFactor,
    Xyz,
    BlockId,
    End,
    Unknown,
}

impl Label {
    pub fn bit(self) -> u32 {
        1 << self as u32
    }

    /// The labels after which this one is repeated or out of order.
    pub fn barred_by(self) -> u32 {
        let lists_and_later = (1 << Label::BlockId as u32) - 1;
        let core = lists_and_later & !(self.bit() - 1) | Label::End.bit();
        match self {
            Label::Title | Label::JcampCs => core | Label::BlockId.bit(),
            Label::Unknown => 0,
            _ if self as u32 <= Label::Charge as u32 => core,
            _ => self.bit() | Label::End.bit(),
        }
    }
}

/// Five bits a letter, the first one highest.
const fn code(letters: &[u8]) -> u64 {
    let (mut code, mut at) = (0, 0);
    while at < letters.len() {
        code = code << 5 | (letters[at] & 31) as u64;
        at += 1;
    }
    code
}

const TITLE: u64 = code(b"TITLE");
const JCAMP_CS: u64 = code(b"JCAMPCS");
const ORIGIN: u64 = code(b"ORIGIN");
const OWNER: u64 = code(b"OWNER");
const MOLFORM: u64 = code(b"MOLFORM");
const ATOMLIST: u64 = code(b"ATOMLIST");
const BONDLIST: u64 = code(b"BONDLIST");
const CHARGE: u64 = code(b"CHARGE");
const RADICAL: u64 = code(b"RADICAL");
const STEREOCENTER: u64 = code(b"STEREOCENTER");
const STEREOPAIR: u64 = code(b"STEREOPAIR");
const MAX_XYZ: u64 = code(b"MAXXYZ");
const XYZ_FACTOR: u64 = code(b"XYZFACTOR");
const XYZ: u64 = code(b"XYZ");
const BLOCK_ID: u64 = code(b"BLOCKID");
const END: u64 = code(b"END");

/// All known labels but one have at most 12 letters, which 60 bits hold: with 12 letters a code is no
/// smaller than this, as no letter is 0.
const TWELVE: u64 = 1 << 55;

/// The one known label that a code does not hold.
const STEREOMOLECULE: &[u8] = b"STEREOMOLECULE";

/// The label of a line that starts with `##`, and where its value starts; none without `=`.
pub fn label(line: &[u8]) -> Option<(Label, usize)> {
    let mut code = 0u64;
    let (mut foreign, mut long) = (false, false);
    for (index, byte) in line.iter().enumerate().skip(2) {
        match byte {
            b'=' => {
                let label = match (foreign, long) {
                    (true, _) => Label::Unknown,
                    (_, true) => long_label(&line[2..index]),
                    _ => known(code),
                };
                return Some((label, index + 1));
            }
            b'A'..=b'Z' | b'a'..=b'z' => {
                long |= code >= TWELVE;
                code = code << 5 | u64::from(byte & 31);
            }
            b' ' | b'-' | b'/' | b'_' => {}
            _ => foreign = true,
        }
    }
    None
}

/// A label of more than 12 letters, and of bytes that are letters or dropped: letter by letter.
#[cold]
fn long_label(label: &[u8]) -> Label {
    let letters = label.iter().filter(|byte| byte.is_ascii_alphabetic()).map(u8::to_ascii_uppercase);
    if letters.eq(STEREOMOLECULE.iter().copied()) {
        Label::Stereomolecule
    } else {
        Label::Unknown
    }
}

fn known(code: u64) -> Label {
    match code {
        TITLE => Label::Title,
        JCAMP_CS => Label::JcampCs,
        ORIGIN => Label::Origin,
        OWNER => Label::Owner,
        MOLFORM => Label::Molform,
        ATOMLIST => Label::Atomlist,
        BONDLIST => Label::Bondlist,
        CHARGE => Label::Charge,
        RADICAL => Label::Radical,
        STEREOCENTER => Label::Stereocenter,
        STEREOPAIR => Label::Stereopair,
        MAX_XYZ => Label::MaxXyz,
        XYZ_FACTOR => Label::XyzFactor,
        XYZ => Label::Xyz,
        BLOCK_ID => Label::BlockId,
        END => Label::End,
        _ => Label::Unknown,
    }
}
