//! Lines, labels and texts: document 01, "Lines and labels".

/// A line: the place of its first byte, its bytes without the line feed, and the place behind it.
#[derive(Clone, Copy, Debug)]
pub struct Line<'a> {
    pub start: usize,
    pub bytes: &'a [u8],
    pub end: usize,
}

/// The lines of an input from a place on.
pub struct Lines<'a> {
    input: &'a [u8],
    place: usize,
}

/// "A line ends with a line feed (10) or with the input; nothing after the last line feed is no
/// line."
pub fn lines(input: &[u8], place: usize) -> Lines<'_> {
    Lines { input, place }
}

impl<'a> Iterator for Lines<'a> {
    type Item = Line<'a>;

    fn next(&mut self) -> Option<Line<'a>> {
        let rest = &self.input[self.place..];
        if rest.is_empty() {
            return None;
        }
        let start = self.place;
        let feed = rest.iter().position(|&byte| byte == b'\n');
        let length = feed.unwrap_or(rest.len());
        self.place = start + feed.map_or(rest.len(), |feed| feed + 1);
        Some(Line { start, bytes: &rest[..length], end: self.place })
    }
}

/// "Blanks are space, tab and carriage return."
pub fn is_blank(byte: u8) -> bool {
    byte == b' ' || byte == b'\t' || byte == b'\r'
}

/// "Allowed bytes: 9, 10, 13 and 32 to 126."
pub fn is_allowed(byte: u8) -> bool {
    byte == 9 || byte == 10 || byte == 13 || (32..=126).contains(&byte)
}

/// The seventeen known labels, and all others in one.
#[derive(Clone, Copy, PartialEq, Eq, Debug)]
pub enum Label {
    Title,
    JcampCs,
    Origin,
    Owner,
    Molform,
    Atomlist,
    Bondlist,
    Charge,
    Radical,
    Stereocenter,
    Stereopair,
    Stereomolecule,
    MaxXyz,
    XyzFactor,
    Xyz,
    BlockId,
    End,
    Unknown,
}

use Label::*;

/// The known labels as they stand after the change for comparison.
const KNOWN: [(Label, &[u8]); 17] = [
    (Title, b"TITLE"),
    (JcampCs, b"JCAMPCS"),
    (Origin, b"ORIGIN"),
    (Owner, b"OWNER"),
    (Molform, b"MOLFORM"),
    (Atomlist, b"ATOMLIST"),
    (Bondlist, b"BONDLIST"),
    (Charge, b"CHARGE"),
    (Radical, b"RADICAL"),
    (Stereocenter, b"STEREOCENTER"),
    (Stereopair, b"STEREOPAIR"),
    (Stereomolecule, b"STEREOMOLECULE"),
    (MaxXyz, b"MAXXYZ"),
    (XyzFactor, b"XYZFACTOR"),
    (Xyz, b"XYZ"),
    (BlockId, b"BLOCKID"),
    (End, b"END"),
];

/// "A label line starts with `##` in its first column", with a `=` on it or not.
pub fn starts_label(line: &[u8]) -> bool {
    line.starts_with(b"##")
}

/// The label of a label line, which "runs to the first `=`"; none without `##` or without `=`.
pub fn label(line: &[u8]) -> Option<Label> {
    if !starts_label(line) {
        return None;
    }
    let equals = line.iter().position(|&byte| byte == b'=')?;
    let compared = compared(&line[2..equals]);
    let known = KNOWN.iter().find(|(_, spelling)| *spelling == compared);
    Some(known.map_or(Unknown, |(label, _)| *label))
}

/// "For comparison letters become upper case, and space, `-`, `/`, `_` are dropped."
fn compared(label: &[u8]) -> Vec<u8> {
    let kept = label.iter().filter(|byte| !b" -/_".contains(byte));
    kept.map(|byte| byte.to_ascii_uppercase()).collect()
}

/// What follows the first `=` on a label line.
pub fn value(line: &[u8]) -> &[u8] {
    match line.iter().position(|&byte| byte == b'=') {
        Some(equals) => &line[equals + 1..],
        None => &[],
    }
}

/// "Other known records lose `$$` and the rest of that line."
pub fn without_comment(line: &[u8]) -> &[u8] {
    match line.windows(2).position(|two| two == b"$$") {
        Some(comment) => &line[..comment],
        None => line,
    }
}

/// Start and length in the block of the text whose label line is given: "from `=` to the end of
/// the record, with blanks and line feeds cut from both ends"; an empty one is 0, 0.
pub fn text(block: &[u8], label_line: &Line) -> (usize, usize) {
    let mut start = label_line.start + label_line.bytes.len() - value(label_line.bytes).len();
    let next = lines(block, label_line.end).find(|line| starts_label(line.bytes));
    let mut end = next.map_or(block.len(), |line| line.start);
    let cut = |byte: u8| is_blank(byte) || byte == b'\n';
    while start < end && cut(block[start]) {
        start += 1;
    }
    while start < end && cut(block[end - 1]) {
        end -= 1;
    }
    if start == end {
        return (0, 0);
    }
    (start, end - start)
}

/// The labels that must follow a known one: "in this order; RADICAL, STEREOCENTER, STEREOPAIR in
/// any order after those; BLOCK_ID after JCAMP-CS; END last"; by request L2 "MAX_XYZ, XYZ_FACTOR and
/// XYZ after the core, in any order with the other shell labels", and by request L4 STEREOMOLECULE
/// "after the core, in any order with RADICAL".
pub fn must_follow(label: Label) -> Vec<Label> {
    let core = [Title, JcampCs, Origin, Owner, Molform, Atomlist, Bondlist, Charge];
    let mut followers = Vec::new();
    if let Some(position) = core.iter().position(|&one| one == label) {
        followers.extend_from_slice(&core[position + 1..]);
        followers.extend([Radical, Stereocenter, Stereopair, Stereomolecule, MaxXyz, XyzFactor, Xyz]);
    }
    if label == Title || label == JcampCs {
        followers.push(BlockId);
    }
    if label != End {
        followers.push(End);
    }
    followers
}
