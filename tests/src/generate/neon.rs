//! The neon block of document 01 and its neighbours: a line replaced, removed, or bytes behind it.
//! Places: TITLE 0, JCAMP-CS 11, ORIGIN 27, OWNER 39, MOLFORM 50, ATOMLIST 64, row 76, END 81.

/// The 88 bytes.
pub const NEON: &str = "##TITLE= a\n##JCAMP-CS= 3.7\n##ORIGIN= b\n##OWNER= c\n\
                        ##MOLFORM= Ne\n##ATOMLIST=\n1 Ne\n##END=\n";

/// Where the line that starts at a place ends, its line feed included; none if none starts there.
fn line_end(place: usize) -> Option<usize> {
    let starts_here = place == 0 || NEON.as_bytes().get(place - 1) == Some(&b'\n');
    let length = NEON.get(place..)?.find('\n')?;
    starts_here.then_some(place + length + 1)
}

/// Neon with the line at a place replaced by a text and a line feed.
pub fn replaced(place: usize, text: &[u8]) -> Option<Vec<u8>> {
    let end = line_end(place)?;
    Some([&NEON.as_bytes()[..place], text, b"\n", &NEON.as_bytes()[end..]].concat())
}

/// Neon without the line at a place.
pub fn removed(place: usize) -> Option<Vec<u8>> {
    let end = line_end(place)?;
    Some([&NEON.as_bytes()[..place], &NEON.as_bytes()[end..]].concat())
}

/// Neon with a text behind it.
pub fn followed(text: &[u8]) -> Vec<u8> {
    [NEON.as_bytes(), text].concat()
}
