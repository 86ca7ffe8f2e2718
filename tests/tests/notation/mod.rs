//! Notation of a block or file, in backticks: bytes with the escapes \n \r \t \\ \xHH and \p for a
//! vertical bar, and \{1-9:text} for a text once for each of these numbers, \i in it the number; or
//! `@PLACE: text`, neon with the line at that place replaced; `@PLACE-`, neon without it;
//! `@88+ text`, neon with text behind it.

use galebonnet_tests::generate::neon::{followed, removed, replaced, NEON};

/// The bytes of a text with escapes.
pub fn unescaped(text: &str) -> Result<Vec<u8>, String> {
    let mut bytes = Vec::new();
    let mut rest = text.bytes();
    while let Some(byte) = rest.next() {
        if byte != b'\\' {
            bytes.push(byte);
            continue;
        }
        bytes.push(match rest.next() {
            Some(b'n') => b'\n',
            Some(b'r') => b'\r',
            Some(b't') => b'\t',
            Some(b'p') => b'|',
            Some(b'\\') => b'\\',
            Some(b'{') => {
                let inside: Vec<u8> = rest.by_ref().take_while(|&byte| byte != b'}').collect();
                bytes.extend(repeated(&String::from_utf8_lossy(&inside))?);
                continue;
            }
            Some(b'x') => {
                let digits: String = rest.by_ref().take(2).map(char::from).collect();
                let is_hex = digits.len() == 2 && digits.bytes().all(|digit| digit.is_ascii_hexdigit());
                let value = u8::from_str_radix(&digits, 16).ok().filter(|_| is_hex);
                value.ok_or(format!("no byte: \\x{digits}"))?
            }
            other => return Err(format!("no escape: {:?}", other.map(char::from))),
        });
    }
    Ok(bytes)
}

/// The bytes of `FROM-TO:text`: the text once for each number, in which `\i` is the number.
fn repeated(notation: &str) -> Result<Vec<u8>, String> {
    let parts = notation.split_once(':').and_then(|(range, text)| Some((range.split_once('-')?, text)));
    let ((from, to), text) = parts.ok_or(format!("no FROM-TO:text: {notation}"))?;
    let number = |digits: &str| digits.parse::<usize>().map_err(|_| format!("no number: {digits}"));
    let mut bytes = Vec::new();
    for one in number(from)?..=number(to)? {
        bytes.extend(unescaped(&text.replace("\\i", &one.to_string()))?);
    }
    Ok(bytes)
}

/// The bytes that a cell's notation means.
pub fn meant(notation: &str) -> Result<Vec<u8>, String> {
    let Some(rest) = notation.strip_prefix('@') else { return unescaped(notation) };
    let digits = rest.len() - rest.trim_start_matches(|one: char| one.is_ascii_digit()).len();
    let place: usize = rest[..digits].parse().map_err(|_| "no place after @".to_string())?;
    let no_line = format!("no line of neon starts at {place}");
    match &rest[digits..] {
        "-" => removed(place).ok_or(no_line),
        ":" => replaced(place, b"").ok_or(no_line),
        other if other.starts_with(": ") => replaced(place, &unescaped(&other[2..])?).ok_or(no_line),
        other if other.starts_with("+ ") && place == NEON.len() => Ok(followed(&unescaped(&other[2..])?)),
        _ => Err("neither @PLACE: nor @PLACE- nor @88+".to_string()),
    }
}

/// What stands between a cell's backticks.
pub fn quoted(cell: &str) -> Result<&str, String> {
    let inside = cell.strip_prefix('`').and_then(|rest| rest.strip_suffix('`'));
    inside.filter(|text| !text.contains('`')).ok_or(format!("not one text in backticks: {cell}"))
}
