//! One short text for each refusal number, in one place.

/// What a refusal number says.
pub fn text(number: u32) -> &'static str {
    match number {
        0 => "accepted",
        1 => "table too short",
        2 => "block over 32,768 bytes",
        3 => "byte not allowed",
        4 => "no TITLE line first",
        5 => "label line without `=`",
        6 => "label repeated or out of order",
        7 => "version not 3.7",
        8 => "record missing at END",
        9 => "wrong shape",
        10 => "number out of range",
        11 => "atom number",
        12 => "unknown symbol",
        13 => "clash",
        14 => "list full",
        15 => "formula and atoms differ",
        16 => "no END line",
        17 => "line after END",
        21 => "table not sound",
        22 => "buffer too short",
        23 => "written form over 32,768 bytes",
        31 => "file over 16,777,216 bytes",
        32 => "place beyond the file's end",
        41 => "MAX_XYZ, XYZ_FACTOR and XYZ not together",
        42 => "coordinate above MAX_XYZ",
        _ => "unknown refusal",
    }
}
