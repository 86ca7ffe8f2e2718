//! How bytes, tables, positions and answers are spelt as terms of the definitions' language.

/// A run of at least this many equal members is spelt as one `replicate`.
const LONG_RUN: usize = 48;

/// Members are spelt in stretches of at most this many.
const STRETCH: usize = 200;

/// A list as `concat` of its stretches, long runs apart.
fn joined<Member: PartialEq + Copy>(
    members: &[Member],
    stretch: impl Fn(&[Member]) -> String,
    run: impl Fn(usize, Member) -> String,
) -> String {
    let mut parts = Vec::new();
    let (mut from, mut at) = (0, 0);
    while at < members.len() {
        let size = members[at..].iter().take_while(|member| **member == members[at]).count();
        if size >= LONG_RUN {
            parts.extend(members[from..at].chunks(STRETCH).map(&stretch));
            parts.push(run(size, members[at]));
            from = at + size;
        }
        at += size;
    }
    parts.extend(members[from..].chunks(STRETCH).map(&stretch));
    match parts.len() {
        0 => String::from("[]"),
        1 => parts.remove(0),
        _ => format!("concat ({} ∷ [])", parts.join(" ∷ ")),
    }
}

/// Bytes, in parentheses.
pub fn bytes(text: &[u8]) -> String {
    let quoted =
        |part: &[u8]| format!("bytes \"{}\"", part.iter().map(|byte| character(*byte)).collect::<String>());
    format!("({})", joined(text, quoted, |size, byte| format!("replicate {size} {byte}")))
}

/// A byte as it stands between quotes.
fn character(byte: u8) -> String {
    match byte {
        b'\n' => String::from("\\n"),
        b'"' => String::from("\\\""),
        b'\\' => String::from("\\\\"),
        32..=126 => char::from(byte).to_string(),
        _ => format!("\\u{{{byte:x}}}"),
    }
}

/// A whole number.
fn number(value: i32) -> String {
    if value < 0 {
        format!("negsuc {}", -(i64::from(value) + 1))
    } else {
        format!("pos {value}")
    }
}

/// Members of a list, one by one.
fn listed<Member>(members: &[Member], term: impl Fn(&Member) -> String) -> String {
    let terms: Vec<String> = members.iter().map(term).collect();
    format!("({} ∷ [])", terms.join(" ∷ "))
}

/// A table, in parentheses.
pub fn table(numbers: &[i32]) -> String {
    let stretch = |part: &[i32]| listed(part, |value| number(*value));
    format!("({})", joined(numbers, stretch, |size, value| format!("replicate {size} ({})", number(value))))
}

/// Positions, in parentheses; floats are told apart by their bits.
pub fn positions(floats: &[f64]) -> String {
    let bits: Vec<u64> = floats.iter().map(|float| float.to_bits()).collect();
    let stretch = |part: &[u64]| listed(part, |bits| float(*bits));
    format!("({})", joined(&bits, stretch, |size, bits| format!("replicate {size} ({})", float(bits))))
}

/// A finite float as `fin sign m e`: (-1)^sign times m times 2^e, with an odd m; 0 with m and e 0.
/// Subnormal floats, infinities and no numbers are no coordinates.
fn float(bits: u64) -> String {
    let (sign, exponent, digits) = (bits >> 63 == 1, (bits >> 52 & 0x7ff) as i32, bits & ((1 << 52) - 1));
    if exponent == 0 && digits == 0 {
        return format!("fin {sign} 0 (pos 0)");
    }
    assert!((1..0x7ff).contains(&exponent), "{bits:#x} is no normal float");
    let whole = digits | 1 << 52;
    let twos = whole.trailing_zeros();
    format!("fin {sign} {} ({})", whole >> twos, number(exponent - 1075 + twos as i32))
}

#[cfg(test)]
mod tests {
    use super::float;

    #[test]
    fn floats_are_spelt_with_odd_digits() {
        let terms = [
            (0.0, "fin false 0 (pos 0)"),
            (-0.0, "fin true 0 (pos 0)"),
            (1.0, "fin false 1 (pos 0)"),
            (7.0, "fin false 7 (pos 0)"),
            (2.0, "fin false 1 (pos 1)"),
            (0.5, "fin false 1 (negsuc 0)"),
            (-0.75, "fin true 3 (negsuc 1)"),
            (0.3, "fin false 5404319552844595 (negsuc 53)"),
            (999_998_999_000_001.0, "fin false 999998999000001 (pos 0)"),
        ];
        for (value, term) in terms {
            assert_eq!(float(f64::to_bits(value)), term);
        }
    }
}
