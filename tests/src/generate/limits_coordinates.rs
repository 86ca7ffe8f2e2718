//! Named fixed blocks of request L2: every number of the three records at its limit and one over, their
//! shapes, their presence, their order, and what comes before 41 and 42 on the END line. As in
//! `limits`, no answers stand here.

use super::crowded::{each_atom, Crowded};

type Cases = Vec<(String, Vec<u8>)>;

/// Every named case with coordinates.
pub fn coordinate_limits() -> Cases {
    let mut cases = Cases::new();
    cases.extend(most_limits());
    cases.extend(factor_limits());
    cases.extend(row_limits());
    cases.extend(presence());
    cases.extend(order());
    cases.extend(end_lines());
    cases.extend(crowded_rows());
    cases
}

/// Three atoms with further records.
pub fn three_atoms(records: &str) -> Vec<u8> {
    Crowded { atoms: 3, further: records.to_string(), ..Crowded::default() }.block()
}

/// Three atoms with the three records.
pub fn three_records(most: &str, factor: &str, rows: &str) -> Vec<u8> {
    three_atoms(&format!("##MAX_XYZ={most}\n##XYZ_FACTOR={factor}\n##XYZ={rows}\n"))
}

/// MAX_XYZ: digits, shapes, further rows; and values at it and above it.
fn most_limits() -> Cases {
    let mut cases = Cases::new();
    for most in [
        "",
        " 0",
        " 1",
        " 999999",
        " 1000000",
        " 000001",
        " 0000001",
        " +1",
        " -1",
        " -0",
        " 1.0",
        " 1E2",
        " 1 1",
        " $$ 1",
        " 1 $$ x",
        "1$$x",
        "\n1",
        " 1\n1",
        " 1\n\n$$ 1\n \t",
        " 1 $1",
        " x",
        "\t1\r",
        " 1\n##DATE=\n1",
    ] {
        let block = three_records(most, " 1", "\n1 0 0 0");
        cases.push((format!("MAX_XYZ `{}`", most.escape_debug()), block));
    }
    for (most, value) in [
        (64, "64"),
        (64, "65"),
        (64, "-64"),
        (64, "-65"),
        (64, "+000065"),
        (0, "0"),
        (0, "-0"),
        (0, "1"),
        (0, "-1"),
        (999_999, "999999"),
        (999_999, "-999999"),
        (999_998, "999999"),
        (999_998, "-999999"),
        (100_000, "100001"),
    ] {
        for (column, row) in
            [format!("{value} 0 0"), format!("0 {value} 0"), format!("0 0 {value}")].iter().enumerate()
        {
            let block = three_records(&format!(" {most}"), " .01", &format!("\n1 0 0 0\n3 {row}"));
            cases.push((format!("value {value} in column {column} under MAX_XYZ {most}"), block));
        }
    }
    cases
}

/// The factor: digits, points, zeros, shapes, further rows.
fn factor_limits() -> Cases {
    let factors = [
        "",
        " 1",
        " .5",
        " 5.",
        " 0.001",
        " .000000001",
        " .0000000001",
        " 000000001",
        " 0000000001",
        " 123456789",
        " 1234567890",
        " .123456789",
        " 123456789.",
        " 1.23456789",
        " 0.123456789",
        " 999999999",
        " 00000.001",
        " .",
        " ..",
        " 1.2.3",
        " ..5",
        " 5..",
        " 0",
        " 0.0",
        " .0",
        " 0.",
        " 000000000",
        " .000000000",
        " 0000000000",
        " +1",
        " -1",
        " -0",
        " 1E-3",
        " 1e3",
        " 1,5",
        " 1 2",
        " 1 .",
        " . 5",
        " 0 0",
        " 0x1",
        " $$ 1",
        " 1 $$ x",
        "1$$x",
        "\n1",
        " 1\n2",
        " 1\n.",
        " 1\n\n$$ 2\n\t",
        " 1$",
        " 0\n1",
        "\t.5\r",
        " 1.0A",
        " 1\n##DATE=\n2",
    ];
    let block = |factor: &str| three_records(" 999999", factor, "\n1 1 -2 3\n2 999999 -999999 500001");
    factors.iter().map(|factor| (format!("XYZ_FACTOR `{}`", factor.escape_debug()), block(factor))).collect()
}

/// Rows: digits, signs, fields, atoms and their order, on the label line and below it.
fn row_limits() -> Cases {
    let rows = [
        "1 0 0 0",
        "1 -0 +0 0",
        "1 999999 -999999 +999999",
        "1 1000000 0 0",
        "1 0 -1000000 0",
        "1 0 0 +1000000",
        "1 000001 -000001 +000001",
        "1 0000001 0 0",
        "1 0 0",
        "1",
        "1 0 0 0 0",
        "0 0 0 0",
        "4 0 0 0",
        "3 0 0 0",
        "257 0 0 0",
        "999999 0 0 0",
        "1000000 0 0 0",
        "+1 0 0 0",
        "-1 0 0 0",
        "000001 0 0 0",
        "0000001 0 0 0",
        "1 + 0 0",
        "1 - 0 0",
        "1 +-1 0 0",
        "1 --1 0 0",
        "1 1.0 0 0",
        "1 1E1 0 0",
        "1 0 0 0 $$ x",
        "1 0 0 0$$x",
        "1 0 0 $$ 0",
        "1 0 0 0\n2 0 0 0\n3 0 0 0",
        "1 0 0 0\n1 0 0 0",
        "2 0 0 0\n1 0 0 0",
        "3 0 0 0\n0 0 0 0",
        "2 0 0 0\n4 0 0 0",
        "2 0 0 0\n2 0 0",
        "4 0 0",
        "1 0 0 0\n3 0 0 0\n2 0 0 0",
        "",
        "$$ 1 0 0 0",
        "\n\n1 0 0 0",
        "1\t0\r0 \t0",
        "1 0 0 0 x",
        "C 0 0 0",
        "1 0 0 0\n##DATE= x\n1 0 0 0",
        "1 1 1 1\n$$ x\n\n 2 -1 -1 -1\r",
        "3 0 0 0\n3 0 0 0\n3",
        "1 0 0 0\n\u{1}",
        "1 0 0 0\u{7f}",
        "1,0,0,0",
    ];
    let mut cases = Cases::new();
    for row in rows {
        let name = row.escape_debug();
        cases.push((format!("XYZ row `{name}`"), three_records(" 999999", " 0.1", &format!("\n{row}"))));
        cases.push((format!("XYZ= `{name}`"), three_records(" 999999", " 0.1", &format!(" {row}"))));
    }
    cases
}

const MOST: &str = "##MAX_XYZ= 9\n";
const FACTOR: &str = "##XYZ_FACTOR= 0.5\n";
const ROWS: &str = "##XYZ=\n2 1 2 3\n";

/// Each choice among the three labels, and labels that only look like them.
fn presence() -> Cases {
    let mut cases = Cases::new();
    for choice in 0..8 {
        let part = |bit: usize, record: &'static str| if choice & bit > 0 { record } else { "" };
        let records = [part(1, MOST), part(2, FACTOR), part(4, ROWS)].concat();
        cases.push((format!("labels `{}`", records.escape_debug()), three_atoms(&records)));
        let without_rows = records.replace("2 1 2 3\n", "");
        if choice & 4 > 0 {
            cases.push((format!("labels `{}`", without_rows.escape_debug()), three_atoms(&without_rows)));
        }
    }
    let whole = [MOST, FACTOR, ROWS].concat();
    for (from, to) in [
        ("MAX_XYZ", "max-xyz"),
        ("MAX_XYZ", "M A X/X_Y-Z"),
        ("MAX_XYZ", "MAXXYZ"),
        ("MAX_XYZ", "MAX.XYZ"),
        ("MAX_XYZ", "MAX_XY"),
        ("MAX_XYZ", "MAX_RASTER"),
        ("MAX_XYZ", "MAX\tXYZ"),
        ("XYZ_FACTOR", "XYZ FACTOR"),
        ("XYZ_FACTOR", "xyz/factor"),
        ("XYZ_FACTOR", "XYZ_FACTORS"),
        ("XYZ_FACTOR", "XYZ"),
        ("##XYZ=", "## x-Y_z ="),
        ("##XYZ=", "##XYZ_SOURCE="),
        ("##XYZ=", "##XY_RASTER="),
        ("##XYZ=", "##XYZ"),
        ("##XYZ=", " ##XYZ="),
    ] {
        let name = format!("label `{from}` as `{}`", to.escape_debug());
        cases.push((name, three_atoms(&whole.replacen(from, to, 1))));
    }
    let unknown = "##XYZ_SOURCE= x\n1 2\n##XYZ_SOURCE=\n##XY_RASTER= 0\n##MAX_RASTER=\n";
    cases.push(("unknown labels alone".to_string(), three_atoms(unknown)));
    cases.push((
        "unknown labels among the three".to_string(),
        three_atoms(&format!("{MOST}{unknown}{FACTOR}{ROWS}")),
    ));
    cases
}

/// The three labels in every order, among the other shell labels, too early, again, and after END.
fn order() -> Cases {
    let mut cases = Cases::new();
    let mut push = |records: &str| {
        cases.push((format!("order `{}`", records.escape_debug()), three_atoms(records)));
    };
    let three = [MOST, FACTOR, ROWS];
    for [one, two, last] in [[0, 1, 2], [0, 2, 1], [1, 0, 2], [1, 2, 0], [2, 0, 1], [2, 1, 0]] {
        push(&[three[one], three[two], three[last]].concat());
        let radical = "##RADICAL=\n1 3\n";
        let stereo = "##STEREOPAIR=\n1 2 P\n##STEREOCENTER=\n3 M\n";
        push(&[three[one], radical, three[two], stereo, three[last], "##BLOCK_ID= 5\n"].concat());
    }
    for record in three {
        push(&format!("{record}##CHARGE=\n+1 1\n"));
        push(&format!("{record}##BONDLIST=\n1 2 S\n"));
        push(&[record, MOST, FACTOR, ROWS].concat());
        push(&[MOST, FACTOR, ROWS, record].concat());
        push(&[MOST, FACTOR, ROWS, "##END=\n", record].concat());
    }
    let early = [("MOLFORM", MOST), ("ATOMLIST", FACTOR), ("ATOMLIST", "##XYZ=\n"), ("ATOMLIST", ROWS)];
    for (label, record) in early {
        let block = String::from_utf8(three_atoms("")).expect("ASCII");
        let block = block.replacen(&format!("##{label}="), &format!("{record}##{label}="), 1);
        cases.push((format!("`{}` before {label}", record.escape_debug()), block.into_bytes()));
    }
    cases
}

/// Several faults on one END line: the lowest number is answered.
fn end_lines() -> Cases {
    let over = "##MAX_XYZ= 2\n##XYZ_FACTOR= 0.5\n##XYZ=\n2 1 2 3\n";
    let over_without_factor = over.replace("##XYZ_FACTOR= 0.5\n", "");
    let mut cases = Cases::new();
    for (name, records) in [
        ("41", MOST),
        ("42", over),
        ("41 and 42", &over_without_factor),
        ("none of both", &[MOST, FACTOR, ROWS].concat()),
    ] {
        let block = String::from_utf8(three_atoms(records)).expect("ASCII");
        let mut push = |faults: &str, block: String| {
            cases.push((format!("END line with {name}{faults}"), block.into_bytes()));
        };
        push("", block.clone());
        push(" and 15", block.replace("= H3", "= H4"));
        push(" and 9", block.replace("##END=", "##END= x"));
        push(" and 8", block.replace("##OWNER=\n", ""));
        push(
            " and 8, 9, 15",
            block.replace("##OWNER=\n", "").replace("= H3", "= H4").replace("##END=", "##END= x"),
        );
        push(" and a comment", block.replace("##END=", "##END= $$ x"));
        push(" and no END", block.replace("##END=\n", ""));
        push(" and a line behind it", format!("{block}x\n"));
    }
    cases
}

/// 256 rows, and one row more; the largest products.
fn crowded_rows() -> Cases {
    let mut cases = Cases::new();
    for (factor, decimals) in [("999999999", 0), (".999999999", 9), ("99999999.9", 1), ("0.00000001", 8)] {
        let rows =
            each_atom(256, |atom| format!("{atom} {} -{} +{}", 999_999 - atom, 999_743 + atom, atom * 3_900));
        let mut block = Crowded::with_atoms(256);
        block.further = format!("##XYZ_FACTOR= {factor}\n##XYZ=\n{}\n##MAX_XYZ= 999999\n", rows.join("\n"));
        cases.push((format!("256 rows of coordinates, {decimals} decimals"), block.block()));
    }
    for row in ["257 0 0 0", "256 0 0 0", "1 0 0 0", "257 0 0", ""] {
        let mut rows = each_atom(256, |atom| format!("{atom} 0 0 0"));
        rows.push(row.to_string());
        let mut block = Crowded::with_atoms(256);
        block.further = format!("{MOST}{FACTOR}##XYZ=\n{}\n", rows.join("\n"));
        cases.push((format!("row `{row}` after 256 rows of coordinates"), block.block()));
    }
    cases
}
