//! Named fixed blocks of request L4: the value of STEREOMOLECULE and its rows, the label's spellings, its
//! order, the rows beside it, and what comes before and behind it on the END line. As in `limits`, no
//! answers stand here.

use super::crowded::{each_atom, two_ends, Crowded};
use super::limits_coordinates::three_atoms;

type Cases = Vec<(String, Vec<u8>)>;

const YES: &str = "##STEREOMOLECULE= YES\n";
const EMPTY: &str = "##STEREOMOLECULE=\n";
const CENTRES: &str = "##STEREOCENTER=\n1 P\n";
const PAIRS: &str = "##STEREOPAIR=\n1 2 M\n";

/// Spellings of the label, and labels that only look like it.
const LABELS: [&str; 32] = [
    "STEREOMOLECULE",
    "Stereo Molecule",
    "stereo-molecule",
    "STEREO_MOLECULE",
    "stereo/molecule",
    " -S_T/E R-E_O/M O-L_E/C U-L_E/ ",
    "stereomolecule",
    "STEREOMOLECULES",
    "STEREOMOLECUL",
    "TEREOMOLECULE",
    "XSTEREOMOLECULE",
    "STEREOMOLECULEA",
    "STEREOMOLEKULE",
    "STEREOMOLECULAR",
    "STEREOMOL",
    "STEREO",
    "STEREO\tMOLECULE",
    "STEREO\rMOLECULE",
    "STEREO.MOLECULE",
    "STEREOMOLECULE$$",
    "STEREOMOLECULE1",
    "STEREOMOLECULESTEREOMOLECULE",
    "EREOMOLECULE",
    "MOLECULE",
    "STEREOCENTERMOLECULE",
    "STEREOMOLECULEE",
    "@STEREOMOLECULE",
    "`STEREOMOLECULE",
    "3TEREOMOLECULE",
    "STEREOMOLECUL%",
    "XXSTEREOMOLECULE",
    "STEREOMOLECULE#",
];

/// Every named case with STEREOMOLECULE.
pub fn helical_limits() -> Cases {
    let mut cases = Cases::new();
    cases.extend(values());
    cases.extend(rows());
    cases.extend(labels());
    cases.extend(order());
    cases.extend(too_early());
    cases.extend(beside());
    cases.extend(end_lines());
    cases.extend(crowded());
    cases
}

/// Values that are the word, and ones that only look like it: on the label line, below it, and behind
/// blank lines and comments.
fn values() -> Cases {
    let values = [
        "YES", "yes", "Yes", "yES", "NO", "YES.", "YES YES", "YES x", "Y E S", "\"YES\"", "YESS", "YE", "Y",
        "YES$", "YES $", "$YES", "YES$$x", "YES $$ x", "Y$$ES", "YES\t", "\tYES \r", "YES\tYES", "YES\u{1}",
        "1", "+1", "YES=", "=YES", "-YES", "YE S", "TRUE", "1 P", "$$ YES", "",
    ];
    let mut cases = Cases::new();
    for value in values {
        for (place, before) in [("=", " "), ("below", "\n"), ("behind", "\n\n \t\r\n$$ YES\n ")] {
            let name = format!("STEREOMOLECULE {place} `{}`", value.escape_debug());
            cases.push((name, three_atoms(&format!("##STEREOMOLECULE={before}{value}\n"))));
        }
    }
    cases
}

/// Second rows, and lines that are none.
fn rows() -> Cases {
    let records = [
        "YES\nYES",
        " YES\nYES",
        "\nYES\nYES",
        " YES\nNO",
        " YES\n \t\r\n$$ x\nYES",
        " YES\n$$ YES",
        " YES\n\n\n",
        "\nYES\n\n$$ YES\n \t",
        " YES\nx",
        " YES\n1 P",
        "\nYES\n1 2 M",
        " YES\nYES\nYES",
        "\n\nYES",
        " $$ x\n\nYES",
        "\nNO\nYES",
        "\nyes\nYES",
        " YES\n##DATE=\nYES",
        "\n##DATE=\nYES",
        " YES\n##BLOCK_ID= 5\nYES",
        " YES\n##STEREOMOLECULES= YES",
        "\n##STEREOMOLECULES= YES",
        " YES\n ##STEREOMOLECULE= YES",
        "\n ##END=",
        " YES\n## remark",
        " YES\n\u{7f}",
        "\r\nYES\r\n\r",
        " YES\n##RADICAL=\n1 3",
        "\n##RADICAL=\nYES",
    ];
    let block = |record: &str| three_atoms(&format!("##STEREOMOLECULE={record}\n"));
    records
        .iter()
        .map(|record| (format!("STEREOMOLECULE=`{}`", record.escape_debug()), block(record)))
        .collect()
}

/// The label in other spellings, and labels that only look like it: the value NO tells one that is
/// known from one that is skipped.
fn labels() -> Cases {
    let mut cases = Cases::new();
    for label in LABELS {
        for value in ["YES", "NO"] {
            let name = format!("label `{}` with `{value}`", label.escape_debug());
            cases.push((name, three_atoms(&format!("##{label}= {value}\n"))));
        }
    }
    for line in ["##STEREOMOLECULE", " ##STEREOMOLECULE= NO", "##STEREOMOLECULE YES", "###STEREOMOLECULE= NO"]
    {
        cases.push((format!("line `{line}`"), three_atoms(&format!("##RADICAL=\n##DATE=\n{line}\n"))));
    }
    cases
}

/// The record in every place among the other shell labels, before lists of the core, again, and after END.
fn order() -> Cases {
    let mut cases = Cases::new();
    let mut push = |records: String| {
        cases.push((format!("order `{}`", records.escape_debug()), three_atoms(&records)));
    };
    let shell = [
        "##RADICAL=\n1 3\n",
        "##STEREOCENTER=\n",
        "##STEREOPAIR=\n",
        "##MAX_XYZ= 9\n",
        "##XYZ_FACTOR= 0.5\n",
        "##XYZ=\n2 1 2 3\n",
        "##BLOCK_ID= 5\n",
    ];
    for place in 0..=shell.len() {
        push([&shell[..place].concat(), YES, &shell[place..].concat()].concat());
    }
    for place in 0..shell.len() {
        push([&shell[place..].concat(), "##STEREOMOLECULE=\nYES\n", &shell[..place].concat()].concat());
    }
    for record in [YES, EMPTY, "##STEREOMOLECULE=\nYES\n"] {
        for core in
            ["##CHARGE=\n+1 1\n", "##CHARGE=\n", "##BONDLIST=\n1 2 S\n", "##ATOMLIST=\n", "##MOLFORM= H3\n"]
        {
            push(format!("{record}{core}"));
        }
        push(format!("{record}{record}"));
        push(format!("{record}##RADICAL=\n{YES}"));
        push(format!("##CHARGE=\n+1 1\n{record}"));
        push(format!("##END=\n{record}"));
        push(format!("{YES}##END=\n{record}"));
    }
    cases
}

/// The record before a label of the core.
fn too_early() -> Cases {
    let mut cases = Cases::new();
    for label in ["JCAMP-CS", "ORIGIN", "OWNER", "MOLFORM", "ATOMLIST"] {
        for record in [YES, EMPTY, "##STEREOMOLECULE= NO\n"] {
            let block = String::from_utf8(three_atoms("")).expect("ASCII");
            let block = block.replacen(&format!("##{label}="), &format!("{record}##{label}="), 1);
            cases.push((format!("`{}` before {label}", record.escape_debug()), block.into_bytes()));
        }
    }
    cases
}

/// Rows of centres and pairs beside the record, before it and behind it; labels without rows.
fn beside() -> Cases {
    let mut cases = Cases::new();
    let lists = [
        "##STEREOCENTER=\n",
        "##STEREOPAIR=\n",
        "##STEREOCENTER=\n\n$$ 1 P\n##STEREOPAIR=\n",
        CENTRES,
        "##STEREOCENTER= 3 M a\n",
        PAIRS,
        "##STEREOPAIR= 2 3 0\n",
        "##STEREOCENTER=\n1 P\n##STEREOPAIR=\n1 2 M\n",
        "##STEREOCENTER=\n##STEREOPAIR=\n1 2 M\n",
        "##STEREOCENTER=\n1 P\n1 P\n",
        "##STEREOPAIR=\n1 1 P\n",
        "##STEREOCENTERS=\n1 P\n",
    ];
    for list in lists {
        for record in [YES, "##STEREOMOLECULE=\n$$ x\nYES\n", EMPTY] {
            for records in [format!("{record}{list}"), format!("{list}{record}")] {
                cases.push((format!("beside `{}`", records.escape_debug()), three_atoms(&records)));
            }
        }
    }
    cases
}

/// Several faults on one END line: the lowest number is answered.
fn end_lines() -> Cases {
    let beside_centres = [YES, CENTRES].concat();
    let beside_both = [PAIRS, YES, CENTRES].concat();
    let apart = "##XYZ=\n";
    let above = "##MAX_XYZ= 2\n##XYZ_FACTOR= 0.5\n##XYZ=\n2 1 2 3\n";
    let mut cases = Cases::new();
    for (name, records) in [
        ("no value", EMPTY),
        ("YES beside a centre", &beside_centres),
        ("YES beside both", &beside_both),
        ("YES", YES),
    ] {
        for (further, more) in [("", ""), (", 41", apart), (", 42", above)] {
            let block = String::from_utf8(three_atoms(&format!("{records}{more}"))).expect("ASCII");
            let mut push = |faults: &str, block: String| {
                cases.push((format!("END line with {name}{further}{faults}"), block.into_bytes()));
            };
            let formula = block.replace("= H3", "= H4");
            push("", block.clone());
            push(", 15", formula.clone());
            push(", a value", block.replace("##END=", "##END= x"));
            push(", 15, a value", formula.replace("##END=", "##END= x"));
            push(", 8", block.replace("##OWNER=\n", ""));
            push(", 8, 15, a value", formula.replace("##OWNER=\n", "").replace("##END=", "##END= x"));
            push(", no END", block.replace("##END=\n", ""));
            push(", a comment", block.replace("##END=", "##END= $$ x"));
        }
    }
    cases
}

/// Full lists beside the YES, and the longest block with it.
fn crowded() -> Cases {
    let mut cases = Cases::new();
    let mut push = |name: &str, block: Crowded| cases.push((name.to_string(), block.block()));
    let further = || YES.to_string();
    push("256 atoms and the YES", Crowded { atoms: 256, further: further(), ..Crowded::default() });
    let centres = each_atom(128, |atom| format!("{atom} P"));
    push(
        "128 centres and the YES",
        Crowded { atoms: 130, centres, further: further(), ..Crowded::default() },
    );
    let pairs = two_ends(17, 128, "0");
    push("128 pairs and the YES", Crowded { atoms: 17, pairs, further: further(), ..Crowded::default() });
    let centres = each_atom(129, |atom| format!("{atom} P"));
    push(
        "129 centres and the YES",
        Crowded { atoms: 130, centres, further: further(), ..Crowded::default() },
    );
    for length in [32_768, 32_769] {
        let short = String::from_utf8(three_atoms(YES)).expect("ASCII");
        let title = "t".repeat(length - short.len() + 1);
        let block = short.replacen("##TITLE= t", &format!("##TITLE= {title}"), 1);
        cases.push((format!("{length} bytes with the YES"), block.into_bytes()));
    }
    cases
}
