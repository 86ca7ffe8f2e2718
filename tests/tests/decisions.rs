//! The examples of docs/DECISIONS.md are run, table by table, by what its first two columns are
//! headed: a block's answer, its answer and what is left in a lent table or in both, an atom's
//! position, what is written of its table with another number 13, the formula that is written of it, the
//! block's name to show, the number that the C door answers, and the lines that the program prints for a
//! file.
//!
//! The notation of a block or file stands in `notation`.

mod notation;

use galebonnet_tests::generate::neon::NEON;
use galebonnet_tests::independent::{check, name, position, read, read_table, walk_lines, write, Position};
use notation::{meant, quoted, unescaped};
use std::str::FromStr;

/// What a table's examples are run against, by its header; the last column is the other reading.
#[derive(Clone, Copy)]
enum Run {
    Answer,
    Lent,
    BothLent,
    Position,
    Written,
    Formula,
    Name,
    Door,
    Walk,
}

const HEADERS: [([&str; 3], Run); 9] = [
    (["block", "answer", "other reading"], Run::Answer),
    (["block and numbers lent", "answer and table", "other reading"], Run::Lent),
    (["block, numbers and floats lent", "answer and both tables", "other reading"], Run::BothLent),
    (["block and atom", "position", "other reading"], Run::Position),
    (["block and number 13", "last two lines written, or refusal", "other reading"], Run::Written),
    (["block", "written formula", "other reading"], Run::Formula),
    (["block", "name to show, `?` the stand-in", "other reading"], Run::Name),
    (["block", "number at the C door", "other reading"], Run::Door),
    (["file", "walk prints", "other reading"], Run::Walk),
];

/// How many numbers and floats the tables have.
const TABLE: usize = 3856;
const POSITIONS: usize = 1024;

/// What every number and float of a lent table is before the reading.
const BEFORE: i32 = 7;

fn cells(line: &str) -> Option<Vec<&str>> {
    let inside = line.trim().strip_prefix('|')?.strip_suffix('|')?;
    Some(inside.split('|').map(str::trim).collect())
}

/// What is left in a lent table: `untouched`, `zeroed` or `filled` as a whole one would be, what lies
/// beyond the table as it was.
fn left<Value: PartialEq>(lent: &[Value], before: Value, zero: Value, whole: &[Value]) -> &'static str {
    let (own, beyond) = lent.split_at(whole.len().min(lent.len()));
    match own {
        _ if beyond.iter().any(|value| *value != before) => "touched beyond",
        own if own.iter().all(|value| *value == before) => "untouched",
        own if own.iter().all(|value| *value == zero) => "zeroed",
        own if own == whole => "filled",
        _ => "something else",
    }
}

/// The answer for a block read into tables of so many numbers and floats, none of them 0 before, and
/// what is left in the two.
fn lent(block: &[u8], numbers: usize, floats: usize) -> (String, &'static str, &'static str) {
    let (mut table, mut positions) = (vec![BEFORE; numbers], vec![f64::from(BEFORE); floats]);
    let answer = read(block, &mut table, &mut positions);
    let (mut whole, mut whole_positions) = (vec![0; TABLE], vec![0.0; POSITIONS]);
    read(block, &mut whole, &mut whole_positions);
    (
        format!("{}@{}", answer.number, answer.place),
        left(&table, BEFORE, 0, &whole),
        left(&positions, f64::from(BEFORE), 0.0, &whole_positions),
    )
}

/// The position of an atom in an accepted block, each coordinate by the fewest digits that tell it.
fn placed(block: &[u8], atom: usize) -> Result<String, String> {
    let (mut table, mut positions) = (vec![0; TABLE], vec![0.0; POSITIONS]);
    let answer = read(block, &mut table, &mut positions);
    match position(&positions, atom) {
        _ if answer.number != 0 => Err(format!("refused {}@{}", answer.number, answer.place)),
        Position::At(x, y, z) => Ok(format!("{x} {y} {z}")),
        Position::NotGiven => Ok("not given".to_string()),
    }
}

/// What is shown of the form of an accepted block's table, or the refusal number of its writing; the
/// table may be changed before.
fn rewritten(
    block: &[u8],
    change: impl Fn(&mut [i32]),
    shown: impl Fn(&str) -> String,
) -> Result<String, String> {
    let (mut table, mut buffer) = (vec![0; TABLE], vec![0; 32_768]);
    let answer = read_table(block, &mut table);
    if answer.number != 0 {
        return Err(format!("refused {}@{}", answer.number, answer.place));
    }
    change(&mut table);
    let written = write(&table, block, &mut buffer);
    if written.number != 0 {
        return Ok(written.number.to_string());
    }
    Ok(shown(&String::from_utf8_lossy(&buffer[..written.count])))
}

/// The last two lines of a form.
fn last_two(form: &str) -> String {
    let lines: Vec<&str> = form.lines().collect();
    lines[lines.len() - 2..].join("; ")
}

/// The formula of a form.
fn formula(form: &str) -> String {
    form.lines().find_map(|line| line.strip_prefix("##MOLFORM= ")).unwrap_or_default().to_string()
}

/// A cell's block and the number behind it.
fn numbered<Number: FromStr>(input: &str) -> Result<(&str, Number), String> {
    let (block, number) = input.rsplit_once(", ").ok_or(format!("no number behind the block: {input}"))?;
    Ok((block, number.parse().map_err(|_| format!("no number: {number}"))?))
}

/// What is answered for an example.
fn answered(input: &str, run: Run) -> Result<String, String> {
    Ok(match run {
        Run::Answer => {
            let answer = read_table(&meant(quoted(input)?)?, &mut vec![0; TABLE]);
            format!("{}@{}", answer.number, answer.place)
        }
        Run::Lent => {
            let (block, numbers) = numbered(input)?;
            let (answer, table, _) = lent(&meant(quoted(block)?)?, numbers, POSITIONS);
            format!("{answer} {table}")
        }
        Run::BothLent => {
            let (both, floats) = numbered(input)?;
            let (block, numbers) = numbered(both)?;
            let (answer, table, positions) = lent(&meant(quoted(block)?)?, numbers, floats);
            format!("{answer} {table}, {positions}")
        }
        Run::Position => {
            let (block, atom) = numbered(input)?;
            placed(&meant(quoted(block)?)?, atom)?
        }
        Run::Written => {
            let (block, number) = numbered(input)?;
            rewritten(&meant(quoted(block)?)?, |table| table[13] = number, last_two)?
        }
        Run::Formula => rewritten(&meant(quoted(input)?)?, |_| {}, formula)?,
        Run::Name => String::from_utf8_lossy(name(&meant(quoted(input)?)?, b"?")).replace('\n', "\\n"),
        Run::Door => check(&meant(quoted(input)?)?).to_string(),
        Run::Walk => walk_lines(&meant(quoted(input)?)?).lines().collect::<Vec<&str>>().join("; "),
    })
}

/// Compares one row with what is answered for its example.
fn run_row(cells: &[&str], run: Run) -> Result<(), String> {
    let [input, expected, other] = cells else { return Err(format!("{} cells", cells.len())) };
    let answered = answered(input, run)?;
    let expected = match run {
        // a fragment may be repeated as a row is
        Run::Formula => String::from_utf8_lossy(&unescaped(quoted(expected)?)?).into_owned(),
        _ => quoted(expected)?.to_string(),
    };
    if answered != expected {
        return Err(format!("answered {answered}, not {expected}"));
    }
    if other.is_empty() || other.trim_matches('`') == expected {
        return Err("the other reading does not differ".to_string());
    }
    Ok(())
}

/// How many rows a page's tables have, and every fault found in them.
fn run_page(page: &str) -> (usize, Vec<String>) {
    let mut rows = 0;
    let mut faults = Vec::new();
    let mut lines = page.lines().zip(1..);
    while let Some((header, _)) = lines.next() {
        let run = cells(header).and_then(|cells| HEADERS.iter().find(|(header, _)| cells == header));
        let Some(&(_, run)) = run else { continue };
        let is_rule = |cell: &&str| !cell.is_empty() && cell.chars().all(|one| one == '-' || one == ':');
        if !lines.next().and_then(|(line, _)| cells(line)).is_some_and(|cells| cells.iter().all(is_rule)) {
            faults.push(format!("no rule below the header {header}"));
        }
        for (line, number) in lines.by_ref().take_while(|(line, _)| line.trim_start().starts_with('|')) {
            rows += 1;
            let row = cells(line).ok_or("no closing bar".to_string());
            if let Err(fault) = row.and_then(|cells| run_row(&cells, run)) {
                faults.push(format!("line {number}: {fault}: {line}"));
            }
        }
    }
    (rows, faults)
}

#[test]
fn the_decisions_page_holds() {
    let path = concat!(env!("CARGO_MANIFEST_DIR"), "/../docs/DECISIONS.md");
    let page = std::fs::read_to_string(path).unwrap_or_else(|fault| panic!("{path}: {fault}"));
    let (rows, faults) = run_page(&page);
    assert!(faults.is_empty(), "{} of {rows} rows fail:\n{}", faults.len(), faults.join("\n"));
    assert!(rows >= 60, "only {rows} rows with examples");
}

#[test]
fn the_notation_is_read() {
    assert_eq!(meant("a\\n\\r\\t\\\\\\x7F\\p").as_deref(), Ok(&b"a\n\r\t\\\x7f|"[..]));
    assert_eq!(meant("").as_deref(), Ok(&b""[..]));
    assert_eq!(meant("@76: 2 Ne"), Ok(NEON.replace("1 Ne", "2 Ne").into_bytes()));
    assert_eq!(meant("@81-"), Ok(NEON.as_bytes()[..81].to_vec()));
    assert_eq!(meant("@88+  x"), Ok(format!("{NEON} x").into_bytes()));
    assert_eq!(meant("a\\{9-11:\\i \\n}b").as_deref(), Ok(&b"a9 \n10 \n11 \nb"[..]));
    for wrong in [
        "\\{1-2}",
        "\\{1:x}",
        "\\{a-2:x}",
        "@77: x",
        "@88: x",
        "@88-",
        "@87+ x",
        "@: x",
        "@76",
        "\\q",
        "\\x1",
        "\\x+1",
        "a\\",
    ] {
        assert!(meant(wrong).is_err(), "{wrong}");
    }
}

/// How many faults are found in a table of one row.
fn run(header: &str, row: &str) -> usize {
    let (rows, faults) = run_page(&format!("text\n\n{header}\n|---|---|---|\n{row}\n\nmore\n"));
    assert_eq!(rows, 1);
    faults.len()
}

#[test]
fn a_wrong_row_is_a_fault() {
    let block = "| block | answer | other reading |";
    assert_eq!(run(block, "| `@76: 2 Ne` | `11@76` | 12 |"), 0);
    assert_eq!(run(block, "| `@76: 2 Ne` | `12@76` | 12 |"), 1);
    assert_eq!(run(block, "| `@76: 2 Ne` | `11@76` | `11@76` |"), 1);
    assert_eq!(run(block, "| `@76: 2 Ne` | `11@76` | |"), 1);
    assert_eq!(run(block, "| `@76: 2 Ne` | 11@76 | 12 |"), 1);
    assert_eq!(run(block, "| `@76: 2 Ne` | `11@76` |"), 1);
    assert_eq!(run(block, "| `` | `4@0` | `16@0` |"), 0);
    let both = "| block, numbers and floats lent | answer and both tables | other reading |";
    assert_eq!(
        run(both, "| `@76: 1 Ne`, 3856, 1023 | `1@0 untouched, untouched` | `0@0 filled, untouched` |"),
        0
    );
    assert_eq!(
        run(both, "| `@76: 2 Ne`, 3858, 1026 | `11@76 zeroed, zeroed` | `11@76 zeroed, untouched` |"),
        0
    );
    assert_eq!(run(both, "| `@76: 1 Ne`, 3856 | `0@0 filled, zeroed` | 1 |"), 1);
    let placed = "| block and atom | position | other reading |";
    let row = "@76: 1 Ne\\n##MAX_XYZ= 9\\n##XYZ_FACTOR= .1\\n##XYZ=\\n1 3 -0 -5";
    assert_eq!(run(placed, &format!("| `{row}`, 1 | `0.3 0 -0.5` | `0.30000000000000004 -0 -0.5` |")), 0);
    assert_eq!(run(placed, &format!("| `{row}`, 1 | `0.3 -0 -0.5` | rounded twice |")), 1);
    assert_eq!(run(placed, &format!("| `{row}`, 2 | `not given` | `0 0 0` |")), 0);
    assert_eq!(run(placed, "| `@76: 2 Ne`, 1 | `not given` | refused |"), 1);
    let lent = "| block and numbers lent | answer and table | other reading |";
    assert_eq!(run(lent, "| `@76: 2 Ne`, 3857 | `11@76 zeroed` | `11@76 untouched` |"), 0);
    assert_eq!(run(lent, "| `@76: 2 Ne`, 3855 | `11@76 zeroed` | 1 |"), 1);
    assert_eq!(run(lent, "| `@76: 1 Ne`, 3856 | `0@0 filled` | 1 |"), 0);
}

#[test]
fn a_wrong_row_of_a_form_a_name_a_door_or_a_file_is_a_fault() {
    let form = "| block and number 13 | last two lines written, or refusal | other reading |";
    assert_eq!(run(form, "| `@76: 1 Ne`, 1 | `##STEREOMOLECULE= YES; ##END=` | `1 Ne; ##END=` |"), 0);
    assert_eq!(run(form, "| `@76: 1 Ne`, 0 | `##STEREOMOLECULE= YES; ##END=` | `1 Ne; ##END=` |"), 1);
    assert_eq!(run(form, "| `@76: 1 Ne`, -2147483648 | `21` | written |"), 0);
    assert_eq!(run(form, "| `@76: 2 Ne`, 1 | `21` | written |"), 1);
    let formula = "| block | written formula | other reading |";
    let salt = "##TITLE=\\n##JCAMPCS=3.7\\n##ORIGIN=\\n##OWNER=\\n##MOLFORM=NaCl\\n##ATOMLIST=\\n1 Na\\n2 Cl\\n##END=";
    assert_eq!(run(formula, &format!("| `{salt}` | `Na * Cl` | `Cl Na` |")), 0);
    assert_eq!(run(formula, &format!("| `{salt}` | `Cl Na` | `Na * Cl` |")), 1);
    assert_eq!(run(formula, &format!("| `{salt}` | `Na * Cl` | `Na * Cl` |")), 1);
    let neons = salt.replace("NaCl", "Ne3").replace("1 Na\\n2 Cl\\n", "\\{1-3:\\i Ne\\n}");
    assert_eq!(run(formula, &format!("| `{neons}` | `Ne\\{{2-3: * Ne}}` | `Ne3` |")), 0);
    let titled = |length: usize| salt.replace("TITLE=", &format!("TITLE=\\{{1-{length}:a}}"));
    assert_eq!(run(formula, &format!("| `{}` | `Na * Cl` | `23` |", titled(32_675))), 0);
    assert_eq!(run(formula, &format!("| `{}` | `23` | `Cl Na` |", titled(32_676))), 0);
    assert_eq!(run(formula, "| `@76: 2 Ne` | `23` | refused |"), 1);
    let shown = "| block | name to show, `?` the stand-in | other reading |";
    assert_eq!(run(shown, "| `##TITLE= a` | `a` | `?` |"), 0);
    assert_eq!(run(shown, "| `##TITLE=` | `a` | `?` |"), 1);
    let door = "| block | number at the C door | other reading |";
    assert_eq!(run(door, "| `@76: 2 Ne` | `47244640332` | 11 |"), 0);
    assert_eq!(run(door, "| `@76: 2 Ne` | `11` | 76 |"), 1);
    let file = "| file | walk prints | other reading |";
    assert_eq!(run(file, "| `@88+ junk\\n` | `B 0 88 0 0 1 0; S 88 93` | one block |"), 0);
    assert_eq!(run(file, "| `@88+ junk\\n` | `B 0 88 0 0 1 0` | one block |"), 1);
    assert_eq!(run_page("| block | other |\n|---|---|\n| `x` | `y` |\n").0, 0);
}
