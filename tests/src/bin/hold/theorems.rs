//! The independent reader's answers, stated as theorems over the definitions.

use galebonnet_tests::generate::coordinates::refused_by_coordinates;
use galebonnet_tests::generate::fragments::told_by_fragments;
use galebonnet_tests::generate::helical::{refused_by_helical, refused_by_number_13};
use galebonnet_tests::generate::{self, Random, TableCase};
use galebonnet_tests::independent::{self, Walked};

use crate::terms::{bytes, positions, table};

/// A theorem: what it is of, the refusal numbers in it, the one of them that the records of
/// coordinates gave, the one that STEREOMOLECULE gave, what a table's groups decide in its form, its
/// statement and its proof.
pub struct Theorem {
    pub of: &'static str,
    pub numbers: Vec<u32>,
    pub by_coordinates: Option<u32>,
    pub by_helical: Option<&'static str>,
    pub by_fragments: Vec<&'static str>,
    statement: String,
    open: &'static str,
    proof: &'static str,
}

fn computed(of: &'static str, numbers: Vec<u32>, statement: String) -> Theorem {
    Theorem {
        of,
        numbers,
        by_coordinates: None,
        by_helical: None,
        by_fragments: Vec::new(),
        statement,
        open: "computing",
        proof: "refl",
    }
}

/// A file of theorems, numbered from one on.
pub fn file(theorems: &[Theorem], from: usize) -> String {
    let mut text = String::from(HEAD);
    for (index, theorem) in theorems.iter().enumerate() {
        let name = format!("case_{}", from + index);
        let Theorem { statement, open, proof, .. } = theorem;
        text += &format!("\n{name} : {statement}\nunfolding {open}\n{name} = {proof}\n");
    }
    text
}

const HEAD: &str = "-- Generated: the independent reader's answers, over the definitions.
use Prim.Native.Nat.{ℕ}
use mathlib.Core.Bool.{true, false}
use mathlib.Core.Path.{◌≡◌, refl}
use mathlib.Core.List.{List, [], ◌∷◌}
use lib.ListN.{length, replicate, length-replicate}
use lib.IntN.{ℤ, pos, negsuc}
use lib.Ieee.{fin}
use Rattle.lists.specs.Lists.{concat}
use Rattle.format.specs.Bytes.{Bytes, bytes}
use Rattle.format.specs.Table.{lent, read_result, read_answer}
use Rattle.format.specs.Writing.{write_result}
use Rattle.format.specs.Walking.{block, stray, piece, Found, Finished, NotWalked, pieces, walk_at, name_of, check_of}
use Rattle.format.proofs.Computing.{computing}

-- many of one byte: shut, so that nothing counts them one by one
unfoldable repeated : ℕ → ℕ → Bytes
repeated n b = replicate n b

repeated_length : (n b : ℕ) → length (repeated n b) ≡ n
unfolding repeated
repeated_length n b = length-replicate n b
";

/// What lent tables hold before: sevens, so that what is cleared and what is untouched can be told apart.
const LENT: i32 = 7;

/// Numbers and floats of long enough tables.
const LONG: (usize, usize) = (3856, 1024);

/// A block read into tables of so many numbers and so many floats: the answer and both tables whole.
fn block_case(of: &'static str, block: &[u8], (numbers, floats): (usize, usize)) -> Theorem {
    let (mut after, mut places) = (vec![LENT; numbers], vec![f64::from(LENT); floats]);
    let before = format!("(lent {} {})", table(&after), positions(&places));
    let answer = independent::read(block, &mut after, &mut places);
    let statement = format!(
        "read_result 103 {} {before} ≡ read_answer {} {} (lent {} {})",
        bytes(block),
        answer.number,
        answer.place,
        table(&after),
        positions(&places)
    );
    let by_coordinates = refused_by_coordinates(block, answer);
    let by_helical = refused_by_helical(block, answer);
    Theorem { by_coordinates, by_helical, ..computed(of, vec![answer.number], statement) }
}

/// Generated blocks, a few of them into short or longer tables, a few over the longest length.
pub fn block_cases(count: usize, seed: u64) -> Vec<Theorem> {
    let mut random = Random::new(seed);
    let mut cases = Vec::new();
    for index in 0..count {
        let mut block = generate::block(&mut random);
        if index % 40 == 6 {
            block.resize(32_769 + index, b' ');
        }
        cases.push(block_case("blocks", &block, lengths(index)));
    }
    cases
}

/// Generated blocks with coordinates, into tables of the same lengths.
pub fn coordinate_cases(count: usize, seed: u64) -> Vec<Theorem> {
    let mut random = Random::new(seed ^ 0x0058_595a);
    let case = |index| block_case("coordinates", &generate::coordinate_block(&mut random), lengths(index));
    (0..count).map(case).collect()
}

/// Generated blocks with STEREOMOLECULE, and three tables with number 13 set to ten of them.
pub fn helical_cases(count: usize, seed: u64) -> Vec<Theorem> {
    let mut random = Random::new(seed ^ 0x0068_656c_6963);
    let mut cases = Vec::new();
    for index in 0..count {
        cases.push(block_case("helical blocks", &generate::helical_block(&mut random), lengths(index)));
    }
    for _ in 0..count * 3 / 10 {
        cases.push(table_case("helical tables", &generate::helical_table_case(&mut random)));
    }
    cases
}

/// Generated tables of several groups, and one block of several groups to ten of them.
pub fn fragment_cases(count: usize, seed: u64) -> Vec<Theorem> {
    let mut random = Random::new(seed ^ 0x6672_6167_6d65);
    let mut cases = Vec::new();
    for _ in 0..count {
        cases.push(table_case("tables of several groups", &generate::fragment_table_case(&mut random)));
    }
    for _ in 0..count / 10 {
        cases.push(block_case("blocks of several groups", &generate::fragment_block(&mut random), LONG));
    }
    cases
}

/// One of 20 cases for each way in which a table is short or longer.
fn lengths(index: usize) -> (usize, usize) {
    match index % 20 {
        0 => (3855, 1024),
        1 => (3858, 1024),
        2 => (3856, 1023),
        3 => (3856, 1026),
        4 => (3855, 1023),
        _ => LONG,
    }
}

/// The named blocks, at and one over every limit, and the named tables.
pub fn limit_cases() -> Vec<Theorem> {
    let blocks = generate::limit_blocks();
    let tables = generate::fragment_limits();
    let of_blocks = blocks.iter().map(|(_, block)| block_case("blocks", block, LONG));
    of_blocks.chain(tables.iter().map(|(_, case)| table_case("tables", case))).collect()
}

/// Generated tables with their texts and buffers.
pub fn table_cases(count: usize, seed: u64) -> Vec<Theorem> {
    let mut random = Random::new(seed ^ 0x7461_626c_6573);
    (0..count).map(|_| table_case("tables", &generate::table_case(&mut random))).collect()
}

/// A table written into its buffer: the answer and the whole buffer.
fn table_case(of: &'static str, case: &TableCase) -> Theorem {
    let mut buffer = vec![LENT as u8; case.room];
    let written = independent::write(&case.table, &case.texts, &mut buffer);
    let statement = format!(
        "write_result 103 {} {} (replicate {} {LENT}) ≡ record {{ number = {}; count = {}; buffer = {} }}",
        table(&case.table),
        bytes(&case.texts),
        case.room,
        written.number,
        written.count,
        bytes(&buffer)
    );
    let by_helical = refused_by_number_13(&case.table, &case.texts);
    let by_fragments = told_by_fragments(&case.table, &case.texts);
    Theorem { by_helical, by_fragments, ..computed(of, vec![written.number], statement) }
}

fn walked(answer: &Walked) -> String {
    match answer {
        Walked::Block { start, end } => format!("Found (piece block {start} {end})"),
        Walked::Stray { start, end } => format!("Found (piece stray {start} {end})"),
        Walked::Finished => String::from("Finished"),
        Walked::Refused(number) => format!("NotWalked {number}"),
    }
}

fn piece(answer: &Walked) -> String {
    walked(answer).trim_start_matches("Found ").to_string()
}

/// Generated transfer files: all pieces, steps from some places, a name and a check; and files over the longest length.
pub fn file_cases(count: usize, seed: u64) -> Vec<Theorem> {
    let mut random = Random::new(seed ^ 0x0066_696c_6573);
    let mut cases = Vec::new();
    for _ in 0..count {
        let file = generate::file(&mut random);
        let pieces: Vec<String> = independent::pieces(&file).iter().map(piece).collect();
        let all =
            if pieces.is_empty() { String::from("[]") } else { format!("({} ∷ [])", pieces.join(" ∷ ")) };
        let mut statement = format!("(pieces {} ≡ {all})", bytes(&file));
        let mut numbers = Vec::new();
        for place in [0, random.below(file.len() + 1), file.len(), file.len() + 1 + random.below(3)] {
            let answer = independent::walk(&file, place);
            numbers.push(if let Walked::Refused(number) = answer { number } else { 0 });
            statement += &format!(" × (walk_at {} {place} ≡ {})", bytes(&file), walked(&answer));
        }
        let block = generate::block(&mut random);
        let name = independent::name(&block, b"stand-in");
        statement += &format!(" × (name_of {} (bytes \"stand-in\") ≡ {})", bytes(&block), bytes(name));
        statement += &format!(" × (check_of 103 {} ≡ {})", bytes(&block), independent::check(&block));
        let mut case = computed("files", numbers, statement);
        case.proof = "(refl, refl, refl, refl, refl, refl, refl)";
        cases.push(case);
    }
    cases.extend([0, 1, 16_777_300].map(too_long));
    cases
}

fn too_long(place: usize) -> Theorem {
    let length = 16_777_217;
    let answer = independent::walk(&vec![b'#'; length], place);
    assert_eq!(answer, Walked::Refused(31));
    let statement = format!("walk_at (repeated {length} 35) {place} ≡ {}", walked(&answer));
    Theorem {
        open: "walk_at",
        proof: "rw (repeated_length 16777217 35)",
        ..computed("files", vec![31], statement)
    }
}
