//! How fast the proved library is, in one run beside a reader tuned by hand without a proof, the independent reader, scans that only count line feeds, and another
//! build of the library if one is given. Ratios are what counts. Run by hand, by `tests/door/bench`; what it prints is explained in docs/BENCHMARK.md.

mod clock;
mod files;
mod places;
mod work;

use std::path::PathBuf;

use clock::{best, each, Seconds};
use files::File;
use work::{Column, Proved};

fn main() {
    let folder = std::env::args_os().nth(1).map(PathBuf::from).expect("no folder: run tests/door/bench");
    let proved = Proved::new(&folder.join("now")).expect("no library: run tests/door/bench");
    let tuned = work::tuned(&folder.join("tuned"));
    println!(
        "Best of at least {} rounds ({} s a work) and of the places; each round runs every column once at each place. MB/s:\n",
        clock::ROUNDS,
        clock::SECONDS
    );
    let files = files::files();
    everything(&files, &proved, &tuned);
    writing(&files[..6], &proved);
    clearing(&files[..6], &proved);
    growth(&proved, &tuned);
    if let Some(other) = Proved::new(&folder.join("other")) {
        beside(&files, &other, &proved, &tuned);
    }
}

const VECTORISED: usize = 0;
const BY_BYTES: usize = 1;
const WALK: usize = 2;
const CHECK: usize = 3;
const READ: usize = 4;
const TUNED: usize = 5;
const INDEPENDENT: usize = 7;

/// The columns in the order of these numbers, over every file: speeds, then their ratios.
fn everything(files: &[File], proved: &Proved, tuned: &Column) {
    let columns = [
        &Column::new("line feeds, vectorised", work::feeds_vectorised),
        &Column::new("line feeds, byte by byte", work::feeds_by_bytes),
        &proved.walk,
        &proved.check,
        &proved.read,
        tuned,
        &Column::new("independent walk", work::independent_walk),
        &Column::new("independent read", work::independent_read),
    ];
    let seconds: Vec<Vec<Seconds>> = files.iter().map(|file| best(&columns, file, 1)).collect();
    let names: Vec<&str> = columns.iter().map(|column| column.name).collect();
    println!("| file | bytes a block | {} | read, blocks/s | tuned, blocks/s |", names.join(" | "));
    println!("|---{}|", "|---".repeat(names.len() + 3));
    for (file, seconds) in files.iter().zip(&seconds) {
        let (bytes, blocks) = (file.bytes.len() as f64, file.blocks.len() as f64);
        let cells = each(seconds, |seconds| format!("{:.0}", bytes / seconds.best / 1e6));
        let a_second = each(&[READ, TUNED], |column| format!("{:.0}", blocks / seconds[*column].best));
        println!("| {} | {:.0} | {cells} | {a_second} |", file.name, bytes / blocks);
    }
    ratios(files, &seconds);
}

/// What the goals are about, and how much the place matters.
fn ratios(files: &[File], seconds: &[Vec<Seconds>]) {
    let shown = [
        ("read / tuned", READ, TUNED),
        ("read / line feeds by bytes", READ, BY_BYTES),
        ("read / line feeds vectorised", READ, VECTORISED),
        ("check / read", CHECK, READ),
        ("walk / line feeds by bytes", WALK, BY_BYTES),
        ("walk / line feeds vectorised", WALK, VECTORISED),
        ("read / independent", READ, INDEPENDENT),
        ("tuned / line feeds by bytes", TUNED, BY_BYTES),
    ];
    let names = shown.map(|ratio| ratio.0).join(" | ");
    println!("\nRatios of these speeds:\n\n| file | {names} | read, worst place / best | tuned, worst place / best |");
    println!("|---{}|", "|---".repeat(shown.len() + 2));
    for (file, seconds) in files.iter().zip(seconds) {
        let cells = each(&shown, |(_, over, under)| ratio(seconds[*under].best, seconds[*over].best));
        let places = each(&[READ, TUNED], |column| ratio(seconds[*column].best, seconds[*column].worst));
        println!("| {} | {cells} | {places} |", file.name);
    }
}

/// Nanoseconds a block of reading and of writing what was read: both together, less the reading alone.
fn writing(files: &[File], proved: &Proved) {
    let columns = [
        &proved.read,
        &proved.read_and_write,
        &Column::new("independent read", work::independent_read),
        &Column::new("independent read and write", work::independent_read_and_write),
    ];
    println!("\nNanoseconds a block:\n\n| file | read | write | independent write | write / read | write / independent write |");
    println!("|---|---|---|---|---|---|");
    for file in files {
        let seconds = best(&columns, file, 1);
        let read = seconds[0].best;
        let (write, independent) = (seconds[1].best - read, seconds[3].best - seconds[2].best);
        let times = each(&[read, write, independent], |seconds| nanoseconds(*seconds, file.blocks.len()));
        println!("| {} | {times} | {} | {} |", file.name, ratio(write, read), ratio(write, independent));
    }
}

/// Nanoseconds a block of clearing the 1,024 floats of the position table, and their share of the reading.
fn clearing(files: &[File], proved: &Proved) {
    let columns = [&proved.read, &Column::new("clearing the positions", work::clear_positions)];
    println!("\nNanoseconds a block:\n\n| file | read | clearing the positions | clearing / read |\n|---|---|---|---|");
    for file in files {
        let seconds = best(&columns, file, 1);
        let times = each(&seconds, |seconds| nanoseconds(seconds.best, file.blocks.len()));
        println!("| {} | {times} | {} |", file.name, ratio(seconds[1].best, seconds[0].best));
    }
}

/// Nanoseconds a byte over files of typical blocks from 1 KB to 16 MB.
fn growth(proved: &Proved, tuned: &Column) {
    let by_bytes = Column::new("line feeds, byte by byte", work::feeds_by_bytes);
    let columns = [&by_bytes, &proved.walk, &proved.check, &proved.read, tuned];
    let names = columns.map(|column| column.name).join(" | ");
    println!("\nNanoseconds a byte:\n\n| typical blocks, bytes | {names} |");
    println!("|---{}|", "|---".repeat(columns.len()));
    for size in [1 << 10, 1 << 13, 1 << 16, 1 << 19, 1 << 22, 1 << 24] {
        let file = files::typical(size);
        let (length, times) = (file.bytes.len(), (1 << 20) / file.bytes.len() + 1);
        let bytes = (times * length) as f64;
        let cells =
            each(&best(&columns, &file, times), |seconds| format!("{:.2}", seconds.best / bytes * 1e9));
        println!("| {length} | {cells} |");
    }
}

/// The other library and this one: nanoseconds a block, and the reading's speed as a ratio to the tuned reader's.
fn beside(files: &[File], other: &Proved, proved: &Proved, tuned: &Column) {
    println!(
        "\nThe other library and this one, nanoseconds a block, and reading's ratio to the tuned reader:\n"
    );
    println!("| file | walk | | check | | read | | write | | read / tuned | |");
    println!("|---|---|---|---|---|---|---|---|---|---|---|");
    for file in files {
        if file.newer && !other.reads_positions {
            println!(
                "| {} | left out: the other library skips the records of coordinates {}|",
                file.name,
                "| ".repeat(9)
            );
            continue;
        }
        let columns: Vec<&Column> =
            [other, proved].into_iter().flat_map(Proved::columns).chain([tuned]).collect();
        let seconds = best(&columns, file, 1);
        let (other, this) = (&seconds[..4], &seconds[4..8]);
        let tuned = seconds[8].best;
        let cell = |seconds: f64| nanoseconds(seconds, file.blocks.len());
        let pairs = each(&[0, 1, 2], |column| {
            format!("{} | {}", cell(other[*column].best), cell(this[*column].best))
        });
        let write = each(&[other, this], |seconds| cell(seconds[3].best - seconds[2].best));
        let ratios = each(&[other, this], |seconds| ratio(tuned, seconds[2].best));
        println!("| {} | {pairs} | {write} | {ratios} |", file.name);
    }
}

fn ratio(over: f64, under: f64) -> String {
    format!("{:.2}", over / under)
}

fn nanoseconds(seconds: f64, blocks: usize) -> String {
    format!("{:.0}", seconds / blocks as f64 * 1e9)
}
