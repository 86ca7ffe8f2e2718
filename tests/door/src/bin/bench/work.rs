//! What is measured, each over a whole file. The readers are given the blocks' places, so that the walk is not measured with them.

use std::hint::black_box;
use std::path::Path;

use galebonnet_tests::independent;

use super::files::File;
use super::places::{called, libraries, tuned_readers, Library, Read};

/// A figure of the benchmark: its work at each place that it is linked at.
pub struct Column {
    pub name: &'static str,
    pub works: Vec<Work>,
}

pub type Work = Box<dyn Fn(&File) -> usize>;

impl Column {
    /// A work that is linked at one place only.
    pub fn new(name: &'static str, work: fn(&File) -> usize) -> Column {
        Column { name, works: vec![Box::new(work)] }
    }
}

/// What the proved library does, at each place.
pub struct Proved {
    pub walk: Column,
    pub check: Column,
    pub read: Column,
    pub read_and_write: Column,
    /// False of a library from before the positions: it skips the records of coordinates.
    pub reads_positions: bool,
}

impl Proved {
    /// The library in a folder of its places; none where there is none.
    pub fn new(folder: &Path) -> Option<Proved> {
        let column = |name, work: fn(&Library, &File) -> usize| {
            let at_place = |library| Box::new(move |file: &File| work(&library, file)) as Work;
            Some(Column { name, works: libraries(folder)?.into_iter().map(at_place).collect() })
        };
        Some(Proved {
            walk: column("walk", walk)?,
            check: column("check", check)?,
            read: column("read", read)?,
            read_and_write: column("read and write", read_and_write)?,
            reads_positions: libraries(folder)?.iter().all(Library::reads_positions),
        })
    }

    pub fn columns(&self) -> [&Column; 4] {
        [&self.walk, &self.check, &self.read, &self.read_and_write]
    }
}

/// The tuned reader, at each place.
pub fn tuned(folder: &Path) -> Column {
    let at_place = |read| Box::new(move |file: &File| tuned_read(read, file)) as Work;
    Column { name: "tuned read", works: tuned_readers(folder).into_iter().map(at_place).collect() }
}

/// Line feeds counted by a loop that the compiler turns into vector instructions.
pub fn feeds_vectorised(file: &File) -> usize {
    file.bytes.iter().filter(|byte| **byte == b'\n').count()
}

/// Line feeds looked for one after the other, byte by byte: a search that ends at what it finds is not turned into vector instructions.
pub fn feeds_by_bytes(file: &File) -> usize {
    let (mut count, mut rest) = (0, &file.bytes[..]);
    while let Some(place) = rest.iter().position(|byte| *byte == b'\n') {
        count += 1;
        rest = &rest[place + 1..];
    }
    count
}

fn walk(library: &Library, file: &File) -> usize {
    let (mut place, mut pieces) = (0, 0);
    while let (1 | 2, end) = library.walk(&file.bytes, place) {
        pieces += 1;
        place = end;
    }
    pieces
}

fn check(library: &Library, file: &File) -> usize {
    each_block(file, |block| library.check(block) as usize)
}

/// A structure table and a position table.
fn tables() -> (Vec<i32>, Vec<f64>) {
    (vec![0; 3856], vec![0.0; 1024])
}

fn read(library: &Library, file: &File) -> usize {
    let (mut table, mut positions) = tables();
    each_block(file, |block| library.read(block, &mut table, &mut positions) as usize)
}

fn tuned_read(read: Read, file: &File) -> usize {
    let (mut table, mut positions) = tables();
    each_block(file, |block| called(read, block, &mut table, &mut positions) as usize)
}

/// The 1,024 floats cleared for each block, which every reading does at least once.
pub fn clear_positions(file: &File) -> usize {
    let (_, mut positions) = tables();
    each_block(file, |block| {
        black_box(&mut positions[..]).fill(0.0);
        block.len()
    })
}

pub fn independent_walk(file: &File) -> usize {
    independent::pieces(&file.bytes).len()
}

pub fn independent_read(file: &File) -> usize {
    let (mut table, mut positions) = tables();
    each_block(file, |block| independent::read(block, &mut table, &mut positions).place)
}

/// Each block read, and written from the table that it gave.
fn read_and_write(library: &Library, file: &File) -> usize {
    let ((mut table, mut positions), mut buffer) = (tables(), vec![0; 32_768]);
    each_block(file, |block| {
        library.read(block, &mut table, &mut positions);
        library.write(&table, block, &mut buffer) as usize
    })
}

pub fn independent_read_and_write(file: &File) -> usize {
    let ((mut table, mut positions), mut buffer) = (tables(), vec![0; 32_768]);
    each_block(file, |block| {
        independent::read(block, &mut table, &mut positions);
        independent::write(&table, block, &mut buffer).count
    })
}

fn each_block(file: &File, mut reading: impl FnMut(&[u8]) -> usize) -> usize {
    file.blocks.iter().fold(0, |sum, range| sum.wrapping_add(reading(&file.bytes[range.clone()])))
}
