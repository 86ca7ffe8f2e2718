//! What stands beside each sample is what the independent walk, reader and writer say: what the program `walk` must print, and the written forms of the accepted blocks.

use std::fs;
use std::path::Path;

use galebonnet_tests::independent::{pieces, read_table, walk_lines, write, Walked};

/// Calls a function with every sample; there are enough of them.
fn each_sample(mut told: impl FnMut(&Path, &[u8])) {
    let mut samples = 0;
    for sample in fs::read_dir("../samples").expect("samples") {
        let sample = sample.expect("a sample").path();
        if sample.extension().is_some_and(|extension| extension == "jcs") {
            told(&sample, &fs::read(&sample).expect("a sample"));
            samples += 1;
        }
    }
    assert!(samples >= 8, "only {samples} samples");
}

#[test]
fn the_stored_walks_are_the_independent_ones() {
    each_sample(|sample, file| {
        let stored = fs::read_to_string(sample.with_extension("walk")).expect("a stored walk");
        assert_eq!(stored, walk_lines(file), "{}", sample.display());
    });
}

#[test]
fn the_stored_forms_are_the_independent_ones() {
    each_sample(|sample, file| {
        let stored = fs::read(sample.with_extension("canon")).expect("stored forms");
        assert_eq!(stored, forms(file), "{}", sample.display());
    });
}

/// The written forms of a file's accepted blocks.
fn forms(file: &[u8]) -> Vec<u8> {
    let mut forms = Vec::new();
    for piece in pieces(file) {
        let Walked::Block { start, end } = piece else { continue };
        let (mut table, mut buffer) = (vec![0; 3856], vec![0; 32_768]);
        if read_table(&file[start..end], &mut table).number == 0 {
            let written = write(&table, &file[start..end], &mut buffer);
            forms.extend(&buffer[..written.count]);
        }
    }
    forms
}
