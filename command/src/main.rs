//! `galebonnet check FILE..`: which blocks of transfer files are refused, where and why. `galebonnet canon FILE..`: the others in the one written form. Thin, over the
//! C door: no rule of the format stands here.

mod asked;
mod pieces;
mod report;

use std::io::{stderr, stdout, BufWriter, Read, Write};
use std::process::exit;

use asked::{asked, Asked};
use report::Report;

fn main() {
    let asked = asked(std::env::args().skip(1).collect());
    let (mut forms, mut lines) = outputs(&asked);
    let mut report = Report::new(&asked, &mut lines);
    for file in &asked.files {
        match content(file) {
            Ok(bytes) => pieces::all(file, &bytes, &mut report, forms.as_deref_mut()),
            Err(why) => report.unreadable(file, &why),
        }
    }
    let status = report.closed();
    let flushed = lines.flush().is_ok() && forms.is_none_or(|mut forms| forms.flush().is_ok());
    exit(if flushed { status } else { 2 });
}

type Output = Box<dyn Write>;

/// Where the written forms go, if they are asked for, and where the report goes.
fn outputs(asked: &Asked) -> (Option<Output>, Output) {
    let out = Box::new(BufWriter::new(stdout()));
    if asked.canon {
        return (Some(out), Box::new(BufWriter::new(stderr())));
    }
    (None, out)
}

fn content(file: &str) -> std::io::Result<Vec<u8>> {
    if file != "-" {
        return std::fs::read(file);
    }
    let mut bytes = Vec::new();
    std::io::stdin().lock().read_to_end(&mut bytes)?;
    Ok(bytes)
}
