//! The clock: the least processor time of several rounds, the works of a round one after the other, so that what disturbs the machine disturbs all of them.

use std::hint::black_box;
use std::time::Instant;

use super::files::File;
use super::work::{Column, Work};

/// At least so many rounds, and on until so many seconds have passed for each work at each place.
pub const ROUNDS: usize = 11;
pub const SECONDS: f64 = 0.3;

/// The least seconds that each column took over a file read so many times: at its best place and at its worst.
pub fn best(columns: &[&Column], file: &File, times: usize) -> Vec<Seconds> {
    let mut least: Vec<Vec<f64>> = columns.iter().map(|column| vec![f64::MAX; column.works.len()]).collect();
    let works: usize = columns.iter().map(|column| column.works.len()).sum();
    let (start, mut rounds) = (Instant::now(), 0);
    while rounds < ROUNDS || start.elapsed().as_secs_f64() < SECONDS * works as f64 {
        rounds += 1;
        for (column, least) in columns.iter().zip(&mut least) {
            for (work, least) in column.works.iter().zip(least) {
                *least = least.min(taken(work, file, times));
            }
        }
    }
    let places = |least: &Vec<f64>| Seconds {
        best: least.iter().copied().fold(f64::MAX, f64::min),
        worst: least.iter().copied().fold(0.0, f64::max),
    };
    least.iter().map(places).collect()
}

/// Least times of one column.
pub struct Seconds {
    pub best: f64,
    pub worst: f64,
}

/// The seconds that one work took.
fn taken(work: &Work, file: &File, times: usize) -> f64 {
    let began = processor_seconds();
    for _ in 0..times {
        black_box(work(black_box(file)));
    }
    processor_seconds() - began
}

/// Seconds and nanoseconds, as the C library tells them.
#[repr(C)]
struct Time {
    seconds: i64,
    nanoseconds: i64,
}

extern "C" {
    fn clock_gettime(clock: i32, time: *mut Time) -> i32;
}

/// CLOCK_THREAD_CPUTIME_ID: the time that other programs take on the same processor does not count.
const THREAD: i32 = 3;

fn processor_seconds() -> f64 {
    let mut time = Time { seconds: 0, nanoseconds: 0 };
    // SAFETY: the time is lent for the call, and has the layout of C's on every 64-bit Linux.
    let failed = unsafe { clock_gettime(THREAD, &mut time) };
    assert_eq!(failed, 0, "no clock of the thread's processor time");
    time.seconds as f64 + time.nanoseconds as f64 / 1e9
}

/// Cells of a table's row.
pub fn each<Value>(values: &[Value], shown: impl Fn(&Value) -> String) -> String {
    values.iter().map(shown).collect::<Vec<String>>().join(" | ")
}
