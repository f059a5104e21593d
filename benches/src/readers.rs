//! The readers of the cell, recipe and limits files. The independent program's record is turned into the
//! same bytes.

use crate::best_times;
use against::generate::{longest_cell, longest_recipe, overlong_cell};
use against::{CellFile, Format, LimitsFile, RecipeFile};
use std::hint::black_box;
use std::time::{Duration, Instant};

/// The longest limits file that is accepted.
const LIMITS: &[u8] = b"resource,most\n0,1\n1,2\n2,3\n3,4\n4,5\n5,6\n";

type Reader = fn(&[u8], &mut [u8]) -> u64;

pub fn measure_all() {
    println!(
        "{:<44} {:>9} {:>9} {:>12} {:>12} {:>6}",
        "file", "bytes", "answer", "library", "independent", "ratio"
    );
    measure_format::<CellFile>("longest accepted cell, 64 lines", &longest_cell());
    measure_format::<CellFile>(
        "cell of good form, over 64 lines, 8 KB",
        &overlong_cell(8 << 10),
    );
    measure_format::<CellFile>(
        "cell of good form, over 64 lines, 64 MB",
        &overlong_cell(64 << 20),
    );
    measure_format::<RecipeFile>("longest accepted recipe, 64 lines", &longest_recipe());
    measure_limits();
}

/// Measures a file of which the reader makes a record.
fn measure_format<F: Format>(name: &str, file: &[u8]) {
    let record = vec![0; F::RECORD_BYTES];
    measure(name, [F::library, F::independent], file, record);
}

/// Measures the limits file over the record of the longest cell, all of whose rules the reader tries first.
fn measure_limits() {
    let mut cell = vec![0; CellFile::RECORD_BYTES];
    assert_eq!(CellFile::library(&longest_cell(), &mut cell), 0);
    let name = "limits of six stations, 64-line cell";
    let readers = [LimitsFile::library, LimitsFile::independent];
    measure(name, readers, LIMITS, cell);
}

/// Prints one line: the file, both readers' answer to it, and each one's time for a byte of it.
fn measure(name: &str, [library, independent]: [Reader; 2], file: &[u8], mut record: Vec<u8>) {
    let answer = library(file, &mut record);
    let mut other = record.clone();
    assert_eq!(answer, independent(file, &mut other), "{name}");

    let [library, independent] = best_times([
        &mut |calls| time(library, calls, file, &mut record),
        &mut |calls| time(independent, calls, file, &mut other),
    ])
    .map(|call| call / file.len() as f64);
    let answer = match answer % 256 {
        0 => "accepted".to_string(),
        number => format!("refused {number}"),
    };
    println!(
        "{name:<44} {:>9} {answer:>9} {library:>7.3} ns/B {independent:>7.3} ns/B {:>6.2}",
        file.len(),
        library / independent
    );
}

fn time(reader: Reader, calls: usize, file: &[u8], record: &mut [u8]) -> Duration {
    let start = Instant::now();
    for _ in 0..calls {
        black_box(reader(black_box(file), black_box(record)));
    }
    start.elapsed()
}
