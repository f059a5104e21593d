//! The library's reader of limits against the independent program, through the C interface: over cell
//! records good and damaged.

use against::calls::{Calls, Library};
use against::damage::seeded_cell;
use against::generate::{self, limits_rows, Generate, Rows};
use against::pairs::{limits_leave_range, limits_of, some_limits, Pair, NO_LIMITS};
use against::random::Random;
use against::{same_reading, CellFile, Columns, Format, LimitsFile, RecipeFile, REFUSALS};
use independent::{cell_of_bytes, check_cell, CELL_BYTES, MOST_RESOURCES, NO_LIMIT};

const BENCH_CELL: &[u8] = include_bytes!("../../../examples/bench/cell.csv");
const BENCH_RECIPE: &[u8] = include_bytes!("../../../examples/bench/recipe.csv");

/// Cells in the seeded run and files over each, and how often everything that must be seen is seen at
/// least.
const CELLS: usize = 10_000;
const FILES: usize = 10;
const LEAST_SEEN: usize = 1_000;

/// The act of a gate.
const GATE: u32 = 4;

/// The record of a cell file, which the library must accept, with these limits at its first resources.
fn record_of(file: &[u8], limits: &[u8]) -> Vec<u8> {
    let mut record = vec![0xff; CELL_BYTES];
    assert_eq!(CellFile::library(file, &mut record), 0);
    limits_of(&mut record)[..limits.len()].copy_from_slice(limits);
    record
}

/// The record of a cell with an operation for each of so many resources, with these limits.
fn stations(resources: u32, limits: &[u8]) -> Vec<u8> {
    let rows: Rows = (0..resources).map(|k| vec![k, 0, 1, 1, 0]).collect();
    record_of(&generate::file::<CellFile>(&rows), limits)
}

fn file_of(lines: &[&str]) -> Vec<u8> {
    let lines: String = lines.iter().map(|line| format!("{line}\n")).collect();
    [LimitsFile::NAMES, lines.as_bytes()].concat()
}

/// Reads a file for the record in a buffer, and compares what both readers say and leave there. The
/// refusal and the line.
fn compare(file: &[u8], cell: &[u8]) -> (u64, u64) {
    let (answer, after) = same_reading(file, cell, LimitsFile::library, LimitsFile::independent);
    assert_kept(answer, cell, &after);
    (answer % 256, answer / 256)
}

/// Wants everything as it was, but for the limits if the file was accepted.
fn assert_kept(result: u64, before: &[u8], after: &[u8]) {
    let limits = match result {
        0 => CELL_BYTES - MOST_RESOURCES..CELL_BYTES,
        _ => 0..0,
    };
    for at in (0..before.len()).filter(|at| !limits.contains(at)) {
        assert_eq!(before[at], after[at], "byte {at}");
    }
}

/// The limits that the library reads for a record, which must accept the file.
fn limits_read(file: &[u8], cell: &[u8]) -> Vec<u8> {
    assert_eq!(compare(file, cell), (0, 0));
    let mut cell = cell.to_vec();
    LimitsFile::library(file, &mut cell);
    limits_of(&mut cell).to_vec()
}

/// What was seen in the seeded run.
#[derive(Default)]
struct Seen {
    accepted: usize,
    /// Accepted files after which a resource has no limit that had one before.
    lifted: usize,
    /// Refusals of the file and of the record, by their number.
    of_file: [usize; REFUSALS],
    of_record: [usize; REFUSALS],
    /// Refusals 4 of a record for a limit alone.
    limit_past_range: usize,
    /// Refusals 20 of a file at the first value line and later.
    lines_of_20: [usize; 2],
}

impl Seen {
    fn note(&mut self, file: &[u8], buffer: &[u8], (refusal, line): (u64, u64)) {
        let cell = cell_of_bytes(buffer);
        let refusal = refusal as usize;
        if check_cell(&cell).number != 0 {
            self.of_record[refusal] += 1;
            self.limit_past_range += usize::from(limits_leave_range(&cell));
        } else if refusal != 0 {
            self.of_file[refusal] += 1;
            if refusal == 20 {
                self.lines_of_20[usize::from(line > 2)] += 1;
            }
        } else {
            self.accepted += 1;
            let after = limits_read(file, buffer);
            let lifted = |(&before, &after)| before < NO_LIMIT && after == NO_LIMIT;
            self.lifted += usize::from(cell.limits.iter().zip(&after).any(lifted));
        }
    }

    fn judge(&self) {
        println!(
            "accepted {}, of these lifted {}",
            self.accepted, self.lifted
        );
        println!("refused for the file {:?}", self.of_file);
        println!("refused for the record {:?}", self.of_record);
        println!("4 for a limit alone {}", self.limit_past_range);
        println!("20 at the first line and later {:?}", self.lines_of_20);
        let mut counts = vec![self.accepted, self.lifted, self.limit_past_range];
        counts.extend(self.lines_of_20);
        counts.extend([1, 2, 3, 4, 20].map(|n: usize| self.of_file[n]));
        counts.extend([3, 4, 5, 6, 20, 23].map(|n: usize| self.of_record[n]));
        assert!(
            counts.iter().all(|&times| times >= LEAST_SEEN),
            "{counts:?}"
        );
    }
}

/// A cell of any shape, half of the time with limits.
fn seeded_pair(random: &mut Random) -> Pair {
    let cell = CellFile::good_rows(random);
    let limits = match random.coin() {
        true => some_limits(resources_of(&cell), random),
        false => NO_LIMITS,
    };
    Pair {
        cell,
        limits,
        recipes: vec![],
    }
}

fn resources_of(cell: &Rows) -> usize {
    1 + cell.iter().map(|row| row[0]).max().unwrap_or(0) as usize
}

/// A file for a cell, mostly one for as many resources as this has.
fn seeded_file(pair: &Pair, random: &mut Random) -> Vec<u8> {
    let rows = |random: &mut Random| match random.below(8) {
        0 => LimitsFile::good_rows(random),
        _ => limits_rows(resources_of(&pair.cell), random),
    };
    generate::seeded_file::<LimitsFile>(rows, random)
}

/// A buffer with a cell's record, good or damaged, and some bytes past it.
fn seeded_buffer(pair: &Pair, random: &mut Random) -> Vec<u8> {
    let mut buffer = seeded_cell(pair, random);
    let spare = random.choose(&[0, 1, 40]);
    if buffer.len() >= CELL_BYTES {
        buffer.extend((0..spare).map(|_| random.byte()));
    }
    buffer
}

#[test]
fn seeded_limits_files() {
    let mut random = Random::new(5);
    let mut seen = Seen::default();
    let mut gated = 0;
    for _ in 0..CELLS {
        let pair = seeded_pair(&mut random);
        gated += usize::from(pair.cell.iter().any(|row| row[2] == GATE));
        for _ in 0..FILES {
            let file = seeded_file(&pair, &mut random);
            let buffer = seeded_buffer(&pair, &mut random);
            let answer = compare(&file, &buffer);
            seen.note(&file, &buffer, answer);
        }
    }
    println!("{gated} cells with gates");
    assert!(3 * gated >= CELLS);
    seen.judge();
}

#[test]
fn limits_are_read_anew() {
    let cell = stations(2, &[2, 3]);
    for (lines, limits) in [
        (&["1,3"][..], [8, 3, 8, 8, 8, 8]),
        (&["0,1"], [1, 8, 8, 8, 8, 8]),
        (&["0,8", "1,7"], [8, 7, 8, 8, 8, 8]),
    ] {
        assert_eq!(limits_read(&file_of(lines), &cell), limits);
    }
    let all = ["0,1", "1,2", "2,3", "3,4", "4,5", "5,6"];
    assert_eq!(
        limits_read(&file_of(&all), &stations(6, &[])),
        [1, 2, 3, 4, 5, 6]
    );
}

#[test]
fn each_refusal_of_a_limits_file() {
    let cell = stations(2, &[2, 3]);
    let cases: [(&[&str], (u64, u64)); 15] = [
        (&[], (3, 0)),
        (&["0,1"; 65], (3, 0)),
        (&["0,9"; 65], (3, 0)),
        (&["0,1"; 64], (20, 3)),
        (&["0,1", "1"], (2, 3)),
        (&["0,1", "1,2,3"], (2, 3)),
        (&["0,1", "1,01"], (2, 3)),
        (&["6,1"], (4, 2)),
        (&["0,0"], (4, 2)),
        (&["0,1", "1,9"], (4, 3)),
        (&["2,3", "0,9"], (4, 3)),
        (&["1,3", "0,2"], (20, 3)),
        (&["1,3", "1,3"], (20, 3)),
        (&["2,3"], (20, 2)),
        (&["0,1", "1,1", "2,1", "9,1", "x"], (2, 6)),
    ];
    for (lines, expected) in cases {
        assert_eq!(compare(&file_of(lines), &cell), expected, "{lines:?}");
    }
    for other in [&b""[..], b"resource,most", BENCH_CELL, BENCH_RECIPE] {
        assert_eq!(compare(other, &cell), (1, 1));
    }
}

#[test]
fn every_file_of_one_line_or_two() {
    let numbers = (0..=6).flat_map(|resource| (0..=9).map(move |most| (resource, most)));
    let lines: Vec<String> = numbers.map(|(k, most)| format!("{k},{most}")).collect();
    let lines: Vec<&str> = lines.iter().map(String::as_str).collect();
    let mut accepted = 0;
    for resources in 1..=6 {
        let cell = stations(resources, &[7]);
        for first in &lines {
            accepted += usize::from(compare(&file_of(&[first]), &cell) == (0, 0));
            for second in &lines {
                let file = file_of(&[first, second]);
                accepted += usize::from(compare(&file, &cell) == (0, 0));
            }
        }
    }
    // Eight limits for each resource that is there, and for each two of them in their order.
    let all = (1..=6).map(|r| 8 * r + 64 * r * (r - 1) / 2).sum();
    assert_eq!(accepted, all);
}

/// Every file that one changed byte, one missing byte or a cut makes of a good one.
fn compare_neighbours(file: &[u8], cell: &[u8]) {
    assert_eq!(compare(file, cell), (0, 0));
    for at in 0..file.len() {
        for byte in 0..=255 {
            let mut changed = file.to_vec();
            changed[at] = byte;
            compare(&changed, cell);
        }
        let mut dropped = file.to_vec();
        dropped.remove(at);
        compare(&dropped, cell);
        compare(&file[..at], cell);
    }
}

#[test]
fn one_byte_from_a_good_file() {
    compare_neighbours(&file_of(&["0,2", "1,3"]), &record_of(BENCH_CELL, &[5, 1]));
    let all = ["0,1", "1,2", "2,3", "3,4", "4,5", "5,6"];
    compare_neighbours(&file_of(&all), &stations(6, &[8, 8, 1, 2, 3, 4]));
    compare_neighbours(&file_of(&["1,8", "2,1"]), &stations(4, &[]));
}

#[test]
fn one_byte_from_a_good_record() {
    let good = file_of(&["0,2", "1,3"]);
    let bad = file_of(&["0,2", "2,3"]);
    let cell = record_of(BENCH_CELL, &[5, 1]);
    // The lines and one more, which counts for nothing, and the limits.
    for at in (0..1 + 6 * 5).chain(CELL_BYTES - MOST_RESOURCES..CELL_BYTES) {
        for byte in 0..=255 {
            let mut changed = cell.clone();
            changed[at] = byte;
            compare(&good, &changed);
            compare(&bad, &changed);
        }
    }
}

#[test]
fn record_buffers_of_every_length() {
    let longer = [&record_of(BENCH_CELL, &[5, 1])[..], &[0x5a; 20]].concat();
    for length in 0..=longer.len() {
        for (lines, expected) in [(&["0,2", "1,3"][..], (0, 0)), (&["2,3"], (20, 2))] {
            let short = length < 327;
            let answer = compare(&file_of(lines), &longer[..length]);
            assert_eq!(answer, if short { (3, 0) } else { expected });
        }
        let answer = compare(b"", &longer[..length]);
        assert_eq!(answer, if length < 327 { (3, 0) } else { (1, 1) });
    }
}

#[test]
fn rules_are_tried_in_their_order_and_the_record_first() {
    let mut file = file_of(&["0,2", "1,3"]);
    let mut cell = record_of(BENCH_CELL, &[5, 1]);
    let limits = CELL_BYTES - MOST_RESOURCES;
    assert_eq!(compare(&file, &cell), (0, 0));
    // Each change breaks a rule before all those that were broken so far.
    file.extend_from_slice(b"2,4\n");
    assert_eq!(compare(&file, &cell), (20, 4));
    file.extend_from_slice(b"0,9\n");
    assert_eq!(compare(&file, &cell), (4, 5));
    file.extend_from_slice(&b"0,0\n".repeat(61));
    assert_eq!(compare(&file, &cell), (3, 0));
    file.extend_from_slice(b"0\n");
    assert_eq!(compare(&file, &cell), (2, 67));
    file[0] = b'R';
    assert_eq!(compare(&file, &cell), (1, 1));
    // Cell line 3 a gate without its operation line; a limit of a resource that isn't there; line 2 with
    // another port; line 4 of a resource with a gap before it; a limit out of range; line 2 of no act; too
    // many lines; too few bytes.
    for (at, number, refusal) in [
        (18, 4, 23),
        (limits + 5, 7, 20),
        (14, 6, 6),
        (21, 3, 5),
        (limits, 9, 4),
        (13, 5, 4),
        (0, 65, 3),
    ] {
        cell[at] = number;
        assert_eq!(compare(&file, &cell), (refusal, 0));
    }
    cell.truncate(CELL_BYTES - 1);
    assert_eq!(compare(&file, &cell), (3, 0));
}

#[test]
fn limits_in_a_record_of_one_resource() {
    let mut recipe = vec![0; RecipeFile::RECORD_BYTES];
    assert_eq!(RecipeFile::library(BENCH_RECIPE, &mut recipe), 0);
    let file = file_of(&["0,4"]);
    let refusals = |k: usize, most: u8| {
        let mut cell = stations(1, &[]);
        limits_of(&mut cell)[k] = most;
        let refusal = Library::check(&cell, &recipe);
        assert_eq!(compare(&file, &cell), (refusal.into(), 0));
        refusal
    };
    for most in 0..=255 {
        let in_range = (1..=8).contains(&most);
        assert_eq!(refusals(0, most), if in_range { 0 } else { 4 });
        for k in 1..6 {
            let expected = match most {
                8 => 0,
                _ if in_range => 20,
                _ => 4,
            };
            assert_eq!(refusals(k, most), expected);
        }
    }
}

#[test]
fn line_numbers_past_one_and_two_bytes() {
    for lines in [254, 255, 256, 300, 65_535, 70_000] {
        let mut file = LimitsFile::NAMES.to_vec();
        file.extend_from_slice(&b"0,1\n".repeat(lines));
        let cell = stations(2, &[]);
        assert_eq!(compare(&file, &cell), (3, 0));
        file.extend_from_slice(b"0\n0\n");
        assert_eq!(compare(&file, &cell), (2, lines as u64 + 2));
    }
}
