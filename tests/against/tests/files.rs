//! The library's readers against the independent program, through the C interface.

use against::generate::{self, Generate};
use against::random::Random;
use against::{
    line_length, line_start, result, same_reading, CellFile, Columns, Format, RecipeFile, TOO_SHORT,
};
use independent::{value_line, value_line_bytes, Refusal};
use std::any::type_name;

const BENCH_CELL: &[u8] = include_bytes!("../../../examples/bench/cell.csv");
const BENCH_RECIPE: &[u8] = include_bytes!("../../../examples/bench/recipe.csv");

/// Files in one run over a format, and how often each refusal must at least be seen among them.
const FILES: usize = 150_000;
const LEAST_SEEN: usize = 200;

/// Value lines that no file has, though one would seem to if a number lost its upper bits or came
/// round to 0.
const FAR_LINES: [usize; 3] = [1 << 32, usize::MAX - 1, usize::MAX];

/// Compares everything that the two say about a file, and gives the refusal.
fn compare<F: Format>(file: &[u8], random: &mut Random) -> u8 {
    let spare = random.choose(&[0, 1, 40]);
    let refusal = compare_reading::<F>(file, spare, random.byte());
    compare_short_buffer::<F>(file, random.below(F::RECORD_BYTES), random.byte());
    let lines = file.iter().filter(|&&byte| byte == b'\n').count();
    let last = lines.saturating_sub(2);
    for n in [0, 1, random.below(lines + 1), last, last + 1]
        .into_iter()
        .chain(FAR_LINES)
    {
        compare_line(file, n);
    }
    refusal
}

/// Reads into a buffer with `spare` bytes past the record, which must stay as they are.
fn compare_reading<F: Format>(file: &[u8], spare: usize, fill: u8) -> u8 {
    let entry = vec![fill; F::RECORD_BYTES + spare];
    let (answer, _) = same_reading(file, &entry, F::library, F::independent);
    (answer % 256) as u8
}

/// Reads into a buffer that is too short, which must stay as it is.
fn compare_short_buffer<F: Format>(file: &[u8], length: usize, fill: u8) {
    let mut record = vec![fill; length];
    let library = F::library(file, &mut record);
    assert!(
        library == u64::from(TOO_SHORT) && record.iter().all(|&byte| byte == fill),
        "the file \"{}\"\ninto {length} bytes of {fill}: refusal {}, line {}, record {record:?}",
        file.escape_ascii(),
        library % 256,
        library / 256
    );
}

fn compare_line(file: &[u8], n: usize) {
    let library = (line_start(file, n), line_length(file, n));
    let independent = value_line(file, n).unwrap_or((0, 0));
    assert!(
        library == independent,
        "the file \"{}\"\nvalue line {n}\nlibrary: start and length {library:?}\nindependent: {independent:?}",
        file.escape_ascii()
    );
    let (start, length) = library;
    assert_eq!(&file[start..start + length], value_line_bytes(file, n));
}

/// The library's refusal and line. The record must be the independent program's too.
fn refusal<F: Format>(file: &[u8]) -> (u64, u64) {
    compare_reading::<F>(file, 1, 0xa5);
    let library = F::library(file, &mut vec![0; F::RECORD_BYTES]);
    (library % 256, library / 256)
}

fn with_lines<F: Format>(lines: &[&str]) -> Vec<u8> {
    let mut file = F::NAMES.to_vec();
    for line in lines {
        file.extend_from_slice(line.as_bytes());
        file.push(b'\n');
    }
    file
}

fn compare_seeded_files<F: Generate + Format>(seed: u64) {
    let mut random = Random::new(seed);
    let mut seen = [0; 256];
    for _ in 0..FILES {
        let file = generate::seeded_file::<F>(F::good_rows, &mut random);
        seen[usize::from(compare::<F>(&file, &mut random))] += 1;
    }
    println!("{}: {} accepted", type_name::<F>(), seen[0]);
    assert!(seen[0] >= FILES / 10, "too few accepted files: {}", seen[0]);
    for &number in F::REFUSALS {
        let times = seen[usize::from(number)];
        println!("{}: {times} refused by rule {number}", type_name::<F>());
        assert!(times >= LEAST_SEEN, "refusal {number} was seen too seldom");
    }
}

#[test]
fn seeded_cell_files() {
    compare_seeded_files::<CellFile>(1);
}

#[test]
fn seeded_recipe_files() {
    compare_seeded_files::<RecipeFile>(2);
}

/// Every file that one changed byte, one missing byte or a cut makes of the bench example.
fn compare_neighbours<F: Format>(file: &[u8]) {
    for at in 0..file.len() {
        for byte in 0..=255 {
            let mut changed = file.to_vec();
            changed[at] = byte;
            compare_reading::<F>(&changed, 0, byte);
        }
        let mut dropped = file.to_vec();
        dropped.remove(at);
        compare_reading::<F>(&dropped, 0, 0xff);
        compare_reading::<F>(&file[..at], 0, 0xff);
        compare_line(&file[..at], 0);
        compare_line(&file[..at], 4);
    }
}

#[test]
fn one_byte_from_the_bench_example() {
    compare_neighbours::<CellFile>(BENCH_CELL);
    compare_neighbours::<RecipeFile>(BENCH_RECIPE);
}

#[test]
fn the_bench_example_is_accepted_with_its_record() {
    let mut record = [0xff; 327];
    assert_eq!(CellFile::library(BENCH_CELL, &mut record), 0);
    let lines = [
        5, 0, 0, 1, 1, 1, 0, 1, 3, 5, 0, 1, 0, 2, 5, 1, 1, 1, 1, 2, 2, 1, 2, 1, 3, 0,
    ];
    assert_eq!(record[..26], lines);
    assert_eq!(record[26..321], [0; 295]);
    assert_eq!(record[321..], [8; 6]);

    let mut record = [0xff; 449];
    assert_eq!(RecipeFile::library(BENCH_RECIPE, &mut record), 0);
    let lines = [
        5, 0, 1, 1, 0, 1, 1, 0, 1, 2, 2, 1, 0, 2, 3, 2, 1, 3, 1, 0, 4, 0, 3, 1, 3, 1, 0, 0, 0, 4,
        0, 0, 0, 0, 0, 0,
    ];
    assert_eq!(record[..36], lines);
    assert_eq!(record[36..], [0; 413]);
}

#[test]
fn worked_examples() {
    let moved_port = [
        "0,0,1,1,1",
        "0,1,3,5,0",
        "1,0,2,6,1",
        "1,1,1,2,2",
        "1,2,1,3,0",
    ];
    let file = with_lines::<CellFile>(&moved_port);
    assert_eq!(refusal::<CellFile>(&file), (6, 3));
    let line = line_start(&file, 1);
    assert_eq!(&file[line..line + line_length(&file, 1)], b"0,1,3,5,0");

    let one_end = with_lines::<RecipeFile>(&["0,0,0,0,0,0,0"]);
    assert_eq!(refusal::<RecipeFile>(&one_end), (0, 0));

    // A cell cannot carry this recipe, which is no matter for the reader.
    let second_test = [
        "0,1,1,0,1,1,0",
        "1,2,2,1,0,2,3",
        "2,1,3,1,0,4,0",
        "3,2,2,1,0,2,2",
        "4,0,0,0,0,0,0",
    ];
    assert_eq!(
        refusal::<RecipeFile>(&with_lines::<RecipeFile>(&second_test)),
        (0, 0)
    );
}

#[test]
fn each_refusal_of_a_cell() {
    let good = "0,0,1,1,1";
    let cases: [(&[&str], (u64, u64)); 20] = [
        (&[], (3, 0)),
        (&[good, "0,0,1,1"], (2, 3)),
        (&[good, "0,0,1,1,1,1"], (2, 3)),
        (&[good, ""], (2, 3)),
        (&[good, "0,0,1,1,1\r"], (2, 3)),
        (&["9,9,9,99,9", "00,0,1,1,1"], (2, 3)),
        (&["2,0,3,1,1", "0,0,1,64,1"], (4, 3)),
        (&["2,0,3,1,1", "0,0,1,99999,1"], (4, 3)),
        (&["2,0,3,1,1", "0,0,1,100000,1"], (2, 3)),
        (&["2,0,3,1,1", good], (5, 0)),
        (&["1,0,3,1,1", good], (6, 2)),
        (&["0,0,2,5,1", "0,0,3,5,1"], (6, 2)),
        (&[good, "1,0,3,9,1", "0,0,2,8,1"], (6, 3)),
        (&[good, "1,0,3,9,1", "0,0,2,9,1"], (0, 0)),
        (&[good, "0,0,5,1,1"], (4, 3)),
        (&[good, "0,0,4,1,7"], (0, 0)),
        (&[good, "0,0,4,2,1"], (23, 3)),
        (&["0,0,4,1,1", "0,0,4,1,0", good], (23, 3)),
        (&["0,0,4,1,1", good, "1,0,3,9,1"], (6, 4)),
        (&["0,0,4,2,1", good, "2,0,4,9,1"], (5, 0)),
    ];
    for (lines, expected) in cases {
        assert_eq!(
            refusal::<CellFile>(&with_lines::<CellFile>(lines)),
            expected,
            "{lines:?}"
        );
    }
    assert_eq!(refusal::<CellFile>(b""), (1, 1));
    assert_eq!(refusal::<CellFile>(b"resource,from,act,arg,to"), (1, 1));
    assert_eq!(refusal::<CellFile>(BENCH_RECIPE), (1, 1));
}

#[test]
fn each_refusal_of_a_recipe() {
    let end = "1,0,0,0,0,0,0";
    let cases: [(&[&str], (u64, u64)); 16] = [
        (&[], (3, 0)),
        (&["0,1,1,1,0,1", end], (2, 2)),
        (&["0,1,1,256,0,1,0", end], (4, 2)),
        (&[end], (7, 2)),
        (&["0,1,1,1,0,1,0", "2,0,0,0,0,0,0"], (7, 3)),
        (&["0,1,1,1,0,1,0", end, "0,1,1,1,0,1,0"], (7, 4)),
        (&["0,1,1,1,0,1,0", end, end], (8, 4)),
        (&["0,1,1,1,0,1,0", "0,1,1,2,0,0,0", end], (8, 3)),
        (&["0,1,1,1,0,1,0", "1,0,0,0,0,0,1"], (9, 3)),
        (&["0,1,1,1,0,1,1", end], (9, 2)),
        (&["0,2,1,1,1,1,1", end], (9, 2)),
        (&["0,2,1,0,0,1,1", end], (10, 2)),
        (&["0,1,1,0,0,1,0", end], (10, 2)),
        (&["0,1,1,1,0,1,0", "0,1,1,5,0,1,0", end], (11, 3)),
        (&["0,1,1,1,0,2,0", end], (12, 2)),
        (&["0,2,1,1,0,1,2", end], (12, 2)),
    ];
    for (lines, expected) in cases {
        assert_eq!(
            refusal::<RecipeFile>(&with_lines::<RecipeFile>(lines)),
            expected,
            "{lines:?}"
        );
    }
    let parallel: Vec<String> = (0..5)
        .map(|part| format!("0,1,1,{},0,0,0", 1 << part))
        .collect();
    let parallel: Vec<&str> = parallel.iter().map(String::as_str).collect();
    assert_eq!(
        refusal::<RecipeFile>(&with_lines::<RecipeFile>(&parallel[..4])),
        (0, 0)
    );
    assert_eq!(
        refusal::<RecipeFile>(&with_lines::<RecipeFile>(&parallel)),
        (8, 6)
    );
    assert_eq!(refusal::<RecipeFile>(BENCH_CELL), (1, 1));
}

/// Each field of each line of a good file, at the top of its range and past it.
fn compare_bounds<F: Generate + Format>(seed: u64) {
    let mut random = Random::new(seed);
    let rows = F::good_rows(&mut random);
    for n in 0..rows.len() {
        for (k, &greatest) in F::GREATEST.iter().enumerate() {
            let tops = [greatest, greatest + 1, 256 + greatest];
            for number in [0, 255, 256, 65536, 99999, 100_000].into_iter().chain(tops) {
                let mut changed = rows.clone();
                changed[n][k] = number;
                let refusal = compare_reading::<F>(&generate::file::<F>(&changed), 0, 0xff);
                if number > 99999 {
                    assert_eq!(refusal, 2);
                } else if number > greatest {
                    assert_eq!(refusal, 4);
                }
            }
        }
    }
}

#[test]
fn numbers_at_and_past_their_bounds() {
    for seed in 0..20 {
        compare_bounds::<CellFile>(seed);
        compare_bounds::<RecipeFile>(seed);
    }
}

#[test]
fn the_longest_files_are_accepted_and_one_line_more_is_not() {
    let mut cell = generate::longest_cell();
    assert_eq!(refusal::<CellFile>(&cell), (0, 0));
    cell.extend_from_slice(b"0,0,0,0,0\n");
    assert_eq!(refusal::<CellFile>(&cell), (3, 0));

    let mut recipe = generate::longest_recipe();
    assert_eq!(refusal::<RecipeFile>(&recipe), (0, 0));
    recipe.extend_from_slice(b"15,0,0,0,0,0,0\n");
    assert_eq!(refusal::<RecipeFile>(&recipe), (3, 0));
}

#[test]
fn line_numbers_past_one_and_two_bytes() {
    for lines in [254, 255, 256, 300, 65_535, 70_000] {
        let mut file = CellFile::NAMES.to_vec();
        file.extend_from_slice(&b"0,0,1,1,1\n".repeat(lines));
        assert_eq!(refusal::<CellFile>(&file), (3, 0));
        compare_line(&file, lines - 1);
        compare_line(&file, lines);
        file.extend_from_slice(b"0,0,1,1\n0\n");
        assert_eq!(refusal::<CellFile>(&file), (2, lines as u64 + 2));
        compare_line(&file, lines);
    }
}

/// A record is written whole or not at all, and nothing past it.
fn compare_buffers<F: Format>(good: &[u8]) {
    let refused = &good[..good.len() - 1];
    for file in [good, refused, b""] {
        for length in [0, 1, F::RECORD_BYTES - 1] {
            compare_short_buffer::<F>(file, length, 0x5a);
        }
        for spare in [0, 1, 1000] {
            compare_reading::<F>(file, spare, 0x5a);
        }
    }
    let mut record = vec![0x5a; F::RECORD_BYTES + 1];
    let line = good.iter().filter(|&&byte| byte == b'\n').count();
    assert_eq!(
        F::library(refused, &mut record),
        result(Refusal { number: 2, line })
    );
    let no_lines = [&generate::record::<F>(&[])[..], &[0x5a]].concat();
    assert_eq!(record, no_lines);
}

#[test]
fn record_buffers_of_every_length() {
    compare_buffers::<CellFile>(BENCH_CELL);
    compare_buffers::<RecipeFile>(BENCH_RECIPE);
    for length in 0..=CellFile::RECORD_BYTES {
        let mut record = vec![0; length];
        let expected = if length < 327 { 14 } else { 0 };
        assert_eq!(CellFile::library(BENCH_CELL, &mut record), expected);
    }
    for length in 0..=RecipeFile::RECORD_BYTES {
        let mut record = vec![0; length];
        let expected = if length < 449 { 14 } else { 0 };
        assert_eq!(RecipeFile::library(BENCH_RECIPE, &mut record), expected);
    }
}

#[test]
fn value_lines_of_good_and_bad_files() {
    let file = b"whatever\n1,2\n\n\r\n3,4\ntail";
    let expected = [(9, 3), (13, 0), (14, 1), (16, 3), (0, 0), (0, 0)];
    for (n, expected) in expected.into_iter().enumerate() {
        assert_eq!(
            (line_start(file, n), line_length(file, n)),
            expected,
            "value line {n}"
        );
    }
    let files: [&[u8]; 7] = [
        b"",
        b"\n",
        b"\n\n",
        b"\n\n\n",
        b"names",
        b"names\n",
        b"names\ntail",
    ];
    for file in files {
        for n in (0..4).chain(FAR_LINES) {
            compare_line(file, n);
        }
    }
}
