//! The program `walk`: the two files and standard input as bytes, and what is printed for them.

use crate::cell::read_cell;
use crate::recipe::read_recipe;
use crate::single::{plan, Run};
use crate::sizes::{scratch_bytes, Sizes};
use crate::table::Reading;

/// How many bytes of a file are read.
const FILE_BYTES: usize = 8192;

/// How many places the table and the scratch have: entries of the one, bits of the other.
const PLACES: usize = 8192;

/// What is printed for these files, of which a missing one counts as empty, and this standard input.
pub fn walk(cell: Option<&[u8]>, recipe: Option<&[u8]>, input: &[u8]) -> Vec<u8> {
    let mut printed = String::from("position,entry,next\n");
    if let Err(refusal) = try_walk(cell, recipe, input, &mut printed) {
        printed += &format!("refused,{refusal}\n");
    }
    printed.into_bytes()
}

/// Prints the moves until a refusal, a byte that is no digit or the end of the input.
fn try_walk(
    cell: Option<&[u8]>,
    recipe: Option<&[u8]>,
    input: &[u8],
    printed: &mut String,
) -> Result<(), u8> {
    let cell = try_reading(read_cell(start_of(cell)))?;
    let recipe = try_reading(read_recipe(start_of(recipe)))?;
    let mut table = vec![0; PLACES];
    let scratch = scratch_bytes(PLACES as u64) as usize;
    try_call(plan(&cell, &recipe, &mut table, scratch))?;

    let sizes = Sizes::of(&cell, &recipe);
    let position = |run: &Run| sizes.position(run.point, &run.configuration);
    let mut run = Run::fresh();
    for digit in input.iter().take_while(|byte| byte.is_ascii_digit()) {
        let report = run.report(&cell, &recipe, &table, digit - b'0');
        try_call(report.refusal)?;
        let entry = run.next_move(&cell, &recipe, &table).entry;
        let (here, there) = (position(&run), position(&report.run));
        *printed += &format!("{here},{entry},{there}\n");
        run = report.run;
    }
    Ok(())
}

/// The bytes of a file that are read.
fn start_of(file: Option<&[u8]>) -> &[u8] {
    let file = file.unwrap_or(b"");
    &file[..file.len().min(FILE_BYTES)]
}

fn try_reading<Record>(reading: Reading<Record>) -> Result<Record, u8> {
    try_call(reading.refusal.number)?;
    Ok(reading.record)
}

fn try_call(refusal: u8) -> Result<(), u8> {
    match refusal {
        0 => Ok(()),
        refusal => Err(refusal),
    }
}

#[cfg(test)]
mod tests {
    use super::*;
    use crate::cell::CELL_NAMES;
    use crate::fixtures::{BENCH_CELL, BENCH_RECIPE, GATE_LINES, PASTED_END, PASTED_LOOP};
    use crate::recipe::RECIPE_NAMES;
    use crate::table::tests::file_of;

    /// What is printed below the first line for the bench example.
    fn bench(input: &[u8]) -> String {
        let cell = file_of(CELL_NAMES, &BENCH_CELL);
        let recipe = file_of(RECIPE_NAMES, &BENCH_RECIPE);
        lines(Some(&cell), Some(&recipe), input)
    }

    fn lines(cell: Option<&[u8]>, recipe: Option<&[u8]>, input: &[u8]) -> String {
        let printed = String::from_utf8(walk(cell, recipe, input)).expect("the text is ASCII");
        let lines = printed.strip_prefix("position,entry,next\n");
        lines.expect("the names come first").to_string()
    }

    const TO_THE_TEST: &str = "0,50331648,22\n22,33554561,26\n";

    #[test]
    fn the_bench_example() {
        let passed = format!("{TO_THE_TEST}26,50331843,50\n50,50331652,72\n");
        assert_eq!(bench(b"0010"), passed);
        // Other moves than the test ignore the outcome.
        assert_eq!(bench(b"1111"), passed);
        let reworked = format!("{TO_THE_TEST}26,50331843,68\n68,50331652,0\n0,50331648,22\n");
        assert_eq!(bench(b"00000"), reworked);
    }

    #[test]
    fn a_test_with_a_gate() {
        let cell = file_of(CELL_NAMES, &[&BENCH_CELL[..], &GATE_LINES].concat());
        let recipe = file_of(RECIPE_NAMES, &BENCH_RECIPE);
        let walked = |input: &[u8]| lines(Some(&cell), Some(&recipe), input);
        let to_the_test = "0,50331648,28\n28,33554561,32\n";
        let passed = format!("{to_the_test}32,50331971,62\n62,50331652,96\n");
        assert_eq!(walked(b"0010"), passed);
        let failed = format!("{to_the_test}32,50331971,92\n92,50331654,0\n");
        assert_eq!(walked(b"0000"), failed);
        // A gate without its operation line.
        let alone = file_of(CELL_NAMES, &[&BENCH_CELL[..], &["1,1,4,3,0"]].concat());
        assert_eq!(lines(Some(&alone), Some(&recipe), b"0010"), "refused,23\n");
    }

    #[test]
    fn an_unreached_point_is_refused_before_the_first_move() {
        let cell = file_of(CELL_NAMES, &BENCH_CELL);
        for pasted in [&PASTED_END[..], &PASTED_LOOP] {
            let mut points = [&BENCH_RECIPE[..], pasted].concat();
            for (third, refused) in [("2,1,3,1,0,4,0", 22), ("2,1,3,1,0,7,0", 12)] {
                points[2] = third;
                let recipe = file_of(RECIPE_NAMES, &points);
                for input in [&b""[..], b"0010", b"9"] {
                    let printed = lines(Some(&cell), Some(&recipe), input);
                    assert_eq!(printed, format!("refused,{refused}\n"));
                }
            }
        }
    }

    #[test]
    fn a_report_is_refused_in_the_order_of_the_rules() {
        assert_eq!(bench(b"00"), TO_THE_TEST);
        for digit in b'2'..=b'9' {
            assert_eq!(
                bench(&[b'0', b'0', digit, b'0']),
                format!("{TO_THE_TEST}refused,17\n")
            );
            let at_the_end = bench(&[b'0', b'0', b'1', b'0', digit]);
            assert!(at_the_end.ends_with("72\nrefused,17\n"));
        }
        assert!(bench(b"00100").ends_with("72\nrefused,19\n"));
        assert!(bench(b"00101").ends_with("72\nrefused,19\n"));
    }

    #[test]
    fn another_byte_ends_it() {
        for byte in (0..=255).filter(|byte: &u8| !byte.is_ascii_digit()) {
            assert_eq!(bench(&[byte, b'0']), "");
            assert_eq!(bench(&[b'0', b'0', byte, b'0']), TO_THE_TEST);
        }
        assert_eq!(bench(b""), "");
    }

    #[test]
    fn a_missing_file_counts_as_empty_and_the_cell_comes_first() {
        let cell = file_of(CELL_NAMES, &BENCH_CELL);
        let recipe = file_of(RECIPE_NAMES, &BENCH_RECIPE);
        assert_eq!(lines(None, Some(&recipe), b"0"), "refused,1\n");
        assert_eq!(lines(Some(&cell), None, b"0"), "refused,1\n");
        assert_eq!(lines(Some(CELL_NAMES), None, b"0"), "refused,3\n");
    }
}
