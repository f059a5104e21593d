//! The limits file: the most parts that a resource may hold. It is read for a cell record, of which its
//! limits become a part.

use crate::cell::{check_cell, Cell, CellReading, LIMIT_RANGE};
use crate::sizes::{Configuration, MOST_RESOURCES};
use crate::table::{read_columns, try_lines, Columns, Reading, Refusal};
use std::ops::RangeInclusive;

/// The names line with its byte 10.
pub const LIMITS_NAMES: &[u8] = b"resource,most\n";

/// Each column's range.
const RANGES: [RangeInclusive<u8>; 2] = [0..=5, LIMIT_RANGE];

/// Reads a limits file for a cell record. The record is checked first, by all of its rules. Accepted, a
/// resource without a line has no limit, whatever it had before; refused, the record stays as it was.
pub fn read_limits(file: &[u8], cell: &Cell) -> CellReading {
    let (refusal, limits) = match read(file, cell) {
        Ok(limits) => (Refusal::NONE, limits),
        Err(refusal) => (refusal, cell.limits),
    };
    Reading {
        refusal,
        record: Cell {
            limits,
            ..cell.clone()
        },
    }
}

fn read(file: &[u8], cell: &Cell) -> Result<[u8; MOST_RESOURCES], Refusal> {
    // The lines of the record are not lines of this file.
    match check_cell(cell).number {
        0 => {}
        number => return Err(Refusal::of_whole(number)),
    }
    let Columns { count, columns } = read_columns(file, LIMITS_NAMES, &RANGES)?;
    let [resource, most] = columns;
    let count = usize::from(count);
    try_lines(20, count, |n| {
        let rises = n == 0 || resource[n] > resource[n - 1];
        usize::from(resource[n]) >= cell.resources() || !rises
    })?;
    let mut limits = Cell::EMPTY.limits;
    for n in 0..count {
        limits[usize::from(resource[n])] = most[n];
    }
    Ok(limits)
}

/// Whether some resource holds more parts than its limit lets it, in a configuration that is there.
pub fn is_overfull(cell: &Cell, configuration: &Configuration) -> bool {
    let mut held = [0; MOST_RESOURCES];
    for &place in &configuration.places {
        // Place 0 is outside the cell.
        if let Some(k) = usize::from(place).checked_sub(1) {
            held[k] += 1;
        }
    }
    held.iter()
        .zip(cell.limits)
        .any(|(&held, most)| held > most)
}

#[cfg(test)]
mod tests {
    use super::*;
    use crate::entry::is_open;
    use crate::fixtures::{alone, cell_of, limited, planned, recipe_of};
    use crate::moves::open_moves;
    use crate::recipe::Recipe;
    use crate::simulation::greatest_simulation;
    use crate::single::Run;
    use crate::sizes::Sizes;
    use crate::table::tests::file_of;

    /// Two resources, of which the first may hold two parts and the second three.
    fn two_stations() -> Cell {
        limited(cell_of(&["0,0,1,1,0", "1,0,1,1,0"]), &[2, 3])
    }

    /// The refusal and its line for a file over this record, which must stay as it was.
    fn refusal(cell: &Cell, file: &[u8]) -> (u8, usize) {
        let reading = read_limits(file, cell);
        assert_ne!(reading.refusal, Refusal::NONE);
        assert_eq!(reading.record, *cell);
        (reading.refusal.number, reading.refusal.line)
    }

    fn refusal_of_lines(lines: &[&str]) -> (u8, usize) {
        refusal(&two_stations(), &file_of(LIMITS_NAMES, lines))
    }

    #[test]
    fn the_file_gives_all_limits_anew() {
        let cell = two_stations();
        for (lines, limits) in [
            (&["1,3"][..], [8, 3, 8, 8, 8, 8]),
            (&["0,1"], [1, 8, 8, 8, 8, 8]),
            (&["0,8", "1,1"], [8, 1, 8, 8, 8, 8]),
        ] {
            let reading = read_limits(&file_of(LIMITS_NAMES, lines), &cell);
            assert_eq!(reading.refusal, Refusal::NONE);
            let expected = Cell {
                limits,
                ..cell.clone()
            };
            assert_eq!(reading.record, expected);
        }
    }

    #[test]
    fn the_first_rules_hold_for_this_file_too() {
        assert_eq!(refusal(&two_stations(), b""), (1, 1));
        assert_eq!(refusal(&two_stations(), b"resource,most"), (1, 1));
        assert_eq!(
            refusal(&two_stations(), b"resource,from,act\n0,1\n"),
            (1, 1)
        );
        assert_eq!(refusal_of_lines(&["0,1,1"]), (2, 2));
        assert_eq!(refusal_of_lines(&["0,1", "1,08"]), (2, 3));
        assert_eq!(refusal(&two_stations(), b"resource,most\n0,1"), (2, 2));
        assert_eq!(refusal_of_lines(&[]), (3, 0));
        assert_eq!(refusal_of_lines(&["0,1"; 65]), (3, 0));
        assert_eq!(refusal_of_lines(&["0,9"; 65]), (3, 0));
        assert_eq!(refusal_of_lines(&["0,1"; 64]), (20, 3));
    }

    #[test]
    fn rule_4_wants_resources_up_to_5_and_limits_from_1_to_8() {
        for bad in ["6,1", "256,1", "1,0", "1,9", "1,256", "1,257", "1,99999"] {
            assert_eq!(refusal_of_lines(&["0,1", bad]), (4, 3), "{bad}");
        }
        assert_eq!(refusal_of_lines(&["2,3", "0,9"]), (4, 3));
    }

    #[test]
    fn rule_20_wants_resources_of_the_cell_that_rise() {
        assert_eq!(refusal_of_lines(&["1,3", "0,2"]), (20, 3));
        assert_eq!(refusal_of_lines(&["1,3", "1,3"]), (20, 3));
        assert_eq!(refusal_of_lines(&["2,3"]), (20, 2));
        assert_eq!(refusal_of_lines(&["5,8"]), (20, 2));
        assert_eq!(refusal_of_lines(&["0,1", "2,3", "1,3"]), (20, 3));
        // A line is held against the one before it, and not against all.
        assert_eq!(refusal_of_lines(&["0,1", "1,3", "2,8"]), (20, 4));
    }

    #[test]
    fn the_record_is_checked_first_and_no_line_is_named() {
        let file = file_of(LIMITS_NAMES, &["2,3"]);
        let mut cell = two_stations();
        let mut expect = |change: fn(&mut Cell), number| {
            change(&mut cell);
            assert_eq!(refusal(&cell, &file), (number, 0));
            assert_eq!(refusal(&cell, b""), (number, 0));
        };
        // Each change breaks a rule before all those that were broken so far.
        expect(|cell| cell.act[1] = 4, 23);
        expect(|cell| cell.limits[2] = 7, 20);
        expect(|cell| cell.act[0] = 3, 6);
        expect(|cell| cell.resource[1] = 3, 5);
        expect(|cell| cell.limits[5] = 9, 4);
        expect(|cell| cell.limits[5] = 0, 4);
        expect(|cell| cell.from[0] = 8, 4);
        expect(|cell| cell.count = 0, 3);
        assert_eq!(refusal(&Cell::EMPTY, &file), (3, 0));
    }

    #[test]
    fn a_station_is_overfull_past_its_limit_and_the_outside_never() {
        let cell = two_stations();
        let overfull = |places: [u8; 8]| {
            let configuration = Configuration {
                places,
                ..Configuration::START
            };
            is_overfull(&cell, &configuration)
        };
        assert!(!overfull([0; 8]));
        assert!(!overfull([1, 1, 2, 2, 2, 0, 0, 0]));
        assert!(!overfull([2, 0, 2, 0, 1, 0, 2, 1]));
        assert!(overfull([1, 1, 1, 0, 0, 0, 0, 0]));
        assert!(overfull([0, 2, 2, 0, 2, 0, 0, 2]));
        let configuration = Configuration {
            places: [1; 8],
            ..Configuration::START
        };
        assert!(!is_overfull(&cell_of(&["0,0,1,1,0"]), &configuration));
    }

    /// What a next-move call and a report answer at a position of a table with this entry there.
    fn answers(cell: &Cell, recipe: &Recipe, position: u64, entry: u32) -> (u8, u32, u8) {
        let sizes = Sizes::of(cell, recipe);
        let (point, configuration) = sizes.at(position);
        let run = Run {
            point,
            configuration,
        };
        let mut table = vec![0; sizes.positions as usize];
        table[position as usize] = entry;
        let next_move = run.next_move(cell, recipe, &table);
        let report = run.report(cell, recipe, &table, 1);
        (next_move.refusal, next_move.entry, report.refusal)
    }

    #[test]
    fn a_nest_for_one_part_does_not_hold_two() {
        let lines = ["0,1,1,0,1,1,0", "1,1,1,0,2,2,0", "2,0,0,0,0,0,0"];
        let recipe = recipe_of(&lines);
        let wide = limited(cell_of(&["0,0,1,1,0"]), &[2]);
        let (refusal, table) = planned(&wide, &recipe);
        assert_eq!((refusal, table.len(), table[11]), (0, 12, 67_108_864));
        let narrow = limited(wide.clone(), &[1]);
        let (refusal, table) = planned(&narrow, &recipe);
        assert_eq!((refusal, table[0], table[11]), (15, 0, 0));
        // The table is filled all the same, and at an end kind 4 is open whatever stands there.
        assert_eq!(table[8..11], [67_108_864; 3]);
        assert_eq!(
            answers(&narrow, &recipe, 11, 67_108_864),
            (0, 67_108_864, 19)
        );
        assert_eq!(answers(&narrow, &recipe, 5, 50_331_648), (18, 0, 18));
        assert_eq!(answers(&wide, &recipe, 5, 50_331_648), (0, 50_331_648, 0));
    }

    #[test]
    fn a_move_that_mends_is_open_and_yet_in_no_plan() {
        let lines = ["0,0,1,1,0", "0,0,3,0,0", "1,0,2,0,0"];
        let cell = limited(cell_of(&lines), &[1]);
        let recipe = recipe_of(&[
            "0,1,1,0,1,1,0",
            "1,1,1,0,2,2,0",
            "2,1,1,0,4,3,0",
            "3,0,0,0,0,0,0",
        ]);
        let (refusal, table) = planned(&cell, &recipe);
        assert_eq!((refusal, table[58]), (0, 0));
        let mends = 33_554_561;
        let (point, configuration) = Sizes::of(&cell, &recipe).at(58);
        assert!(is_overfull(&cell, &configuration));
        assert!(is_open(&cell, &recipe, point, &configuration, mends));
        assert_eq!(answers(&cell, &recipe, 58, mends), (0, mends, 0));
        let joined = alone(&cell, &recipe);
        let moves = open_moves(&cell, &joined, 58);
        let open = moves.iter().find(|open| open.entry == mends);
        let next = open.expect("it is one of the open moves").next;
        assert!(next.iter().all(|&next| table[next] != 0));
        let greatest = greatest_simulation(&cell, &joined);
        assert!(greatest[0] && !greatest[58]);
    }

    #[test]
    fn two_parts_wait_in_a_nest_for_both() {
        let lines = ["0,0,1,1,1", "0,1,3,5,0", "1,0,2,5,0", "1,0,1,2,0"];
        let recipe = recipe_of(&[
            "0,1,1,0,1,1,0",
            "1,1,1,0,2,2,0",
            "2,1,2,3,0,3,0",
            "3,0,0,0,0,0,0",
        ]);
        for (most, refusal) in [(1, 15), (2, 0), (8, 0)] {
            let cell = limited(cell_of(&lines), &[8, most]);
            assert_eq!(planned(&cell, &recipe).0, refusal);
            let greatest = greatest_simulation(&cell, &alone(&cell, &recipe));
            assert_eq!(greatest[0], refusal == 0);
        }
    }
}
