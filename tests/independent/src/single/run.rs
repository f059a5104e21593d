//! The run over a stored table of one recipe, as `walk` follows it.

use super::try_records;
use crate::cell::Cell;
use crate::entry::{is_open, makes};
use crate::recipe::{Recipe, END};
use crate::run::{NextMove, Place, NO_PLACE};
use crate::sizes::{Configuration, Sizes};

/// A point and a configuration.
#[derive(Clone, Copy, Debug, PartialEq, Eq)]
pub struct Run {
    pub point: u8,
    pub configuration: Configuration,
}

/// The answer of a report: a refusal with its own run, or refusal 0 with the next run.
#[derive(Clone, Copy, Debug, PartialEq, Eq)]
pub struct Report {
    pub refusal: u8,
    pub run: Run,
}

impl Run {
    /// The run at point 0 in the starting configuration.
    pub fn fresh() -> Run {
        Run {
            point: 0,
            configuration: Configuration::START,
        }
    }

    /// Gives the entry at the run's position.
    pub fn next_move(&self, cell: &Cell, recipe: &Recipe, table: &[u32]) -> NextMove {
        let entry = self.try_entry(cell, recipe, table).and_then(|entry| {
            let open = is_open(cell, recipe, self.point, &self.configuration, entry);
            open.then_some(entry).ok_or(18)
        });
        match entry {
            Ok(entry) => NextMove { refusal: 0, entry },
            Err(refusal) => NextMove { refusal, entry: 0 },
        }
    }

    /// Makes the move at the run's position and gives the next run.
    pub fn report(self, cell: &Cell, recipe: &Recipe, table: &[u32], outcome: u8) -> Report {
        match self.next(cell, recipe, table, outcome) {
            Ok(run) => Report { refusal: 0, run },
            Err(refusal) => Report { refusal, run: self },
        }
    }

    fn next(&self, cell: &Cell, recipe: &Recipe, table: &[u32], outcome: u8) -> Result<Run, u8> {
        let entry = self.try_entry(cell, recipe, table)?;
        if outcome > 1 {
            return Err(17);
        }
        let Run {
            point,
            configuration,
        } = self;
        let made = makes(cell, recipe, *point, configuration, entry, outcome);
        let (next, configuration) = made.ok_or(18)?;
        if recipe.kind_at(*point) == END {
            return Err(19);
        }
        Ok(Run {
            point: next,
            configuration,
        })
    }

    /// Gives a part's place.
    pub fn place(&self, cell: &Cell, recipe: &Recipe, part: u8) -> Place {
        let sizes = try_records(cell, recipe).and_then(|sizes| self.try_run(sizes));
        match sizes {
            Ok(sizes) if usize::from(part) < sizes.parts => Place {
                refusal: 0,
                place: self.configuration.places[usize::from(part)],
            },
            refused => Place {
                refusal: refused.err().unwrap_or(0),
                place: NO_PLACE,
            },
        }
    }

    /// The entry at the run's position, unless one of the rules up to 16 is broken.
    fn try_entry(&self, cell: &Cell, recipe: &Recipe, table: &[u32]) -> Result<u32, u8> {
        let sizes = try_records(cell, recipe)?;
        if (table.len() as u64) < sizes.positions {
            return Err(14);
        }
        let sizes = self.try_run(sizes)?;
        let position = sizes.position(self.point, &self.configuration);
        Ok(table[position as usize])
    }

    /// Rule 16.
    fn try_run(&self, sizes: Sizes) -> Result<Sizes, u8> {
        if sizes.holds(self.point, &self.configuration) {
            Ok(sizes)
        } else {
            Err(16)
        }
    }
}

#[cfg(test)]
mod tests {
    use super::super::check;
    use super::*;
    use crate::fixtures::{
        bench, bench_table, bench_with, cell_of, gate, limit, limit_with_a_fifth_state, planned,
        recipe_of, BENCH_CELL, PASTED_END, PASTED_LOOP,
    };
    use crate::generate::without_photocells;

    /// The run at a position of the bench example.
    fn run_at(position: u64) -> Run {
        let (cell, recipe) = bench();
        let (point, configuration) = Sizes::of(&cell, &recipe).at(position);
        Run {
            point,
            configuration,
        }
    }

    /// What a next-move call and a report with each outcome say at a position of the bench example.
    fn refusals(table: &[u32], run: Run) -> [u8; 4] {
        let (cell, recipe) = bench();
        let next_move = run.next_move(&cell, &recipe, table);
        assert!(next_move.refusal == 0 || next_move.entry == 0);
        let reports = [0, 1, 2].map(|outcome| {
            let report = run.report(&cell, &recipe, table, outcome);
            assert!(report.refusal == 0 || report.run == run);
            report.refusal
        });
        [next_move.refusal, reports[0], reports[1], reports[2]]
    }

    #[test]
    fn the_four_moves_of_the_bench_example() {
        let (cell, recipe) = bench();
        let sizes = Sizes::of(&cell, &recipe);
        let table = bench_table();
        let mut run = Run::fresh();
        let moves = [
            (0, 50_331_648, 0, 22),
            (22, 33_554_561, 0, 26),
            (26, 50_331_843, 1, 50),
            (50, 50_331_652, 0, 72),
        ];
        for (position, entry, outcome, next) in moves {
            assert_eq!(sizes.position(run.point, &run.configuration), position);
            let answer = run.next_move(&cell, &recipe, &table);
            assert_eq!(answer, NextMove { refusal: 0, entry });
            let report = run.report(&cell, &recipe, &table, outcome);
            assert_eq!(report.refusal, 0);
            run = report.run;
            assert_eq!(sizes.position(run.point, &run.configuration), next);
        }
        let end = run.next_move(&cell, &recipe, &table);
        assert_eq!((end.refusal, end.entry), (0, 67_108_864));
        assert_eq!(refusals(&table, run), [0, 19, 19, 17]);
    }

    #[test]
    fn a_recipe_with_an_unreached_point_is_run_with_a_stored_table() {
        for pasted in [&PASTED_END[..], &PASTED_LOOP] {
            let (cell, recipe) = bench_with(pasted);
            assert_eq!(check(&cell, &recipe), 0);
            let mut table = bench_table();
            table.resize(Sizes::of(&cell, &recipe).positions as usize, 67_108_864);
            let mut run = Run::fresh();
            for (outcome, next) in [(0, 22), (0, 26), (1, 50), (0, 72)] {
                assert_eq!(run.next_move(&cell, &recipe, &table).refusal, 0);
                assert_eq!(run.place(&cell, &recipe, 0).refusal, 0);
                let report = run.report(&cell, &recipe, &table, outcome);
                assert_eq!((report.refusal, report.run), (0, run_at(next)));
                run = report.run;
            }
            assert_eq!(run.report(&cell, &recipe, &table, 1).refusal, 19);
            // A run at the forgotten point is one as any other.
            run.point = 5;
            let at_end = pasted.len() == 1;
            let next_move = run.next_move(&cell, &recipe, &table);
            assert_eq!(next_move.refusal, if at_end { 0 } else { 18 });
        }
    }

    #[test]
    fn a_failed_test_leads_to_68_and_that_to_the_start() {
        let (cell, recipe) = bench();
        let table = bench_table();
        let failed = run_at(26).report(&cell, &recipe, &table, 0);
        assert_eq!((failed.refusal, failed.run), (0, run_at(68)));
        for outcome in [0, 1] {
            let again = failed.run.report(&cell, &recipe, &table, outcome);
            assert_eq!((again.refusal, again.run), (0, Run::fresh()));
        }
    }

    #[test]
    fn a_stored_move_of_an_empty_pallet_is_no_longer_open() {
        // At 23 the part is at station 1 already, and the pallet of station 0 would follow it.
        let mut table = bench_table();
        table[23] = 33_554_561;
        assert_eq!(refusals(&table, run_at(23)), [18, 18, 18, 17]);
        assert_eq!(refusals(&table, run_at(22)), [0, 0, 0, 17]);
        // Without a photocell it is open as before.
        let (cell, recipe) = bench();
        let free = without_photocells(&cell);
        let next_move = run_at(23).next_move(&free, &recipe, &table);
        assert_eq!((next_move.refusal, next_move.entry), (0, 33_554_561));
        let report = run_at(23).report(&free, &recipe, &table, 0);
        assert_eq!((report.refusal, report.run), (0, run_at(26)));
        // That is what the planner left there.
        assert_eq!(planned(&free, &recipe).1[23], 33_554_561);
    }

    #[test]
    fn a_test_with_a_gate_leaves_its_station_elsewhere_on_outcome_0() {
        let (cell, recipe) = gate();
        let (_, table) = planned(&cell, &recipe);
        let to_the_test = [0, 0].iter().fold(Run::fresh(), |run, &outcome| {
            let report = run.report(&cell, &recipe, &table, outcome);
            assert_eq!(report.refusal, 0);
            report.run
        });
        let next_move = |run: Run| run.next_move(&cell, &recipe, &table).entry;
        assert_eq!(next_move(to_the_test), 50_331_971);
        for (outcome, point, state, entry) in [(1, 2, 2, 50_331_652), (0, 3, 3, 50_331_654)] {
            let Report { refusal, run } = to_the_test.report(&cell, &recipe, &table, outcome);
            assert_eq!(
                (refusal, run.point, run.configuration.states[1]),
                (0, point, state)
            );
            assert_eq!(run.configuration.places, to_the_test.configuration.places);
            assert_eq!(next_move(run), entry);
            let next = run.report(&cell, &recipe, &table, 1 - outcome);
            assert_eq!(
                (next.refusal, next.run.configuration),
                (0, Configuration::START)
            );
        }
    }

    #[test]
    fn an_entry_of_a_test_from_before_gates_is_open_for_line_0_alone() {
        // The letter b was unused, and so it was 0.
        for (cell, entry) in [
            (["0,0,1,2,0", "0,0,1,1,0"], 50_331_648),
            (["0,0,1,1,0", "0,0,1,2,0"], 50_331_649),
        ] {
            let recipe = recipe_of(&["0,1,1,0,1,1,0", "1,2,2,1,0,2,2", "2,0,0,0,0,0,0"]);
            let at_line_0 = entry == 50_331_648;
            for gate in [false, true] {
                let lines = [&cell[..], &["0,0,4,2,0"]].concat();
                let cell = cell_of(&lines[..2 + usize::from(gate)]);
                let (_, mut table) = planned(&cell, &recipe);
                let mut run = Run::fresh();
                (run.point, run.configuration.places[0]) = (1, 1);
                assert_eq!(run.report(&cell, &recipe, &table, 0).refusal, 0);
                table[3] = entry;
                let refusal = if at_line_0 && !gate { 0 } else { 18 };
                assert_eq!(run.next_move(&cell, &recipe, &table).refusal, refusal);
                assert_eq!(run.report(&cell, &recipe, &table, 0).refusal, refusal);
            }
        }
    }

    #[test]
    fn rule_13_at_the_limit() {
        let (cell, recipe) = limit();
        assert_eq!(check(&cell, &recipe), 0);
        assert_eq!(Run::fresh().place(&cell, &recipe, 4).refusal, 0);
        let (cell, recipe) = limit_with_a_fifth_state();
        assert_eq!(check(&cell, &recipe), 13);
        assert_eq!(Run::fresh().next_move(&cell, &recipe, &[]).refusal, 13);
        assert_eq!(Run::fresh().report(&cell, &recipe, &[], 9).refusal, 13);
        let place = Run::fresh().place(&cell, &recipe, 4);
        assert_eq!((place.refusal, place.place), (13, 255));
    }

    #[test]
    fn the_cell_is_judged_before_the_recipe_and_both_before_the_rest() {
        let (mut cell, mut recipe) = bench();
        cell.arg[2] = 6;
        recipe.count = 0;
        let answers = |cell: &Cell, recipe: &Recipe| {
            let mut run = Run::fresh();
            run.point = 99;
            [
                check(cell, recipe),
                run.next_move(cell, recipe, &[]).refusal,
                run.report(cell, recipe, &[], 9).refusal,
                run.place(cell, recipe, 0).refusal,
            ]
        };
        assert_eq!(answers(&cell, &recipe), [6; 4]);
        cell.arg[2] = 5;
        assert_eq!(answers(&cell, &recipe), [3; 4]);
        recipe.count = 5;
        assert_eq!(answers(&cell, &recipe), [0, 14, 14, 16]);
    }

    #[test]
    fn rules_14_to_19_are_tried_in_order() {
        let table = bench_table();
        let mut gone = run_at(0);
        gone.point = 5;
        assert_eq!(refusals(&table[..89], gone), [14; 4]);
        assert_eq!(refusals(&table, gone), [16; 4]);
        // Position 1 has entry 0, and at an end an entry that isn't open is refused as such.
        assert_eq!(refusals(&table, run_at(1)), [18, 18, 18, 17]);
        let blank = [0; 90];
        assert_eq!(refusals(&blank, run_at(72)), [18, 18, 18, 17]);
        assert_eq!(refusals(&table, run_at(72)), [0, 19, 19, 17]);
        assert_eq!(refusals(&table, run_at(26)), [0, 0, 0, 17]);
    }

    #[test]
    fn a_longer_table_is_read_at_the_same_positions() {
        let (cell, recipe) = bench();
        let mut table = bench_table();
        table.push(7);
        let answer = run_at(22).next_move(&cell, &recipe, &table);
        assert_eq!((answer.refusal, answer.entry), (0, 33_554_561));
    }

    #[test]
    fn places_of_parts_there_and_not_there() {
        let (cell, recipe) = bench();
        let places = |part| {
            let place = run_at(26).place(&cell, &recipe, part);
            (place.refusal, place.place)
        };
        assert_eq!(places(0), (0, 2));
        assert_eq!(places(1), (0, 255));
        assert_eq!(places(255), (0, 255));
        let mut run = run_at(26);
        run.configuration.places[1] = 1;
        assert_eq!(run.place(&cell, &recipe, 0).refusal, 16);
        assert_eq!(run.place(&cell, &recipe, 9).place, 255);
    }

    #[test]
    fn a_recipe_of_one_end() {
        let cell = cell_of(&BENCH_CELL);
        let recipe = recipe_of(&["0,0,0,0,0,0,0"]);
        let table = [67_108_864; 6];
        assert_eq!(check(&cell, &recipe), 0);
        let answer = Run::fresh().next_move(&cell, &recipe, &table);
        assert_eq!((answer.refusal, answer.entry), (0, 67_108_864));
        assert_eq!(Run::fresh().report(&cell, &recipe, &table, 1).refusal, 19);
        assert_eq!(
            Run::fresh().next_move(&cell, &recipe, &table[..5]).refusal,
            14
        );
    }
}
