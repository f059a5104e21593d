//! The run over a stored table: fresh, next-move, report and place, each of which checks anew what
//! it is handed.

use crate::cell::Cell;
use crate::chapters::try_to_run;
use crate::joined::Joined;
use crate::recipe::Recipe;
use crate::sizes::Configuration;

/// The length of a run in bytes.
pub const RUN_BYTES: usize = 16;

/// The place that a refused place call gives, and any for a part that isn't there.
pub(crate) const NO_PLACE: u8 = 255;

/// A point and a configuration, and the chapter that the point is one of.
#[derive(Clone, Copy, Debug, PartialEq, Eq)]
pub struct Run {
    pub point: u8,
    pub configuration: Configuration,
    pub chapter: u8,
}

/// The answer of a next-move call: a refusal with entry 0, or refusal 0 with the entry.
#[derive(Clone, Copy, Debug, PartialEq, Eq)]
pub struct NextMove {
    pub refusal: u8,
    pub entry: u32,
}

/// The answer of a report: a refusal with its own run, or refusal 0 with the next run.
#[derive(Clone, Copy, Debug, PartialEq, Eq)]
pub struct Report {
    pub refusal: u8,
    pub run: Run,
}

/// The answer of a place call: a refusal with 255, or refusal 0 with the place.
#[derive(Clone, Copy, Debug, PartialEq, Eq)]
pub struct Place {
    pub refusal: u8,
    pub place: u8,
}

impl Run {
    /// The run at point 0 of chapter 0 in the starting configuration.
    pub fn fresh() -> Run {
        Run {
            point: 0,
            configuration: Configuration::START,
            chapter: 0,
        }
    }

    /// Gives the entry at the run's position.
    pub fn next_move(&self, cell: &Cell, chapters: &[Recipe], table: &[u32]) -> NextMove {
        let found = self.try_entry(cell, chapters, table);
        let entry = found.and_then(|(joined, entry)| {
            let open = joined.is_open(cell, self, entry);
            open.then_some(entry).ok_or(18)
        });
        match entry {
            Ok(entry) => NextMove { refusal: 0, entry },
            Err(refusal) => NextMove { refusal, entry: 0 },
        }
    }

    /// Makes the move at the run's position and gives the next run. A carry that leads to an end of an
    /// earlier chapter leaves the run at point 0 of the next.
    pub fn report(self, cell: &Cell, chapters: &[Recipe], table: &[u32], outcome: u8) -> Report {
        match self.next(cell, chapters, table, outcome) {
            Ok(run) => Report { refusal: 0, run },
            Err(refusal) => Report { refusal, run: self },
        }
    }

    fn next(
        &self,
        cell: &Cell,
        chapters: &[Recipe],
        table: &[u32],
        outcome: u8,
    ) -> Result<Run, u8> {
        let (joined, entry) = self.try_entry(cell, chapters, table)?;
        if outcome > 1 {
            return Err(17);
        }
        let next = joined.makes(cell, self, entry, outcome).ok_or(18)?;
        if joined.is_end(self.chapter, self.point) {
            return Err(19);
        }
        Ok(next)
    }

    /// Gives a part's place.
    pub fn place(&self, cell: &Cell, chapters: &[Recipe], part: u8) -> Place {
        let joined = try_to_run(cell, chapters).and_then(|joined| self.try_run(joined));
        match joined {
            Ok(joined) if usize::from(part) < joined.sizes.parts => Place {
                refusal: 0,
                place: self.configuration.places[usize::from(part)],
            },
            refused => Place {
                refusal: refused.err().unwrap_or(0),
                place: NO_PLACE,
            },
        }
    }

    /// The joined recipe and the entry at the run's position, unless one of the rules up to 16 is broken.
    fn try_entry(
        &self,
        cell: &Cell,
        chapters: &[Recipe],
        table: &[u32],
    ) -> Result<(Joined, u32), u8> {
        let joined = try_to_run(cell, chapters)?;
        if (table.len() as u64) < joined.sizes.positions {
            return Err(14);
        }
        let joined = self.try_run(joined)?;
        let entry = table[joined.position(self) as usize];
        Ok((joined, entry))
    }

    /// Rule 16.
    fn try_run(&self, joined: Joined) -> Result<Joined, u8> {
        if joined.holds(self) {
            Ok(joined)
        } else {
            Err(16)
        }
    }
}

/// The run as bytes: the point, six states, eight places, the chapter.
pub fn run_bytes(run: &Run) -> [u8; RUN_BYTES] {
    let mut bytes = [run.chapter; RUN_BYTES];
    bytes[0] = run.point;
    bytes[1..7].copy_from_slice(&run.configuration.states);
    bytes[7..15].copy_from_slice(&run.configuration.places);
    bytes
}

/// The run that the bytes say. Those past its end count for nothing, and too few bytes are a run
/// out of range.
pub fn run_of_bytes(bytes: &[u8]) -> Run {
    let mut run = Run::fresh();
    match bytes.get(..RUN_BYTES) {
        Some(bytes) => {
            run.point = bytes[0];
            run.configuration.states.copy_from_slice(&bytes[1..7]);
            run.configuration.places.copy_from_slice(&bytes[7..15]);
            run.chapter = bytes[15];
        }
        None => run.point = u8::MAX,
    }
    run
}

#[cfg(test)]
mod tests {
    use super::*;
    use crate::chapters::check;
    use crate::fixtures::{
        alone, bench_chapters, bench_table, cell_of, either_pair, planned, planned_chapters,
        recipe_of, BENCH_CELL, BENCH_RECIPE, GIVING, TESTING, WHOLE,
    };
    use crate::random::Random;
    use crate::single;
    use crate::sizes::MOST_PARTS;
    use std::slice;

    /// What a next-move call and a report with each outcome say of a run, which must stay if it is refused.
    fn refusals(cell: &Cell, chapters: &[Recipe], table: &[u32], run: Run) -> [u8; 4] {
        let next_move = run.next_move(cell, chapters, table);
        assert!(next_move.refusal == 0 || next_move.entry == 0);
        let reports = [0, 1, 2].map(|outcome| {
            let report = run.report(cell, chapters, table, outcome);
            assert!(report.refusal == 0 || report.run == run);
            report.refusal
        });
        [next_move.refusal, reports[0], reports[1], reports[2]]
    }

    /// The entries that are issued by these outcomes from the start.
    fn entries(cell: &Cell, chapters: &[Recipe], table: &[u32], outcomes: &[u8]) -> Vec<u32> {
        let mut run = Run::fresh();
        let issue = |&outcome: &u8| {
            let entry = run.next_move(cell, chapters, table).entry;
            let report = run.report(cell, chapters, table, outcome);
            assert_eq!(report.refusal, 0);
            run = report.run;
            entry
        };
        outcomes.iter().map(issue).collect()
    }

    #[test]
    fn a_cut_recipe_is_followed_as_the_whole() {
        let (cell, joined) = bench_chapters(&[&GIVING, &TESTING]);
        let whole = [recipe_of(&WHOLE)];
        let (refusal, table) = planned_chapters(&cell, &joined);
        let (_, whole_table) = planned(&cell, &whole[0]);
        assert_eq!(refusal, 0);
        for outcome in [0, 1] {
            let outcomes = [0, 0, outcome, 0];
            let issued = entries(&cell, &joined.chapters, &table, &outcomes);
            assert_eq!(issued, [50_331_648, 33_554_561, 50_331_843, 50_331_652]);
            let of_whole = entries(&cell, &whole, &whole_table, &outcomes);
            assert_eq!(issued, of_whole);
        }
    }

    #[test]
    fn a_run_at_an_earlier_end_goes_nowhere() {
        let (cell, joined) = bench_chapters(&[&GIVING, &TESTING]);
        let chapters = &joined.chapters[..];
        let (_, mut table) = planned_chapters(&cell, &joined);
        let landed = Run::fresh().report(&cell, chapters, &table, 1).run;
        assert_eq!((landed.chapter, landed.point), (1, 0));
        let at_end = Run {
            chapter: 0,
            point: 1,
            ..landed
        };
        let position = joined.position(&at_end) as usize;
        assert_eq!(table[position], 67_108_864);
        let answer = at_end.next_move(&cell, chapters, &table);
        assert_eq!((answer.refusal, answer.entry), (0, 67_108_864));
        assert_eq!(refusals(&cell, chapters, &table, at_end), [0, 19, 19, 17]);
        for entry in [0, 1, 33_554_561, 50_331_648, 67_108_865] {
            table[position] = entry;
            assert_eq!(refusals(&cell, chapters, &table, at_end), [18, 18, 18, 17]);
        }
        // The end of the last chapter is the end.
        let end = Run {
            chapter: 1,
            point: 3,
            ..landed
        };
        assert_eq!(refusals(&cell, chapters, &table, end), [0, 19, 19, 17]);
    }

    #[test]
    fn the_rules_are_tried_in_order() {
        let (cell, joined) = bench_chapters(&[&GIVING, &TESTING]);
        let chapters = &joined.chapters[..];
        let (_, table) = planned_chapters(&cell, &joined);
        let mut gone = Run::fresh();
        gone.chapter = 2;
        assert_eq!(refusals(&cell, chapters, &table, gone), [16; 4]);
        assert_eq!(gone.place(&cell, chapters, 0).refusal, 16);
        let positions = table.len();
        let short = &table[..positions - 1];
        assert_eq!(refusals(&cell, chapters, short, gone), [14; 4]);
        assert_eq!(gone.place(&cell, chapters, 0).place, 255);
        for (chapters, owed) in [
            (vec![], 24),
            (vec![chapters[0].clone(); 9], 24),
            (vec![recipe_of(&["0,0,0,0,0,0,0"]), chapters[1].clone()], 24),
        ] {
            assert_eq!(refusals(&cell, &chapters, &[], gone), [owed; 4]);
            let place = gone.place(&cell, &chapters, 0);
            assert_eq!((place.refusal, place.place), (owed, 255));
        }
    }

    #[test]
    fn parts_are_those_of_all_chapters() {
        let cell = cell_of(&BENCH_CELL);
        let chapters = [&GIVING[..], &["0,1,1,0,8,1,0", "1,0,0,0,0,0,0"]].map(recipe_of);
        let mut run = Run::fresh();
        run.configuration.places[3] = 2;
        let places = [0, 3, 4].map(|part| run.place(&cell, &chapters, part));
        let owed = [0, 2, 255].map(|place| Place { refusal: 0, place });
        assert_eq!(places, owed);
    }

    #[test]
    fn bytes_are_read_back_unless_they_are_too_few() {
        let (cell, joined) = bench_chapters(&[&GIVING, &TESTING]);
        let (_, table) = planned_chapters(&cell, &joined);
        let run = Run::fresh().report(&cell, &joined.chapters, &table, 0).run;
        let mut bytes = run_bytes(&run).to_vec();
        assert_eq!(bytes, [0, 1, 0, 0, 0, 0, 0, 1, 0, 0, 0, 0, 0, 0, 0, 1]);
        bytes.push(9);
        assert_eq!(run_of_bytes(&bytes), run);
        for length in 0..RUN_BYTES {
            let short = run_of_bytes(&bytes[..length]);
            assert_eq!(short.place(&cell, &joined.chapters, 0).refusal, 16);
        }
        assert_eq!(run_bytes(&Run::fresh()), [0; RUN_BYTES]);
    }

    #[test]
    fn the_bench_example_is_one_chapter() {
        let (cell, joined) = bench_chapters(&[&BENCH_RECIPE]);
        let issued = entries(&cell, &joined.chapters, &bench_table(), &[0, 0, 1, 0]);
        assert_eq!(issued, [50_331_648, 33_554_561, 50_331_843, 50_331_652]);
    }

    /// What the calls on a run say over a single recipe, and over it as the only chapter: the refusals, the
    /// entry, the next run and a part's place.
    fn compare_answers(cell: &Cell, recipe: &Recipe, table: &[u32], run: Run, outcome: u8) {
        let chapters = slice::from_ref(recipe);
        let alone = single::Run {
            point: run.point,
            configuration: run.configuration,
        };
        let next_move = alone.next_move(cell, recipe, table);
        assert_eq!(run.next_move(cell, chapters, table), next_move);
        let report = alone.report(cell, recipe, table, outcome);
        let next = Report {
            refusal: report.refusal,
            run: Run {
                point: report.run.point,
                configuration: report.run.configuration,
                chapter: 0,
            },
        };
        assert_eq!(run.report(cell, chapters, table, outcome), next);
        for part in 0..=MOST_PARTS as u8 {
            let place = alone.place(cell, recipe, part);
            assert_eq!(run.place(cell, chapters, part), place);
        }
    }

    #[test]
    fn one_chapter_answers_as_the_single_recipe() {
        let mut random = Random(23);
        let mut refused = 0;
        for n in 0..1500 {
            let (mut cell, mut recipe) = either_pair(n, 120, &mut random);
            let joined = alone(&cell, &recipe);
            let mut table = planned(&cell, &recipe).1;
            for _ in 0..table.len() / 8 {
                let (one, other) = (random.below(table.len()), random.below(table.len()));
                let any = random.bits() as u32;
                table[one] = random.choose(&[0, table[other], any]);
            }
            // Some records are damaged after that, and some tables too short.
            match random.below(8) {
                0 => cell.to[0] = random.below(12) as u8,
                1 => recipe.takes[0] = random.bits() as u8,
                2 => recipe.count = random.below(4) as u8,
                _ => {}
            }
            let checked = single::check(&cell, &recipe);
            assert_eq!(check(&cell, slice::from_ref(&recipe)), checked);
            refused += usize::from(checked != 0);
            for _ in 0..20 {
                let mut run = joined.run_at(random.below(table.len()) as u64);
                if random.once_in(8) {
                    run.point = random.below(20) as u8;
                }
                let outcome = random.choose(&[0, 1, 1, 2]);
                let table = match random.once_in(8) {
                    true => &table[1..],
                    false => &table,
                };
                compare_answers(&cell, &recipe, table, run, outcome);
            }
        }
        assert!(refused > 100, "{refused}");
    }
}
