//! The planner: the library, the same search in plain Rust, and the independent program. All are handed
//! the same bytes and fill a table of as many entries as there are positions; the time is for one of them.

use crate::{best_times_of, plain};
use against::calls::{Calls, Independent, Library};
use against::independent::{
    cell_bytes, cell_of_bytes, chapters_bytes, chapters_of_bytes, dense_pair, judge_planned,
    long_ways_pair, mixed_pair, odometer_pair, recipe_of_bytes, stations_reversed, with_gates,
    with_photocells, Cell, Joined, Judging, Random, Recipe,
};
use against::plans::needed;
use against::{CellFile, Format, RecipeFile};
use std::hint::black_box;
use std::slice;
use std::time::{Duration, Instant};

pub const BENCH_CELL: &[u8] = include_bytes!("../../examples/bench/cell.csv");
pub const BENCH_RECIPE: &[u8] = include_bytes!("../../examples/bench/recipe.csv");

/// How many rounds are measured of each program at least. The odometers take seconds.
const LEAST_ROUNDS: usize = 7;
const LEAST_ODOMETER_ROUNDS: usize = 2;

type Plan = fn(&[u8], &[u8], &mut [u32], &mut [u8]) -> u32;

/// What a planner is handed.
#[derive(Clone)]
pub struct Case {
    pub name: String,
    pub cell: Vec<u8>,
    pub recipes: Vec<u8>,
    pub table: Vec<u32>,
    pub scratch: Vec<u8>,
    pub least_rounds: usize,
}

impl Case {
    pub fn new(name: &str, (cell, recipe): (Cell, Recipe), least_rounds: usize) -> Case {
        Case::in_chapters(name, &cell, slice::from_ref(&recipe), least_rounds)
    }

    /// The same with several chapters.
    pub fn in_chapters(name: &str, cell: &Cell, chapters: &[Recipe], least_rounds: usize) -> Case {
        let [entries, scratch] = needed(&Joined::of(cell, chapters));
        Case {
            name: name.to_string(),
            cell: cell_bytes(cell).to_vec(),
            recipes: chapters_bytes(chapters),
            table: vec![0; entries],
            scratch: vec![0; scratch],
            least_rounds,
        }
    }

    /// Makes so many calls that are handed what a planner is.
    pub fn time<T>(
        &mut self,
        mut call: impl FnMut(&[u8], &[u8], &mut [u32], &mut [u8]) -> T,
        calls: usize,
    ) -> Duration {
        let start = Instant::now();
        for _ in 0..calls {
            let (cell, recipes) = (black_box(&self.cell[..]), black_box(&self.recipes[..]));
            let (table, scratch) = (&mut self.table[..], &mut self.scratch[..]);
            black_box(call(cell, recipes, black_box(table), black_box(scratch)));
        }
        start.elapsed()
    }

    /// What a planner answers, and its table.
    fn planned(&mut self, plan: Plan) -> (u32, &[u32]) {
        let refusal = plan(
            &self.cell,
            &self.recipes,
            &mut self.table,
            &mut self.scratch,
        );
        (refusal, &self.table)
    }

    /// The library's answer, after its table was judged in this way.
    pub fn judged(&mut self, judge: Judging) -> u32 {
        let cell = cell_of_bytes(&self.cell);
        let joined = Joined::of(&cell, &chapters_of_bytes(&self.recipes));
        let name = self.name.clone();
        let (refusal, table) = self.planned(Library::plan);
        let judged = judge(&cell, &joined, table).map(u32::from);
        assert_eq!(judged, Ok(refusal), "{name}");
        refusal
    }

    /// The programs' answer, after a look at whether their tables are the one that is fixed.
    fn answer(&mut self) -> &'static str {
        let (plain, table) = self.planned(plain::plan);
        let table = table.to_vec();
        let independent = self.planned(Independent::plan);
        assert!(independent == (plain, &table[..]), "{}", self.name);
        assert_eq!(self.judged(judge_planned), plain, "{}", self.name);
        answer_of(plain)
    }

    /// Prints a line.
    fn measure(mut self) {
        let answer = self.answer();
        let positions = self.table.len();
        let [mut other, mut third] = [self.clone(), self.clone()];
        let [library, plain, independent] = best_times_of(
            self.least_rounds,
            [
                &mut |calls| self.time(Library::plan, calls),
                &mut |calls| other.time(plain::plan, calls),
                &mut |calls| third.time(Independent::plan, calls),
            ],
        )
        .map(|call| call / positions as f64);
        let ratios = [library / plain, library / independent];
        print!("{:<27} {positions:>9} {answer:>10}", self.name);
        print!(" {library:>9.1} ns {plain:>9.1} ns {independent:>9.1} ns");
        println!(" {:>6.2} {:>6.2}", ratios[0], ratios[1]);
    }
}

/// A planner's answer in words.
pub fn answer_of(refusal: u32) -> &'static str {
    match refusal {
        0 => "accepted",
        _ => "refused 15",
    }
}

pub fn measure_all() {
    println!("In plain Rust is the library's own search. The ratios are those of the library's time to the");
    println!("other two, in their order.");
    print!(
        "{:<27} {:>9} {:>10}",
        "cell and recipe", "positions", "answer"
    );
    print!(
        " {:>12} {:>12} {:>12}",
        "library", "plain Rust", "independent"
    );
    println!(" {:>6} {:>6}", "ratio", "ratio");
    for (name, pair) in [
        ("bench example", pair_of_files(BENCH_CELL, BENCH_RECIPE)),
        ("29 lines, 14 silent moves", mixed(29, 14, 6)),
        ("64 lines, 52 silent moves", mixed(64, 52, 3)),
        // The same with every lane on a port with a photocell, so that no empty pallet goes anywhere.
        ("64 lines, loaded lanes", guarded(mixed(64, 52, 3))),
        ("dense", dense_pair()),
        // The same with a gate for each of the twelve operations by which a test may be carried, so that every
        // test leaves its station in another state on outcome 0.
        ("dense, gates at its tests", with_gates(dense_pair())),
        ("silent ways of 399 moves", long_ways_pair(3, 5)),
        ("silent ways of 2800 moves", long_ways_pair(4, 3)),
        (
            "the same, stations reversed",
            stations_reversed(long_ways_pair(4, 3)),
        ),
    ] {
        Case::new(name, pair, LEAST_ROUNDS).measure();
    }
    for (name, pair, limits) in limited_pairs() {
        Case::new(name, with_limits(pair, limits), LEAST_ROUNDS).measure();
    }
    for stations in [3, 4] {
        let name = format!("odometer of {stations} stations");
        let pair = odometer_pair(stations);
        Case::new(&name, pair, LEAST_ODOMETER_ROUNDS).measure();
    }
}

pub fn mixed(lines: usize, silent_moves: usize, seed: u64) -> (Cell, Recipe) {
    mixed_pair(lines, silent_moves, &mut Random(seed))
}

/// The pair with its lanes on ports with a photocell.
fn guarded((cell, recipe): (Cell, Recipe)) -> (Cell, Recipe) {
    (with_photocells(&cell), recipe)
}

/// Two of the pairs, with limits that forbid many positions and leave a way from the start.
fn limited_pairs() -> [(&'static str, (Cell, Recipe), [u8; 3]); 2] {
    [
        ("29 lines, limits 3, 3, 1", mixed(29, 14, 6), [3, 3, 1]),
        ("dense, limits 2, 8, 2", dense_pair(), [2, 8, 2]),
    ]
}

/// The pair with these limits at its three stations.
fn with_limits((mut cell, recipe): (Cell, Recipe), limits: [u8; 3]) -> (Cell, Recipe) {
    cell.limits[..3].copy_from_slice(&limits);
    (cell, recipe)
}

/// The records of two files.
pub fn pair_of_files(cell_file: &[u8], recipe_file: &[u8]) -> (Cell, Recipe) {
    let mut cell = [0; CellFile::RECORD_BYTES];
    let mut recipe = [0; RecipeFile::RECORD_BYTES];
    assert_eq!(CellFile::library(cell_file, &mut cell), 0);
    assert_eq!(RecipeFile::library(recipe_file, &mut recipe), 0);
    (cell_of_bytes(&cell), recipe_of_bytes(&recipe))
}

#[cfg(test)]
mod tests {
    use super::*;

    /// How many positions have an entry in the plan for a pair, which must be accepted.
    fn planned_positions(pair: (Cell, Recipe)) -> usize {
        let mut case = Case::new("", pair, 0);
        let (refusal, table) = case.planned(plain::plan);
        assert_eq!(refusal, 0);
        table.iter().filter(|&&entry| entry != 0).count()
    }

    #[test]
    fn limits_forbid_many_positions_and_leave_a_way() {
        for (name, pair, limits) in limited_pairs() {
            let limited = planned_positions(with_limits(pair.clone(), limits));
            assert!(4 * limited < 3 * planned_positions(pair), "{name}");
        }
    }

    #[test]
    fn photocells_take_many_positions_and_leave_a_way() {
        let free = planned_positions(mixed(64, 52, 3));
        let guarded = planned_positions(guarded(mixed(64, 52, 3)));
        assert_eq!((free, guarded), (292_928, 274_933));
    }

    #[test]
    fn gates_part_the_outcomes_of_every_dense_test() {
        let (cell, recipe) = with_gates(dense_pair());
        let operations = (0..usize::from(cell.count)).filter(|&n| cell.act[n] == 1);
        let parted = operations.filter(|&n| cell.to[n] != cell.to[cell.line_on_failure(n)]);
        assert_eq!((cell.count, parted.count()), (60, 12));
        let planned = [dense_pair(), (cell, recipe)].map(planned_positions);
        assert_eq!(planned[0], planned[1]);
    }

    #[test]
    fn plain_rust_needs_a_bit_for_each_position() {
        let mut case = Case::new("", pair_of_files(BENCH_CELL, BENCH_RECIPE), 0);
        assert_eq!((case.scratch.len(), case.planned(plain::plan).0), (12, 0));
        case.scratch.pop();
        assert_eq!(case.planned(plain::plan).0, 14);
    }
}
