//! The calls of a run. Both programs are handed the same bytes and check them anew at every call; a
//! report begins from the same run each time, whose 16 bytes are copied before each call.

use crate::best_times;
use against::calls::{Calls, Independent, Library};
use against::independent::{
    entry_of, run_bytes, run_of_bytes, CARRY, INTERNAL, RUN_BYTES, TRANSFER,
};
use against::pairs::{full_pair, Pair, NO_LIMITS};
use against::rounds::accepted;
use against::{CellFile, Format, RecipeFile};
use std::hint::black_box;
use std::time::{Duration, Instant};

const BENCH_CELL: &[u8] = include_bytes!("../../examples/bench/cell.csv");
const BENCH_RECIPE: &[u8] = include_bytes!("../../examples/bench/recipe.csv");

/// A run with the entry at its position, and all that the calls are handed.
#[derive(Clone)]
pub struct Case {
    pub name: String,
    cell: Vec<u8>,
    recipes: Vec<u8>,
    table: Vec<u32>,
    run: [u8; RUN_BYTES],
}

impl Case {
    /// A table of as many entries as are needed, with this one at the run's position. The entry must be open
    /// there.
    fn new(name: &str, cell: &[u8], recipes: &[u8], run: [u8; RUN_BYTES], entry: u32) -> Case {
        let (_, joined) = accepted(cell, recipes).expect("the case is accepted");
        let mut table = vec![0; joined.sizes.positions as usize];
        table[joined.position(&run_of_bytes(&run)) as usize] = entry;
        Case {
            name: name.to_string(),
            cell: cell.to_vec(),
            recipes: recipes.to_vec(),
            table,
            run,
        }
    }

    /// The same move in the last of so many chapters, each of which is the recipe.
    pub fn in_last_of(&self, chapters: usize) -> Case {
        let mut run = self.run;
        run[RUN_BYTES - 1] = chapters as u8 - 1;
        let (_, joined) = accepted(&self.cell, &self.recipes).expect("the case is accepted");
        let entry = self.table[joined.position(&run_of_bytes(&self.run)) as usize];
        let recipes = self.recipes.repeat(chapters);
        Case::new(&self.name, &self.cell, &recipes, run, entry)
    }

    pub fn next_move<C: Calls>(&self, calls: usize) -> Duration {
        let start = Instant::now();
        for _ in 0..calls {
            let (cell, recipes) = (black_box(&self.cell), black_box(&self.recipes));
            let (table, run) = (black_box(&self.table), black_box(&self.run));
            black_box(C::next_move(cell, recipes, table, run));
        }
        start.elapsed()
    }

    pub fn report<C: Calls>(&self, calls: usize) -> Duration {
        let start = Instant::now();
        for _ in 0..calls {
            let (cell, recipes) = (black_box(&self.cell), black_box(&self.recipes));
            let (table, mut run) = (black_box(&self.table), *black_box(&self.run));
            black_box(C::report(cell, recipes, table, &mut run, black_box(1)));
            black_box(&run);
        }
        start.elapsed()
    }

    /// Wants both programs to make the same of the case, and to make the move.
    pub fn check(&self) {
        let answers = [Library::next_move, Independent::next_move]
            .map(|next_move| next_move(&self.cell, &self.recipes, &self.table, &self.run));
        assert_eq!(answers[0], answers[1], "{}", self.name);
        let reports = [Library::report, Independent::report].map(|report| {
            let mut run = self.run;
            let refusal = report(&self.cell, &self.recipes, &self.table, &mut run, 1);
            (refusal, run)
        });
        assert_eq!(reports[0], reports[1], "{}", self.name);
        assert_eq!(reports[0].0, 0, "{}: the move is open", self.name);
    }

    /// Prints a line for each call, after a look at whether both make the same of the case.
    fn measure(&self) {
        self.check();
        self.print(
            "next-move",
            best_times([
                &mut |calls| self.next_move::<Library>(calls),
                &mut |calls| self.next_move::<Independent>(calls),
            ]),
        );
        self.print(
            "report",
            best_times([&mut |calls| self.report::<Library>(calls), &mut |calls| {
                self.report::<Independent>(calls)
            }]),
        );
    }

    fn print(&self, call: &str, [library, independent]: [f64; 2]) {
        println!(
            "{:<48} {call:>9} {library:>9.1} ns {independent:>9.1} ns {:>6.2}",
            self.name,
            library / independent
        );
    }
}

pub fn measure_all() {
    println!(
        "{:<48} {:>9} {:>12} {:>12} {:>6}",
        "cell, recipe and move", "call", "library", "independent", "ratio"
    );
    for case in bench_cases() {
        case.measure();
    }
    short_case().measure();
    for case in full_cases() {
        case.measure();
    }
    limited_case().measure();
    gated_case().measure();
}

/// The bench example at the positions 0, 22 and 26.
pub fn bench_cases() -> [Case; 3] {
    let mut cell = [0; CellFile::RECORD_BYTES];
    let mut recipe = [0; RecipeFile::RECORD_BYTES];
    assert_eq!(CellFile::library(BENCH_CELL, &mut cell), 0);
    assert_eq!(RecipeFile::library(BENCH_RECIPE, &mut recipe), 0);
    let (_, joined) = accepted(&cell, &recipe).expect("the bench example is accepted");
    [
        ("bench example, do", 0, 50_331_648),
        ("bench example, transfer", 22, 33_554_561),
        ("bench example, test", 26, 50_331_843),
    ]
    .map(|(name, position, entry)| {
        let run = run_bytes(&joined.run_at(position));
        Case::new(name, &cell, &recipe, run, entry)
    })
}

/// A cell of 64 lines with a recipe of two lines, whose one part is at the last station.
fn short_case() -> Case {
    let mut pair = full_pair();
    let recipe = vec![vec![0, 1, 2, 1, 1, 1, 0], vec![1, 0, 0, 0, 0, 0, 0]];
    pair.recipes = vec![recipe];
    let run = [0, 0, 0, 0, 0, 0, 0, 4, 0, 0, 0, 0, 0, 0, 0, 0];
    let entry = entry_of(CARRY, [39, 0, 0, 0]);
    let (cell, recipe) = (pair.cell_bytes(), pair.recipes_bytes());
    Case::new(
        "64-line cell, 2-line recipe, do",
        &cell,
        &recipe,
        run,
        entry,
    )
}

/// At the last point of the full pair, with part n at station n; and the carry that is open there.
const FULL_RUN: [u8; RUN_BYTES] = [15, 0, 0, 0, 0, 0, 0, 1, 2, 3, 4, 0, 0, 0, 0, 0];
const FULL_CARRY: [usize; 4] = [36, 37, 38, 39];

/// A cell of 64 lines with a recipe of 64 lines.
pub fn full_cases() -> [Case; 3] {
    let pair = full_pair();
    let (cell, recipe) = (pair.cell_bytes(), pair.recipes_bytes());
    let mut before_out = FULL_RUN;
    before_out[1] = 1;
    [
        ("internal", FULL_RUN, INTERNAL, [48, 0, 0, 0]),
        ("transfer", before_out, TRANSFER, [28, 25, 0, 0]),
        ("do of four lines", FULL_RUN, CARRY, FULL_CARRY),
    ]
    .map(|(name, run, kind, letters)| {
        let name = format!("64-line cell, 64-line recipe, {name}");
        Case::new(&name, &cell, &recipe, run, entry_of(kind, letters))
    })
}

/// The same cell, of whose four stations each may hold one part, as many as it has before the do and after.
fn limited_case() -> Case {
    let mut pair = full_pair();
    pair.limits[..4].fill(1);
    Case::new(
        "64-line cell with limits, do of four lines",
        &pair.cell_bytes(),
        &pair.recipes_bytes(),
        FULL_RUN,
        entry_of(CARRY, FULL_CARRY),
    )
}

/// Four stations of eight states with an operation from each of them and a gate for each operation, and a test
/// by the last operation, whose gate is the last line.
fn gated_case() -> Case {
    let line = |n: u32| {
        let (k, from, act) = (n % 4, n / 4 % 8, if n < 32 { 1 } else { 4 });
        vec![k, from, act, 2, (from + act) % 8]
    };
    let pair = Pair {
        cell: (0..64).map(line).collect(),
        limits: NO_LIMITS,
        recipes: vec![vec![vec![0, 2, 2, 1, 0, 1, 1], vec![1, 0, 0, 0, 0, 0, 0]]],
    };
    Case::new(
        "64-line cell, half of it gates, test",
        &pair.cell_bytes(),
        &pair.recipes_bytes(),
        [0, 0, 0, 0, 7, 0, 0, 4, 0, 0, 0, 0, 0, 0, 0, 0],
        entry_of(CARRY, [31, 63, 0, 0]),
    )
}
