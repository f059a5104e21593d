//! Cells and recipes for the tests of several modules.

use crate::cell::{read_cell, Cell, CELL_NAMES};
use crate::entry::{entry_of, CARRY, INTERNAL, STAY, TRANSFER};
use crate::generate::{likely_chapters, likely_pair, limited_chapters, limited_pair};
use crate::joined::Joined;
use crate::plan;
use crate::random::Random;
use crate::recipe::{read_recipe, Recipe, RECIPE_NAMES};
use crate::shortest::Ways;
use crate::simulation::greatest_simulation;
use crate::single;
use crate::sizes::{scratch_bytes, Sizes};
use crate::table::tests::file_of;
use std::slice;

pub(crate) const BENCH_CELL: [&str; 5] = [
    "0,0,1,1,1",
    "0,1,3,5,0",
    "1,0,2,5,1",
    "1,1,1,2,2",
    "1,2,1,3,0",
];

pub(crate) const BENCH_RECIPE: [&str; 5] = [
    "0,1,1,0,1,1,0",
    "1,2,2,1,0,2,3",
    "2,1,3,1,0,4,0",
    "3,1,3,1,0,0,0",
    "4,0,0,0,0,0,0",
];

/// A test of which each outcome goes on by an operation of its own.
pub(crate) const FORK: [&str; 5] = [
    "0,1,1,0,1,1,0",
    "1,2,2,1,0,2,3",
    "2,1,3,1,0,4,0",
    "3,1,4,1,0,4,0",
    "4,0,0,0,0,0,0",
];

/// A recipe for the bench example's cell, after whose failed test the part leaves the cell too, so that nothing
/// leads back to the test and it can be cut before it.
pub(crate) const WHOLE: [&str; 5] = [
    "0,1,1,0,1,1,0",
    "1,2,2,1,0,2,3",
    "2,1,3,1,0,4,0",
    "3,1,3,1,0,4,0",
    "4,0,0,0,0,0,0",
];

/// The same in two chapters.
pub(crate) const GIVING: [&str; 2] = ["0,1,1,0,1,1,0", "1,0,0,0,0,0,0"];
pub(crate) const TESTING: [&str; 4] = [
    "0,2,2,1,0,1,2",
    "1,1,3,1,0,3,0",
    "2,1,3,1,0,3,0",
    "3,0,0,0,0,0,0",
];

/// Points that are pasted behind the bench example's recipe and forgotten: an end, and two dos that lead
/// to each other.
pub(crate) const PASTED_END: [&str; 1] = ["5,0,0,0,0,0,0"];
pub(crate) const PASTED_LOOP: [&str; 2] = ["5,1,1,0,1,6,0", "6,1,3,1,0,5,0"];

/// The cell with these lines, which the reader must accept.
pub(crate) fn cell_of(lines: &[&str]) -> Cell {
    let reading = read_cell(&file_of(CELL_NAMES, lines));
    assert_eq!(reading.refusal.number, 0, "{lines:?}");
    reading.record
}

/// The recipe with these lines, which the reader must accept.
pub(crate) fn recipe_of(lines: &[&str]) -> Recipe {
    let reading = read_recipe(&file_of(RECIPE_NAMES, lines));
    assert_eq!(reading.refusal.number, 0, "{lines:?}");
    reading.record
}

/// The cell with these limits at its first resources.
pub(crate) fn limited(mut cell: Cell, limits: &[u8]) -> Cell {
    cell.limits[..limits.len()].copy_from_slice(limits);
    cell
}

pub(crate) fn bench() -> (Cell, Recipe) {
    (cell_of(&BENCH_CELL), recipe_of(&BENCH_RECIPE))
}

/// A recipe as the only chapter.
pub(crate) fn alone(cell: &Cell, recipe: &Recipe) -> Joined {
    Joined::of(cell, slice::from_ref(recipe))
}

/// A cell with a recipe as the only chapter.
pub(crate) fn only_chapter((cell, recipe): (Cell, Recipe)) -> (Cell, Joined) {
    let joined = alone(&cell, &recipe);
    (cell, joined)
}

/// The bench example's cell with chapters of these lines.
pub(crate) fn bench_chapters(chapters: &[&[&str]]) -> (Cell, Joined) {
    let cell = cell_of(&BENCH_CELL);
    let recipes: Vec<Recipe> = chapters.iter().map(|lines| recipe_of(lines)).collect();
    let joined = Joined::of(&cell, &recipes);
    (cell, joined)
}

/// The bench example with these recipe lines behind its own.
pub(crate) fn bench_with(pasted: &[&str]) -> (Cell, Recipe) {
    let recipe = recipe_of(&[&BENCH_RECIPE[..], pasted].concat());
    (cell_of(&BENCH_CELL), recipe)
}

/// Behind the bench example's cell lines: a reject gate at its test, which leads to a state of its own, and
/// the operation that goes on from there.
pub(crate) const GATE_LINES: [&str; 2] = ["1,1,4,2,3", "1,3,1,3,0"];

/// The bench example with a reject gate.
pub(crate) fn gate() -> (Cell, Recipe) {
    let cell = cell_of(&[&BENCH_CELL[..], &GATE_LINES].concat());
    (cell, recipe_of(&BENCH_RECIPE))
}

/// The bench example's table, as far as a run from the start can come.
pub(crate) fn bench_table() -> Vec<u32> {
    let mut table = vec![0; 90];
    table[0] = 50_331_648;
    table[22] = 33_554_561;
    table[26] = 50_331_843;
    table[50] = 50_331_652;
    table[68] = 50_331_652;
    table[72] = 67_108_864;
    table
}

/// Three resources of four states each, five parts, 16 points.
pub(crate) fn limit() -> (Cell, Recipe) {
    let points: Vec<String> = (0..16)
        .map(|point| format!("{point},1,1,16,1,{},0", (point + 1) % 16))
        .collect();
    let points: Vec<&str> = points.iter().map(String::as_str).collect();
    let cell = cell_of(&["0,3,1,1,0", "1,0,1,1,3", "2,2,0,0,3"]);
    (cell, recipe_of(&points))
}

/// The same with a fifth state in one resource.
pub(crate) fn limit_with_a_fifth_state() -> (Cell, Recipe) {
    let (mut cell, recipe) = limit();
    cell.to[1] = 4;
    (cell, recipe)
}

/// Three stations and a pallet lane, with every kind of move: parallel dos in which one line takes
/// what the other gives, a rework loop, and transfers of several parts. On the way back alone the pallet may
/// be empty.
pub(crate) fn lane() -> (Cell, Recipe) {
    let cell = cell_of(&[
        "0,0,1,7,1",
        "0,1,3,2,0",
        "0,1,0,9,0",
        "1,0,2,2,1",
        "1,1,3,31,0",
        "1,0,1,7,1",
        "1,1,1,8,1",
        "2,0,2,31,1",
        "2,0,1,7,0",
        "2,1,1,8,1",
        "2,1,3,32,0",
        "0,0,2,32,1",
    ]);
    let recipe = recipe_of(&[
        "0,1,7,0,1,1,0",
        "0,1,7,0,2,1,0",
        "1,2,8,1,0,2,3",
        "2,1,8,1,2,4,0",
        "2,1,7,2,1,4,0",
        "3,1,8,1,0,0,0",
        "4,0,0,0,0,0,0",
    ]);
    (cell, recipe)
}

/// A seeded pair, with limits at every other number.
pub(crate) fn either_pair(n: u64, most_positions: u64, random: &mut Random) -> (Cell, Recipe) {
    match n % 2 {
        0 => likely_pair(most_positions, random),
        _ => limited_pair(most_positions, random),
    }
}

/// Chapters over a seeded cell, two to four of them, with limits at every other number.
pub(crate) fn either_chapters(n: u64, most_positions: u64, random: &mut Random) -> (Cell, Joined) {
    let count = random.choose(&[2, 2, 3, 4]);
    let (cell, chapters) = match n % 2 {
        0 => likely_chapters(most_positions, count, random),
        _ => limited_chapters(most_positions, count, random),
    };
    let joined = Joined::of(&cell, &chapters);
    (cell, joined)
}

/// A table with an open move at most positions that have one, and here and there some other entry.
pub(crate) fn some_table(cell: &Cell, joined: &Joined, random: &mut Random) -> Vec<u32> {
    (0..joined.sizes.positions)
        .map(|position| {
            let run = joined.run_at(position);
            let lines = usize::from(cell.count);
            let mut open = Vec::new();
            for kind in [INTERNAL, TRANSFER, CARRY, STAY] {
                for letters in 0..lines * lines {
                    let letters = [letters % lines, letters / lines, 0, 0];
                    let entry = entry_of(kind, letters);
                    if joined.is_open(cell, &run, entry) {
                        open.push(entry);
                    }
                }
            }
            match random.below(10) {
                0 => random.bits() as u32,
                _ if open.is_empty() => 0,
                _ => open[random.below(open.len())],
            }
        })
        .collect()
}

/// What the planner answers for a cell and a recipe, and its table; where rule 22 refuses the recipe, what
/// they would be without that rule.
pub(crate) fn planned(cell: &Cell, recipe: &Recipe) -> (u8, Vec<u32>) {
    let positions = Sizes::of(cell, recipe).positions;
    let mut table = vec![0; positions as usize];
    let scratch = scratch_bytes(positions) as usize;
    let refusal = single::plan(cell, recipe, &mut table, scratch);
    if refusal == 22 {
        table = single::stored_table(cell, recipe);
        return (if table[0] == 0 { 15 } else { 0 }, table);
    }
    (refusal, table)
}

/// The same for chapters.
pub(crate) fn planned_chapters(cell: &Cell, joined: &Joined) -> (u8, Vec<u32>) {
    let mut table = vec![0; joined.sizes.positions as usize];
    let scratch = scratch_bytes(joined.greatest_positions()) as usize;
    let refusal = plan::plan(cell, &joined.chapters, &mut table, scratch);
    if refusal == 22 {
        table = plan::stored_table(cell, joined);
        return (if table[0] == 0 { 15 } else { 0 }, table);
    }
    (refusal, table)
}

/// How many letters there are to try for the moves of all positions together.
pub(crate) fn letters_to_try(cell: &Cell, joined: &Joined) -> u64 {
    let points = 0..joined.sizes.points as u8;
    let letters = points.map(|number| {
        let (chapter, point) = joined.chapter_and_point(number);
        used_letters(joined.chapter(chapter), point)
    });
    let most = letters.max().unwrap_or(0) as u32;
    u64::from(cell.count).pow(most) * joined.sizes.positions
}

/// The most letters that a move at a point uses: two in a transfer and at a test, else one for each of its lines.
pub(crate) fn used_letters(recipe: &Recipe, point: u8) -> usize {
    recipe.lines_at(point).len().max(2)
}

/// A table that is allowed, found slowly from the greatest simulation by joint steps: of the moves that lead on,
/// `choose` picks one at each position or puts the position off.
pub(crate) fn slow_table(
    cell: &Cell,
    joined: &Joined,
    choose: impl FnMut(&[u32]) -> Option<u32>,
) -> Vec<u32> {
    let greatest = greatest_simulation(cell, joined);
    Ways::of(cell, joined, &greatest).earlier_table(choose)
}

/// The table of the smallest entries that begin a shortest way, found slowly.
pub(crate) fn smallest_table(cell: &Cell, joined: &Joined) -> Vec<u32> {
    slow_table(cell, joined, |entries| entries.iter().min().copied())
}

/// The table that is owed for chapters, by trying every single move on the greatest simulation by joint steps.
pub(crate) fn owed_table(cell: &Cell, joined: &Joined) -> Vec<u32> {
    let greatest = greatest_simulation(cell, joined);
    Ways::of(cell, joined, &greatest).owed_table()
}
