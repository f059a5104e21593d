//! The list of processes to install. To try each candidate by itself takes a plan call for the cell as it is
//! and one for each candidate; a call for the list is held against that many plan calls of the library on the
//! same cell, in the same run.

use crate::best_times_of;
use crate::plans::{pair_of_files, Case};
use against::calls::{Calls, Independent, Library, LISTED_BYTES};
use against::independent::{candidates, gap_pair, Cell, Random, Recipe};

const GAP_CELL: &[u8] = include_bytes!("../../examples/gap/cell.csv");
const GAP_RECIPE: &[u8] = include_bytes!("../../examples/gap/recipe.csv");

/// How many rounds are measured at least: of the bench example, and of the great cells, which take longer.
const LEAST_ROUNDS: usize = 7;
const LEAST_GREAT_ROUNDS: usize = 2;

/// The pairs of as many positions as there may be: the lines of the cell, its silent moves, and the number
/// from which it is made. The last is the one for the bar: its ratio is to be a quarter at most.
const GREAT: [(usize, usize, u64); 3] = [(29, 14, 1), (48, 30, 1), BAR];
const BAR: (usize, usize, u64) = (30, 14, 54);

/// A cell that lacks a process, and what an install call is lent.
struct Gap {
    case: Case,
    lines: u8,
    candidates: usize,
    list: Vec<u8>,
}

impl Gap {
    fn new(name: &str, (cell, recipe): (Cell, Recipe), least_rounds: usize) -> Gap {
        let candidates = candidates(&cell, &recipe).len();
        Gap {
            lines: cell.count,
            candidates,
            list: vec![0; candidates * LISTED_BYTES],
            case: Case::new(name, (cell, recipe), least_rounds),
        }
    }

    /// How many lines are listed, after a look at whether the recipe isn't realisable and whether the
    /// independent program lists the same.
    fn listed(&mut self) -> u64 {
        let Case {
            name,
            cell,
            recipes,
            table,
            scratch,
            ..
        } = &mut self.case;
        assert_eq!(Library::plan(cell, recipes, table, scratch), 15, "{name}");
        let mut other = self.list.clone();
        let answer = Library::install(cell, recipes, table, scratch, &mut self.list);
        let expected = Independent::install(cell, recipes, table, scratch, &mut other);
        assert!(answer == expected && self.list == other, "{name}");
        answer
    }

    /// Prints a line.
    fn measure(mut self) {
        let listed = self.listed();
        let Gap {
            mut case,
            lines,
            candidates,
            mut list,
        } = self;
        let mut planned = case.clone();
        let [install, plan] = best_times_of(
            case.least_rounds,
            [
                &mut |calls| {
                    case.time(
                        |c, r, table, scratch| Library::install(c, r, table, scratch, &mut list),
                        calls,
                    )
                },
                &mut |calls| planned.time(Library::plan, calls),
            ],
        )
        .map(|call| call / 1000.0);
        let ratio = install / (plan * (candidates + 1) as f64);
        let Case { name, table, .. } = &planned;
        print!("{name:<34} {lines:>5} {:>9} {candidates:>10}", table.len());
        println!(" {listed:>6} {install:>12.1} us {plan:>9.1} us {ratio:>6.3}");
    }
}

pub fn measure_all() {
    println!("One install call and one plan call of the library on a cell that lacks a process. The ratio is");
    println!("that of the install call's time to one plan call for each candidate and one more.");
    print!(
        "{:<34} {:>5} {:>9} {:>10}",
        "cell and recipe", "lines", "positions", "candidates"
    );
    println!(
        " {:>6} {:>15} {:>12} {:>6}",
        "listed", "install", "plan", "ratio"
    );
    let gap = pair_of_files(GAP_CELL, GAP_RECIPE);
    Gap::new("bench example without its test", gap, LEAST_ROUNDS).measure();
    for shape in GREAT {
        let (lines, silent_moves, _) = shape;
        let bar = if shape == BAR { ", the bar" } else { "" };
        let name = format!("{lines} lines, {silent_moves} silent moves{bar}");
        Gap::new(&name, great(shape), LEAST_GREAT_ROUNDS).measure();
    }
}

fn great((lines, silent_moves, seed): (usize, usize, u64)) -> (Cell, Recipe) {
    gap_pair(lines, silent_moves, &mut Random(seed))
}

#[cfg(test)]
mod tests {
    use super::*;

    #[test]
    fn the_bar_has_many_candidates() {
        let gap = Gap::new("", great(BAR), 0);
        assert!(gap.lines == 30 && gap.candidates >= 150);
    }
}
