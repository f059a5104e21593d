//! Recipes in chapters, by the library alone: one plan call of eight chapters beside eight plan calls of one, and
//! a run's calls with eight chapters beside the same with one. All chapters are the same recipe.

use crate::plans::{self, answer_of, mixed, pair_of_files, BENCH_CELL, BENCH_RECIPE};
use crate::runs::{self, bench_cases, full_cases};
use crate::{best_times, best_times_of};
use against::calls::{Calls, Library};
use against::independent::{dense_pair, judge_planned, Cell, Recipe, MOST_CHAPTERS};

/// How many rounds are measured at least.
const LEAST_ROUNDS: usize = 7;

pub fn measure_all() {
    println!("Eight chapters of one recipe by the library: the time of one plan call for a position, beside");
    println!(
        "that of eight plan calls of the recipe alone; and a run's calls in the last of the eight."
    );
    print!(
        "{:<27} {:>9} {:>10}",
        "cell and recipe", "positions", "answer"
    );
    println!(" {:>12} {:>12} {:>6}", "together", "singly", "ratio");
    for (name, pair) in plan_cases() {
        measure_plans(name, pair);
    }
    println!();
    println!(
        "{:<48} {:>9} {:>12} {:>12} {:>6}",
        "cell, recipe and move", "call", "eight", "one", "ratio"
    );
    for case in bench_cases().iter().chain(&full_cases()) {
        measure_calls(case);
    }
}

fn plan_cases() -> [(&'static str, (Cell, Recipe)); 3] {
    [
        ("bench example", pair_of_files(BENCH_CELL, BENCH_RECIPE)),
        ("29 lines, 14 silent moves", mixed(29, 14, 6)),
        ("dense", dense_pair()),
    ]
}

/// One plan of the recipe eight times over, and what a plan of it once needs.
fn both_cases(name: &str, (cell, recipe): (Cell, Recipe)) -> [plans::Case; 2] {
    let chapters = vec![recipe.clone(); MOST_CHAPTERS];
    [
        plans::Case::in_chapters(name, &cell, &chapters, LEAST_ROUNDS),
        plans::Case::new(name, (cell, recipe), LEAST_ROUNDS),
    ]
}

/// Prints a line, after a look at whether the library's tables are the ones that are fixed.
fn measure_plans(name: &str, pair: (Cell, Recipe)) {
    let [mut eight, mut one] = both_cases(name, pair);
    let answer = answer_of(eight.judged(judge_planned));
    one.judged(judge_planned);
    let positions = eight.table.len();
    let [together, singly] = best_times_of(
        LEAST_ROUNDS,
        [
            &mut |calls| eight.time(Library::plan, calls),
            &mut |calls| one.time(Library::plan, MOST_CHAPTERS * calls),
        ],
    )
    .map(|call| call / positions as f64);
    print!("{name:<27} {positions:>9} {answer:>10}");
    println!(
        " {together:>9.1} ns {singly:>9.1} ns {:>6.2}",
        together / singly
    );
}

/// Prints a line for each call.
fn measure_calls(one: &runs::Case) {
    let eight = one.in_last_of(MOST_CHAPTERS);
    one.check();
    eight.check();
    let next_moves = best_times([
        &mut |calls| eight.next_move::<Library>(calls),
        &mut |calls| one.next_move::<Library>(calls),
    ]);
    let reports = best_times([&mut |calls| eight.report::<Library>(calls), &mut |calls| {
        one.report::<Library>(calls)
    }]);
    for (call, [eight, one_only]) in [("next-move", next_moves), ("report", reports)] {
        println!(
            "{:<48} {call:>9} {eight:>9.1} ns {one_only:>9.1} ns {:>6.2}",
            one.name,
            eight / one_only
        );
    }
}

#[cfg(test)]
mod tests {
    use super::*;
    use against::independent::judge;

    #[test]
    fn eight_chapters_are_measured_and_the_bench_example_is_accepted() {
        let (name, pair) = plan_cases()[0].clone();
        let [mut eight, mut one] = both_cases(name, pair);
        assert_eq!((eight.judged(judge), one.judged(judge)), (0, 0));
        assert_eq!((eight.table.len(), one.table.len()), (8 * 90, 90));
        assert_eq!(eight.scratch, one.scratch);
        for case in bench_cases() {
            case.in_last_of(MOST_CHAPTERS).check();
        }
    }

    #[test]
    fn eight_chapters_and_one_have_the_entries_that_are_owed() {
        let (name, pair) = plan_cases()[0].clone();
        for mut case in both_cases(name, pair) {
            assert_eq!(case.judged(judge_planned), 0);
        }
    }
}
