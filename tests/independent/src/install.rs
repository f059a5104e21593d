//! Which process to install: the operation lines of which each alone, added to a cell, makes a recipe
//! realisable that isn't so yet. Straight from the description and slow: every line that could be added
//! is tried by itself.

use crate::cell::{Cell, OPERATION};
use crate::joined::Joined;
use crate::recipe::{Recipe, END};
use crate::simulation::greatest_simulation;
use crate::single::{stored_table, try_lent};
use crate::sizes::Sizes;
use crate::table::MOST_LINES;
use std::collections::BTreeSet;
use std::slice;

/// An operation line: resource, from, operation and to.
pub type Process = [u8; 4];

/// The answer of an install call: a refusal without processes, or refusal 0 with all that are listed.
#[derive(Clone, Debug, PartialEq, Eq)]
pub struct Install {
    pub refusal: u8,
    pub processes: Vec<Process>,
}

/// Lists the processes that would do, with a table of so many entries and a scratch of so many bytes, for
/// which this program has no other use.
pub fn install(cell: &Cell, recipe: &Recipe, table: usize, scratch: usize) -> Install {
    match try_install(cell, recipe, table, scratch) {
        Ok(processes) => Install {
            refusal: 0,
            processes,
        },
        Err(refusal) => Install {
            refusal,
            processes: vec![],
        },
    }
}

fn try_install(
    cell: &Cell,
    recipe: &Recipe,
    table: usize,
    scratch: usize,
) -> Result<Vec<Process>, u8> {
    try_lent(cell, recipe, table, scratch)?;
    // There is no place for one more line, whether the recipe needs it or not.
    if usize::from(cell.count) == MOST_LINES {
        return Err(21);
    }
    Ok(missing_processes(cell, recipe, realisable_by_single_moves))
}

/// The processes of which each alone makes the recipe realisable, in the order of the list; none if it is
/// so already. The cell and the recipe pass the rules 3 to 13, and the cell has room for a line.
pub fn missing_processes(
    cell: &Cell,
    recipe: &Recipe,
    realisable: fn(&Cell, &Recipe) -> bool,
) -> Vec<Process> {
    if realisable(cell, recipe) {
        return vec![];
    }
    let mut processes = candidates(cell, recipe);
    processes.retain(|&process| realisable(&with_process(cell, process), recipe));
    processes
}

/// Whether the greatest simulation by joint steps holds the start. This is for small cells.
pub fn realisable_by_joint_steps(cell: &Cell, recipe: &Recipe) -> bool {
    let joined = Joined::of(cell, slice::from_ref(recipe));
    greatest_simulation(cell, &joined)[0]
}

/// Whether the planner's search finds a way from the start, on which unreached points have no say.
pub fn realisable_by_single_moves(cell: &Cell, recipe: &Recipe) -> bool {
    stored_table(cell, recipe)[0] != 0
}

/// Every operation line that isn't in the cell, with states that its resource has and an operation that
/// the recipe names, rising by its four numbers.
pub fn candidates(cell: &Cell, recipe: &Recipe) -> Vec<Process> {
    let sizes = Sizes::of(cell, recipe);
    let operations = operations(recipe);
    let mut processes = vec![];
    for resource in 0..sizes.resources as u8 {
        let states = sizes.states[usize::from(resource)] as u8;
        for from in 0..states {
            for &operation in &operations {
                processes.extend((0..states).map(|to| [resource, from, operation, to]));
            }
        }
    }
    let present = processes_of(cell);
    processes.retain(|process| !present.contains(process));
    processes
}

/// The operations that the recipe names, in rising order. At an end the field is not used.
fn operations(recipe: &Recipe) -> BTreeSet<u8> {
    let lines = 0..usize::from(recipe.count);
    let named = lines.filter(|&n| recipe.kind[n] != END);
    named.map(|n| recipe.op[n]).collect()
}

/// The operation lines of a cell.
fn processes_of(cell: &Cell) -> BTreeSet<Process> {
    let lines = 0..usize::from(cell.count);
    let operations = lines.filter(|&n| cell.act[n] == OPERATION);
    operations
        .map(|n| [cell.resource[n], cell.from[n], cell.arg[n], cell.to[n]])
        .collect()
}

/// The cell with one more line behind its others.
fn with_process(cell: &Cell, [resource, from, operation, to]: Process) -> Cell {
    let mut longer = cell.clone();
    longer.set_line(
        cell.count.into(),
        [resource, from, OPERATION, operation, to],
    );
    longer.count += 1;
    longer
}

#[cfg(test)]
mod tests {
    use super::*;
    use crate::fixtures::{
        alone, bench, bench_with, cell_of, either_pair, limit, limit_with_a_fifth_state, limited,
        recipe_of, BENCH_CELL, BENCH_RECIPE, FORK, PASTED_END, PASTED_LOOP,
    };
    use crate::random::Random;
    use crate::recipe::every_point_is_reached;
    use crate::simulation::joint_choices;
    use crate::sizes::scratch_bytes;

    /// The bench example's cell without one of its lines.
    fn bench_without(line: usize) -> Cell {
        let mut lines = BENCH_CELL.to_vec();
        lines.remove(line);
        cell_of(&lines)
    }

    /// What is listed for a cell and a recipe, on which both ways must agree.
    fn listed(cell: &Cell, recipe: &Recipe) -> Vec<Process> {
        let positions = Sizes::of(cell, recipe).positions;
        let scratch = scratch_bytes(positions) as usize;
        let answer = install(cell, recipe, positions as usize, scratch);
        assert_eq!(answer.refusal, 0);
        let by_joint_steps = missing_processes(cell, recipe, realisable_by_joint_steps);
        assert_eq!(answer.processes, by_joint_steps);
        answer.processes
    }

    #[test]
    fn the_bench_example_without_its_test() {
        let (cell, recipe) = (bench_without(3), recipe_of(&BENCH_RECIPE));
        let missing = [1, 1, 2, 2];
        assert_eq!(listed(&cell, &recipe), [missing]);
        // Others would do together, none of which does alone.
        let mut others = candidates(&cell, &recipe);
        assert_eq!(others.len(), 37);
        others.retain(|&process| process != missing);
        let all = others
            .into_iter()
            .fold(cell, |cell, other| with_process(&cell, other));
        assert!(realisable_by_joint_steps(&all, &recipe));
        assert!(realisable_by_single_moves(&all, &recipe));
    }

    #[test]
    fn the_bench_example_wants_90_entries_and_12_bytes() {
        let (cell, recipe) = (bench_without(3), recipe_of(&BENCH_RECIPE));
        for (table, scratch, refusal) in [(90, 12, 0), (90, 11, 14), (89, 12, 14), (90, 89, 0)] {
            assert_eq!(install(&cell, &recipe, table, scratch).refusal, refusal);
        }
    }

    #[test]
    fn the_bench_example_without_its_first_operation() {
        let (cell, recipe) = (bench_without(0), recipe_of(&BENCH_RECIPE));
        assert_eq!(listed(&cell, &recipe), [[0, 0, 1, 1], [1, 0, 1, 1]]);
    }

    #[test]
    fn the_list_rises_by_all_four_numbers() {
        let cell = cell_of(&["0,0,1,2,1", "0,0,1,1,0"]);
        let recipe = recipe_of(&["0,1,2,0,1,1,0", "1,1,1,0,2,2,0", "2,0,0,0,0,0,0"]);
        assert_eq!(
            listed(&cell, &recipe),
            [[0, 0, 2, 0], [0, 1, 1, 0], [0, 1, 1, 1]]
        );
    }

    #[test]
    fn a_station_gets_no_new_state() {
        let cell = cell_of(&["0,0,1,1,0"]);
        let recipe = recipe_of(&["0,1,2,0,1,1,0", "1,0,0,0,0,0,0"]);
        assert_eq!(candidates(&cell, &recipe), [[0, 0, 2, 0]]);
        assert_eq!(listed(&cell, &recipe), [[0, 0, 2, 0]]);
    }

    #[test]
    fn what_can_be_built_lacks_nothing() {
        let (cell, recipe) = bench();
        assert_eq!(listed(&cell, &recipe), [[0; 4]; 0]);
        let end = recipe_of(&["0,0,0,0,0,0,0"]);
        assert_eq!(candidates(&cell, &end), [[0; 4]; 0]);
        assert_eq!(listed(&cell, &end), [[0; 4]; 0]);
    }

    #[test]
    fn what_lacks_two_lines_gets_none() {
        let cell = cell_of(&["0,0,1,3,1", "0,1,1,3,0"]);
        let recipe = recipe_of(&["0,1,1,0,1,1,0", "1,1,2,0,2,2,0", "2,0,0,0,0,0,0"]);
        assert_eq!(candidates(&cell, &recipe).len(), 8);
        assert_eq!(listed(&cell, &recipe), [[0; 4]; 0]);
    }

    #[test]
    fn candidates_are_operation_lines_that_are_not_there_yet() {
        // Neither internal work nor a port of that number is the operation. Of an operation that is named
        // twice there is one candidate, and what an end has in its field is no name.
        let cell = cell_of(&["0,0,1,7,0", "0,0,0,5,1", "0,1,3,5,0", "1,0,2,5,0"]);
        let recipe = recipe_of(&["0,1,5,0,1,1,0", "1,1,5,1,0,2,0", "2,0,0,0,0,0,0"]);
        let expected = [[0, 0, 5, 0], [0, 0, 5, 1], [0, 1, 5, 0], [0, 1, 5, 1]];
        assert_eq!(
            candidates(&cell, &recipe),
            [&expected[..], &[[1, 0, 5, 0]]].concat()
        );
        let twice = cell_of(&["0,0,1,5,1", "0,0,1,5,1", "0,1,0,5,0"]);
        assert_eq!(
            candidates(&twice, &recipe),
            [expected[0], expected[2], expected[3]]
        );
    }

    #[test]
    fn a_gate_is_no_process_and_may_serve_a_new_one() {
        // The test leads both outcomes to where `else` goes on, by the operation line and by the gate.
        let lines = ["0,0,1,1,0", "0,0,1,2,2", "0,1,1,3,0", "0,2,1,4,0"];
        let recipe = recipe_of(&FORK);
        let with_gate = |to: u8| cell_of(&[&lines[..], &[&format!("0,0,4,2,{to}")]].concat());
        // A second operation line from there shares the gate and leads `then` on; or `then` goes on from
        // where it is.
        let listed_with_gate = [[0, 0, 2, 1], [0, 2, 3, 0], [0, 2, 3, 1], [0, 2, 3, 2]];
        assert_eq!(listed(&with_gate(2), &recipe), listed_with_gate);
        // Without the gate that line would lead both on from there.
        assert_eq!(listed(&cell_of(&lines), &recipe), listed_with_gate[1..]);
        // A gate of those numbers leads `else` nowhere.
        assert_eq!(listed(&with_gate(1), &recipe), [[0; 4]; 0]);
        // Where `else` goes on from state 1 too, the line that is listed first has the numbers of the gate.
        let mut alike = FORK;
        alike[3] = "3,1,3,1,0,4,0";
        let gate = ["0,0,1,1,0", "0,0,1,2,2", "0,1,1,3,0", "0,0,4,2,1"];
        assert_eq!(
            listed(&cell_of(&gate), &recipe_of(&alike)),
            listed_with_gate
        );
    }

    #[test]
    fn a_process_that_waits_for_an_empty_pallet_needs_a_lane_that_starts() {
        let recipe = recipe_of(&["0,1,1,0,1,1,0", "1,0,0,0,0,0,0"]);
        // Neither station does anything yet, and only the pallet's lane turns them.
        let all = |resource: u8, from: u8| [[resource, from, 1, 0], [resource, from, 1, 1]];
        let at_once = [all(0, 0), all(1, 0)].concat();
        let after_it = [all(0, 0), all(0, 1), all(1, 0), all(1, 1)].concat();
        for (port, expected) in [
            (5, &at_once),
            (31, &at_once),
            (32, &after_it),
            (40, &after_it),
        ] {
            let lane = ["0,0,3", "1,0,2"].map(|line| format!("{line},{port},1"));
            let cell = cell_of(&[&lane[0], &lane[1]]);
            assert_eq!(&listed(&cell, &recipe), expected, "port {port}");
        }
    }

    #[test]
    fn a_second_station_where_a_nest_is_full() {
        let lines = ["0,0,1,1,0", "1,0,1,3,0"];
        let recipe = recipe_of(&["0,1,1,0,1,1,0", "1,1,1,0,2,2,0", "2,0,0,0,0,0,0"]);
        let wide = cell_of(&lines);
        assert_eq!(listed(&wide, &recipe), [[0; 4]; 0]);
        assert_eq!(listed(&limited(wide, &[1]), &recipe), [[1, 0, 1, 0]]);
    }

    #[test]
    fn sixty_four_lines_leave_no_place() {
        let end = recipe_of(&["0,0,0,0,0,0,0"]);
        let lacking = recipe_of(&["0,1,2,0,1,1,0", "1,0,0,0,0,0,0"]);
        for (recipe, processes) in [(&end, vec![]), (&lacking, vec![[0, 0, 2, 0]])] {
            let full = cell_of(&["0,0,1,1,0"; 64]);
            let refused = Install {
                refusal: 21,
                processes: vec![],
            };
            assert_eq!(install(&full, recipe, 99, 99), refused);
            assert_eq!(listed(&cell_of(&["0,0,1,1,0"; 63]), recipe), processes);
        }
    }

    #[test]
    fn rule_21_is_tried_last() {
        let (mut cell, mut recipe) = limit_with_a_fifth_state();
        for n in 3..64 {
            cell = with_process(&cell, [0, 0, n, 0]);
        }
        let answer = |cell: &Cell, recipe: &Recipe, table: usize, scratch: usize| {
            let Install { refusal, processes } = install(cell, recipe, table, scratch);
            assert_eq!(processes, [[0; 4]; 0]);
            refusal
        };
        assert_eq!(answer(&cell, &recipe, 1 << 21, 1 << 18), 13);
        cell.to[1] = 3;
        assert_eq!(answer(&cell, &recipe, 1 << 20, 1 << 17), 21);
        assert_eq!(answer(&cell, &recipe, (1 << 20) - 1, 1 << 17), 14);
        assert_eq!(answer(&cell, &recipe, 1 << 20, (1 << 17) - 1), 14);
        // Nothing leads to point 4 any more, whatever else is broken.
        recipe.then[3] = 0;
        assert_eq!(answer(&cell, &recipe, 1 << 20, 1 << 17), 22);
        assert_eq!(answer(&cell, &recipe, 0, 0), 22);
        cell.to[1] = 4;
        assert_eq!(answer(&cell, &recipe, 1 << 21, 1 << 18), 22);
        recipe.then[3] = 16;
        assert_eq!(answer(&cell, &recipe, 0, 0), 4);
        cell.limits[3] = 7;
        assert_eq!(answer(&cell, &recipe, 0, 0), 20);
        cell.count = 65;
        assert_eq!(answer(&cell, &recipe, 0, 0), 3);
    }

    #[test]
    fn a_recipe_with_an_unreached_point_gets_no_list() {
        for pasted in [&PASTED_END[..], &PASTED_LOOP] {
            let (whole, recipe) = bench_with(pasted);
            // With a line missing and without.
            for cell in [bench_without(3), whole] {
                let refused = Install {
                    refusal: 22,
                    processes: vec![],
                };
                assert_eq!(install(&cell, &recipe, 200, 200), refused);
                assert_eq!(install(&cell, &recipe, 0, 0), refused);
            }
            // Without that rule the list would be the bench example's.
            let missing = missing_processes(&bench_without(3), &recipe, realisable_by_single_moves);
            assert_eq!(missing, [[1, 1, 2, 2]]);
        }
    }

    #[test]
    fn fifteen_is_not_given() {
        let (cell, recipe) = limit();
        assert_eq!(install(&cell, &recipe, 1 << 20, (1 << 17) - 1).refusal, 14);
        let nothing = recipe_of(&["0,1,9,1,0,0,0"]);
        assert_eq!(listed(&cell_of(&BENCH_CELL), &nothing), [[0; 4]; 0]);
    }

    #[test]
    fn joint_steps_and_single_moves_list_the_same() {
        let mut random = Random(31);
        let (mut compared, mut some_listed, mut none_listed, mut gated) = (0, 0, 0, 0);
        let mut last = bench();
        for seed in 0..2000 {
            let (cell, recipe) = either_pair(seed, 200, &mut random);
            // A recipe that another cell was meant for seldom lacks nothing.
            for recipe in [&recipe, &last.1] {
                let tries = candidates(&cell, recipe).len() as u64 + 1;
                let room = usize::from(cell.count) < MOST_LINES;
                let may_be_listed = room && every_point_is_reached(recipe);
                if may_be_listed && joint_choices(&cell, &alone(&cell, recipe)) * tries < 20_000 {
                    let listed = listed(&cell, recipe);
                    let lacks = !realisable_by_joint_steps(&cell, recipe);
                    compared += 1;
                    some_listed += usize::from(!listed.is_empty());
                    gated += usize::from(!listed.is_empty() && cell.has_gates());
                    none_listed += usize::from(lacks && listed.is_empty());
                }
            }
            last = (cell, recipe);
        }
        let counts = [compared, some_listed, none_listed, gated];
        assert!(
            compared > 1000 && some_listed > 200 && none_listed > 200 && gated > 50,
            "{counts:?}"
        );
    }
}
