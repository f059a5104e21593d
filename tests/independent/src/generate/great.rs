//! Cells and recipes that a planner has most to do with: as many positions as there may be, long
//! silent ways, and many rounds.

use super::{cell_of_lines, keeping, recipe_of_lines, walk, CellLine, RecipeLine, Shape, END_LINE};
use crate::cell::{Cell, GATE, IN, INTERNAL, OPERATION, OUT, PHOTOCELLS};
use crate::install::realisable_by_single_moves;
use crate::random::Random;
use crate::recipe::{Recipe, DO, TEST};
use crate::single::{check, check_to_plan};
use crate::sizes::{Sizes, MOST_POSITIONS};
use crate::table::MOST_LINES;

/// As many positions as there may be, and a way from the start: three stations that do everything in
/// every state; five parts that are given, tested and taken.
pub fn dense_pair() -> (Cell, Recipe) {
    let mut lines: Vec<CellLine> = vec![];
    // Empty pallets go all but the last way round.
    let port = |k: u8| if k == 2 { k } else { PHOTOCELLS + k };
    for (k, state) in (0..12).map(|n| (n / 4, n % 4)) {
        let next = (state + 1) % 4;
        lines.push([k, state, OPERATION, state % 2, next]);
        lines.push([k, state, INTERNAL, 0, (state + 2) % 4]);
        lines.push([k, state, OUT, port(k), next]);
        lines.push([k, state, IN, port((k + 2) % 3), next]);
    }
    let mut points: Vec<RecipeLine> = vec![];
    for (point, part) in (0..15).map(|n| (n, 1 << (n % 5))) {
        let (op, then) = (point % 2, point + 1);
        points.push(match point / 5 {
            0 => [point, DO, op, 0, part, then, 0],
            1 => [point, TEST, op, part, 0, then, 5 + point % 3],
            _ => [point, DO, op, part, 0, then, 0],
        });
    }
    points.push(super::numbered(END_LINE, 15));
    (cell_of_lines(&lines), recipe_of_lines(&points))
}

/// Three stations of four states each, five parts and 16 points, which are as many positions as there
/// may be; so many cell lines, and so many silent moves in all. The recipe is written along a walk, and
/// each of its points is reached.
pub fn mixed_pair(lines: usize, silent_moves: usize, random: &mut Random) -> (Cell, Recipe) {
    let shape = Shape {
        wide: false,
        states: vec![4; 3],
        parts: 5,
        points: 16,
    };
    loop {
        let cell = cell_of_lines(&mixed_lines(lines, silent_moves, random));
        if walk::silent_steps(&cell).len() != silent_moves {
            continue;
        }
        let recipe = recipe_of_lines(&walk::recipe_lines(&cell, &shape, random));
        let greatest = || Sizes::of(&cell, &recipe).positions == MOST_POSITIONS;
        if check_to_plan(&cell, &recipe) == 0 && greatest() {
            return (cell, recipe);
        }
    }
}

/// A mixed pair that lacks a process: of a cell of one line more, the first operation line that the recipe
/// can't do without is left out. There are as many positions as before.
pub fn gap_pair(lines: usize, silent_moves: usize, random: &mut Random) -> (Cell, Recipe) {
    loop {
        let (whole, recipe) = mixed_pair(lines + 1, silent_moves, random);
        let operations = (0..=lines).filter(|&n| whole.act[n] == OPERATION);
        let mut without = operations.map(|n| keeping(&whole, |line| line != n));
        let lacks = |cell: &Cell| {
            check(cell, &recipe) == 0
                && Sizes::of(cell, &recipe).positions == MOST_POSITIONS
                && !realisable_by_single_moves(cell, &recipe)
        };
        if let Some(cell) = without.find(lacks) {
            return (cell, recipe);
        }
    }
}

/// Any lines of three stations with four states, and ports on which empty pallets go. The more silent moves
/// are wanted for a line, the more of the lines are internal work, an in or an out.
fn mixed_lines(lines: usize, silent_moves: usize, random: &mut Random) -> Vec<CellLine> {
    let mut line = || {
        let silent = random.below(2 * lines) < lines / 2 + silent_moves / 2;
        let (act, arg) = match silent {
            false => (OPERATION, random.below(4) as u8),
            true => (
                random.choose(&[INTERNAL, IN, OUT]),
                PHOTOCELLS + random.below(3) as u8,
            ),
        };
        let [from, to] = [(); 2].map(|()| random.below(4) as u8);
        [random.below(3) as u8, from, act, arg, to]
    };
    (0..lines).map(|_| line()).collect()
}

/// Long silent ways, of 399 moves with three stations and of 2,800 with four: stations of eight states
/// count, the first by internal work, the others by the transfers with which the station before starts
/// anew. What is to be done, with the last of so many parts, is done in the last station's last state.
pub fn long_ways_pair(stations: u8, parts: u8) -> (Cell, Recipe) {
    let mut lines = counting_lines(stations, INTERNAL);
    lines.extend([0, 1].map(|op| [stations - 1, 7, OPERATION, op, 0]));
    let part = 1 << (parts - 1);
    let points = [[0, DO, 0, 0, part, 1, 0], [1, DO, 1, part, 0, 0, 0]];
    (cell_of_lines(&lines), recipe_of_lines(&points))
}

/// The pair with its stations in reverse order. The one that moves most counts most in a position then, and
/// what silent moves lead to lies far from where they begin.
pub fn stations_reversed((mut cell, recipe): (Cell, Recipe)) -> (Cell, Recipe) {
    let stations = cell.resources();
    for resource in &mut cell.resource[..usize::from(cell.count)] {
        *resource = stations as u8 - 1 - *resource;
    }
    cell.limits[..stations].reverse();
    (cell, recipe)
}

/// The pair with gates at its tests: behind its cell's lines, a gate for everything by which a test may be
/// carried, to the state before the one in which it begins, as far as there is room.
pub fn with_gates((mut cell, recipe): (Cell, Recipe)) -> (Cell, Recipe) {
    let sizes = Sizes::of(&cell, &recipe);
    let points = 0..sizes.points as u8;
    let tests = points.filter(|&point| recipe.kind_at(point) == TEST);
    let tested: Vec<u8> = tests
        .map(|point| recipe.op[recipe.lines_at(point).start])
        .collect();
    for n in 0..usize::from(cell.count) {
        let [k, from, act, arg, _] = cell.line(n);
        let end = usize::from(cell.count);
        let is_carrier = act == OPERATION && tested.contains(&arg);
        if is_carrier && cell.line_on_failure(n) == n && end < MOST_LINES {
            let states = sizes.states[usize::from(k)] as u8;
            let failed = (from + states - 1) % states;
            cell.set_line(end, [k, from, GATE, arg, failed]);
            cell.count += 1;
        }
    }
    (cell, recipe)
}

/// Stations of eight states, five at most, that count the rounds of a loop, the first by its operation
/// and the others by transfers, until the last one is stuck. So nothing but the last count is stuck at
/// first, and each sweep drops one more round of the loop; nothing is realisable.
pub fn odometer_pair(stations: u8) -> (Cell, Recipe) {
    let mut lines = counting_lines(stations, OPERATION);
    lines.extend((0..8).map(|state| [0, state, OPERATION, 1, state]));
    let points = [[0, DO, 0, 0, 1, 1, 0], [1, DO, 1, 1, 0, 0, 0]];
    (cell_of_lines(&lines), recipe_of_lines(&points))
}

/// The lines of stations of eight states. The first goes up by number 0 of an act; each that is at the
/// top starts anew with a transfer that takes the next one up, with a part or without.
fn counting_lines(stations: u8, act: u8) -> Vec<CellLine> {
    let mut lines: Vec<CellLine> = (0..7).map(|state| [0, state, act, 0, state + 1]).collect();
    for k in 1..stations {
        let port = PHOTOCELLS + k;
        lines.push([k - 1, 7, OUT, port, 0]);
        lines.extend((0..7).map(|state| [k, state, IN, port, state + 1]));
    }
    lines
}

#[cfg(test)]
mod tests {
    use super::*;
    use crate::book::Book;
    use crate::entry::{kind_of, CARRY, INTERNAL, STAY, TRANSFER};
    use crate::fixtures::{alone, planned};
    use crate::install::missing_processes;
    use crate::judge::{judge, longest_way};

    fn sizes_of((cell, recipe): &(Cell, Recipe)) -> Sizes {
        assert_eq!(check(cell, recipe), 0);
        Sizes::of(cell, recipe)
    }

    #[test]
    fn mixed_pairs_are_realisable_by_moves_of_every_kind() {
        for (lines, silent_moves, seed) in [(29, 14, 6), (64, 52, 3)] {
            let pair = mixed_pair(lines, silent_moves, &mut Random(seed));
            let sizes = sizes_of(&pair);
            let (cell, recipe) = pair;
            assert_eq!((sizes.resources, sizes.parts, sizes.points), (3, 5, 16));
            assert_eq!(sizes.states[..3], [4; 3]);
            assert_eq!(sizes.positions, MOST_POSITIONS);
            assert_eq!(usize::from(cell.count), lines);
            assert_eq!(walk::silent_steps(&cell).len(), silent_moves);
            let (refusal, table) = planned(&cell, &recipe);
            assert_eq!(refusal, 0);
            for kind in [INTERNAL, TRANSFER, CARRY, STAY] {
                let moves = table.iter().filter(|&&entry| kind_of(entry) == kind);
                assert!(moves.count() > 5_000);
            }
        }
    }

    #[test]
    fn gap_pairs_lack_a_process() {
        for (lines, silent_moves, seed) in [(29, 14, 1), (48, 30, 1), (30, 14, 54)] {
            let pair = gap_pair(lines, silent_moves, &mut Random(seed));
            assert_eq!(sizes_of(&pair).positions, MOST_POSITIONS);
            let (cell, recipe) = pair;
            assert_eq!(usize::from(cell.count), lines);
            assert_eq!(walk::silent_steps(&cell).len(), silent_moves);
            assert_eq!(planned(&cell, &recipe).0, 15);
        }
        let (cell, recipe) = gap_pair(30, 14, &mut Random(54));
        let missing = missing_processes(&cell, &recipe, realisable_by_single_moves);
        assert_eq!(missing, [[0, 0, 0, 2]]);
    }

    /// Follows the plan of a loop of two points, in which so many silent moves come before each carry.
    fn follow_long_ways((cell, recipe): &(Cell, Recipe), most: u64) {
        let (refusal, table) = planned(cell, recipe);
        assert_eq!(refusal, 0);
        let joined = alone(cell, recipe);
        let mut book = Book::new(cell, &joined, &table);
        for point in [0, 1, 0] {
            for silent_moves in 1..=most {
                assert_eq!(book.report(0).refusal, 0);
                assert_eq!(
                    (book.silent_moves(), book.run().point),
                    (silent_moves, point)
                );
            }
            assert_eq!(book.report(0).refusal, 0);
            assert_eq!(book.silent_moves(), 0);
        }
        assert_eq!(longest_way(cell, &joined, &table), Ok(most));
    }

    #[test]
    fn a_long_way_takes_hundreds_or_thousands_of_silent_moves() {
        // Once up takes the last station 1 + 7 × 8 moves, and it goes up seven times.
        let three = long_ways_pair(3, 5);
        assert_eq!(sizes_of(&three).positions, MOST_POSITIONS);
        follow_long_ways(&three, 399);
        // With one more in front, it takes 1 + 7 × 57 moves.
        let four = long_ways_pair(4, 3);
        let backwards = stations_reversed(four.clone());
        for pair in [&four, &backwards] {
            let sizes = sizes_of(pair);
            assert_eq!((sizes.parts, sizes.points, pair.0.count), (3, 2, 33));
            assert_eq!((sizes.resources, &sizes.states[..4]), (4, &[8; 4][..]));
            assert_eq!(sizes.positions, 1_024_000);
            follow_long_ways(pair, 2_800);
        }
        assert_ne!(backwards, four);
        assert_eq!(stations_reversed(backwards), four);
    }

    #[test]
    fn gates_at_every_test_of_the_dense_pair() {
        let (cell, recipe) = with_gates(dense_pair());
        assert_eq!(
            sizes_of(&(cell.clone(), recipe.clone())).positions,
            MOST_POSITIONS
        );
        assert_eq!(usize::from(cell.count), 48 + 12);
        assert_eq!(cell.line(48), [0, 0, GATE, 0, 3]);
        let (refusal, table) = planned(&cell, &recipe);
        let judged = judge(&cell, &alone(&cell, &recipe), &table);
        assert_eq!((refusal, judged), (0, Ok(0)));
        // Only what is tested gets a gate, and only as long as there is room.
        let (cell, recipe) = long_ways_pair(3, 5);
        assert_eq!(with_gates((cell.clone(), recipe.clone())), (cell, recipe));
        let (cell, _) = with_gates(mixed_pair(64, 52, &mut Random(3)));
        assert!(cell.count == 64 && !cell.has_gates());
    }

    #[test]
    fn stations_in_reverse_order_keep_their_limits() {
        let (mut cell, recipe) = long_ways_pair(3, 1);
        cell.limits[..3].copy_from_slice(&[1, 2, 3]);
        let (backwards, _) = stations_reversed((cell, recipe));
        assert_eq!(backwards.limits, [3, 2, 1, 8, 8, 8]);
        assert_eq!(backwards.line(0), [2, 0, 0, 0, 1]);
    }

    #[test]
    fn an_odometer_is_stuck_in_the_end() {
        for (stations, positions) in [(1, 32), (2, 384), (3, 4096)] {
            let pair = odometer_pair(stations);
            assert_eq!(sizes_of(&pair).positions, positions);
            let (refusal, table) = planned(&pair.0, &pair.1);
            assert_eq!(refusal, 15);
            assert!(table.iter().all(|&entry| entry == 0));
        }
        assert_eq!(sizes_of(&odometer_pair(4)).positions, 40_960);
        assert_eq!(sizes_of(&odometer_pair(5)).positions, 393_216);
        // If the last station started anew, so would the loop.
        let (mut cell, recipe) = odometer_pair(2);
        let last = usize::from(cell.count) - 9;
        assert_eq!(
            (cell.resource[last], cell.from[last], cell.to[last]),
            (1, 6, 7)
        );
        cell.to[last] = 0;
        let (refusal, _) = planned(&cell, &recipe);
        assert_eq!(refusal, 0);
    }
}
