//! The library's planner, through the C interface: worked examples, bounds, and every shape of a cell
//! and a recipe.

use against::calls::{Calls, Library};
use against::generate::{self, Rows};
use against::pairs::{limits_of, Pair, PASTED_END, PASTED_LOOP, THREE_GIVEN, TWO_GIVEN};
use against::plans::{Handed, Planned};
use against::random::Random;
use against::rounds::accepted;
use against::{CellFile, Format, RecipeFile, REFUSALS};
use independent::{
    cell_bytes, dense_pair, long_ways_pair, mixed_pair, recipe_bytes, scratch_bytes, Cell, Recipe,
    Sizes, MOST_POSITIONS, MOST_RESOURCES, RUN_BYTES,
};

const BENCH_CELL: &[u8] = include_bytes!("../../../examples/bench/cell.csv");
const BENCH_RECIPE: &str = include_str!("../../../examples/bench/recipe.csv");

const STAY: u32 = 67_108_864;

fn bench() -> Handed {
    let mut cell = vec![0; CellFile::RECORD_BYTES];
    let mut recipe = vec![0; RecipeFile::RECORD_BYTES];
    assert_eq!(CellFile::library(BENCH_CELL, &mut cell), 0);
    assert_eq!(RecipeFile::library(BENCH_RECIPE.as_bytes(), &mut recipe), 0);
    Handed {
        cell,
        recipes: recipe,
        entries: 90,
        scratch: 12,
    }
}

/// The bench example with these recipe lines.
fn bench_with(recipe: &[[u32; 7]]) -> Handed {
    let rows: Rows = recipe.iter().map(|line| line.to_vec()).collect();
    Handed {
        recipes: generate::record::<RecipeFile>(&rows),
        ..bench()
    }
}

/// The plan call of two records, with so many more entries, and bytes of scratch, than it needs.
fn handed((cell, recipe): &(Cell, Recipe), more: usize) -> Handed {
    let positions = Sizes::of(cell, recipe).positions;
    Handed {
        cell: cell_bytes(cell).to_vec(),
        recipes: recipe_bytes(recipe).to_vec(),
        entries: positions as usize + more,
        scratch: scratch_bytes(positions) as usize + more,
    }
}

#[test]
fn the_bench_example_is_planned_and_followed() {
    let handed = bench();
    let mut random = Random::new(1);
    let Planned { refusal, table } = handed.plan(&mut random);
    assert_eq!(refusal, 0);
    assert_eq!(table[72], STAY);
    assert_eq!((table[1], table[23]), (0, 0));
    assert_eq!(table.iter().filter(|&&entry| entry != 0).count(), 24);

    let (cell, recipe) = (&handed.cell, &handed.recipes);
    let (_, joined) = accepted(cell, recipe).expect("the bench example is accepted");
    let position = |run: &[u8]| joined.position(&independent::run_of_bytes(run));
    let follow = |moves: &[(u64, u64, u8)], end: u64| {
        let mut run = [0xff; RUN_BYTES];
        assert_eq!(Library::fresh(&mut run), 0);
        for &(at, entry, outcome) in moves {
            assert_eq!(position(&run), at);
            assert_eq!(Library::next_move(cell, recipe, &table, &run), entry);
            let refusal = Library::report(cell, recipe, &table, &mut run, outcome);
            assert_eq!(refusal, 0);
        }
        assert_eq!(position(&run), end);
    };
    let start = [(0, 50_331_648, 0), (22, 33_554_561, 0)];
    let passed = [(26, 50_331_843, 1), (50, 50_331_652, 0)];
    follow(&[start, passed].concat(), 72);
    let failed = [(26, 50_331_843, 0), (68, 50_331_652, 0)];
    follow(&[start, failed].concat(), 0);
}

#[test]
fn the_bench_example_with_other_lengths() {
    let mut random = Random::new(2);
    let mut refused = 0;
    for entries in (0..100).chain([200, 8192]) {
        for scratch in [0, 1, 11, 12, 13, 89, 90, 8192] {
            let handed = Handed {
                entries,
                scratch,
                ..bench()
            };
            let short = entries < 90 || scratch < 12;
            let refusal = handed.plan(&mut random).refusal;
            assert_eq!(refusal, if short { 14 } else { 0 });
            refused += usize::from(short);
        }
    }
    assert_eq!(refused, 90 * 8 + 12 * 3);
}

#[test]
fn a_station_that_has_left_its_state_cannot_test_again() {
    let handed = bench_with(&[
        [0, 1, 1, 0, 1, 1, 0],
        [1, 2, 2, 1, 0, 2, 3],
        [2, 1, 3, 1, 0, 4, 0],
        [3, 2, 2, 1, 0, 2, 2],
        [4, 0, 0, 0, 0, 0, 0],
    ]);
    let Planned { refusal, table } = handed.plan(&mut Random::new(3));
    assert_eq!((refusal, table[0]), (15, 0));
    // The table is filled all the same.
    assert_eq!((table[50], table[72]), (50_331_652, STAY));
}

#[test]
fn a_recipe_of_one_end_is_accepted() {
    let mut handed = bench_with(&[[0, 0, 0, 0, 0, 0, 0]]);
    handed.entries = 6;
    handed.scratch = 1;
    let Planned { refusal, table } = handed.plan(&mut Random::new(4));
    assert_eq!((refusal, table), (0, vec![STAY; 6]));
}

/// Wants 22 of a plan call on records that pass all other rules, whatever it is lent, which it must leave.
fn expect_unreached(handed: &Handed) {
    let Handed { cell, recipes, .. } = handed;
    assert_eq!(Library::check(cell, recipes), 0);
    let mut random = Random::new(13);
    for entries in [0, handed.entries - 1, handed.entries, handed.entries + 9] {
        for scratch in [0, handed.scratch - 1, handed.scratch, handed.scratch + 9] {
            let (mut table, mut bytes) = (vec![7; entries], vec![9; scratch]);
            assert_eq!(Library::plan(cell, recipes, &mut table, &mut bytes), 22);
            assert!(table == vec![7; entries] && bytes == vec![9; scratch]);
            let handed = Handed {
                entries,
                scratch,
                ..handed.clone()
            };
            assert_eq!(handed.plan(&mut random).refusal, 22);
        }
    }
}

#[test]
fn the_bench_example_with_forgotten_points_is_not_planned() {
    let handed = |file: &str| {
        let mut recipe = vec![0; RecipeFile::RECORD_BYTES];
        assert_eq!(RecipeFile::library(file.as_bytes(), &mut recipe), 0);
        Handed::of(bench().cell, recipe)
    };
    for (pasted, positions) in [(PASTED_END, 108), (PASTED_LOOP, 126)] {
        let handed = handed(&format!("{BENCH_RECIPE}{pasted}"));
        assert_eq!(handed.entries, positions);
        expect_unreached(&handed);
    }
    // Nothing but `else` leads to point 3.
    for then_alone in ["1,2,2,1,0,2,2", "1,1,2,1,1,2,0"] {
        let file = BENCH_RECIPE.replace("1,2,2,1,0,2,3", then_alone);
        assert_ne!(file, BENCH_RECIPE);
        expect_unreached(&handed(&file));
    }
}

/// A station that does operation 1, and a recipe of six points: an end behind five dos, each of which gives
/// a part of its own and leads to the point that is named for it.
fn chain(then: [u32; 5]) -> Handed {
    let cell = generate::record::<CellFile>(&[vec![0, 0, 1, 1, 0]]);
    let dos = (0..).zip(then);
    let mut recipe: Rows = dos
        .map(|(point, then)| vec![point, 1, 1, 0, 1 << point, then, 0])
        .collect();
    recipe.push(vec![5, 0, 0, 0, 0, 0, 0]);
    Handed::of(cell, generate::record::<RecipeFile>(&recipe))
}

#[test]
fn points_are_reached_by_chains_in_any_order() {
    let mut random = Random::new(14);
    // Forwards, backwards from 4 to 1, and both.
    for then in [[1, 2, 3, 4, 5], [4, 5, 1, 2, 3], [3, 4, 1, 2, 5]] {
        assert_eq!(chain(then).plan(&mut random).refusal, 0);
    }
    // Round and round; a point that leads to itself; and the end at once.
    for then in [
        [1, 2, 3, 4, 0],
        [1, 2, 3, 0, 5],
        [0, 2, 3, 4, 5],
        [4, 5, 1, 3, 3],
        [5, 0, 0, 0, 0],
    ] {
        expect_unreached(&chain(then));
    }
}

#[test]
fn points_behind_an_end_and_points_of_several_lines() {
    let cell = ["0,0,1,1,0", "1,0,1,2,0"];
    let pair = |recipe: &[&str]| Pair::of_lines(&cell, &[], recipe);
    let forgotten = |recipe: &[&str]| {
        let pair = pair(recipe);
        expect_unreached(&Handed::of_pair(&pair));
    };
    for second in ["1,0,0,0,0,0,0", "1,1,1,0,1,0,0", "1,2,1,1,0,1,1"] {
        forgotten(&["0,0,0,0,0,0,0", second]);
    }
    let both = ["0,1,1,0,1,1,0", "0,1,2,0,2,1,0", "1,0,0,0,0,0,0"];
    assert_eq!(plan_pair(&pair(&both)).refusal, 0);
    forgotten(&[&both[..], &["2,1,1,1,0,0,0", "2,1,2,2,0,0,0"]].concat());
}

#[test]
fn the_rules_are_tried_in_their_order() {
    let mut random = Random::new(5);
    let mut handed = bench();
    let mut expect = |handed: &Handed, refusal: u32| {
        assert_eq!(handed.plan(&mut random).refusal, refusal, "{handed}");
    };
    // First the test at point 1 wants an operation that the cell hasn't.
    handed.recipes[1 + 7 + 2] = 9;
    expect(&handed, 15);
    for (handed, refusal) in handed.ever_more_damaged() {
        expect(&handed, refusal);
    }
}

/// Plans a pair with a table and a scratch that are just long enough.
fn plan_pair(pair: &Pair) -> Planned {
    Handed::of_pair(pair).plan(&mut Random::new(10))
}

#[test]
fn a_nest_for_one_part_does_not_hold_two() {
    let nest = |most| plan_pair(&Pair::of_lines(&["0,0,1,1,0"], &[most], &TWO_GIVEN));
    for most in 2..=8 {
        let Planned { refusal, table } = nest(most);
        assert_eq!((refusal, table.len(), table[11]), (0, 12, STAY));
    }
    let Planned { refusal, table } = nest(1);
    assert_eq!((refusal, table[0], table[5]), (15, 0, 0));
    // From an empty nest the second part alone is given.
    assert_eq!(table[4], 50_331_648);
    // The ends at which the nest isn't overfull.
    assert_eq!(table[8..], [STAY, STAY, STAY, 0]);
}

#[test]
fn every_limit_of_every_resource() {
    let mut random = Random::new(12);
    let pair = Pair::of_lines(&["0,0,1,1,0"], &[], &TWO_GIVEN);
    for k in 0..MOST_RESOURCES {
        for most in 0..=255 {
            let mut handed = Handed {
                cell: pair.cell_bytes(),
                recipes: pair.recipes_bytes(),
                entries: 12,
                scratch: 2,
            };
            limits_of(&mut handed.cell)[k] = most;
            let expected = match (k, most) {
                (_, 0 | 9..) => 4,
                (0, 1) => 15,
                (0, _) | (_, 8) => 0,
                _ => 20,
            };
            assert_eq!(handed.plan(&mut random).refusal, expected, "{handed}");
        }
    }
}

#[test]
fn two_parts_wait_in_a_nest_for_both() {
    let cell = ["0,0,1,1,1", "0,1,3,5,0", "1,0,2,5,0", "1,0,1,2,0"];
    let recipe = [
        "0,1,1,0,1,1,0",
        "1,1,1,0,2,2,0",
        "2,1,2,3,0,3,0",
        "3,0,0,0,0,0,0",
    ];
    for (limits, refusal) in [
        (&[8, 2], 0),
        (&[1, 2], 0),
        (&[8, 1], 15),
        (&[2, 1], 15),
        (&[8, 8], 0),
    ] {
        let pair = Pair::of_lines(&cell, limits, &recipe);
        assert_eq!(plan_pair(&pair).refusal, refusal);
    }
}

#[test]
fn a_move_that_mends_leads_to_a_plan_and_is_in_none() {
    let cell = ["0,0,1,1,0", "0,0,3,0,0", "1,0,2,0,0"];
    let Planned { refusal, table } = plan_pair(&Pair::of_lines(&cell, &[1, 8], &THREE_GIVEN));
    // At 58 two parts stand at the first station, at 62 both at the second.
    assert_eq!((refusal, table[58]), (0, 0));
    assert_ne!(table[62], 0);
    let Planned { refusal, table } = plan_pair(&Pair::of_lines(&cell, &[2, 8], &THREE_GIVEN));
    assert_eq!((refusal, table[58]), (0, 33_554_561));
}

#[test]
fn so_many_parts_need_so_great_a_limit() {
    let mut random = Random::new(11);
    for resources in 1..=3 {
        for parts in 1..=8 {
            for most in 1..=8 {
                let mut handed = shaped(resources, parts, 3);
                if handed.entries > 40_000 {
                    continue;
                }
                let limits = limits_of(&mut handed.cell);
                limits[..resources as usize].fill(most);
                let refusal = handed.plan(&mut random).refusal;
                let fits = parts <= most.into();
                assert_eq!(refusal, if fits { 0 } else { 15 }, "{handed}");
            }
        }
    }
}

#[test]
fn records_of_every_length() {
    let mut random = Random::new(6);
    for length in 0..CellFile::RECORD_BYTES + 40 {
        let mut handed = bench();
        handed.cell.resize(length, 0x5a);
        let short = length < CellFile::RECORD_BYTES;
        assert_eq!(handed.plan(&mut random).refusal, if short { 3 } else { 0 });
    }
    // Too few bytes are no chapter, and a rest is none either.
    for length in 0..2 * RecipeFile::RECORD_BYTES + 10 {
        let mut handed = bench();
        handed.recipes.resize(length, 0x5a);
        let owed = match length / RecipeFile::RECORD_BYTES {
            0 => 24,
            1 => 0,
            // The second record has more lines than there may be.
            _ => 3,
        };
        assert_eq!(handed.plan(&mut random).refusal, owed, "{length} bytes");
    }
}

/// A pair of so many resources, parts and points. Each station can do the one operation, the first one
/// after internal work. Parts are all given, then all taken, and so on, and the last point is an end;
/// without parts all points are ends, of which the first alone is reached; a single point leads to itself.
fn shaped(resources: u32, parts: u32, points: u32) -> Handed {
    let mut cell: Rows = (0..resources).map(|k| vec![k, 0, 1, 0, 0]).collect();
    cell[0][1] = 1;
    cell.push(vec![0, 0, 0, 0, 1]);
    let all = (1 << parts) - 1;
    let point = |point: u32| match (parts, points - 1 - point, point % 2) {
        (0, _, _) => vec![point, 0, 0, 0, 0, 0, 0],
        (_, 0, _) if point == 0 => vec![0, 1, 0, all, all, 0, 0],
        (_, 0, _) => vec![point, 0, 0, 0, 0, 0, 0],
        (_, _, 0) => vec![point, 1, 0, 0, all, point + 1, 0],
        _ => vec![point, 1, 0, all, 0, point + 1, 0],
    };
    let recipe: Rows = (0..points).map(point).collect();
    let positions = points * 2 * (resources + 1).pow(parts);
    Handed {
        cell: generate::record::<CellFile>(&cell),
        recipes: generate::record::<RecipeFile>(&recipe),
        entries: positions as usize,
        scratch: scratch_bytes(positions.into()) as usize,
    }
}

#[test]
fn every_shape() {
    let mut random = Random::new(7);
    let mut refusals = [0; REFUSALS];
    for resources in 1..=6 {
        for parts in 0..=8 {
            for points in 1..=16 {
                let mut handed = shaped(resources, parts, points);
                let few = handed.entries <= 70_000;
                // Of the greater ones only the size is tried.
                if !few {
                    handed.entries = (handed.entries - 1).min(70_000);
                    handed.scratch = 0;
                }
                let refusal = handed.plan(&mut random).refusal;
                if few {
                    let expected = match (parts, points) {
                        (0, 2..) => 22,
                        (1.., 1) => 15,
                        _ => 0,
                    };
                    assert_eq!(refusal, expected, "{handed}");
                }
                refusals[refusal as usize] += 1;
            }
        }
    }
    println!("{refusals:?}");
    assert_eq!(refusals.iter().sum::<usize>(), 6 * 9 * 16);
    for (refusal, least) in [(0, 500), (13, 100), (14, 100), (15, 30), (22, 90)] {
        assert!(refusals[refusal] >= least, "{refusal}: {refusals:?}");
    }
}

/// A pair of six stations, or fewer, with eight states each, in which each goes round by internal work
/// and the last one's operation carries each point to the next; the last point is an end.
fn many_joint_states(stations: u32, points: u32, parts: bool) -> Handed {
    let mut cell: Rows = (0..stations * 8)
        .map(|n| vec![n / 8, n % 8, 0, 0, (n + 1) % 8])
        .collect();
    cell.push(vec![stations - 1, 7, 1, 0, 3]);
    let point = |point: u32| match (parts && point + 1 < points, point % 2) {
        (false, _) => vec![point, 0, 0, 0, 0, 0, 0],
        (true, 0) => vec![point, 1, 0, 0, 1, point + 1, 0],
        (true, _) => vec![point, 1, 0, 1, 0, point + 1, 0],
    };
    let recipe: Rows = (0..points).map(point).collect();
    let placings = if parts { stations + 1 } else { 1 };
    let positions = points * 8u32.pow(stations) * placings;
    Handed {
        cell: generate::record::<CellFile>(&cell),
        recipes: generate::record::<RecipeFile>(&recipe),
        entries: positions as usize,
        scratch: scratch_bytes(positions.into()) as usize,
    }
}

#[test]
fn many_joint_states_and_few_ways_to_place_parts() {
    let mut random = Random::new(8);
    for (stations, points, parts, positions) in [
        (6, 1, false, 262_144),
        (5, 5, true, 983_040),
        (4, 13, true, 266_240),
    ] {
        let handed = many_joint_states(stations, points, parts);
        assert_eq!(handed.entries as u64, positions);
        let Planned { refusal, table } = handed.plan(&mut random);
        assert_eq!(refusal, 0);
        let moves = |kind| table.iter().filter(|&&entry| entry >> 24 == kind).count();
        let expected = if parts {
            [true; 3]
        } else {
            [false, false, true]
        };
        assert_eq!([1, 3, 4].map(|kind| moves(kind) > 0), expected);
    }
    // One more point, and it is 13 before it is 14.
    let mut handed = many_joint_states(5, 6, true);
    handed.entries = 1;
    assert_eq!(handed.plan(&mut random).refusal, 13);
    // Several points without parts are ends that nothing leads to, be they too many for 13 or not.
    for (points, size) in [(4, 0), (5, 13)] {
        let handed = many_joint_states(6, points, false);
        assert_eq!(Library::check(&handed.cell, &handed.recipes), size);
        assert_eq!(handed.plan(&mut random).refusal, 22);
    }
}

#[test]
fn as_many_positions_as_there_may_be() {
    let mut random = Random::new(9);
    let mixed = |lines, silent, seed| mixed_pair(lines, silent, &mut independent::Random(seed));
    for (pair, more) in [
        (dense_pair(), 0),
        (mixed(29, 14, 6), 1),
        (mixed(64, 52, 3), 7),
        (long_ways_pair(3, 5), 0),
    ] {
        let mut handed = handed(&pair, more);
        assert_eq!((handed.entries - more) as u64, MOST_POSITIONS);
        assert_eq!(handed.plan(&mut random).refusal, 0);
        handed.entries -= more + 1;
        assert_eq!(handed.plan(&mut random).refusal, 14);
        handed.entries += 1;
        handed.scratch -= more + 1;
        assert_eq!(handed.plan(&mut random).refusal, 14);
    }
    // With limits too.
    for (limits, refusal) in [([2, 2, 5], 0), ([2, 2, 4], 15)] {
        let (mut cell, recipe) = dense_pair();
        cell.limits[..3].copy_from_slice(&limits);
        assert_eq!(
            handed(&(cell, recipe), 0).plan(&mut random).refusal,
            refusal
        );
    }
    // A fifth state in one station, and it is 13.
    let (mut cell, recipe) = dense_pair();
    cell.to[0] = 4;
    let mut handed = handed(&(cell, recipe), 0);
    handed.entries = 0;
    assert_eq!(handed.plan(&mut random).refusal, 13);
}
