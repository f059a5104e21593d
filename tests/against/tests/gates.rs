//! Reject gates through the C interface: rule 23 in its place among the others, in each reader and call; the
//! second letter of a test's entry; both arrows of a test, followed in both forms of report; tables from
//! before there were gates; and worked examples.

use against::calls::{Calls, Library};
use against::gates::{add_lone, add_second, first_fault};
use against::generate::{file, Generate, Rows};
use against::installs::{owed, Installing};
use against::pairs::{either_pair, lines_at, Pair, NO_LIMITS};
use against::plans::{Handed, Planned};
use against::points::forgetful;
use against::random::Random;
use against::rounds::{compare, Round, Table};
use against::{same_reading, CellFile, Format, LimitsFile, RecipeFile, RunRecord};
use independent::{
    cell_bytes, check, check_cell, entry_of, every_point_is_reached, kind_of, letters_of,
    recipe_bytes, run_bytes, Cell, Joined, Recipe, Run, CARRY, CELL_BYTES, MOST_LINES,
    MOST_RESOURCES, RUN_BYTES,
};
use std::slice;

const BENCH_CELL: &str = include_str!("../../../examples/bench/cell.csv");
const BENCH_RECIPE: &str = include_str!("../../../examples/bench/recipe.csv");
const GATE_CELL: &str = include_str!("../../../examples/gate/cell.csv");
const GATE_RECIPE: &str = include_str!("../../../examples/gate/recipe.csv");

/// Pairs with which each of the ways below is tried, and how often each must at least be seen.
const REFUSED: usize = 2_200;
const LEAST_SEEN: usize = 1_000;

/// Pairs that are planned and looked at, and the most positions of one at which that is done.
const PLANNED: usize = 2_200;
const LOOKED_AT: usize = 6;

/// The most positions of a pair.
const FEW_POSITIONS: [u64; 4] = [60, 200, 400, 1_000];

/// The act of a gate, and the recipe kinds of a do and a test.
const GATE: u8 = 4;
const DO: u8 = 1;
const TEST: u8 = 2;

/// The value lines of a file.
fn value_lines(file: &str) -> Vec<&str> {
    file.lines().skip(1).collect()
}

/// The bench example with these lines behind its cell's.
fn bench_behind(lines: &[&str]) -> Pair {
    let cell = [&value_lines(BENCH_CELL)[..], lines].concat();
    Pair::of_lines(&cell, &[], &value_lines(BENCH_RECIPE))
}

/// The pair of the example with a gate.
fn gate_example() -> Pair {
    Pair::of_lines(&value_lines(GATE_CELL), &[], &value_lines(GATE_RECIPE))
}

/// What both readers say of the file of a pair's cell: the refusal and the line.
fn read(cell: &Rows) -> (u64, u64) {
    let buffer = [0x5a; CELL_BYTES];
    let file = file::<CellFile>(cell);
    let (answer, _) = same_reading(&file, &buffer, CellFile::library, CellFile::independent);
    (answer % 256, answer / 256)
}

/// What both readers of limits say of a cell record for which a good file is read.
fn read_limits(cell: &[u8]) -> (u64, u64) {
    let file = b"resource,most\n0,3\n";
    let (answer, _) = same_reading(file, cell, LimitsFile::library, LimitsFile::independent);
    (answer % 256, answer / 256)
}

#[test]
fn the_example_is_the_bench_example_with_a_gate() {
    assert_eq!(GATE_CELL, format!("{BENCH_CELL}1,1,4,2,3\n1,3,1,3,0\n"));
    assert_eq!(GATE_RECIPE, BENCH_RECIPE);
    assert_eq!(read(&gate_example().cell), (0, 0));
}

/// Follows a plan by these outcomes, and gives each entry on the way and the point to which it led.
fn followed(pair: &Pair, outcomes: &[u8]) -> Vec<(u64, u8)> {
    let handed = Handed::of_pair(pair);
    let Planned { refusal, table } = handed.plan(&mut Random::new(1));
    assert_eq!(refusal, 0);
    let Handed { cell, recipes, .. } = &handed;
    let mut run = [0xff; RUN_BYTES];
    assert_eq!(Library::fresh(&mut run), 0);
    let step = |&outcome: &u8| {
        let entry = Library::next_move(cell, recipes, &table, &run);
        let refusal = Library::report(cell, recipes, &table, &mut run, outcome);
        assert_eq!(refusal, 0);
        (entry, run[0])
    };
    outcomes.iter().map(step).collect()
}

#[test]
fn each_outcome_of_the_example_goes_its_way() {
    let start = [(50_331_648, 1), (33_554_561, 1)];
    let passed = [(50_331_971, 2), (50_331_652, 4)];
    let failed = [(50_331_971, 3), (50_331_654, 0)];
    let example = gate_example();
    assert_eq!(followed(&example, &[0, 0, 1, 0]), [start, passed].concat());
    assert_eq!(followed(&example, &[0, 0, 0, 0]), [start, failed].concat());
    // Without the gate both outcomes go on by the same line, and b equals a.
    let passed = [(50_331_843, 2), (50_331_652, 4)];
    let bench = bench_behind(&[]);
    assert_eq!(followed(&bench, &[0, 0, 1, 0]), [start, passed].concat());
    assert_eq!(
        Handed::of_pair(&bench).plan(&mut Random::new(2)).table[26],
        50_331_843
    );
}

#[test]
fn a_gate_may_make_a_recipe_realisable_and_may_spoil_it() {
    let again = [
        "0,1,1,0,1,1,0",
        "1,2,2,1,0,2,1",
        "2,1,3,1,0,3,0",
        "3,0,0,0,0,0,0",
    ];
    let answer = |gate: &[&str], recipe: &[&str]| {
        let cell = [&value_lines(BENCH_CELL)[..], gate].concat();
        let handed = Handed::of_pair(&Pair::of_lines(&cell, &[], recipe));
        handed.plan(&mut Random::new(3)).refusal
    };
    let (gate, bench) = (&["1,1,4,2,1"][..], value_lines(BENCH_RECIPE));
    assert_eq!((answer(gate, &again), answer(&[], &again)), (0, 15));
    assert_eq!((answer(gate, &bench), answer(&[], &bench)), (15, 0));
    // One that leads to where the operation line leads changes nothing.
    assert_eq!(answer(&["1,1,4,2,2"], &bench), 0);
    assert_eq!(answer(&["1,1,4,2,2"], &again), 15);
}

#[test]
fn worked_refusals() {
    let recipe = bench_behind(&[]).recipes_bytes();
    for (lines, line) in [
        (&["1,1,4,3,0"][..], 7),
        (&["1,1,4,2,0", "1,1,4,2,1"], 8),
        (&["1,1,4,2,0", "0,1,4,5,0", "1,1,4,2,0"], 8),
        (&["1,1,4,2,0", "1,1,1,2,0", "1,1,4,2,0"], 9),
    ] {
        let pair = bench_behind(lines);
        assert_eq!(read(&pair.cell), (23, line));
        assert_eq!(read_limits(&pair.cell_bytes()), (23, 0));
        assert_eq!(Library::check(&pair.cell_bytes(), &recipe), 23);
    }
    // Two operation lines share a gate.
    assert_eq!(
        read(&bench_behind(&["1,1,4,2,0", "1,1,1,2,1"]).cell),
        (0, 0)
    );
}

#[test]
fn a_gate_may_have_the_greatest_state() {
    let mut random = Random::new(4);
    let mut handed = Handed::of_pair(&gate_example());
    assert_eq!((handed.entries, handed.scratch), (120, 15));
    assert_eq!(handed.plan(&mut random).refusal, 0);
    handed.entries = 119;
    assert_eq!(handed.plan(&mut random).refusal, 14);
    // Without the operation that goes on from there, the state is there all the same.
    let handed = Handed::of_pair(&bench_behind(&["1,1,4,2,3"]));
    assert_eq!(handed.entries, 120);
    assert_eq!(handed.plan(&mut random).refusal, 15);
}

/// A pair, and what calls on it are handed beside its records.
#[derive(Clone)]
struct Case {
    pair: Pair,
    entries: usize,
    scratch: usize,
    run: Vec<u8>,
    outcome: u8,
}

/// Sets gates among the lines of a cell so that rule 23 is broken in one of its two ways. Whether it could.
type Half = fn(&mut Rows, &mut Random) -> bool;

const HALVES: [(&str, Half); 2] = [
    ("without its line", add_lone),
    ("a second time", add_second),
];

/// Breaks rule 23 in a good case and another rule too; none if it can't.
type Way = fn(Case, Half, &mut Random) -> Option<Case>;

/// The refusal of the rules 3 to 13 that a pair gets.
fn checked(pair: &Pair) -> u8 {
    let (cell, chapters) = pair.records();
    check(&cell, &chapters)
}

/// Breaks rule 23 and nothing else.
fn alone(mut case: Case, half: Half, random: &mut Random) -> Option<Case> {
    half(&mut case.pair.cell, random).then_some(case)
}

fn too_many_lines(case: Case, half: Half, random: &mut Random) -> Option<Case> {
    let mut case = alone(case, half, random)?;
    let lines = MOST_LINES + 1 + random.below(20);
    case.pair.cell = case.pair.cell.into_iter().cycle().take(lines).collect();
    Some(case)
}

/// Breaks one of the rules 4 to 6 of the cell and then rule 23.
fn cell_rule<const RULE: u8>(mut case: Case, half: Half, random: &mut Random) -> Option<Case> {
    CellFile::break_rule(RULE, &mut case.pair.cell, random);
    let case = alone(case, half, random)?;
    (check_cell(&case.pair.records().0).number == RULE).then_some(case)
}

/// Limits a resource that isn't there.
fn limit_above(mut case: Case, half: Half, random: &mut Random) -> Option<Case> {
    case.pair.limits[MOST_RESOURCES - 1] = 1 + random.below(7) as u8;
    (checked(&case.pair) == 20).then(|| alone(case, half, random))?
}

/// Breaks one of the recipe's rules, or leaves it without lines.
fn recipe_rule(mut case: Case, half: Half, random: &mut Random) -> Option<Case> {
    let rule = random.choose(&[3, 4, 7, 8, 9, 10, 11, 12]);
    match rule {
        3 => case.pair.recipes[0].clear(),
        _ => RecipeFile::break_rule(rule, &mut case.pair.recipes[0], random),
    }
    (checked(&case.pair) != 0).then(|| alone(case, half, random))?
}

/// Forgets a point.
fn unreached(mut case: Case, half: Half, random: &mut Random) -> Option<Case> {
    case.pair.recipes[0] = forgetful(&case.pair.recipes[0], random);
    alone(case, half, random)
}

/// Takes a cell and a recipe that have too many positions. Not every try finds such.
fn too_great(mut case: Case, half: Half, random: &mut Random) -> Option<Case> {
    case.pair.limits = NO_LIMITS;
    let found = (0..8).any(|_| {
        case.pair.cell = CellFile::good_rows(random);
        case.pair.recipes = vec![RecipeFile::good_rows(random)];
        checked(&case.pair) == 13
    });
    found.then(|| alone(case, half, random))?
}

/// Lends too little, begins at a run that isn't there, and reports no outcome.
fn nothing_fits(mut case: Case, half: Half, random: &mut Random) -> Option<Case> {
    (case.entries, case.scratch) = (random.below(2), 0);
    case.run.fill(0xff);
    case.outcome = 2 + random.below(200) as u8;
    alone(case, half, random)
}

/// Wants an operation that the cell hasn't.
fn not_realisable(mut case: Case, half: Half, random: &mut Random) -> Option<Case> {
    let spoiled = case.pair.want_unknown_operation();
    spoiled.then(|| alone(case, half, random))?
}

/// Fills the cell up with internal work, one line of which makes room for a gate.
fn full_cell(mut case: Case, half: Half, random: &mut Random) -> Option<Case> {
    let work = vec![0, 0, 0, 0, 0];
    case.pair.cell.resize(MOST_LINES, work.clone());
    let mut case = alone(case, half, random)?;
    case.pair.cell.resize(MOST_LINES, work);
    Some(case)
}

/// What else is broken, how, and the refusal that is owed.
const WAYS: [(&str, Way, u8); 12] = [
    ("18 in a run's calls", alone, 23),
    ("3", too_many_lines, 3),
    ("4", cell_rule::<4>, 4),
    ("5", cell_rule::<5>, 5),
    ("6", cell_rule::<6>, 6),
    ("20", limit_above, 20),
    ("one of the recipe's", recipe_rule, 23),
    ("22", unreached, 23),
    ("13", too_great, 23),
    ("14, 16 and 17", nothing_fits, 23),
    ("15", not_realisable, 23),
    ("21", full_cell, 23),
];

/// A good case, but for the table, which will be of zeros.
fn good_case(n: usize, source: &mut independent::Random, random: &mut Random) -> Case {
    let (cell, recipe) = either_pair(n, FEW_POSITIONS[n / 2 % 4], source);
    let pair = Pair::of(&cell, slice::from_ref(&recipe));
    let positions = Joined::of(&cell, &[recipe]).sizes.positions as usize;
    Case {
        pair,
        entries: positions,
        scratch: positions,
        run: vec![0; RUN_BYTES],
        outcome: random.below(2) as u8,
    }
}

/// Wants both readers to refuse a case, the one of limits with this number, and the other to name the line if
/// it refuses by 23.
fn expect_of_readers(case: &Case, number: u8) {
    let rows = &case.pair.cell;
    let line = first_fault(rows).expect("rule 23 is broken") as u64 + 2;
    match number {
        3..=6 => assert_eq!(read(rows).0, number.into()),
        // A file has no limits.
        _ => assert_eq!(read(rows), (23, line)),
    }
    assert_eq!(read_limits(&case.pair.cell_bytes()), (number.into(), 0));
}

/// Wants every call on a run, and check, to refuse a case with this number.
fn expect_of_run(case: &Case, number: u8, random: &mut Random) {
    let round = Round {
        cell: case.pair.cell_bytes(),
        recipes: case.pair.recipes_bytes(),
        run: case.run.clone(),
        entries: case.entries,
        outcome: case.outcome,
        part: random.below(9) as u8,
    };
    let answers = compare(&round, &Table::new(vec![0; case.entries]));
    let given = [
        answers.check,
        (answers.next_move >> 32) as u32,
        answers.report,
        answers.place / 256,
    ];
    assert_eq!(given, [u32::from(number); 4], "{round}");
}

/// Wants every call that plans to refuse a case with this number.
fn expect_of_planner(case: &Case, number: u8, random: &mut Random) {
    let handed = Handed {
        cell: case.pair.cell_bytes(),
        recipes: case.pair.recipes_bytes(),
        entries: case.entries,
        scratch: case.scratch,
    };
    let refusal = handed.plan(random).refusal;
    assert_eq!(refusal, number.into(), "{handed}");
    let owed = owed(&handed);
    assert_eq!(owed.refusal, number, "{handed}");
    let list = random.below(40);
    Installing { handed, list }.compare(&owed, random);
}

#[test]
fn rule_23_has_its_place() {
    let mut random = Random::new(61);
    let mut source = independent::Random(62);
    let mut seen = [[0; WAYS.len()]; HALVES.len()];
    for n in 0..REFUSED {
        let case = good_case(n, &mut source, &mut random);
        for ((_, half), seen) in HALVES.iter().zip(&mut seen) {
            for ((_, way, number), times) in WAYS.iter().zip(seen) {
                if let Some(case) = way(case.clone(), *half, &mut random) {
                    expect_of_readers(&case, *number);
                    expect_of_run(&case, *number, &mut random);
                    expect_of_planner(&case, *number, &mut random);
                    *times += 1;
                }
            }
        }
    }
    for ((half, _), seen) in HALVES.iter().zip(seen) {
        for ((other, ..), times) in WAYS.iter().zip(seen) {
            println!("a gate {half}, beside {other}: {times} times in every call");
            assert!(times >= LEAST_SEEN, "{half}, {other}");
        }
    }
}

/// A pair with its planned table.
struct Plan {
    cell: Cell,
    recipe: Recipe,
    joined: Joined,
    handed: Handed,
    table: Vec<u32>,
}

/// A pair that is planned, accepted or not: one of cells with gates, if this is wanted.
fn seeded_plan(
    n: usize,
    gated: bool,
    source: &mut independent::Random,
    random: &mut Random,
) -> Plan {
    loop {
        let (cell, recipe) = either_pair(n, FEW_POSITIONS[n / 2 % 4], source);
        if every_point_is_reached(&recipe) && (cell.has_gates() || !gated) {
            let handed = Handed::of(cell_bytes(&cell).to_vec(), recipe_bytes(&recipe).to_vec());
            let table = handed.plan(random).table;
            let joined = Joined::of(&cell, slice::from_ref(&recipe));
            return Plan {
                cell,
                recipe,
                joined,
                handed,
                table,
            };
        }
    }
}

impl Plan {
    /// Whether the plan is to carry a point of this kind at a position.
    fn is_carried(&self, kind: u8, position: u64) -> bool {
        let first = lines_at(&self.recipe, self.joined.run_at(position).point)[0];
        self.recipe.kind[first] == kind && kind_of(self.table[position as usize]) == CARRY
    }

    /// Some of the positions, if there are any, at which the plan is to carry a point of this kind.
    fn carries(&self, kind: u8, random: &mut Random) -> Vec<u64> {
        let positions = 0..self.joined.sizes.positions;
        let mut positions: Vec<u64> = positions.filter(|&p| self.is_carried(kind, p)).collect();
        random.shuffle(&mut positions);
        positions.truncate(LOOKED_AT);
        positions
    }

    /// The table as it was made before there were gates: a test's second letter was unused, and so it was 0.
    fn table_from_before(&self) -> Vec<u32> {
        let entries = (0..).zip(&self.table);
        let before = |(position, &entry): (u64, &u32)| {
            let [a, ..] = letters_of(entry);
            match self.is_carried(TEST, position) {
                true => entry_of(CARRY, [a, 0, 0, 0]),
                false => entry,
            }
        };
        entries.map(before).collect()
    }

    /// The run at a position.
    fn run(&self, position: u64) -> Run {
        self.joined.run_at(position)
    }

    /// The calls on a run.
    fn round(&self, run: &Run, outcome: u8) -> Round {
        Round {
            cell: self.handed.cell.clone(),
            recipes: self.handed.recipes.clone(),
            run: run_bytes(run).to_vec(),
            entries: self.table.len(),
            outcome,
            part: 0,
        }
    }

    /// The gate that begins as this line does, found line by line.
    fn gate(&self, line: usize) -> Option<usize> {
        let Cell {
            resource,
            from,
            arg,
            ..
        } = &self.cell;
        let begin = |n: usize| (resource[n], from[n], arg[n]);
        let mut lines = 0..usize::from(self.cell.count);
        lines.find(|&n| self.cell.act[n] == GATE && begin(n) == begin(line))
    }

    /// The run that a report leaves, in both forms, which must not refuse it.
    fn reported(&self, run: &Run, outcome: u8) -> [[u8; RUN_BYTES]; 2] {
        let (cell, recipes, mut left) = (&self.handed.cell, &self.handed.recipes, run_bytes(run));
        let mut record = RunRecord::of(&left).expect("the run is long enough");
        let first = Library::report(cell, recipes, &self.table, &mut left, outcome);
        let second = Library::report_record(cell, recipes, &self.table, &mut record, outcome);
        assert_eq!((first, second), (0, 0), "{}", self.round(run, outcome));
        [left, record.bytes()]
    }
}

/// What a next-move call and a report answer, as the independent program's do, with this entry in the table.
fn answers_with(plan: &Plan, table: &mut Table, position: u64, entry: u32) -> (u64, u32) {
    table.set(position, entry);
    let round = plan.round(&plan.run(position), (position % 2) as u8);
    let answers = compare(&round, table);
    (answers.next_move, answers.report)
}

/// The answers to an entry that is open where no end is, or that isn't.
fn expected(entry: u32, open: bool) -> (u64, u32) {
    match open {
        true => (entry.into(), 0),
        false => (18 << 32, 18),
    }
}

#[test]
fn every_second_letter_of_a_test() {
    let mut random = Random::new(63);
    let mut source = independent::Random(64);
    // Tests without a gate, and with one.
    let mut seen = [0; 2];
    for n in 0..PLANNED {
        let plan = seeded_plan(n, false, &mut source, &mut random);
        let mut table = Table::new(plan.table.clone());
        for position in plan.carries(TEST, &mut random) {
            let planned = plan.table[position as usize];
            let [a, ..] = letters_of(planned);
            let gate = plan.gate(a);
            seen[usize::from(gate.is_some())] += 1;
            for b in 0..64 {
                let entry = entry_of(CARRY, [a, b, 0, 0]);
                let open = b == gate.unwrap_or(a);
                let answers = answers_with(&plan, &mut table, position, entry);
                assert_eq!(
                    answers,
                    expected(entry, open),
                    "{b} at {position}\n{}",
                    plan.handed
                );
            }
            for more in [[1, 0], [0, 1], [a, a], [63, 0]] {
                let entry = entry_of(CARRY, [a, gate.unwrap_or(a), more[0], more[1]]);
                let open = more == [0, 0];
                let answers = answers_with(&plan, &mut table, position, entry);
                assert_eq!(answers, expected(entry, open), "{}", plan.handed);
            }
            table.set(position, planned);
        }
    }
    println!("tests without a gate and with one, each with 64 second letters: {seen:?}");
    assert!(seen.iter().all(|&times| times >= LEAST_SEEN));
}

#[test]
fn entries_of_tests_from_before_there_were_gates() {
    let mut random = Random::new(65);
    let mut source = independent::Random(66);
    // Those of tests that are refused, with a gate and without, and those that are still open; and others.
    let (mut refused, mut still_open, mut others) = ([0; 2], 0, 0);
    for n in 0..PLANNED {
        let plan = seeded_plan(n, false, &mut source, &mut random);
        let mut table = Table::new(plan.table_from_before());
        for position in plan.carries(TEST, &mut random) {
            let entry = table.entries()[position as usize];
            let [a, ..] = letters_of(entry);
            let gate = plan.gate(a);
            let open = gate.unwrap_or(a) == 0;
            let answers = answers_with(&plan, &mut table, position, entry);
            assert_eq!(
                answers,
                expected(entry, open),
                "{position}\n{}",
                plan.handed
            );
            match open {
                true => still_open += 1,
                false => refused[usize::from(gate.is_none())] += 1,
            }
        }
        // All other entries are what they were.
        for position in plan.carries(DO, &mut random) {
            let entry = table.entries()[position as usize];
            let answers = answers_with(&plan, &mut table, position, entry);
            assert_eq!(answers, expected(entry, true));
            others += 1;
        }
    }
    println!(
        "{refused:?} refused with a gate and without, {still_open} still open, {others} of dos"
    );
    assert!(refused.iter().all(|&times| times >= LEAST_SEEN) && others >= LEAST_SEEN);
    assert!(still_open >= 100);
}

#[test]
fn each_outcome_of_a_test_follows_its_line() {
    let mut random = Random::new(67);
    let mut source = independent::Random(68);
    // Tests without a gate, with one that leads where the operation line leads, and with one that doesn't.
    let mut seen = [0; 3];
    for n in 0..PLANNED {
        let plan = seeded_plan(n, true, &mut source, &mut random);
        let Plan { cell, recipe, .. } = &plan;
        for position in plan.carries(TEST, &mut random) {
            let [a, ..] = letters_of(plan.table[position as usize]);
            let gate = plan.gate(a);
            seen[gate.map_or(0, |gate| 1 + usize::from(cell.to[gate] != cell.to[a]))] += 1;
            let before = plan.run(position);
            let first = lines_at(recipe, before.point)[0];
            for (outcome, point, line) in [
                (0, recipe.otherwise[first], gate.unwrap_or(a)),
                (1, recipe.then[first], a),
            ] {
                let mut after = before;
                after.point = point;
                after.configuration.states[usize::from(cell.resource[a])] = cell.to[line];
                let left = plan.reported(&before, outcome);
                assert_eq!(
                    left,
                    [run_bytes(&after); 2],
                    "{}",
                    plan.round(&before, outcome)
                );
                // The plan goes on from there.
                let next = plan.joined.position(&after);
                assert_ne!(plan.table[next as usize], 0);
            }
        }
    }
    println!(
        "tests without a gate, with one of no effect, with one that parts the outcomes: {seen:?}"
    );
    assert!(seen[0] >= 300 && seen[1] >= 200 && seen[2] >= LEAST_SEEN);
}

#[test]
fn a_do_follows_operation_lines_alone() {
    let mut random = Random::new(69);
    let mut source = independent::Random(70);
    let mut seen = 0;
    for n in 0..PLANNED {
        let plan = seeded_plan(n, true, &mut source, &mut random);
        let mut table = Table::new(plan.table.clone());
        for position in plan.carries(DO, &mut random) {
            let planned = plan.table[position as usize];
            let (letters, before) = (letters_of(planned), plan.run(position));
            for served in 0..lines_at(&plan.recipe, before.point).len() {
                let line = letters[served];
                let Some(gate) = plan.gate(line) else {
                    continue;
                };
                seen += 1;
                let mut gated = letters;
                gated[served] = gate;
                let entry = entry_of(CARRY, gated);
                let answers = answers_with(&plan, &mut table, position, entry);
                assert_eq!(answers, expected(entry, false), "{}", plan.handed);
                let station = 1 + usize::from(plan.cell.resource[line]);
                for outcome in [0, 1] {
                    let left = plan.reported(&before, outcome);
                    let state = plan.cell.to[line];
                    assert_eq!(left.map(|run| run[station]), [state; 2], "{}", plan.handed);
                }
            }
        }
    }
    println!("{seen} lines of dos with a gate beside them");
    assert!(seen >= LEAST_SEEN);
}

/// Everything near to the example: its files, its records and the run at its test, a byte from what they are.
#[test]
fn one_byte_from_the_example() {
    let handed = Handed::of_pair(&gate_example());
    let table = Table::new(handed.plan(&mut Random::new(5)).table);
    let at_test = [1, 0, 1, 0, 0, 0, 0, 2, 0, 0, 0, 0, 0, 0, 0, 0];
    let good = [handed.cell.clone(), handed.recipes, at_test.to_vec()];
    // The lines of the cell and one more, which counts for nothing; those of the recipe; the run.
    for (slice, places) in [(0, 0..1 + 8 * 5), (1, 0..1 + 5 * 7), (2, 0..RUN_BYTES)] {
        for at in places {
            for byte in 0..=255 {
                let round = Round::changed_in(&good, (slice, at), byte, &table);
                if slice == 0 {
                    read_limits(&round.cell);
                }
                compare(&round, &table);
            }
        }
    }
    for at in 0..GATE_CELL.len() {
        for byte in 0..=255 {
            let mut changed = GATE_CELL.as_bytes().to_vec();
            changed[at] = byte;
            let buffer = [byte; CELL_BYTES];
            same_reading(&changed, &buffer, CellFile::library, CellFile::independent);
        }
    }
}

#[test]
fn limits_count_at_either_outcome() {
    // A test moves no part, and so a station that is overfull stays so, whichever line is followed.
    let recipe = ["0,2,1,3,0,1,1", "1,0,0,0,0,0,0"];
    let cell = ["0,0,1,1,1", "0,0,4,1,2"];
    let entry = entry_of(CARRY, [0, 1, 0, 0]);
    for (most, open) in [(8, true), (2, true), (1, false)] {
        let handed = Handed::of_pair(&Pair::of_lines(&cell, &[most], &recipe));
        let mut table = Table::new(handed.plan(&mut Random::new(6)).table);
        assert_eq!(table.entries()[3], if open { entry } else { 0 });
        table.set(3, entry);
        for (outcome, state) in [(0, 2), (1, 1)] {
            let mut round = Round {
                cell: handed.cell.clone(),
                recipes: handed.recipes.clone(),
                run: vec![0, 0, 0, 0, 0, 0, 0, 1, 1, 0, 0, 0, 0, 0, 0, 0],
                entries: handed.entries,
                outcome,
                part: 0,
            };
            let answers = compare(&round, &table);
            assert_eq!((answers.next_move, answers.report), expected(entry, open));
            let Round {
                cell, recipes, run, ..
            } = &mut round;
            Library::report(cell, recipes, table.entries(), run, outcome);
            let left = if open { [1, state] } else { [0, 0] };
            assert_eq!(run[..2], left);
        }
    }
}
