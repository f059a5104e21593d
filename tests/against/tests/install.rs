//! The library's list of processes to install against the independent program, through the C interface:
//! worked examples, seeded cells that lack a process or two, cells without a place for one, and every kind
//! of refusal.

use against::calls::{Calls, Library};
use against::damage::fill_past_lines;
use against::gates;
use against::installs::{owed, Installing};
use against::pairs::{self, either_pair, Pair, NO_LIMITS, PASTED_END, PASTED_LOOP};
use against::plans::Handed;
use against::random::Random;
use against::{scratches, CellFile, RecipeFile, REFUSALS, TOO_SHORT, UNREACHED};
use independent::{
    candidates, cell_bytes, cell_of_bytes, every_point_is_reached, gap_pair, joint_choices,
    missing_processes, realisable_by_joint_steps, realisable_by_single_moves, recipe_bytes,
    recipe_of_bytes, scratch_bytes, single, Cell, Install, Joined, Process, Recipe, Sizes,
    MOST_LINES, MOST_POSITIONS, RECIPE_BYTES,
};
use std::slice;

const BENCH_CELL: &str = include_str!("../../../examples/bench/cell.csv");
const BENCH_RECIPE: &str = include_str!("../../../examples/bench/recipe.csv");

/// Small pairs of a cell and a recipe whose lists are compared, and the most positions that one has.
const SMALL_PAIRS: usize = 13_400;
const FEW_POSITIONS: [u64; 4] = [60, 200, 400, 1_000];

/// One pair in so many gets a list of every length.
const EVERY_LENGTH: usize = 10;

/// Up to so many joint choices for all candidates together, a list is also found by joint steps.
const FEW_JOINT_CHOICES: u64 = 40_000;

/// Pairs with cells of 63 lines, each of which also gets one line more.
const FULL_PAIRS: usize = 2_300;

/// Pairs whose lists are wanted with just enough scratch, and with one byte less.
const SCRATCH_PAIRS: usize = 3_200;

/// Pairs that are damaged, each so many times.
const DAMAGED_PAIRS: usize = 13_400;
const DAMAGED: usize = 4;

/// The most positions with which a damaged pair gets its list. Greater ones get too short a table.
const MOST_DAMAGED: usize = 200;

/// The acts of an operation, of internal work and of a gate.
const OPERATION: u32 = 1;
const INTERNAL: u32 = 0;
const GATE: u32 = 4;

/// What an install call is handed for a pair, with what counts for nothing: any bytes past the lines of the
/// records, and at times a longer table and scratch.
fn handed_with_noise(pair: &Pair, random: &mut Random) -> Handed {
    let mut handed = Handed::of_pair(pair);
    fill_past_lines::<CellFile>(&mut handed.cell, random);
    fill_past_lines::<RecipeFile>(&mut handed.recipes, random);
    // What would be further chapters in another call, or a rest, counts for nothing in this one.
    let behind = random.choose(&[0, 0, 1, RECIPE_BYTES, 9 * RECIPE_BYTES]);
    let record = handed.recipes.clone();
    handed.recipes.extend(record.iter().cycle().take(behind));
    handed.scratch = scratches::long_enough(handed.scratch, random);
    handed.entries += random.choose(&[0, 0, 1, 9]);
    handed
}

/// Wants a call with each of these lengths of the list to leave what is owed.
fn compare_lengths(
    handed: Handed,
    owed: &Install,
    lengths: impl IntoIterator<Item = usize>,
    random: &mut Random,
) {
    let mut installing = Installing { handed, list: 0 };
    for length in lengths {
        installing.list = length;
        installing.compare(owed, random);
    }
}

/// Every length of a list from 0 on to past its lines.
fn every_length(processes: &[Process]) -> impl Iterator<Item = usize> {
    0..=4 * processes.len() + 9
}

/// A length of a list: too short, just long enough, or longer.
fn some_length(processes: &[Process], random: &mut Random) -> usize {
    let length = 4 * processes.len();
    match random.below(4) {
        0 => random.below(length + 1),
        1 => length,
        _ => length + random.below(20),
    }
}

/// The value lines of a file, but for the one of this number.
fn lines_without(file: &str, line: Option<usize>) -> Vec<&str> {
    let lines = file.lines().skip(1).enumerate();
    lines
        .filter(|&(n, _)| Some(n) != line)
        .map(|(_, line)| line)
        .collect()
}

/// The bench example, without one of its cell lines.
fn bench_without(line: Option<usize>) -> Pair {
    let recipe = lines_without(BENCH_RECIPE, None);
    Pair::of_lines(&lines_without(BENCH_CELL, line), &[], &recipe)
}

/// Wants the library to list these processes, in lists of every length.
fn expect(pair: &Pair, processes: &[Process]) {
    let handed = Handed::of_pair(pair);
    let owed = owed(&handed);
    assert_eq!((owed.refusal, &owed.processes[..]), (0, processes));
    let lengths = every_length(processes);
    compare_lengths(handed, &owed, lengths, &mut Random::new(1));
}

#[test]
fn the_bench_example_with_a_line_missing() {
    expect(&bench_without(Some(3)), &[[1, 1, 2, 2]]);
    expect(&bench_without(Some(0)), &[[0, 0, 1, 1], [1, 0, 1, 1]]);
    // With all its lines it lacks nothing.
    expect(&bench_without(None), &[]);
}

#[test]
fn the_bench_example_with_other_lengths() {
    let mut random = Random::new(3);
    let mut refused = 0;
    for entries in [0, 11, 12, 89, 90, 91, 8192] {
        for scratch in [0, 1, 11, 12, 13, 89, 90, 8192] {
            let handed = Handed {
                entries,
                scratch,
                ..Handed::of_pair(&bench_without(Some(3)))
            };
            let short = entries < 90 || scratch < 12;
            let owed = owed(&handed);
            assert_eq!(owed.refusal, if short { 14 } else { 0 }, "{handed}");
            compare_lengths(handed, &owed, [0, 3, 4, 400], &mut random);
            refused += usize::from(short);
        }
    }
    assert_eq!(refused, 4 * 8 + 3 * 3);
}

#[test]
fn seven_bytes_get_the_first_of_two_lines() {
    let handed = Handed::of_pair(&bench_without(Some(0)));
    let mut list = [0xa5; 9];
    let (mut table, mut scratch) = ([7; 90], [7; 12]);
    let mut install = |list: &mut [u8]| {
        let Handed { cell, recipes, .. } = &handed;
        Library::install(cell, recipes, &mut table, &mut scratch, list)
    };
    assert_eq!(install(&mut list[..7]), 2);
    assert_eq!(list, [0, 0, 1, 1, 0xa5, 0xa5, 0xa5, 0xa5, 0xa5]);
    assert_eq!(install(&mut list), 2);
    assert_eq!(list, [0, 0, 1, 1, 1, 0, 1, 1, 0xa5]);
}

#[test]
fn the_bench_example_with_forgotten_points_gets_no_list() {
    for (pasted, positions) in [(PASTED_END, 108), (PASTED_LOOP, 126)] {
        let recipe = format!("{BENCH_RECIPE}{pasted}");
        let recipe = lines_without(&recipe, None);
        // With a line missing, and with all lines.
        for line in [Some(3), Some(0), None] {
            let pair = Pair::of_lines(&lines_without(BENCH_CELL, line), &[], &recipe);
            let handed = Handed::of_pair(&pair);
            assert_eq!(handed.entries, positions);
            let (mut table, mut scratch, mut list) = ([7; 126], [7; 16], [7; 40]);
            let Handed { cell, recipes, .. } = &handed;
            let result = Library::install(cell, recipes, &mut table, &mut scratch, &mut list);
            assert_eq!(result, 22 << 32);
            assert_eq!((table, scratch, list), ([7; 126], [7; 16], [7; 40]));
            let owed = owed(&handed);
            assert_eq!(owed.refusal, UNREACHED);
            compare_lengths(handed, &owed, [0, 3, 4, 400], &mut Random::new(4));
        }
    }
}

#[test]
fn the_list_rises_and_gives_no_station_a_new_state() {
    let recipe = ["0,1,2,0,1,1,0", "1,1,1,0,2,2,0", "2,0,0,0,0,0,0"];
    let two_states = Pair::of_lines(&["0,0,1,2,1", "0,0,1,1,0"], &[], &recipe);
    expect(&two_states, &[[0, 0, 2, 0], [0, 1, 1, 0], [0, 1, 1, 1]]);
    let recipe = ["0,1,2,0,1,1,0", "1,0,0,0,0,0,0"];
    let one_state = Pair::of_lines(&["0,0,1,1,0"], &[], &recipe);
    expect(&one_state, &[[0, 0, 2, 0]]);
}

#[test]
fn what_has_the_numbers_of_a_process_and_is_none() {
    let recipe = ["0,1,5,0,1,1,0", "1,0,0,0,0,0,0"];
    let work = Pair::of_lines(&["0,0,0,5,0"], &[], &recipe);
    expect(&work, &[[0, 0, 5, 0]]);
    // A transfer through port 5 isn't operation 5 either.
    let transfer = Pair::of_lines(&["0,0,3,5,0", "1,0,2,5,0"], &[], &recipe);
    expect(&transfer, &[[0, 0, 5, 0], [1, 0, 5, 0]]);
}

#[test]
fn a_gate_is_no_process_and_may_serve_a_new_one() {
    // Both outcomes of the test lead to where `else` goes on, `then` wants state 1.
    let lines = ["0,0,1,1,0", "0,0,1,2,2", "0,1,1,3,0", "0,2,1,4,0"];
    let recipe = [
        "0,1,1,0,1,1,0",
        "1,2,2,1,0,2,3",
        "2,1,3,1,0,4,0",
        "3,1,4,1,0,4,0",
        "4,0,0,0,0,0,0",
    ];
    let pair = |gate: &[&str]| Pair::of_lines(&[&lines[..], gate].concat(), &[], &recipe);
    // A second operation line from there shares the gate; or `then` goes on from where it is.
    let processes = [[0, 0, 2, 1], [0, 2, 3, 0], [0, 2, 3, 1], [0, 2, 3, 2]];
    expect(&pair(&["0,0,4,2,2"]), &processes);
    expect(&pair(&[]), &processes[1..]);
    // One that leads elsewhere leads `else` nowhere.
    expect(&pair(&["0,0,4,2,1"]), &[]);
    expect(&pair(&["0,0,4,2,0"]), &[]);
    // Where `else` goes on from state 1 too, the line that is listed first has the numbers of the gate.
    let mut alike = recipe;
    alike[3] = "3,1,3,1,0,4,0";
    let cell = ["0,0,1,1,0", "0,0,1,2,2", "0,1,1,3,0", "0,0,4,2,1"];
    expect(&Pair::of_lines(&cell, &[], &alike), &processes);
}

#[test]
fn a_second_station_where_a_nest_is_full() {
    let cell = ["0,0,1,1,0", "1,0,1,3,0"];
    let pair = |limits: &[u8]| Pair::of_lines(&cell, limits, &pairs::TWO_GIVEN);
    expect(&pair(&[]), &[]);
    expect(&pair(&[1]), &[[1, 0, 1, 0]]);
    // Neither nest holds both parts, and three in two nests leave one without a place.
    expect(&pair(&[1, 1]), &[[1, 0, 1, 0]]);
    let three = Pair::of_lines(&cell, &[1, 1], &pairs::THREE_GIVEN);
    expect(&three, &[]);
}

#[test]
fn the_rules_are_tried_in_their_order() {
    let mut random = Random::new(2);
    // With its test the cell can build the recipe, with internal work in its place it can't.
    for act in [OPERATION, INTERNAL] {
        let mut pair = bench_without(None);
        pair.cell[3][2] = act;
        // The lines behind the first change nothing.
        pair.cell.resize(MOST_LINES, vec![0, 0, INTERNAL, 9, 0]);
        assert_eq!(pair.is_realisable(), act == OPERATION);
        let handed = Handed::of_pair(&pair);
        let no_place = (handed.clone(), 21);
        for (handed, refusal) in handed.ever_more_damaged().into_iter().chain([no_place]) {
            let owed = owed(&handed);
            assert_eq!(u32::from(owed.refusal), refusal, "{handed}");
            compare_lengths(handed, &owed, [0, 3, 4, 400], &mut random);
        }
    }
}

/// What was seen of lists that were compared.
#[derive(Default)]
struct Lists {
    compared: usize,
    /// Those with lines; of these, those with more than one, those of cells with limits, and those of cells
    /// with gates.
    some: usize,
    several: usize,
    limited: usize,
    gated: usize,
    /// Those without, although the recipe isn't realisable, and because it is.
    none: usize,
    realisable: usize,
    /// Those that were also found by joint steps, and how many of them have lines.
    by_joint_steps: [usize; 2],
    /// The most lines and the most candidates.
    most: usize,
    most_candidates: usize,
}

impl Lists {
    fn note(&mut self, (cell, recipe): &(Cell, Recipe), processes: &[Process]) {
        let some = usize::from(!processes.is_empty());
        self.compared += 1;
        self.some += some;
        self.several += usize::from(processes.len() > 1);
        if cell.limits != NO_LIMITS {
            self.limited += some;
        }
        if cell.has_gates() {
            self.gated += some;
        }
        match realisable_by_single_moves(cell, recipe) {
            true => self.realisable += 1,
            false => self.none += 1 - some,
        }
        let tried = candidates(cell, recipe).len();
        self.most = self.most.max(processes.len());
        self.most_candidates = self.most_candidates.max(tried);
        let joined = Joined::of(cell, slice::from_ref(recipe));
        if joint_choices(cell, &joined) * (tried as u64 + 1) <= FEW_JOINT_CHOICES {
            let found = missing_processes(cell, recipe, realisable_by_joint_steps);
            assert_eq!(found, processes);
            self.by_joint_steps[0] += 1;
            self.by_joint_steps[1] += some;
        }
    }

    fn print(&self) {
        println!(
            "{} lists: {} with lines, {} of these with several, {} of cells with limits, {} with gates",
            self.compared, self.some, self.several, self.limited, self.gated
        );
        println!(
            "{} without although not realisable, {} realisable already",
            self.none, self.realisable
        );
        println!(
            "{} also by joint steps, {} of these with lines; at most {} lines of {} candidates",
            self.by_joint_steps[0], self.by_joint_steps[1], self.most, self.most_candidates
        );
    }

    /// Wants many with lines, and enough of all else.
    fn judge(&self) {
        self.print();
        assert!(3 * self.some >= self.compared, "too few lists have lines");
        let tenths = [
            self.several,
            self.limited,
            self.gated,
            self.none,
            self.realisable,
        ];
        assert!(tenths.iter().all(|&times| 10 * times >= self.compared));
    }
}

/// A pair whose cell mostly lacks a process, that passes the rules 3 to 13: of a seeded pair one
/// operation line or two are left out or changed, if such a change is found after which the recipe isn't
/// realisable. Every other pair has limits.
fn lacking_pair(
    n: usize,
    most: u64,
    source: &mut independent::Random,
    random: &mut Random,
) -> Pair {
    let (cell, recipe) = either_pair(n, most, source);
    let mut found = Pair::of(&cell, slice::from_ref(&recipe));
    for _ in 0..random.choose(&[0, 8, 8, 8, 8, 8]) {
        let mut pair = Pair::of(&cell, slice::from_ref(&recipe));
        (0..random.choose(&[1, 1, 1, 2])).for_each(|_| lose_process(&mut pair, random));
        let (cell, recipe) = pair.single();
        if single::check(&cell, &recipe) == 0 {
            found = pair;
            if !realisable_by_single_moves(&cell, &recipe) {
                break;
            }
        }
    }
    found
}

/// Leaves an operation line out, or gives it another state or operation. A gate that has no other goes too.
fn lose_process(pair: &mut Pair, random: &mut Random) {
    let rows = 0..pair.cell.len();
    let operations: Vec<usize> = rows.filter(|&n| pair.cell[n][2] == OPERATION).collect();
    if operations.is_empty() {
        return;
    }
    let n = random.choose(&operations);
    match random.below(6) {
        0 => pair.cell[n][1] = random.number(3),
        1 => pair.cell[n][3] = random.number(64),
        2 => pair.cell[n][4] = random.number(3),
        _ => _ = pair.cell.remove(n),
    }
    gates::drop_lone(&mut pair.cell);
}

/// Adds lines that change nothing, until there are so many: one that is there already, internal work that
/// leads back to its state, or an operation that the recipe doesn't name. A gate isn't set a second time.
fn fill_up(pair: &mut Pair, lines: usize, random: &mut Random) {
    let named: Vec<u32> = pair.recipes[0].iter().map(|row| row[2]).collect();
    let other = (0..64).find(|operation| !named.contains(operation));
    while pair.cell.len() < lines {
        let count = pair.cell.len();
        let mut row = pair.cell[random.below(count)].clone();
        match (random.below(3), other) {
            _ if row[2] == GATE => (row[2], row[4]) = (INTERNAL, row[1]),
            (0, _) => (row[2], row[4]) = (INTERNAL, row[1]),
            (1, Some(other)) => (row[2], row[3]) = (OPERATION, other),
            _ => {}
        }
        pair.cell.insert(random.below(count + 1), row);
    }
}

#[test]
fn small_pairs() {
    let mut random = Random::new(21);
    let mut source = independent::Random(22);
    let mut lists = Lists::default();
    let (mut full, mut unreached) = (0, 0);
    for n in 0..SMALL_PAIRS {
        let most = FEW_POSITIONS[n / 2 % 4];
        let mut pair = lacking_pair(n, most, &mut source, &mut random);
        if n % 5 == 0 {
            fill_up(&mut pair, 30 + random.below(MOST_LINES - 30), &mut random);
        }
        let handed = handed_with_noise(&pair, &mut random);
        let owed = owed(&handed);
        let length = some_length(&owed.processes, &mut random);
        if n % EVERY_LENGTH == 0 {
            let lengths = every_length(&owed.processes);
            compare_lengths(handed, &owed, lengths, &mut random);
        } else {
            compare_lengths(handed, &owed, [length], &mut random);
        }
        // Some seeded cells have no place for a line, and some recipes have unreached points.
        match owed.refusal {
            0 => lists.note(&pair.single(), &owed.processes),
            UNREACHED => unreached += 1,
            _ => full += 1,
        }
    }
    println!("{full} cells of 64 lines, {unreached} recipes with unreached points");
    assert!(full >= 300 && unreached >= 1_000);
    lists.judge();
    let [by_joint_steps, with_lines] = lists.by_joint_steps;
    assert!(by_joint_steps >= 3_000 && with_lines >= 1_000);
    assert!(lists.most >= 20 && lists.most_candidates >= 150);
}

#[test]
fn sixty_three_lines_and_sixty_four() {
    let mut random = Random::new(23);
    let mut source = independent::Random(24);
    let mut lists = Lists::default();
    // Cells of 64 lines, without limits and with, of which the recipe is realisable or isn't.
    let mut full = [[0; 2]; 2];
    for n in 0..FULL_PAIRS {
        let mut pair = lacking_pair(n, 200, &mut source, &mut random);
        if !every_point_is_reached(&pair.single().1) {
            continue;
        }
        // Some seeded cells have 64 lines to begin with.
        if pair.cell.len() < MOST_LINES {
            fill_up(&mut pair, MOST_LINES - 1, &mut random);
            let handed = handed_with_noise(&pair, &mut random);
            let owed = owed(&handed);
            let length = some_length(&owed.processes, &mut random);
            compare_lengths(handed, &owed, [length], &mut random);
            lists.note(&pair.single(), &owed.processes);
        }
        fill_up(&mut pair, MOST_LINES, &mut random);
        let handed = Handed::of_pair(&pair);
        let owed = owed(&handed);
        assert_eq!(owed.refusal, 21, "{handed}");
        let length = random.below(40);
        compare_lengths(handed, &owed, [length], &mut random);
        let limited = usize::from(pair.limits != NO_LIMITS);
        full[limited][usize::from(pair.is_realisable())] += 1;
    }
    println!("64 lines without limits and with, not realisable and realisable: {full:?}");
    assert!(full.as_flattened().iter().all(|&times| times >= 200));
    lists.judge();
}

#[test]
fn just_enough_scratch_and_one_byte_less() {
    let mut random = Random::new(28);
    let mut source = independent::Random(29);
    let mut seen = scratches::Seen::default();
    // Recipes with unreached points, cells without a place for a line, and what the others get.
    let (mut unreached, mut full, mut some_listed, mut none_listed) = (0, 0, 0, 0);
    for n in 0..SCRATCH_PAIRS {
        let mut pair = lacking_pair(n, FEW_POSITIONS[n / 2 % 2], &mut source, &mut random);
        if n % 4 == 0 {
            fill_up(&mut pair, MOST_LINES, &mut random);
        }
        let mut handed = Handed::of_pair(&pair);
        let answer = owed(&handed);
        match (answer.refusal, answer.processes.is_empty()) {
            (0, true) => none_listed += 1,
            (0, false) => some_listed += 1,
            (UNREACHED, _) => unreached += 1,
            _ => full += 1,
        }
        let one_less = match answer.refusal {
            UNREACHED => (handed.scratch - 1, UNREACHED),
            _ => (handed.scratch - 1, TOO_SHORT),
        };
        for (scratch, refusal) in [(handed.scratch, answer.refusal), one_less] {
            handed.scratch = scratch;
            let owed = owed(&handed);
            assert_eq!(owed.refusal, refusal, "{handed}");
            let length = some_length(&answer.processes, &mut random);
            compare_lengths(handed.clone(), &owed, [length], &mut random);
            seen.note(&handed, refusal.into());
        }
    }
    println!("{full} cells of 64 lines, {some_listed} lists with lines, {none_listed} without");
    println!("{unreached} recipes with unreached points");
    assert!(full >= 400 && some_listed >= 400 && none_listed >= 400 && unreached >= 100);
    seen.judge(1_000, 20);
}

/// What was seen of calls that may be refused.
#[derive(Default)]
struct Refusals {
    /// Calls by their refusal.
    all: [usize; REFUSALS],
    /// Those on a record of 64 cell lines.
    full: [usize; REFUSALS],
    /// Those on a table or a scratch that is too short for the positions, 13 and 22 among them.
    short: [usize; REFUSALS],
}

impl Refusals {
    fn note(&mut self, handed: &Handed, refusal: u8) {
        let refusal = usize::from(refusal);
        self.all[refusal] += 1;
        if handed.cell.first() == Some(&(MOST_LINES as u8)) {
            self.full[refusal] += 1;
        }
        let (cell, recipe) = (
            cell_of_bytes(&handed.cell),
            recipe_of_bytes(&handed.recipes),
        );
        if matches!(single::check(&cell, &recipe), 0 | 13) {
            let positions = Sizes::of(&cell, &recipe).positions;
            let short = (handed.entries as u64) < positions
                || (handed.scratch as u64) < scratch_bytes(positions);
            self.short[refusal] += usize::from(short);
        }
    }

    fn judge(&self) {
        println!("calls by refusal {:?}", self.all);
        println!("with 64 cell lines {:?}", self.full);
        println!("with too little lent {:?}", self.short);
        for refusal in 0..self.all.len() {
            let (least, least_full) = match refusal {
                // A single recipe is never refused for its number.
                1 | 2 | 15..=19 | 24 => {
                    assert_eq!(self.all[refusal], 0, "{refusal} cannot be given");
                    continue;
                }
                0 => (300, 0),
                21..=23 => (1_000, 1_000),
                _ => (300, 100),
            };
            assert!(self.all[refusal] >= least, "{refusal} was seen too seldom");
            assert!(self.full[refusal] >= least_full, "{refusal} at 64 lines");
        }
        assert!([13, 14, 22].iter().all(|&n: &usize| self.short[n] >= 300));
    }
}

#[test]
fn refusals() {
    let mut random = Random::new(25);
    let mut source = independent::Random(26);
    let mut refusals = Refusals::default();
    let mut compare = |handed: Handed, random: &mut Random| {
        let owed = owed(&handed);
        refusals.note(&handed, owed.refusal);
        let length = random.below(40);
        compare_lengths(handed, &owed, [length], random);
    };
    for n in 0..DAMAGED_PAIRS {
        let mut pair = match n % 8 {
            0 => pairs::good_pair(u64::MAX, &mut random),
            1..=4 => pairs::good_pair(400, &mut random),
            _ => {
                let (cell, recipe) = either_pair(n, 200, &mut source);
                Pair::of(&cell, slice::from_ref(&recipe))
            }
        };
        if n % 3 > 0 {
            fill_up(&mut pair, MOST_LINES, &mut random);
        }
        for _ in 0..DAMAGED {
            let handed = Handed::damaged(&pair, MOST_DAMAGED, &mut random);
            compare(handed, &mut random);
        }
        if n % 8 > 4 {
            let (cell, recipe) = (pair.cell_bytes(), pair.recipes_bytes());
            compare(Handed::too_short(cell, recipe, &mut random), &mut random);
        }
    }
    refusals.judge();
}

#[test]
fn as_many_positions_as_there_may_be() {
    let mut random = Random::new(27);
    let (cell, recipe) = gap_pair(30, 14, &mut independent::Random(54));
    let handed = Handed::of(cell_bytes(&cell).to_vec(), recipe_bytes(&recipe).to_vec());
    assert_eq!(handed.entries as u64, MOST_POSITIONS);
    let answer = owed(&handed);
    assert!(candidates(&cell, &recipe).len() >= 150 && !answer.processes.is_empty());
    let length = 4 * answer.processes.len() + 1;
    compare_lengths(handed.clone(), &answer, [length], &mut random);
    let short = Handed {
        scratch: handed.scratch - 1,
        ..handed
    };
    let refused = owed(&short);
    assert_eq!(refused.refusal, 14);
    compare_lengths(short, &refused, [length], &mut random);
}
