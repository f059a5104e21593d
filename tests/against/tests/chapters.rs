//! Recipes in chapters through the C interface: worked examples; the number of chapters that bytes hold; rule 24
//! in its two places among the others, in every call; chapters that aren't there; ends of earlier chapters; what
//! the table and the scratch need; and recipes that are cut into chapters.

use against::calls::{Calls, Library};
use against::damage::{end_at_once, too_many_chapters};
use against::generate::Generate;
use against::pairs::{either_chapters, either_pair, several, Pair, NO_LIMITS};
use against::plans::{Handed, Planned};
use against::points::forgetful;
use against::random::Random;
use against::rounds::{accepted, compare, Round, Table};
use against::{CellFile, RecipeFile, RunRecord};
use independent::{
    cell_bytes, chapters_bytes, check, check_cell, check_recipe, cut, dense_pair, entry_of,
    every_point_is_reached, open_entries, run_bytes, run_of_bytes, Joined, Run, CELL_BYTES,
    MOST_CHAPTERS, MOST_LINES, MOST_POSITIONS, MOST_RESOURCES, RECIPE_BYTES, RUN_BYTES, STAY,
};
use std::slice;

const BENCH_CELL: &str = include_str!("../../../examples/bench/cell.csv");
const BENCH_RECIPE: &str = include_str!("../../../examples/bench/recipe.csv");
const CUT_CELL: &str = include_str!("../../../examples/chapters/cell.csv");
const CUT: [&str; 2] = [
    include_str!("../../../examples/chapters/recipe_0.csv"),
    include_str!("../../../examples/chapters/recipe_1.csv"),
];

/// The recipe that the example's two chapters are cut from.
const WHOLE: [&str; 5] = [
    "0,1,1,0,1,1,0",
    "1,2,2,1,0,2,3",
    "2,1,3,1,0,4,0",
    "3,1,3,1,0,4,0",
    "4,0,0,0,0,0,0",
];

const END: &str = "0,0,0,0,0,0,0";

/// Pairs with which each of the ways below is tried, and how often each must at least be seen.
const REFUSED: usize = 1_600;
const LEAST_SEEN: usize = 1_000;

/// Seeded recipes that are cut, if they can be.
const CUTS: usize = 3_000;

/// The most positions of a chapter.
const FEW_POSITIONS: [u64; 4] = [60, 120, 200, 400];

/// The value lines of a file.
fn value_lines(file: &'static str) -> Vec<&'static str> {
    file.lines().skip(1).collect()
}

/// Chapters of these lines over the bench example's cell.
fn bench(chapters: &[&[&str]]) -> Pair {
    Pair::of_chapters(&value_lines(BENCH_CELL), &[], chapters)
}

/// The example in two chapters, and the recipe that it is cut from.
fn cut_example() -> Pair {
    let chapters = CUT.map(value_lines);
    bench(&[&chapters[0], &chapters[1]])
}

/// Plans with just enough lent.
fn planned(pair: &Pair) -> Planned {
    Handed::of_pair(pair).plan(&mut Random::new(1))
}

/// The library's run that a report leaves, which must not refuse it, in both forms.
fn reported(pair: &Pair, table: &[u32], run: &[u8], outcome: u8) -> Vec<u8> {
    let (cell, recipes) = (pair.cell_bytes(), pair.recipes_bytes());
    let mut left = run.to_vec();
    let mut record = RunRecord::of(run).expect("the run is long enough");
    let first = Library::report(&cell, &recipes, table, &mut left, outcome);
    let second = Library::report_record(&cell, &recipes, table, &mut record, outcome);
    assert_eq!((first, second), (0, 0));
    assert_eq!(left, record.bytes());
    left
}

/// The entries that are issued by these outcomes from a fresh run, and the last run.
fn followed(pair: &Pair, table: &[u32], outcomes: &[u8]) -> (Vec<u64>, Vec<u8>) {
    let (cell, recipes) = (pair.cell_bytes(), pair.recipes_bytes());
    let mut run = vec![0xff; RUN_BYTES];
    assert_eq!(Library::fresh(&mut run), 0);
    let issue = |&outcome: &u8| {
        let entry = Library::next_move(&cell, &recipes, table, &run);
        run = reported(pair, table, &run, outcome);
        entry
    };
    let entries = outcomes.iter().map(issue).collect();
    (entries, run)
}

#[test]
fn a_cut_recipe_makes_the_moves_of_the_whole() {
    assert_eq!(CUT_CELL, BENCH_CELL);
    let (whole, in_chapters) = (bench(&[&WHOLE]), cut_example());
    let [of_whole, of_cut] = [&whole, &in_chapters].map(planned);
    assert_eq!((of_whole.refusal, of_cut.refusal), (0, 0));
    let moves = [50_331_648, 33_554_561, 50_331_843, 50_331_652];
    for outcome in [0, 1] {
        let outcomes = [0, 0, outcome, 0];
        let (entries, end) = followed(&whole, &of_whole.table, &outcomes);
        assert_eq!((&entries[..], end[0], end[15]), (&moves[..], 4, 0));
        let (entries, end) = followed(&in_chapters, &of_cut.table, &outcomes);
        assert_eq!((&entries[..], end[0], end[15]), (&moves[..], 3, 1));
    }
    // The second chapter alone finds no part to test, which is no reason to refuse both.
    assert_eq!(planned(&bench(&[&value_lines(CUT[1])])).refusal, 15);
    assert_eq!((of_cut.table[36], of_cut.table[0] != 0), (0, true));
}

#[test]
fn the_example_has_one_possible_move_everywhere() {
    let pair = cut_example();
    let Planned { table, .. } = planned(&pair);
    let (cell, joined) =
        accepted(&pair.cell_bytes(), &pair.recipes_bytes()).expect("it is accepted");
    let leads_on = |run: &Run, entry: u32| {
        let made = [0, 1].map(|outcome| joined.makes(&cell, run, entry, outcome));
        let mut next = made.iter().flatten().map(|run| joined.position(run));
        next.all(|position| table[position as usize] != 0)
    };
    let mut members = 0;
    for position in (0..joined.sizes.positions).filter(|&p| table[p as usize] != 0) {
        let run = joined.run_at(position);
        let mut open = open_entries(&cell, &joined, &run);
        open.retain(|&entry| leads_on(&run, entry));
        assert_eq!(open, [table[position as usize]]);
        members += 1;
    }
    // The start; earlier ends with the part at station 1 or on its way there, and the test from there; the part
    // taken after either outcome; and all ends.
    assert_eq!(members, 1 + 3 + 3 + 2 + 2 + 18);
}

#[test]
fn accepted_alone_and_refused_together() {
    let giving = value_lines(CUT[0]);
    let alone = planned(&bench(&[&giving]));
    assert_eq!(alone.refusal, 0);
    let twice = bench(&[&giving, &giving]);
    let Planned { refusal, table } = planned(&twice);
    assert_eq!((refusal, table[0]), (15, 0));
    // All chapters' tables are filled all the same, the second as if it were alone.
    assert_eq!(table[36..], alone.table);
    // At the earlier end with the part at station 0, nothing leads on.
    let (cell, recipes) = (twice.cell_bytes(), twice.recipes_bytes());
    let mut run = [1, 1, 0, 0, 0, 0, 0, 1, 0, 0, 0, 0, 0, 0, 0, 0];
    assert_eq!(table[18 + 3 + 1], 0);
    let answer = Library::next_move(&cell, &recipes, &table, &run);
    assert_eq!(answer, 18 << 32);
    assert_eq!(Library::report(&cell, &recipes, &table, &mut run, 1), 18);
}

/// What check, next-move, report, place and plan refuse a pair with, from a fresh run, with as much lent as any
/// chapters can need.
fn refusals(pair: &Pair) -> [u32; 5] {
    let (cell, recipes) = (pair.cell_bytes(), pair.recipes_bytes());
    let (mut table, mut scratch) = (vec![0; 4_000], vec![0; 500]);
    let round = Round {
        cell,
        recipes,
        run: vec![0; RUN_BYTES],
        entries: table.len(),
        outcome: 1,
        part: 0,
    };
    let [check, next_move, report, place] = refusals_of(&round, &Table::new(table.clone()));
    let plan = Library::plan(&round.cell, &round.recipes, &mut table, &mut scratch);
    [check, next_move, report, place, plan]
}

/// What check, next-move, report and place refuse a round with, as the independent program does.
fn refusals_of(round: &Round, table: &Table) -> [u32; 4] {
    let answers = compare(round, table);
    [
        answers.check,
        (answers.next_move >> 32) as u32,
        answers.report,
        answers.place / 256,
    ]
}

#[test]
fn an_earlier_chapter_that_begins_with_an_end() {
    let bench_recipe = value_lines(BENCH_RECIPE);
    let giving = value_lines(CUT[0]);
    let two_ends = [END, "1,0,0,0,0,0,0"];
    assert_eq!(refusals(&bench(&[&[END], &bench_recipe])), [24; 5]);
    assert_eq!(refusals(&bench(&[&giving, &[END], &giving])), [24; 5]);
    // Nothing leads to the second end, which a call that plans refuses first.
    let both = refusals(&bench(&[&two_ends, &bench_recipe]));
    assert_eq!(both, [24, 24, 24, 24, 22]);
    // The last chapter may be one end.
    let last = refusals(&bench(&[&giving, &[END]]));
    assert_eq!((last[0], last[4]), (0, 0));
    assert_eq!(refusals(&bench(&[&[END]]))[..1], [0]);
}

#[test]
fn one_to_eight_chapters() {
    let giving = value_lines(CUT[0]);
    for count in 0..=12 {
        let pair = bench(&vec![&giving[..]; count]);
        let owed = if (1..=MOST_CHAPTERS).contains(&count) {
            0
        } else {
            24
        };
        let given = refusals(&pair);
        assert_eq!((given[0], given[3]), (owed, owed), "{count}");
        let plan = match count {
            1 => 0,
            2..=8 => 15,
            _ => 24,
        };
        assert_eq!(given[4], plan, "{count}");
        // The cell is not looked at before.
        let no_cell = Pair {
            cell: vec![],
            ..pair
        };
        let owed = if owed == 24 { 24 } else { 3 };
        assert_eq!(refusals(&no_cell), [owed; 5], "{count}");
    }
}

#[test]
fn recipes_of_every_length() {
    let giving = value_lines(CUT[0]);
    let eight = bench(&[&giving[..]; MOST_CHAPTERS]);
    let cell = eight.cell_bytes();
    let longer = [eight.recipes_bytes(), eight.recipes_bytes()].concat();
    let table = Table::new(vec![entry_of(STAY, [0; 4]); 8 * 36]);
    for length in 0..=9 * RECIPE_BYTES + 3 {
        let round = Round {
            cell: cell.clone(),
            recipes: longer[..length].to_vec(),
            run: vec![1, 0, 0, 0, 0, 0, 0, 0, 0, 0, 0, 0, 0, 0, 0, 0],
            entries: table.entries().len(),
            outcome: 1,
            part: 0,
        };
        let owed = match length / RECIPE_BYTES {
            1..=MOST_CHAPTERS => [0, 0, 19, 0],
            _ => [24; 4],
        };
        assert_eq!(refusals_of(&round, &table), owed, "{length}");
    }
}

#[test]
fn numbers_of_chapters_that_a_narrow_number_would_lose() {
    let one = bench(&[&value_lines(BENCH_RECIPE)]);
    let handed = Handed::of_pair(&one);
    let table = handed.plan(&mut Random::new(7)).table;
    for count in [256, 257, 264, 65_536, 65_537] {
        let recipes = handed.recipes.repeat(count);
        let cell = &handed.cell;
        let (mut run, mut entries) = ([0; RUN_BYTES], table.clone());
        assert_eq!(Library::check(cell, &recipes), 24, "{count}");
        assert_eq!(Library::next_move(cell, &recipes, &table, &run), 24 << 32);
        assert_eq!(Library::report(cell, &recipes, &table, &mut run, 0), 24);
        assert_eq!(Library::place(cell, &recipes, &run, 0), 24 * 256 + 255);
        let plan = Library::plan(cell, &recipes, &mut entries, &mut [0; 12]);
        assert_eq!(plan, 24);
        assert!(run == [0; RUN_BYTES] && entries == table);
    }
}

#[test]
fn a_rest_changes_nothing() {
    let mut random = Random::new(2);
    let whole = Handed::of_pair(&bench(&[&value_lines(BENCH_RECIPE)]));
    let planned = whole.plan(&mut random);
    let mut run = [0; RUN_BYTES];
    assert_eq!(Library::fresh(&mut run), 0);
    for length in RECIPE_BYTES..2 * RECIPE_BYTES {
        let mut handed = whole.clone();
        handed.recipes.resize_with(length, || random.byte());
        assert_eq!(handed.plan_again(&planned, None, &mut random), 0);
        let Handed { cell, recipes, .. } = &handed;
        assert_eq!(Library::check(cell, recipes), 0);
        let answer = Library::next_move(cell, recipes, &planned.table, &run);
        assert_eq!(answer, 50_331_648);
        assert_eq!(Library::place(cell, recipes, &run, 0), 0);
        let mut left = run;
        assert_eq!(
            Library::report(cell, recipes, &planned.table, &mut left, 0),
            0
        );
        assert_eq!((left[0], left[15]), (1, 0));
    }
}

#[test]
fn the_table_has_the_sum_and_the_scratch_the_greatest() {
    let mut random = Random::new(3);
    let chapters = [CUT[0], BENCH_RECIPE, CUT[1]].map(value_lines);
    let pair = bench(&[&chapters[0], &chapters[1], &chapters[2]]);
    let just_enough = Handed::of_pair(&pair);
    // 2, 5 and 4 points of 18 configurations each, the most of which are 90.
    assert_eq!((just_enough.entries, just_enough.scratch), (198, 12));
    let mut refused = 0;
    for entries in (0..=200).chain([8_192]) {
        for scratch in [0, 1, 11, 12, 13, 24, 25, 198] {
            let handed = Handed {
                entries,
                scratch,
                ..just_enough.clone()
            };
            let short = entries < 198 || scratch < 12;
            let refusal = handed.plan(&mut random).refusal;
            assert_eq!(refusal == 14, short, "{entries}, {scratch}");
            refused += usize::from(short);
        }
    }
    assert_eq!(refused, 198 * 8 + 4 * 3);
    // A run's calls have no scratch.
    let table = Table::new(vec![0; 200]);
    for entries in 0..=200 {
        let round = Round {
            cell: just_enough.cell.clone(),
            recipes: just_enough.recipes.clone(),
            run: vec![0; RUN_BYTES],
            entries,
            outcome: 1,
            part: 0,
        };
        let owed = if entries < 198 { 14 } else { 18 };
        assert_eq!(refusals_of(&round, &table), [0, owed, owed, 0]);
    }
}

#[test]
fn eight_chapters_of_as_many_positions_as_there_may_be() {
    let mut random = Random::new(4);
    let (cell, recipe) = dense_pair();
    let recipes = chapters_bytes(&vec![recipe; MOST_CHAPTERS]);
    let mut handed = Handed::of(cell_bytes(&cell).to_vec(), recipes);
    assert_eq!(handed.entries as u64, 8 * MOST_POSITIONS);
    assert_eq!(handed.scratch as u64, MOST_POSITIONS / 8);
    let refusal = handed.plan_alike(&mut random).refusal;
    assert_eq!(refusal, 0);
    handed.entries -= 1;
    assert_eq!(handed.plan(&mut random).refusal, 14);
    (handed.entries, handed.scratch) = (handed.entries + 1, handed.scratch - 1);
    assert_eq!(handed.plan(&mut random).refusal, 14);
}

#[test]
fn parts_count_over_all_chapters_for_every_rule() {
    // Three stations of four states and 16 points that name five parts are as many positions as there may be.
    let cell = ["0,3,1,1,0", "1,0,1,1,3", "2,2,0,0,3"];
    let chapter = |points: u8, part: u8| -> Vec<String> {
        let line = |p: u8| format!("{p},1,1,{part},1,{},0", (p + 1) % points);
        (0..points).map(line).collect()
    };
    let refused = |chapters: &[Vec<String>]| {
        let lines: Vec<Vec<&str>> = chapters
            .iter()
            .map(|lines| lines.iter().map(String::as_str).collect())
            .collect();
        let lines: Vec<&[&str]> = lines.iter().map(Vec::as_slice).collect();
        refusals(&Pair::of_chapters(&cell, &[], &lines))
    };
    // Check, and place with the fresh run; then the table is too short, for the planner too.
    let fits = [0, 14, 14, 0, 14];
    assert_eq!(refused(&[chapter(16, 16)]), fits);
    assert_eq!(refused(&[chapter(4, 32)]), fits);
    assert_eq!(refused(&[chapter(16, 16), chapter(16, 16)]), fits);
    // With a sixth part in either chapter, the other one has too many.
    assert_eq!(refused(&[chapter(16, 16), chapter(4, 32)]), [13; 5]);
    assert_eq!(refused(&[chapter(4, 32), chapter(16, 16)]), [13; 5]);
    assert_eq!(refused(&[chapter(4, 32), chapter(4, 16)]), fits);
}

#[test]
fn a_part_that_another_chapter_names_has_its_place() {
    // Parts 0 and 3, of which each is named in one chapter alone.
    let pair = bench(&[&value_lines(CUT[0]), &["0,1,1,0,8,1,0", "1,0,0,0,0,0,0"]]);
    let (cell, recipes) = (pair.cell_bytes(), pair.recipes_bytes());
    for chapter in [0, 1] {
        let run = [0, 0, 0, 0, 0, 0, 0, 1, 0, 0, 2, 0, 0, 0, 0, chapter];
        let places = [0, 1, 3, 4, 8, 255].map(|part| Library::place(&cell, &recipes, &run, part));
        assert_eq!(places, [1, 0, 2, 255, 255, 255]);
        // Of one chapter alone, the part of the other is none.
        let first = &recipes[..RECIPE_BYTES];
        let alone = Library::place(&cell, first, &run, 0);
        assert_eq!(alone, 16 * 256 + 255);
    }
}

#[test]
fn runs_at_every_earlier_end() {
    let pair = cut_example();
    let (cell, recipes) = (pair.cell_bytes(), pair.recipes_bytes());
    let (_, joined) = accepted(&cell, &recipes).expect("it is accepted");
    let mut table = Table::new(planned(&pair).table);
    let others = [
        0, 1, 16_777_216, 33_554_561, 50_331_648, 67_108_865, 83_886_080,
    ];
    let mut staying = 0;
    for position in 18..36 {
        let planned = table.entries()[position];
        let goes_on = table.entries()[position + 18] != 0;
        assert_eq!(planned, if goes_on { 67_108_864 } else { 0 });
        staying += usize::from(goes_on);
        for entry in others.into_iter().chain([67_108_864]) {
            table.set(position as u64, entry);
            for outcome in [0, 1, 2, 255] {
                let round = Round {
                    cell: cell.clone(),
                    recipes: recipes.clone(),
                    run: run_bytes(&joined.run_at(position as u64)).to_vec(),
                    entries: table.entries().len(),
                    outcome,
                    part: 0,
                };
                let open = entry == 67_108_864;
                let next_move = if open { 0 } else { 18 };
                let report = match (outcome, open) {
                    (2.., _) => 17,
                    (_, false) => 18,
                    _ => 19,
                };
                let given = refusals_of(&round, &table);
                assert_eq!(given, [0, next_move, report, 0], "{entry} at {position}");
            }
        }
        table.set(position as u64, planned);
    }
    // With the part at station 1 and station 0 in either state, and on its way there.
    assert_eq!(staying, 3);
}

#[test]
fn chapters_and_points_that_are_not_there() {
    let pair = cut_example();
    let table = Table::new(planned(&pair).table);
    for chapter in 0..=255 {
        for point in (0..=5).chain([15, 16, 255]) {
            let mut run = vec![0; RUN_BYTES];
            (run[0], run[15]) = (point, chapter);
            let round = Round {
                cell: pair.cell_bytes(),
                recipes: pair.recipes_bytes(),
                run,
                entries: table.entries().len(),
                outcome: 9,
                part: 0,
            };
            let given = refusals_of(&round, &table);
            let there = chapter == 0 && point < 2 || chapter == 1 && point < 4;
            let owed = if there { [17, 0] } else { [16, 16] };
            assert_eq!(given[2..], owed, "point {point} of chapter {chapter}");
            assert_eq!(given[1] == 16, !there);
        }
    }
}

#[test]
fn runs_of_every_length() {
    let pair = cut_example();
    let table = Table::new(planned(&pair).table);
    let longer = [&[0; RUN_BYTES][..], &[0x5a; 20]].concat();
    for length in 0..=longer.len() {
        let round = Round {
            cell: pair.cell_bytes(),
            recipes: pair.recipes_bytes(),
            run: longer[..length].to_vec(),
            entries: table.entries().len(),
            outcome: 1,
            part: 0,
        };
        let owed = if length < RUN_BYTES { [16; 3] } else { [0; 3] };
        assert_eq!(refusals_of(&round, &table)[1..], owed, "{length}");
    }
}

/// Everything near to the example: its records and the runs on its way, a byte from what they are.
#[test]
fn one_byte_from_the_example() {
    let handed = Handed::of_pair(&cut_example());
    let table = Table::new(handed.plan(&mut Random::new(5)).table);
    let fresh = [0; RUN_BYTES];
    let landed = reported(&cut_example(), table.entries(), &fresh, 0);
    assert_eq!((landed[0], landed[15]), (0, 1));
    for run in [fresh.to_vec(), landed] {
        let good = [handed.cell.clone(), handed.recipes.clone(), run];
        // The lines of the cell and its limits; those of both chapters, and one more of each, which counts for
        // nothing; the run.
        for (slice, places) in [
            (0, 0..1 + 5 * 5),
            (0, CELL_BYTES - MOST_RESOURCES..CELL_BYTES),
            (1, 0..1 + 3 * 7),
            (1, RECIPE_BYTES..RECIPE_BYTES + 1 + 5 * 7),
            (2, 0..RUN_BYTES),
        ] {
            for (at, byte) in places.flat_map(|at| (0..=255).map(move |byte| (at, byte))) {
                compare(&Round::changed_in(&good, (slice, at), byte, &table), &table);
            }
        }
    }
}

/// A pair in several chapters, and what calls on it are handed beside its records.
#[derive(Clone)]
struct Case {
    pair: Pair,
    /// The bytes of the recipes where these aren't the pair's.
    recipes: Option<Vec<u8>>,
    entries: usize,
    scratch: usize,
    run: Vec<u8>,
    outcome: u8,
}

/// What is owed by check, next-move, report, place and plan.
type Owed = [u8; 5];

/// Breaks two rules or more in a good case, and says what is owed; none if it can't.
type Way = fn(Case, &mut Random) -> Option<(Case, Owed)>;

impl Case {
    /// A good case, but for the table, which will be of zeros. Its cell has room for what the ways do to it.
    fn good(n: usize, source: &mut independent::Random, random: &mut Random) -> Case {
        loop {
            let most = FEW_POSITIONS[n / 2 % 4];
            let (cell, chapters) = either_chapters(n, most, several(random), source);
            let wanted = chapters.len() > 1 && chapters.iter().all(every_point_is_reached);
            if wanted {
                let joined = Joined::of(&cell, &chapters);
                return Case {
                    pair: Pair::of(&cell, &chapters),
                    recipes: None,
                    entries: joined.sizes.positions as usize,
                    scratch: joined.sizes.positions as usize,
                    run: vec![0; RUN_BYTES],
                    outcome: random.below(2) as u8,
                };
            }
        }
    }

    fn recipes_bytes(&self) -> Vec<u8> {
        let own = || self.pair.recipes_bytes();
        self.recipes.clone().unwrap_or_else(own)
    }

    /// Two of the chapters, of which the first comes before the second.
    fn two_chapters(&self, random: &mut Random) -> [usize; 2] {
        let count = self.pair.recipes.len();
        let later = 1 + random.below(count - 1);
        [random.below(later), later]
    }

    /// Makes a chapter one of a single end.
    fn end(&mut self, chapter: usize) {
        self.pair.recipes[chapter] = vec![vec![0; 7]];
    }

    /// Breaks one of the rules 3 to 12 in a chapter. The rule that its record then breaks, if it does.
    fn break_recipe(&mut self, chapter: usize, random: &mut Random) -> Option<u8> {
        let rows = &mut self.pair.recipes[chapter];
        match random.choose(&[3, 4, 7, 8, 9, 10, 11, 12]) {
            3 => rows.clear(),
            rule => RecipeFile::break_rule(rule, rows, random),
        }
        let (_, chapters) = self.pair.records();
        Some(check_recipe(&chapters[chapter]).number).filter(|&rule| rule != 0)
    }

    /// Breaks one of the cell's rules. The first that it then breaks, if it does.
    fn break_cell(&mut self, random: &mut Random) -> Option<u8> {
        match random.choose(&[3, 4, 5, 6, 20, 23]) {
            3 => self.pair.cell.clear(),
            20 => self.pair.limits[MOST_RESOURCES - 1] = 7,
            rule => CellFile::break_rule(rule, &mut self.pair.cell, random),
        }
        self.pair.cell.truncate(MOST_LINES + 1);
        let cell = self.pair.records().0;
        Some(check_cell(&cell).number).filter(|&rule| rule != 0)
    }

    /// Forgets a point of a chapter.
    fn forget(&mut self, chapter: usize, random: &mut Random) {
        let rows = &self.pair.recipes[chapter];
        // Where the first point becomes an end, another rule is broken too.
        let forgetful = (0..20).map(|_| forgetful(rows, random));
        let mut kept = forgetful.filter(|rows| rows[0][1] != 0);
        self.pair.recipes[chapter] = kept.next().unwrap_or_else(|| rows.clone());
    }

    /// Whether a point of some chapter is forgotten.
    fn is_forgetful(&self) -> bool {
        let (_, chapters) = self.pair.records();
        !chapters.iter().all(every_point_is_reached)
    }

    /// Takes a cell with which some chapter has too many positions. Not every try finds one.
    fn grow(&mut self, random: &mut Random) -> bool {
        self.pair.limits = NO_LIMITS;
        (0..6).any(|_| {
            self.pair.cell = CellFile::good_rows(random);
            let (cell, chapters) = self.pair.records();
            check(&cell, &chapters) == 13
        })
    }

    /// Lends too little, begins in a chapter that isn't there, and reports no outcome.
    fn spoil_rest(&mut self, random: &mut Random) {
        (self.entries, self.scratch) = (self.entries - 1 - random.below(self.entries), 0);
        self.run[15] = random.choose(&[self.pair.recipes.len() as u8, 8, 255]);
        self.outcome = 2 + random.below(200) as u8;
    }
}

/// No chapters, or bytes too few for one; with all else broken too, or only the cell.
fn none_beside_cell(mut case: Case, random: &mut Random) -> Option<(Case, Owed)> {
    case.break_cell(random)?;
    let any = random.below(RECIPE_BYTES);
    let length = random.choose(&[0, 1, RECIPE_BYTES - 1, any]);
    case.recipes = Some(vec![random.byte(); length]);
    if random.coin() {
        case.spoil_rest(random);
    }
    Some((case, [24; 5]))
}

fn too_many_beside_cell(mut case: Case, random: &mut Random) -> Option<(Case, Owed)> {
    case.break_cell(random)?;
    case.recipes = Some(too_many_chapters(&case.pair.recipes_bytes(), random));
    if random.coin() {
        case.spoil_rest(random);
    }
    Some((case, [24; 5]))
}

/// Too many chapters, of which one is broken too, or begins with an end.
fn too_many_beside_chapters(mut case: Case, random: &mut Random) -> Option<(Case, Owed)> {
    let [earlier, later] = case.two_chapters(random);
    case.break_recipe(later, random)?;
    case.end(earlier);
    case.recipes = Some(too_many_chapters(&case.pair.recipes_bytes(), random));
    Some((case, [24; 5]))
}

/// A cell's rule comes before a joint.
fn cell_beside_joint(mut case: Case, random: &mut Random) -> Option<(Case, Owed)> {
    let [earlier, _] = case.two_chapters(random);
    case.end(earlier);
    let rule = case.break_cell(random)?;
    Some((case, [rule; 5]))
}

/// A joint comes before the rules of the chapters behind it.
fn joint_before_recipe(mut case: Case, random: &mut Random) -> Option<(Case, Owed)> {
    let [earlier, later] = case.two_chapters(random);
    case.end(earlier);
    case.break_recipe(later, random)?;
    Some((case, [24; 5]))
}

/// And behind those of the chapters before it.
fn recipe_before_joint(mut case: Case, random: &mut Random) -> Option<(Case, Owed)> {
    let [earlier, later] = case.two_chapters(random);
    let rule = case.break_recipe(earlier, random)?;
    let has_next = later + 1 < case.pair.recipes.len();
    if has_next {
        case.end(later);
    } else {
        case.break_recipe(later, random);
    }
    Some((case, [rule; 5]))
}

/// And behind those of its own chapter.
fn recipe_beside_own_joint(mut case: Case, random: &mut Random) -> Option<(Case, Owed)> {
    let [earlier, _] = case.two_chapters(random);
    case.end(earlier);
    let rows = &mut case.pair.recipes[earlier];
    let rule = random.choose(&[4, 7, 8, 9]);
    match rule {
        4 => rows[0][2] = 64,
        7 => rows.push(vec![2, 0, 0, 0, 0, 0, 0]),
        8 => rows.push(vec![0; 7]),
        _ => rows[0][2 + random.below(5)] = 1,
    }
    Some((case, [rule; 5]))
}

/// In a call that plans, an unreached point comes before its own chapter's joint.
fn unreached_beside_own_joint(mut case: Case, random: &mut Random) -> Option<(Case, Owed)> {
    let [earlier, _] = case.two_chapters(random);
    case.end(earlier);
    case.pair.recipes[earlier].push(vec![1, 0, 0, 0, 0, 0, 0]);
    Some((case, [24, 24, 24, 24, 22]))
}

/// And before those of the chapters behind it.
fn unreached_before_joint(mut case: Case, random: &mut Random) -> Option<(Case, Owed)> {
    let [earlier, later] = case.two_chapters(random);
    if later + 1 == case.pair.recipes.len() {
        return None;
    }
    case.forget(earlier, random);
    if !case.is_forgetful() {
        return None;
    }
    case.end(later);
    Some((case, [24, 24, 24, 24, 22]))
}

/// But behind those of the chapters before it.
fn joint_before_unreached(mut case: Case, random: &mut Random) -> Option<(Case, Owed)> {
    let [earlier, later] = case.two_chapters(random);
    case.end(earlier);
    case.forget(later, random);
    case.is_forgetful().then_some((case, [24; 5]))
}

/// An unreached point comes before the rules of the chapters behind it.
fn unreached_before_recipe(mut case: Case, random: &mut Random) -> Option<(Case, Owed)> {
    let [earlier, later] = case.two_chapters(random);
    case.forget(earlier, random);
    if !case.is_forgetful() {
        return None;
    }
    let rule = case.break_recipe(later, random)?;
    Some((case, [rule, rule, rule, rule, 22]))
}

/// And behind those of the chapters before it.
fn recipe_before_unreached(mut case: Case, random: &mut Random) -> Option<(Case, Owed)> {
    let [earlier, later] = case.two_chapters(random);
    case.forget(later, random);
    if !case.is_forgetful() {
        return None;
    }
    let rule = case.break_recipe(earlier, random)?;
    Some((case, [rule; 5]))
}

/// All chapters' rules come before 13 of any: a joint.
fn joint_beside_13(mut case: Case, random: &mut Random) -> Option<(Case, Owed)> {
    if !case.grow(random) {
        return None;
    }
    let [earlier, _] = case.two_chapters(random);
    case.end(earlier);
    Some((case, [24; 5]))
}

/// A rule of the last chapter.
fn last_recipe_beside_13(mut case: Case, random: &mut Random) -> Option<(Case, Owed)> {
    if !case.grow(random) {
        return None;
    }
    let last = case.pair.recipes.len() - 1;
    let rule = case.break_recipe(last, random)?;
    Some((case, [rule; 5]))
}

/// An unreached point of the last chapter, in a call that plans.
fn last_unreached_beside_13(mut case: Case, random: &mut Random) -> Option<(Case, Owed)> {
    if !case.grow(random) {
        return None;
    }
    let last = case.pair.recipes.len() - 1;
    case.forget(last, random);
    let (cell, chapters) = case.pair.records();
    let wanted = case.is_forgetful() && check(&cell, &chapters) == 13;
    wanted.then_some((case, [13, 13, 13, 13, 22]))
}

/// 13 comes before all that is lent or handed in beside the records.
fn too_great_beside_rest(mut case: Case, random: &mut Random) -> Option<(Case, Owed)> {
    if !case.grow(random) {
        return None;
    }
    case.spoil_rest(random);
    Some((case, [13; 5]))
}

/// A joint does too.
fn joint_beside_rest(mut case: Case, random: &mut Random) -> Option<(Case, Owed)> {
    let [earlier, _] = case.two_chapters(random);
    case.end(earlier);
    case.spoil_rest(random);
    Some((case, [24; 5]))
}

/// A joint comes before 15.
fn joint_beside_15(mut case: Case, random: &mut Random) -> Option<(Case, Owed)> {
    if !case.pair.want_unknown_operation() {
        return None;
    }
    let earlier = 1 + random.below(case.pair.recipes.len());
    if earlier + 1 >= case.pair.recipes.len() {
        return None;
    }
    case.end(earlier);
    Some((case, [24; 5]))
}

/// 14 comes before a chapter that isn't there; a place call has no table.
fn short_table_beside_16(mut case: Case, random: &mut Random) -> Option<(Case, Owed)> {
    case.spoil_rest(random);
    Some((case, [0, 14, 14, 16, 14]))
}

/// A chapter that isn't there comes before a bad outcome, and before an entry that isn't open.
fn chapter_beside_17_and_18(mut case: Case, random: &mut Random) -> Option<(Case, Owed)> {
    case.run[15] = random.choose(&[case.pair.recipes.len() as u8, 8, 255]);
    case.outcome = random.choose(&[0, 2, 255]);
    Some((case, [0, 16, 16, 16, 0]))
}

/// What is broken, and how.
const WAYS: [(&str, Way); 20] = [
    ("none, and the cell's", none_beside_cell),
    ("too many, and the cell's", too_many_beside_cell),
    ("too many, and chapters'", too_many_beside_chapters),
    ("the cell's, and a joint", cell_beside_joint),
    ("a joint, and a later recipe's", joint_before_recipe),
    (
        "a recipe's, and a later joint or recipe's",
        recipe_before_joint,
    ),
    ("a recipe's, and its own joint", recipe_beside_own_joint),
    ("22, and its own joint", unreached_beside_own_joint),
    ("22, and a later joint", unreached_before_joint),
    ("a joint, and a later 22", joint_before_unreached),
    ("22, and a later recipe's", unreached_before_recipe),
    ("a recipe's, and a later 22", recipe_before_unreached),
    ("a joint, and 13", joint_beside_13),
    ("the last recipe's, and 13", last_recipe_beside_13),
    ("22 of the last, and 13", last_unreached_beside_13),
    ("13, and 14, 16 and 17", too_great_beside_rest),
    ("a joint, and 14, 16 and 17", joint_beside_rest),
    ("a joint, and 15", joint_beside_15),
    ("14, and a chapter that isn't there", short_table_beside_16),
    (
        "a chapter that isn't there, and 17 or 18",
        chapter_beside_17_and_18,
    ),
];

/// Wants every call to refuse a case as is owed; a plan that isn't refused before 15 is only judged.
fn expect(case: &Case, owed: Owed, random: &mut Random) {
    let (cell, recipes) = (case.pair.cell_bytes(), case.recipes_bytes());
    let round = Round {
        cell: cell.clone(),
        recipes: recipes.clone(),
        run: case.run.clone(),
        entries: case.entries,
        outcome: case.outcome,
        part: random.below(9) as u8,
    };
    let given = refusals_of(&round, &Table::new(vec![0; case.entries]));
    let [calls @ .., of_plan] = owed;
    assert_eq!(given, calls.map(u32::from), "{round}");
    let handed = Handed {
        cell,
        recipes,
        entries: case.entries,
        scratch: case.scratch,
    };
    let planned = handed.plan(random).refusal;
    let before_15 = if planned == 15 { 0 } else { planned };
    assert_eq!(before_15, u32::from(of_plan), "{handed}");
}

#[test]
fn rule_24_has_its_places() {
    let mut random = Random::new(71);
    let mut source = independent::Random(72);
    let mut seen = [0; WAYS.len()];
    let mut n = 0;
    while n < REFUSED || n < 8 * REFUSED && seen.iter().any(|&times| times < LEAST_SEEN) {
        let case = Case::good(n, &mut source, &mut random);
        for ((_, way), times) in WAYS.iter().zip(&mut seen) {
            // Later rounds are for those that were seen too seldom.
            if n >= REFUSED && *times >= LEAST_SEEN {
                continue;
            }
            if let Some((case, owed)) = way(case.clone(), &mut random) {
                expect(&case, owed, &mut random);
                *times += 1;
            }
        }
        n += 1;
    }
    for ((name, _), times) in WAYS.iter().zip(seen) {
        println!("{name}: {times} times in every call");
        assert!(times >= LEAST_SEEN, "{name}");
    }
}

#[test]
fn a_record_of_one_end_is_a_joint_whatever_stands_behind() {
    let pair = bench(&[&value_lines(BENCH_RECIPE), &value_lines(BENCH_RECIPE)]);
    let mut recipes = pair.recipes_bytes();
    end_at_once(&mut recipes[..RECIPE_BYTES]);
    let cell = pair.cell_bytes();
    assert_eq!(Library::check(&cell, &recipes), 24);
    // As the last chapter it is an end as any other.
    let mut recipes = pair.recipes_bytes();
    end_at_once(&mut recipes[RECIPE_BYTES..]);
    assert_eq!(Library::check(&cell, &recipes), 0);
    assert_eq!(
        Handed::of(cell, recipes).plan(&mut Random::new(6)).refusal,
        0
    );
}

/// How a recipe that is cut is to be like the whole.
#[derive(Clone, Copy)]
enum Alike {
    /// A position has a move in the one exactly if it has one in the other. Which of several moves that is, is free.
    Alive,
    /// Each position has the same move in both.
    Moved,
}

/// What was seen of recipes that were cut, by the number of chapters.
#[derive(Debug, Default)]
struct Cuts {
    compared: [usize; MOST_CHAPTERS + 1],
    accepted: [usize; MOST_CHAPTERS + 1],
    /// Calls in which the run of the whole and that of the cut stood at the same point, and joints passed.
    calls: usize,
    joints: usize,
}

/// Wants the run of the whole and that of the cut, both by the library, to stand at the same points in the same
/// configurations as long as both make the same moves, on the same outcomes; which they must until the end if their
/// moves are to be the same.
fn follow_both(
    alike: Alike,
    whole: (&Pair, &[u32]),
    in_chapters: (&Pair, &[u32]),
    points: &[(u8, u8)],
    random: &mut Random,
    seen: &mut Cuts,
) {
    let mut runs = [[0; RUN_BYTES]; 2].map(|run| run.to_vec());
    for _ in 0..20 {
        let (chapter, point) = points[usize::from(runs[0][0])];
        assert_eq!((runs[1][15], runs[1][0]), (chapter, point));
        assert_eq!(runs[0][1..15], runs[1][1..15]);
        seen.calls += 1;
        let entries = [(whole, &runs[0]), (in_chapters, &runs[1])].map(|((pair, table), run)| {
            let (cell, recipes) = (pair.cell_bytes(), pair.recipes_bytes());
            Library::next_move(&cell, &recipes, table, run)
        });
        if let Alike::Moved = alike {
            assert_eq!(entries[0], entries[1]);
        }
        if entries[0] != entries[1] || entries[0] == u64::from(entry_of(STAY, [0; 4])) {
            return;
        }
        let outcome = random.below(2) as u8;
        runs = [
            reported(whole.0, whole.1, &runs[0], outcome),
            reported(in_chapters.0, in_chapters.1, &runs[1], outcome),
        ];
        seen.joints += usize::from(runs[1][15] > chapter);
    }
}

/// Wants seeded recipes that are cut to be like the whole in this way.
fn compare_cuts(alike: Alike) {
    let mut random = Random::new(73);
    let mut source = independent::Random(74);
    let mut seen = Cuts::default();
    for n in 0..CUTS {
        let (cell, recipe) = either_pair(n, [60, 400, 1_000][n / 2 % 3], &mut source);
        let all_reached = every_point_is_reached(&recipe);
        let Some(cut) = cut(&recipe, &mut source).filter(|_| all_reached) else {
            continue;
        };
        let whole = Pair::of(&cell, slice::from_ref(&recipe));
        let in_chapters = Pair::of(&cell, &cut.chapters);
        let [of_whole, of_cut] = [&whole, &in_chapters].map(planned);
        assert_eq!(of_whole.refusal, of_cut.refusal);
        let joined = Joined::of(&cell, &cut.chapters);
        let tables = [&of_whole.table[..], &of_cut.table];
        assert_tables_alike(alike, tables, &joined, &cut.points);
        let count = cut.chapters.len();
        seen.compared[count] += 1;
        if of_whole.refusal == 0 {
            seen.accepted[count] += 1;
            let whole = (&whole, &of_whole.table[..]);
            let in_chapters = (&in_chapters, &of_cut.table[..]);
            follow_both(
                alike,
                whole,
                in_chapters,
                &cut.points,
                &mut random,
                &mut seen,
            );
        }
    }
    println!("{seen:?}");
    let [compared, accepted] =
        [seen.compared, seen.accepted].map(|seen| seen.iter().sum::<usize>());
    assert!(compared >= 500 && accepted >= 300 && compared - accepted >= 100);
    assert!(seen.compared[2] >= 200 && seen.compared[3..].iter().sum::<usize>() >= 50);
    assert!(seen.calls >= 1_000 && seen.joints >= 300);
}

/// Wants the tables of the whole and of the cut to be alike in this way, point by point.
fn assert_tables_alike(
    alike: Alike,
    [whole, of_cut]: [&[u32]; 2],
    joined: &Joined,
    points: &[(u8, u8)],
) {
    let configurations = joined.sizes.configurations() as usize;
    for (entries, &(chapter, point)) in whole.chunks(configurations).zip(points) {
        let start = usize::from(joined.number(chapter, point)) * configurations;
        let others = &of_cut[start..][..configurations];
        let same = |(one, other): (&u32, &u32)| match alike {
            Alike::Alive => (*one == 0) == (*other == 0),
            Alike::Moved => one == other,
        };
        assert!(entries.iter().zip(others).all(same));
    }
}

#[test]
fn cut_recipes_are_alive_where_the_whole_is() {
    compare_cuts(Alike::Alive);
}

#[test]
fn cut_recipes_have_the_moves_of_the_whole() {
    compare_cuts(Alike::Moved);
}

#[test]
fn a_fresh_run_is_in_the_first_chapter() {
    for length in 0..40 {
        let mut run = vec![0x5a; length];
        let refusal = Library::fresh(&mut run);
        let owed = if length < RUN_BYTES { 14 } else { 0 };
        assert_eq!(refusal, owed, "{length}");
        if refusal == 0 {
            assert_eq!(run_of_bytes(&run), Run::fresh());
            assert!(run[RUN_BYTES..].iter().all(|&byte| byte == 0x5a));
        } else {
            assert!(run.iter().all(|&byte| byte == 0x5a));
        }
    }
}
