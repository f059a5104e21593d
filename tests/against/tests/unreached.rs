//! Recipes with points that nothing leads to, through the C interface: rule 22 in its place among the
//! others, in each call that plans, against the independent program; and such recipes read, checked and run
//! with stored tables, against the independent program and its book.

use against::calls::{Calls, Library};
use against::generate::{file, Generate};
use against::installs::{owed, Installing};
use against::pairs::{either_pair, good_pair, Pair, NO_LIMITS};
use against::plans::Handed;
use against::points::forgetful;
use against::random::Random;
use against::rounds::{accepted, compare, Round, Table};
use against::{same_reading, CellFile, Format, RecipeFile};
use independent::{
    check, reached_points, run_bytes, stored_table, Book, MOST_LINES, MOST_RESOURCES, RUN_BYTES,
};
use std::slice;

/// The act of a gate.
const GATE: u32 = 4;

/// Recipes with which each of the ways below is tried, and how often each must at least be seen.
const REFUSED: usize = 2_500;
const LEAST_SEEN: usize = 1_000;

/// Recipes that are run with a stored table, and the most reports in a run.
const STORED: usize = 1_500;
const MOST_REPORTS: usize = 60;

/// The most positions of a recipe before a point of it is forgotten.
const FEW_POSITIONS: [u64; 3] = [60, 400, 1_000];

/// A pair that passes the rules 3 to 13 and has an unreached point.
fn forgetful_pair(n: usize, source: &mut independent::Random, random: &mut Random) -> Pair {
    let most = FEW_POSITIONS[n % 3];
    let mut pair = match n % 4 {
        0 => good_pair(most, random),
        _ => {
            let (cell, recipe) = either_pair(n, most, source);
            Pair::of(&cell, slice::from_ref(&recipe))
        }
    };
    pair.recipes[0] = forgetful(&pair.recipes[0], random);
    pair
}

/// A call on a pair that breaks this one of the rules 3 to 13; none if it doesn't.
fn refused(pair: &Pair, rule: u8, random: &mut Random) -> Option<Handed> {
    let (cell, chapters) = pair.records();
    (check(&cell, &chapters) == rule).then(|| Handed {
        cell: pair.cell_bytes(),
        recipes: pair.recipes_bytes(),
        entries: random.below(200),
        scratch: random.below(200),
    })
}

/// Leads past the last point. The unreached point stays so, as nothing leads to more points than before.
fn past_the_points(mut pair: Pair, random: &mut Random) -> Option<Handed> {
    RecipeFile::break_rule(12, &mut pair.recipes[0], random);
    refused(&pair, 12, random)
}

/// Takes a cell for which the recipe has too many positions. Not every try finds one.
fn too_great(mut pair: Pair, random: &mut Random) -> Option<Handed> {
    pair.limits = NO_LIMITS;
    (0..4).find_map(|_| {
        pair.cell = CellFile::good_rows(random);
        refused(&pair, 13, random)
    })
}

/// Limits a resource that isn't there.
fn limit_above(mut pair: Pair, random: &mut Random) -> Option<Handed> {
    pair.limits[MOST_RESOURCES - 1] = 1 + random.below(7) as u8;
    refused(&pair, 20, random)
}

fn short_table(pair: Pair, random: &mut Random) -> Option<Handed> {
    let mut handed = Handed::of_pair(&pair);
    handed.entries -= 1 + random.below(handed.entries);
    Some(handed)
}

fn short_scratch(pair: Pair, random: &mut Random) -> Option<Handed> {
    let mut handed = Handed::of_pair(&pair);
    handed.scratch -= 1 + random.below(handed.scratch);
    Some(handed)
}

/// Wants an operation that the cell hasn't.
fn not_realisable(mut pair: Pair, _: &mut Random) -> Option<Handed> {
    let spoiled = pair.want_unknown_operation();
    spoiled.then(|| Handed::of_pair(&pair))
}

fn realisable(pair: Pair, _: &mut Random) -> Option<Handed> {
    pair.is_realisable().then(|| Handed::of_pair(&pair))
}

/// Says everything more than once but for the gates, so that the cell has no place for a line.
fn full_cell(mut pair: Pair, _: &mut Random) -> Option<Handed> {
    let others = pair.cell.clone().into_iter().filter(|row| row[2] != GATE);
    let again: Vec<Vec<u32>> = others.collect();
    let missing = MOST_LINES - pair.cell.len();
    pair.cell.extend(again.into_iter().cycle().take(missing));
    Some(Handed::of_pair(&pair))
}

/// Makes of a pair with an unreached point a call that breaks another rule too; none if it can't.
type Way = fn(Pair, &mut Random) -> Option<Handed>;

/// What else is broken, how, and the refusal that is owed.
const WAYS: [(&str, Way, u8); 8] = [
    ("20", limit_above, 20),
    ("12", past_the_points, 12),
    ("nothing", realisable, 22),
    ("13", too_great, 22),
    ("14 for the table", short_table, 22),
    ("14 for the scratch", short_scratch, 22),
    ("15", not_realisable, 22),
    ("21", full_cell, 22),
];

#[test]
fn rule_22_has_its_place() {
    let mut random = Random::new(51);
    let mut source = independent::Random(52);
    let mut seen = [0; WAYS.len()];
    for n in 0..REFUSED {
        let pair = forgetful_pair(n, &mut source, &mut random);
        for ((_, way, refusal), times) in WAYS.iter().zip(&mut seen) {
            let Some(handed) = way(pair.clone(), &mut random) else {
                continue;
            };
            *times += 1;
            let planned = handed.plan(&mut random).refusal;
            assert_eq!(planned, u32::from(*refusal), "{handed}");
            let list = random.below(40);
            let owed = owed(&handed);
            assert_eq!(owed.refusal, *refusal, "{handed}");
            Installing { handed, list }.compare(&owed, &mut random);
        }
    }
    for ((other, ..), times) in WAYS.iter().zip(seen) {
        println!("22 beside {other}: {times} plan calls and as many install calls");
        assert!(times >= LEAST_SEEN, "{other}");
    }
}

/// What was seen of runs with stored tables.
#[derive(Default)]
struct Runs {
    /// Those that began at the start and came to an end, by whether they made moves.
    ended: [usize; 2],
    /// Those from the start that stopped at an entry 0, and those that went on for too long.
    stopped: usize,
    endless: usize,
    /// Those that began at an unreached point with an entry, and those of them that made moves.
    unreached: [usize; 2],
    reports: usize,
}

impl Runs {
    fn note_from_start(&mut self, (moves, refusal): (usize, u8)) {
        match refusal {
            0 => self.endless += 1,
            19 => self.ended[usize::from(moves > 0)] += 1,
            _ => self.stopped += 1,
        }
        self.reports += moves;
    }

    fn note_from_unreached(&mut self, (moves, _): (usize, u8)) {
        self.unreached[0] += 1;
        self.unreached[1] += usize::from(moves > 0);
        self.reports += moves;
    }
}

/// Wants the recipe to be read from its file and checked as any other.
fn read_and_check(pair: &Pair) {
    let file = file::<RecipeFile>(&pair.recipes[0]);
    let buffer = [0x5a; RecipeFile::RECORD_BYTES];
    let reading = same_reading(&file, &buffer, RecipeFile::library, RecipeFile::independent);
    let recipes = pair.recipes_bytes();
    assert_eq!(Library::check(&pair.cell_bytes(), &recipes), 0);
    assert_eq!(reading, (0, recipes));
}

/// Makes reports until one is refused, and wants each call to be answered as the independent program and
/// the book do. How many were made, and the refusal, or 0 if there was none.
fn follow(round: &mut Round, table: &Table, mut book: Book, random: &mut Random) -> (usize, u8) {
    for reports in 0..MOST_REPORTS {
        (round.outcome, round.part) = (random.below(2) as u8, random.below(9) as u8);
        let answers = compare(round, table);
        let next_move = book.next_move();
        let report = book.report(round.outcome);
        let entry = (u64::from(next_move.refusal) << 32) + u64::from(next_move.entry);
        let expected = (0, entry, u32::from(report.refusal));
        let given = (answers.check, answers.next_move, answers.report);
        assert_eq!(given, expected, "{round}");
        let Round { cell, recipes, .. } = &*round;
        let mut run = round.run.clone();
        Library::report(cell, recipes, table.entries(), &mut run, round.outcome);
        assert_eq!(run, run_bytes(&report.run), "{round}");
        if report.refusal != 0 {
            return (reports, report.refusal);
        }
        round.run = run;
    }
    (MOST_REPORTS, 0)
}

/// Runs a recipe with the table that was stored for it: from the start, and from an unreached point if it
/// has an entry there.
fn run_stored(pair: &Pair, random: &mut Random, seen: &mut Runs) {
    let (cell, recipes) = (pair.cell_bytes(), pair.recipes_bytes());
    let (of_cell, joined) = accepted(&cell, &recipes).expect("the pair passes the rules 3 to 13");
    let table = Table::new(stored_table(&of_cell, &joined));
    let entries = table.entries();
    let mut round = Round {
        cell,
        recipes,
        run: vec![0xff; RUN_BYTES],
        entries: entries.len(),
        outcome: 0,
        part: 0,
    };
    assert_eq!(Library::fresh(&mut round.run), 0);
    let book = Book::new(&of_cell, &joined, entries);
    seen.note_from_start(follow(&mut round, &table, book, random));

    let reached = reached_points(&joined.chapters[0]);
    let is_forgotten = |&p: &u64| !reached[usize::from(joined.run_at(p).point)];
    let has_entry = |&p: &u64| entries[p as usize] != 0;
    let forgotten = (0..joined.sizes.positions).filter(|p| is_forgotten(p) && has_entry(p));
    let forgotten: Vec<u64> = forgotten.collect();
    if !forgotten.is_empty() {
        let position = random.choose(&forgotten);
        let book = Book::from_position(&of_cell, &joined, entries, position);
        round.run = run_bytes(&book.run()).to_vec();
        seen.note_from_unreached(follow(&mut round, &table, book, random));
    }
    table.assert_unchanged(entries.len());
}

#[test]
fn recipes_with_unreached_points_are_run_with_stored_tables() {
    let mut random = Random::new(53);
    let mut source = independent::Random(54);
    let mut seen = Runs::default();
    for n in 0..STORED {
        let pair = forgetful_pair(n, &mut source, &mut random);
        read_and_check(&pair);
        run_stored(&pair, &mut random, &mut seen);
    }
    println!(
        "{STORED} recipes run from the start: ended at once and after moves {:?}, {} stopped, {} endless",
        seen.ended, seen.stopped, seen.endless
    );
    println!(
        "{} runs from an unreached point, {} of them with moves; {} reports made",
        seen.unreached[0], seen.unreached[1], seen.reports
    );
    assert!(seen.ended[1] >= 300 && seen.endless >= 100 && seen.stopped >= 100);
    assert!(seen.unreached.iter().all(|&times| times >= 300));
}
