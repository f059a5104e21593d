//! The shortest way, always the same, through the C interface: worked examples; seeded tables, entry for entry, held
//! against the smallest numbers that begin a shortest way, as trying every single move finds them; the same call
//! with other content and lengths of all that doesn't count; and tables written before, which may still be run.

use against::damage::fill_past_lines;
use against::lists::{self, Form, List};
use against::pairs::{self, either_chapters, either_pair, Pair, NO_LIMITS};
use against::plans::{Handed, Planned};
use against::random::Random;
use against::rounds::{compare, Round, Table};
use against::{scratches, CellFile, RecipeFile};
use independent::{
    cell_bytes, chapters_bytes, every_point_is_reached, greatest_simulation, joint_choices, judge,
    kind_of, letters_of, run_bytes, Book, Cell, Joined, Move, Recipe, Ways, CARRY, INTERNAL,
    RECIPE_BYTES, STAY, TRANSFER,
};
use std::slice;

/// A recipe that gives a part and ends.
const GIVING: [&str; 2] = ["0,1,1,0,1,1,0", "1,0,0,0,0,0,0"];

/// Seeded pairs whose tables are compared, those that are planned twice, and those for which tables are written as
/// before; and the most joint choices of one.
const PAIRS: usize = 9_000;
const TWICE: usize = 1_500;
const EARLIER: usize = 1_500;
const MOST_CHOICES: u64 = 20_000;

/// Lists over a table that was written before, and calls in each.
const LISTS: usize = 4;
const CALLS: usize = 24;

/// How often each of what the rule decides must be seen at least.
const LEAST_SEEN: usize = 1_000;

/// The table that the library plans, which must be the one that is owed, and its answer.
fn planned(pair: &Pair) -> Planned {
    Handed::of_pair(pair).plan_owed(&mut Random::new(1))
}

#[test]
fn of_two_carries_the_one_with_the_smaller_last_letter() {
    let cell = ["0,0,1,1,0", "0,0,1,2,0", "1,0,1,1,0", "1,0,1,2,0"];
    let recipe = ["0,1,1,0,1,1,0", "0,1,2,0,2,1,0", "1,0,0,0,0,0,0"];
    let Planned { refusal, table } = planned(&Pair::of_lines(&cell, &[], &recipe));
    // By lines 2 and 1, and not by 0 and 3, which are 50331840.
    assert_eq!((refusal, table[0]), (0, 50_331_714));
}

#[test]
fn a_shorter_way_wins_over_a_smaller_number() {
    let cell = [
        "0,0,0,0,1",
        "0,1,0,0,2",
        "0,2,1,1,0",
        "0,0,3,40,3",
        "1,0,2,40,1",
        "0,3,1,1,0",
    ];
    let Planned { refusal, table } = planned(&Pair::of_lines(&cell, &[], &GIVING));
    // The internal work 16777216 begins a way of two silent moves.
    assert_eq!((refusal, table[0]), (0, 33_554_691));
    // Through a photocell no empty pallet leaves, and the longer way is the only one.
    let mut guarded = cell;
    (guarded[3], guarded[4]) = ("0,0,3,4,3", "1,0,2,4,1");
    let Planned { refusal, table } = planned(&Pair::of_lines(&guarded, &[], &GIVING));
    assert_eq!((refusal, table[0]), (0, 16_777_216));
}

#[test]
fn a_test_goes_on_at_both_outcomes() {
    // By line 1 `then` alone goes on, by line 2 `else` alone, and by line 3 both.
    let cell = [
        "0,0,1,1,0",
        "0,0,1,2,2",
        "0,0,1,2,3",
        "0,0,1,2,1",
        "0,1,1,3,0",
        "0,1,1,4,0",
        "0,2,1,3,0",
        "0,3,1,4,0",
    ];
    let recipe = [
        "0,1,1,0,1,1,0",
        "1,2,2,1,0,2,3",
        "2,1,3,1,0,4,0",
        "3,1,4,1,0,4,0",
        "4,0,0,0,0,0,0",
    ];
    let entry = |cell: &[&str]| {
        let Planned { refusal, table } = planned(&Pair::of_lines(cell, &[], &recipe));
        (refusal, table[4 * 2 + 1])
    };
    assert_eq!(entry(&cell), (0, 50_331_843));
    // A gate that leads `else` on whichever line is taken: now line 1 will do.
    let gated = [&cell[..], &["0,0,4,2,3"]].concat();
    assert_eq!(entry(&gated), (0, 50_331_648 + 1 + 64 * 8));
}

#[test]
fn what_the_next_chapter_can_do_decides() {
    // The part is given at once in a state from which nothing takes it, or after internal work in one where it is
    // taken.
    let cell = ["0,0,1,1,2", "0,0,0,0,1", "0,1,1,1,3", "0,3,1,2,0"];
    let taking = ["0,1,2,1,0,1,0", "1,0,0,0,0,0,0"];
    let alone = planned(&Pair::of_lines(&cell, &[], &GIVING));
    assert_eq!((alone.refusal, alone.table[0]), (0, 50_331_648));
    let Planned { refusal, table } = planned(&Pair::of_chapters(&cell, &[], &[&GIVING, &taking]));
    assert_eq!((refusal, table[0], table[2]), (0, 16_777_217, 50_331_650));
    // At the earlier end where the nearer carry would have led, nothing goes on.
    assert_eq!(table[8 + 5], 0);
}

/// Chapters over a cell, of which every point is reached and whose joint choices are few, if this number makes such.
fn seeded(
    n: usize,
    source: &mut independent::Random,
    random: &mut Random,
) -> Option<(Cell, Joined)> {
    let most = [60, 200, 400][n / 8 % 3];
    let (cell, chapters) = match n % 8 {
        0 => {
            let (cell, recipe) = either_pair(n / 8, most, source);
            (cell, vec![recipe])
        }
        1 => either_chapters(n / 8, most / 2, random.choose(&[2, 2, 3, 4]), source),
        2 => pairs::good_chapters(most / 2, 1 + n / 8 % 2, random).records(),
        3 => pairs::parallel_pair(random).records(),
        n => pairs::forking_pair(n % 2 == 1, random).records(),
    };
    let joined = Joined::of(&cell, &chapters);
    let reached = chapters.iter().all(every_point_is_reached);
    let few = joint_choices(&cell, &joined) <= MOST_CHOICES;
    (reached && few).then_some((cell, joined))
}

/// What was seen of planned tables, and of their entries at dos and tests, each a count of positions.
#[derive(Debug, Default)]
struct Seen {
    /// Tables by whether they are refused with 15; and those of cells with limits, with gates and with lanes that
    /// won't start empty, and of several chapters.
    tables: [usize; 2],
    features: [usize; 4],
    entries: usize,
    /// Several numbers begin a shortest way, so that the greatest of them is another.
    several: usize,
    /// A smaller number begins a longer way.
    longer: usize,
    /// A smaller carry is open that leads on at one outcome only.
    one_outcome: usize,
    /// Another carry of the shortest has smaller letters before the last that differs, by that: b, c or d.
    letters: [usize; 3],
    /// A transfer begins the shortest way, and internal work a longer one.
    transfers: usize,
    /// In an earlier chapter, which alone would have another entry.
    chapters: usize,
    /// In tables that are refused with 15.
    refused: usize,
}

impl Seen {
    /// Notes a planned table, which is the one that is owed.
    fn note(&mut self, ways: &Ways, table: &[u32]) {
        let refused = table[0] == 0;
        self.tables[usize::from(refused)] += 1;
        for (position, &entry) in table.iter().enumerate() {
            if [0, STAY].contains(&kind_of(entry)) {
                continue;
            }
            self.entries += 1;
            self.refused += usize::from(refused);
            self.note_shortest(&ways.shortest(position), entry);
            self.note_others(ways, position, entry);
        }
    }

    /// Notes the numbers that begin a shortest way, of which the entry is one.
    fn note_shortest(&mut self, shortest: &[u32], entry: u32) {
        self.several += usize::from(shortest.len() > 1);
        let letters = letters_of(entry);
        for (n, times) in self.letters.iter_mut().enumerate() {
            let decides = |&other: &u32| {
                let others = letters_of(other);
                let last = (0..4).rev().find(|&k| others[k] != letters[k]);
                kind_of(other) == CARRY && last == Some(n + 1) && others < letters
            };
            *times += usize::from(shortest.iter().any(decides));
        }
    }

    /// Notes the other moves that are open where the entry is.
    fn note_others(&mut self, ways: &Ways, position: usize, entry: u32) {
        let moves = ways.moves(position);
        let owed = moves.iter().find(|open| open.entry == entry);
        let owed = owed.and_then(|open| ways.silent_moves(open));
        let is_longer = |open: &Move| ways.silent_moves(open).is_some_and(|n| Some(n) > owed);
        let smaller = || moves.iter().filter(|open| open.entry < entry);
        self.longer += usize::from(smaller().any(is_longer));
        let strands_one = |open: &Move| {
            let held = open.next.map(|next| ways.holds(next));
            kind_of(open.entry) == CARRY && held[0] != held[1]
        };
        self.one_outcome += usize::from(smaller().any(strands_one));
        let works_longer = |open: &Move| kind_of(open.entry) == INTERNAL && is_longer(open);
        let is_transfer = kind_of(entry) == TRANSFER;
        self.transfers += usize::from(is_transfer && moves.iter().any(works_longer));
    }

    /// Notes for which cells and recipes there are tables.
    fn note_features(&mut self, cell: &Cell, joined: &Joined) {
        let mut lines = 0..usize::from(cell.count);
        let features = [
            cell.limits != NO_LIMITS,
            cell.has_gates(),
            lines.any(|line| cell.is_loaded_lane(line)),
            joined.chapters.len() > 1,
        ];
        let counts = self.features.iter_mut().zip(features);
        counts.for_each(|(times, has)| *times += usize::from(has));
    }

    /// Notes the entries of earlier chapters that would be others if the chapter stood alone. The parts that it
    /// doesn't name are then outside.
    fn note_chapters(&mut self, cell: &Cell, joined: &Joined, table: &[u32]) {
        for chapter in (0..joined.chapters.len() as u8).filter(|&n| joined.is_earlier(n)) {
            let alone = Joined::of(cell, slice::from_ref(joined.chapter(chapter)));
            let greatest = greatest_simulation(cell, &alone);
            let owed = Ways::of(cell, &alone, &greatest).owed_table();
            let differs = |position: &u64| {
                let mut run = alone.run_at(*position);
                run.chapter = chapter;
                let entry = table[joined.position(&run) as usize];
                let is_move = ![0, STAY].contains(&kind_of(entry));
                is_move && entry != owed[*position as usize]
            };
            self.chapters += (0..alone.sizes.positions).filter(differs).count();
        }
    }

    /// Wants all that the rule decides to be seen often enough.
    fn judge(&self) {
        println!("{self:?}");
        let tables = [&self.tables[..], &self.features].concat();
        assert!(tables.iter().all(|&times| times >= LEAST_SEEN));
        let [b, c, d] = self.letters;
        for (name, times) in [
            ("several numbers begin a shortest way", self.several),
            ("a smaller number begins a longer way", self.longer),
            ("a smaller carry goes on at one outcome", self.one_outcome),
            ("the letter b decides", b),
            ("the letter c decides", c),
            ("the letter d decides", d),
            ("a transfer is shorter than internal work", self.transfers),
            ("the chapter alone has another entry", self.chapters),
            ("the table is refused with 15", self.refused),
        ] {
            assert!(times >= LEAST_SEEN, "{name} at {times} positions only");
        }
    }
}

#[test]
fn each_entry_is_the_smallest_that_begins_a_shortest_way() {
    let mut random = Random::new(91);
    let mut source = independent::Random(92);
    let mut seen = Seen::default();
    for n in 0..PAIRS {
        let Some((cell, joined)) = seeded(n, &mut source, &mut random) else {
            continue;
        };
        let handed = handed(&cell, &joined.chapters);
        let Planned { refusal, table } = handed.plan_alike(&mut random);
        let greatest = greatest_simulation(&cell, &joined);
        let ways = Ways::of(&cell, &joined, &greatest);
        let owed = ways.owed_table();
        let other = (0..owed.len()).find(|&position| table[position] != owed[position]);
        assert_eq!(other, None, "a position with another entry\n{handed}");
        assert_eq!(refusal, if greatest[0] { 0 } else { 15 }, "{handed}");
        seen.note(&ways, &table);
        seen.note_features(&cell, &joined);
        seen.note_chapters(&cell, &joined, &table);
    }
    seen.judge();
}

/// The records of chapters with just enough lent.
fn handed(cell: &Cell, chapters: &[Recipe]) -> Handed {
    Handed::of(cell_bytes(cell).to_vec(), chapters_bytes(chapters))
}

/// The same call with other lengths of the table and the scratch, and with any bytes where nothing counts: past the
/// lines of each record, behind the cell and behind the last recipe.
fn with_other_rest(handed: &Handed, random: &mut Random) -> [Handed; 3] {
    let mut longer = handed.clone();
    longer.entries += 1 + random.below(20);
    longer.scratch = scratches::long_enough(handed.scratch + 1, random);
    let mut filled = handed.clone();
    fill_past_lines::<CellFile>(&mut filled.cell, random);
    for recipe in filled.recipes.chunks_exact_mut(RECIPE_BYTES) {
        fill_past_lines::<RecipeFile>(recipe, random);
    }
    let mut both = filled.clone();
    (both.entries, both.scratch) = (longer.entries, longer.scratch);
    let rests = [random.below(30), random.below(RECIPE_BYTES)];
    for (record, rest) in [&mut both.cell, &mut both.recipes].into_iter().zip(rests) {
        record.resize_with(record.len() + rest, || random.byte());
    }
    [longer, filled, both]
}

#[test]
fn what_does_not_count_changes_no_entry() {
    let mut random = Random::new(93);
    let mut source = independent::Random(94);
    // Pairs by whether they are refused with 15, and those in several chapters; and calls by whether other bytes
    // stand past the lines of the records.
    let (mut answers, mut several, mut calls) = ([0; 2], [0; 2], [0; 2]);
    for n in 0..TWICE {
        let Some((cell, joined)) = seeded(n, &mut source, &mut random) else {
            continue;
        };
        let handed = handed(&cell, &joined.chapters);
        let planned = handed.plan_alike(&mut random);
        let refused = usize::from(planned.refusal == 15);
        answers[refused] += 1;
        several[refused] += usize::from(joined.chapters.len() > 1);
        // Table and scratch hold something else before each call.
        assert_eq!(
            handed.plan_again(&planned, None, &mut random),
            planned.refusal
        );
        for other in with_other_rest(&handed, &mut random) {
            let refusal = other.plan_again(&planned, None, &mut random);
            assert_eq!(refusal, planned.refusal, "{other}");
            let filled = other.cell != handed.cell && other.recipes != handed.recipes;
            calls[usize::from(filled)] += 1;
        }
    }
    println!("accepted and not {answers:?}, in several chapters {several:?}, calls {calls:?}");
    assert!(calls.iter().all(|&times| times >= LEAST_SEEN));
    assert!(answers.iter().all(|&times| times >= 400));
    assert!(several.iter().all(|&times| times >= 200));
}

/// What was seen of tables as they may have been written before.
#[derive(Default)]
struct Earlier {
    /// Tables with another entry than the one that is owed: by the greatest number that begins a shortest way, and by
    /// any moves that lead on.
    tables: [usize; 2],
    /// Such entries, and those of them that begin no shortest way.
    entries: usize,
    longer: usize,
    /// Lists that began at such an entry or at the start, by the form of their reports.
    lists: [usize; 2],
    in_lists: lists::Seen,
}

/// The pair whose tables are run.
struct Runs<'a> {
    cell: &'a Cell,
    joined: &'a Joined,
    handed: &'a Handed,
}

impl Runs<'_> {
    /// Feeds a list in each form, from a position with an entry, to the library and to the book. Beside the answers,
    /// 18 is never one, and silent moves in a row are few.
    fn follow(&self, table: &[u32], position: usize, random: &mut Random, seen: &mut Earlier) {
        let list = List {
            cell: &self.handed.cell,
            recipes: &self.handed.recipes,
            table,
        };
        for form in [Form::Value, Form::Record] {
            let mut book = Book::from_position(self.cell, self.joined, table, position as u64);
            let list_seen = list.compare(CALLS, form, &mut book, random);
            let shut = list_seen.next_moves[18] + list_seen.reports[18];
            let in_time = list_seen.silent < self.joined.sizes.configurations();
            assert!(shut == 0 && in_time, "from {position}\n{}", self.handed);
            seen.lists[form as usize] += 1;
            seen.in_lists.add(&list_seen);
        }
    }

    /// Compares every call on a run at a position that is no end with the independent program's.
    fn compare(&self, table: &Table, position: usize, random: &mut Random) {
        let round = Round {
            cell: self.handed.cell.clone(),
            recipes: self.handed.recipes.clone(),
            run: run_bytes(&self.joined.run_at(position as u64)).to_vec(),
            entries: table.entries().len(),
            outcome: random.below(2) as u8,
            part: random.below(9) as u8,
        };
        let answers = compare(&round, table);
        let owed = u64::from(table.entries()[position]);
        assert_eq!((answers.next_move, answers.report), (owed, 0), "{round}");
    }
}

impl Earlier {
    /// Runs a table that may have been written before, beginning mostly where it has another entry than is owed.
    /// Whether there is such an entry.
    fn run(&mut self, runs: &Runs, ways: &Ways, table: &[u32], random: &mut Random) -> bool {
        let owed = ways.owed_table();
        let others: Vec<usize> = (0..owed.len()).filter(|&p| table[p] != owed[p]).collect();
        let is_longer = |&&p: &&usize| !ways.shortest(p).contains(&table[p]);
        self.entries += others.len();
        self.longer += others.iter().filter(is_longer).count();
        let answer = if owed[0] == 0 { 15 } else { 0 };
        let judged = judge(runs.cell, runs.joined, table);
        assert_eq!(judged, Ok(answer), "{}", runs.handed);
        if others.is_empty() {
            return false;
        }
        let kept = Table::new(table.to_vec());
        for _ in 0..LISTS {
            let position = random.choose(&others);
            runs.follow(table, position, random, self);
            runs.compare(&kept, position, random);
        }
        if table[0] != 0 {
            runs.follow(table, 0, random, self);
        }
        kept.assert_unchanged(table.len());
        true
    }

    /// Wants enough tables that differ, and of all that is issued by them.
    fn judge(&self) {
        let Earlier {
            tables,
            entries,
            longer,
            lists,
            in_lists,
        } = self;
        println!("tables {tables:?}, other entries {entries}, {longer} of them begin longer ways");
        println!(
            "lists {lists:?}, calls {}, next-moves {:?}, reports {:?}, issued {:?}, joints {:?}",
            in_lists.calls,
            in_lists.next_moves,
            in_lists.reports,
            &in_lists.issued[1..4],
            in_lists.joints
        );
        assert!(tables.iter().all(|&times| times >= 500));
        assert!(*entries >= LEAST_SEEN && *longer >= LEAST_SEEN);
        assert!(lists.iter().all(|&times| times >= LEAST_SEEN));
        let seen = [
            &in_lists.issued[1..4],
            &in_lists.reports[19..],
            &in_lists.joints,
        ]
        .concat();
        assert!(seen.iter().all(|&times| times >= LEAST_SEEN), "{seen:?}");
    }
}

#[test]
fn tables_written_before_may_still_be_run() {
    let mut random = Random::new(95);
    let mut source = independent::Random(96);
    let mut seen = Earlier::default();
    for n in 0..EARLIER {
        let Some((cell, joined)) = seeded(n, &mut source, &mut random) else {
            continue;
        };
        let greatest = greatest_simulation(&cell, &joined);
        let ways = Ways::of(&cell, &joined, &greatest);
        let by_chance = ways.earlier_table(|moves| {
            let any = random.choose(moves);
            // Silent moves have the smallest numbers, and those that wait longest get the longest ways.
            let chosen = random.choose(&[any, moves[0]]);
            (random.below(8) == 0).then_some(chosen)
        });
        let runs = Runs {
            cell: &cell,
            joined: &joined,
            handed: &handed(&cell, &joined.chapters),
        };
        let last = ways.table_of(|shortest| shortest.last().copied());
        for (n, table) in [last, by_chance].iter().enumerate() {
            let differs = seen.run(&runs, &ways, table, &mut random);
            seen.tables[n] += usize::from(differs);
        }
    }
    seen.judge();
}
