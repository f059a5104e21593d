//! Lists of the library's calls, each on the run that the last report left, against the independent
//! program's book.

use against::lists::{Form, List, Seen};
use against::pairs::{self, Pair};
use against::random::Random;
use against::rounds::{accepted, Table};
use independent::{kind_of, open_entries, Book, Cell, Joined, CARRY};

/// Pairs of a cell and a recipe, those in several chapters, lists over each, and calls in a list.
const PAIRS: usize = 300;
const PAIRS_IN_CHAPTERS: usize = 750;
const LISTS: usize = 16;
const CALLS: usize = 60;

/// The most positions of a pair, for the whole table is filled; and the most of a chapter, where there are many.
const MOST_POSITIONS: u64 = 1_024;
const LEAST_POSITIONS: u64 = 256;

/// How often each kind of move must be issued at least, and each refusal be given.
const LEAST_SEEN: usize = 1_000;

/// How often a test with a gate must be issued at least, in each form and with each outcome.
const LEAST_AT_GATES: usize = 150;

/// A table with an open entry at most positions that have one, and here and there some other, or one
/// that only the limits shut.
fn seeded_table((cell, joined): &(Cell, Joined), random: &mut Random) -> Vec<u32> {
    let unlimited = pairs::unlimited(cell);
    let entry = |position| {
        let run = joined.run_at(position);
        let look_at = match random.below(8) {
            0 => &unlimited,
            _ => cell,
        };
        let mut open = open_entries(look_at, joined, &run);
        let is_carry = |&entry: &u32| kind_of(entry) == CARRY;
        if open.iter().any(is_carry) && random.coin() {
            open.retain(is_carry);
        }
        let entry = if open.is_empty() {
            0
        } else {
            random.choose(&open)
        };
        match random.below(20) {
            0 => pairs::other_entry(entry, cell, random),
            _ => entry,
        }
    };
    (0..joined.sizes.positions).map(entry).collect()
}

/// The positions at which only the limits shut the entry.
fn shut_positions((cell, joined): &(Cell, Joined), table: &[u32]) -> Vec<u64> {
    let unlimited = pairs::unlimited(cell);
    let is_shut = |&position: &u64| {
        let (run, entry) = (joined.run_at(position), table[position as usize]);
        let open = |cell| joined.is_open(cell, &run, entry);
        open(&unlimited) && !open(cell)
    };
    (0..joined.sizes.positions).filter(is_shut).collect()
}

/// The positions at which the entry is a test with a gate.
fn gate_positions((cell, joined): &(Cell, Joined), table: &[u32]) -> Vec<u64> {
    let is_at_gate = |&p: &u64| Book::from_position(cell, joined, table, p).is_at_gate();
    (0..joined.sizes.positions).filter(is_at_gate).collect()
}

/// The positions at an end of an earlier chapter.
fn joint_positions((cell, joined): &(Cell, Joined), table: &[u32]) -> Vec<u64> {
    let is_at_joint = |&p: &u64| Book::from_position(cell, joined, table, p).is_at_joint();
    (0..joined.sizes.positions).filter(is_at_joint).collect()
}

/// The positions whose entry leads to the next chapter on some outcome.
fn landing_positions((cell, joined): &(Cell, Joined), table: &[u32]) -> Vec<u64> {
    let lands = |&position: &u64| {
        let (run, entry) = (joined.run_at(position), table[position as usize]);
        let made = [0, 1].map(|outcome| joined.makes(cell, &run, entry, outcome));
        let mut made = made.iter().flatten();
        made.any(|made| made.chapter > run.chapter)
    };
    (0..joined.sizes.positions).filter(lands).collect()
}

/// Lists over one pair, from a fresh run and from other positions. How many calls were made where only
/// the limits shut the move.
fn compare_pair(pair: &Pair, random: &mut Random, seen: &mut Seen) -> usize {
    let (cell, recipes) = (pair.cell_bytes(), pair.recipes_bytes());
    let records = accepted(&cell, &recipes).expect("a good pair is accepted");
    let table = Table::new(seeded_table(&records, random));
    let entries = table.entries();
    let list = List {
        cell: &cell,
        recipes: &recipes,
        table: entries,
    };
    let shut = shut_positions(&records, entries);
    let gates = gate_positions(&records, entries);
    let joints = joint_positions(&records, entries);
    let landings = landing_positions(&records, entries);
    let mut calls_where_shut = 0;
    for n in 0..LISTS {
        let position = match n % 4 {
            0 if !landings.is_empty() && random.coin() => random.choose(&landings),
            0 => 0,
            1 if !shut.is_empty() => random.choose(&shut),
            2 if !gates.is_empty() => random.choose(&gates),
            // Nothing leads to an end of an earlier chapter, and a list that begins there stays there.
            3 if !joints.is_empty() && random.below(4) == 0 => random.choose(&joints),
            3 if !landings.is_empty() => random.choose(&landings),
            _ => random.below(entries.len()) as u64,
        };
        let mut book = Book::from_position(&records.0, &records.1, entries, position);
        let form = [Form::Value, Form::Record][n / 4 % 2];
        let list_seen = list.compare(CALLS, form, &mut book, random);
        if shut.contains(&position) {
            calls_where_shut += list_seen.next_moves[18] + list_seen.reports[18];
        }
        seen.add(&list_seen);
    }
    table.assert_unchanged(entries.len());
    calls_where_shut
}

/// Lists over so many pairs, and wants enough of everything that a list can meet.
fn compare_pairs(pairs: usize, chapters: impl Fn(&mut Random) -> usize, seed: u64) -> Seen {
    let mut random = Random::new(seed);
    let mut seen = Seen::default();
    let mut shut = 0;
    for _ in 0..pairs {
        let chapters = chapters(&mut random);
        let most_positions = MOST_POSITIONS / chapters as u64;
        let pair = pairs::good_chapters(most_positions.max(LEAST_POSITIONS), chapters, &mut random);
        shut += compare_pair(&pair, &mut random, &mut seen);
    }
    println!("reports by refusal {:?}", seen.reports);
    println!(
        "{shut} calls refused for the limits alone, {} with overfull stations",
        seen.overfull
    );
    assert!(shut >= LEAST_SEEN && seen.overfull >= LEAST_SEEN);
    println!("tests with a gate by form and outcome {:?}", seen.gates);
    let mut gates = seen.gates.as_flattened().iter();
    assert!(gates.all(|&times| times >= LEAST_AT_GATES));
    println!("issued by kind {:?}", seen.issued);
    assert!(seen.issued[1..=3].iter().all(|&times| times >= LEAST_SEEN));
    assert!(seen.reports[17..].iter().all(|&times| times >= LEAST_SEEN));
    seen
}

#[test]
fn seeded_lists_of_calls() {
    let seen = compare_pairs(PAIRS, |_| 1, 4);
    assert_eq!((seen.joints, seen.at_joints), ([0; 2], [0; 20]));
}

#[test]
fn seeded_lists_of_calls_over_chapters() {
    let seen = compare_pairs(PAIRS_IN_CHAPTERS, pairs::several, 6);
    println!("joints passed by form {:?}", seen.joints);
    println!("calls at an earlier end by refusal {:?}", seen.at_joints);
    assert!(seen.joints.iter().all(|&times| times >= LEAST_SEEN));
    let at_joints = [0, 17, 18, 19].map(|refusal: usize| seen.at_joints[refusal]);
    assert!(at_joints.iter().all(|&times| times >= 300), "{at_joints:?}");
    assert_eq!(at_joints.iter().sum::<usize>(), seen.at_joints.iter().sum());
}
