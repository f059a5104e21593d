//! Rounds of calls: everything that the calls are handed, and the library's answers beside the
//! independent program's.

use crate::calls::{Calls, Independent, Library};
use crate::random::Random;
use crate::RunRecord;
use independent::{
    cell_of_bytes, chapters_of_bytes, check, entry_of, run_of_bytes, Cell, Joined, RECIPE_BYTES,
};
use std::fmt::{Display, Formatter, Result};

/// What the calls of one round are handed, beside the table.
#[derive(Clone, PartialEq, Eq)]
pub struct Round {
    pub cell: Vec<u8>,
    pub recipes: Vec<u8>,
    pub run: Vec<u8>,
    /// How many entries of the table are handed in.
    pub entries: usize,
    pub outcome: u8,
    pub part: u8,
}

impl Display for Round {
    fn fmt(&self, f: &mut Formatter) -> Result {
        show_records(f, &self.cell, &self.recipes)?;
        writeln!(f, "run {:?}", self.run)?;
        if let Some(position) = self.position() {
            writeln!(f, "position {position}")?;
        }
        let Round {
            entries,
            outcome,
            part,
            ..
        } = self;
        write!(f, "{entries} entries, outcome {outcome}, part {part}")
    }
}

/// Writes the lines of a cell's record and of the records of its chapters.
pub(crate) fn show_records(f: &mut Formatter, cell: &[u8], recipes: &[u8]) -> Result {
    show_record(f, "cell", cell, 5)?;
    writeln!(f, "limits {:?}", cell_of_bytes(cell).limits)?;
    writeln!(f, "recipes of {} bytes", recipes.len())?;
    let mut chapters = recipes.chunks_exact(RECIPE_BYTES);
    chapters.try_for_each(|recipe| show_record(f, "recipe", recipe, 7))
}

fn show_record(f: &mut Formatter, name: &str, record: &[u8], columns: usize) -> Result {
    let (count, lines) = record.split_first().unwrap_or((&0, &[]));
    let lines: Vec<&[u8]> = lines.chunks(columns).take((*count).into()).collect();
    let length = record.len();
    writeln!(f, "{name} of {length} bytes, {count} lines: {lines:?}")
}

impl Round {
    /// A round over all of a table, with one byte changed in what is handed in: the cell, the recipes and the run.
    pub fn changed_in(
        good: &[Vec<u8>; 3],
        (slice, at): (usize, usize),
        byte: u8,
        table: &Table,
    ) -> Round {
        let mut changed = good.clone();
        changed[slice][at] = byte;
        let [cell, recipes, run] = changed;
        Round {
            cell,
            recipes,
            run,
            entries: table.entries().len(),
            outcome: byte % 2,
            part: 0,
        }
    }

    /// The run's position in the table, if the round comes past rule 16.
    pub fn position(&self) -> Option<u64> {
        let (_, joined) = accepted(&self.cell, &self.recipes)?;
        let run = run_of_bytes(&self.run);
        joined.holds(&run).then(|| joined.position(&run))
    }
}

/// The cell and its chapters, joined, if they pass the rules before 14 that every call tries.
pub fn accepted(cell: &[u8], recipes: &[u8]) -> Option<(Cell, Joined)> {
    let (cell, chapters) = (cell_of_bytes(cell), chapters_of_bytes(recipes));
    (check(&cell, &chapters) == 0).then(|| {
        let joined = Joined::of(&cell, &chapters);
        (cell, joined)
    })
}

/// A table with a second copy, which shows whether a call has changed it.
pub struct Table {
    entries: Vec<u32>,
    kept: Vec<u32>,
}

impl Table {
    /// Entries past the most that are needed, so that a table can be longer than it has to be.
    pub const SPARE: usize = 8;

    pub fn new(entries: Vec<u32>) -> Table {
        Table {
            kept: entries.clone(),
            entries,
        }
    }

    /// A table for any accepted pair of so many positions at most, full of entries without a plan.
    pub fn seeded(most_positions: usize, random: &mut Random) -> Table {
        let entry = |random: &mut Random| match random.below(4) {
            0 => random.bits() as u32,
            _ => entry_of(random.number(5), [(); 4].map(|()| random.below(8))),
        };
        let length = most_positions + Table::SPARE;
        Table::new((0..length).map(|_| entry(random)).collect())
    }

    pub fn entries(&self) -> &[u32] {
        &self.entries
    }

    pub fn set(&mut self, position: u64, entry: u32) {
        self.entries[position as usize] = entry;
        self.kept[position as usize] = entry;
    }

    /// Wants the first `length` entries as they were set.
    pub fn assert_unchanged(&self, length: usize) {
        let same = self.entries[..length] == self.kept[..length];
        assert!(same, "a call has changed the table");
    }
}

/// The library's results in one round, all of which were the independent program's too.
pub struct Answers {
    pub check: u32,
    pub next_move: u64,
    pub report: u32,
    pub place: u32,
}

/// Compares every call's result in one round, and the bytes afterwards.
pub fn compare(round: &Round, table: &Table) -> Answers {
    let handed = round.clone();
    let (cell, recipes, run) = (&handed.cell, &handed.recipes, &handed.run);
    let entries = &table.entries[..round.entries];
    let answers = Answers {
        check: same(
            "check",
            Library::check(cell, recipes),
            Independent::check(cell, recipes),
            round,
        ),
        next_move: same(
            "next-move",
            Library::next_move(cell, recipes, entries, run),
            Independent::next_move(cell, recipes, entries, run),
            round,
        ),
        report: compare_report(&handed, entries),
        place: same(
            "place",
            Library::place(cell, recipes, run, round.part),
            Independent::place(cell, recipes, run, round.part),
            round,
        ),
    };
    assert!(
        handed == *round,
        "a call has changed what it may only read\n{round}"
    );
    answers
}

/// Compares a report's result and the run that it leaves, the bytes past the run too.
fn compare_report(round: &Round, entries: &[u32]) -> u32 {
    let (cell, recipes) = (&round.cell, &round.recipes);
    let mut left = round.run.clone();
    let mut expected = round.run.clone();
    let refusal = same(
        "report",
        Library::report(cell, recipes, entries, &mut left, round.outcome),
        Independent::report(cell, recipes, entries, &mut expected, round.outcome),
        round,
    );
    assert!(
        left == expected,
        "report: the library leaves the run {left:?}, the independent program {expected:?}\n{round}"
    );
    compare_forms(round, entries, refusal, &left);
    refusal
}

/// Compares the second form of report with the first: its result, and the record in place of the bytes.
fn compare_forms(round: &Round, entries: &[u32], refusal: u32, left: &[u8]) {
    let Some(mut record) = RunRecord::of(&round.run) else {
        return;
    };
    let (cell, recipes) = (&round.cell, &round.recipes);
    let second = Library::report_record(cell, recipes, entries, &mut record, round.outcome);
    assert!(
        second == refusal && Some(record) == RunRecord::of(left),
        "report: the second form answers {second} and leaves {record:?}, the first {refusal} and {left:?}\n{round}"
    );
}

/// The result that both gave.
fn same<T: Copy + PartialEq + Into<u64>>(name: &str, library: T, other: T, round: &Round) -> T {
    assert!(
        library == other,
        "{name}: library {:#x}, independent {:#x}\n{round}",
        library.into(),
        other.into()
    );
    library
}
