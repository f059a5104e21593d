//! Lists of next-move calls and reports, the library's answers beside the book's.

use crate::calls::{Calls, Library};
use crate::random::Random;
use crate::rounds::Round;
use crate::RunRecord;
use independent::{
    cell_of_bytes, kind_of, letters_of, run_bytes, Book, Cell, Run, RUN_BYTES, TRANSFER,
};
use std::fmt::Debug;

/// What was seen in a list, or in several.
#[derive(Default)]
pub struct Seen {
    pub calls: usize,
    /// Next-move calls and reports, by the refusal.
    pub next_moves: [usize; 20],
    pub reports: [usize; 20],
    /// Moves issued, by their kind.
    pub issued: [usize; 5],
    /// The most silent moves in a row.
    pub silent: u64,
    /// Calls before or after which some station was overfull.
    pub overfull: usize,
    /// Tests with a gate that were issued, by the form of the report and by the outcome.
    pub gates: [[usize; 2]; 2],
    /// Transfers issued: through a port with a photocell, and of nothing at all.
    pub loaded_lanes: usize,
    pub empty_pallets: usize,
    /// Reports after which the run was in the next chapter, by their form.
    pub joints: [usize; 2],
    /// Calls on a run at an end of an earlier chapter, by the refusal.
    pub at_joints: [usize; 20],
}

impl Seen {
    pub fn add(&mut self, other: &Seen) {
        self.calls += other.calls;
        self.silent = self.silent.max(other.silent);
        self.overfull += other.overfull;
        self.loaded_lanes += other.loaded_lanes;
        self.empty_pallets += other.empty_pallets;
        for (all, one) in [
            (&mut self.next_moves[..], &other.next_moves[..]),
            (&mut self.reports, &other.reports),
            (&mut self.issued, &other.issued),
            (self.gates.as_flattened_mut(), other.gates.as_flattened()),
            (&mut self.joints, &other.joints),
            (&mut self.at_joints, &other.at_joints),
        ] {
            all.iter_mut()
                .zip(one)
                .for_each(|(sum, times)| *sum += times);
        }
    }

    /// Notes a transfer that was issued from a run.
    fn note_transfer(&mut self, cell: &Cell, run: &Run, entry: u32) {
        let [out, ..] = letters_of(entry);
        let held = run.configuration.places.contains(&(cell.resource[out] + 1));
        self.loaded_lanes += usize::from(cell.is_loaded_lane(out));
        self.empty_pallets += usize::from(!held);
    }
}

/// Which form the reports of a list have: the run as bytes, or the record in its own storage.
#[derive(Clone, Copy)]
pub enum Form {
    Value,
    Record,
}

/// The run with which a list begins that the book begins too: where that is the start, a fresh one.
fn first_run(book: &Book) -> [u8; RUN_BYTES] {
    let mut run = run_bytes(&book.run());
    if book.run() == Run::fresh() {
        run.fill(0xff);
        assert_eq!(Library::fresh(&mut run), 0);
    }
    run
}

/// What all calls of a list are handed.
pub struct List<'a> {
    pub cell: &'a [u8],
    pub recipes: &'a [u8],
    pub table: &'a [u32],
}

impl List<'_> {
    /// Wants a call's answer to be the book's; else says what the call was handed.
    fn assert_same<T: PartialEq + Debug>(&self, library: T, book: T, run: &[u8], outcome: u8) {
        let round = || Round {
            cell: self.cell.to_vec(),
            recipes: self.recipes.to_vec(),
            run: run.to_vec(),
            entries: self.table.len(),
            outcome,
            part: 0,
        };
        let same = library == book;
        assert!(same, "library {library:?}, book {book:?}\n{}", round());
    }

    /// Feeds a list of so many calls, refused ones included, to the library and to the book.
    pub fn compare(&self, calls: usize, form: Form, book: &mut Book, random: &mut Random) -> Seen {
        let mut run = first_run(book);
        let mut seen = Seen::default();
        for _ in 0..calls {
            seen.calls += 1;
            seen.overfull += usize::from(book.is_overfull());
            if random.below(3) == 0 {
                self.compare_next_move(&run, book, &mut seen);
                continue;
            }
            let outcome = match random.below(8) {
                0 => random.byte(),
                _ => random.below(2) as u8,
            };
            self.compare_report(form, &mut run, book, outcome, &mut seen);
        }
        seen
    }

    /// Feeds a next-move call to both.
    fn compare_next_move(&self, run: &[u8], book: &Book, seen: &mut Seen) {
        let expected = book.next_move();
        let answer = Library::next_move(self.cell, self.recipes, self.table, run);
        let word = (u64::from(expected.refusal) << 32) + u64::from(expected.entry);
        self.assert_same(answer, word, run, 0);
        seen.next_moves[usize::from(expected.refusal)] += 1;
        seen.at_joints[usize::from(expected.refusal)] += usize::from(book.is_at_joint());
    }

    /// Feeds a report to both.
    fn compare_report(
        &self,
        form: Form,
        run: &mut [u8],
        book: &mut Book,
        outcome: u8,
        seen: &mut Seen,
    ) {
        let (before, was) = (run.to_vec(), book.run());
        let (at_gate, at_joint) = (book.is_at_gate(), book.is_at_joint());
        let (overfull, entry) = (book.is_overfull(), book.next_move().entry);
        let refusal = self.report(form, run, outcome);
        let expected = book.report(outcome);
        let left = run_bytes(&expected.run);
        let owed = (expected.refusal.into(), &left[..]);
        self.assert_same((refusal, &run[..]), owed, &before, outcome);

        seen.reports[refusal as usize] += 1;
        seen.at_joints[refusal as usize] += usize::from(at_joint);
        seen.overfull += usize::from(!overfull && book.is_overfull());
        seen.silent = seen.silent.max(book.silent_moves());
        if refusal == 0 {
            seen.issued[kind_of(entry) as usize] += 1;
            seen.gates[form as usize][usize::from(outcome)] += usize::from(at_gate);
            seen.joints[form as usize] += usize::from(expected.run.chapter > was.chapter);
            if kind_of(entry) == TRANSFER {
                seen.note_transfer(&cell_of_bytes(self.cell), &was, entry);
            }
        }
    }

    /// The library's report, whose next run takes the place of the run.
    fn report(&self, form: Form, run: &mut [u8], outcome: u8) -> u32 {
        let List {
            cell,
            recipes,
            table,
        } = self;
        match (form, RunRecord::of(run)) {
            (Form::Record, Some(mut record)) => {
                let refusal = Library::report_record(cell, recipes, table, &mut record, outcome);
                run.copy_from_slice(&record.bytes());
                refusal
            }
            _ => Library::report(cell, recipes, table, run, outcome),
        }
    }
}
