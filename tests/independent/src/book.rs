//! The book that a list of calls is held against. It is fed the cell, the chapters, the table and the
//! calls with their outcomes, and no run and no answer. What a move makes is written here a second
//! time, from the book's own sentences, and so is the way from one chapter to the next.

use crate::cell::Cell;
use crate::entry::{is_open, kind_of, letters_of, CARRY, TRANSFER};
use crate::joined::Joined;
use crate::limits::is_overfull;
use crate::recipe::{Recipe, DO, END, TEST};
use crate::run::{NextMove, Report, Run};
use crate::sizes::{Configuration, MOST_PARTS};

/// A book over a cell and chapters that pass the rules before 14, and a table with an entry for each of their
/// positions at least.
pub struct Book<'a> {
    cell: &'a Cell,
    joined: &'a Joined,
    table: &'a [u32],
    chapter: u8,
    point: u8,
    configuration: Configuration,
    silent: u64,
}

impl<'a> Book<'a> {
    /// The book that begins at point 0 of chapter 0, every state 0 and every part outside.
    pub fn new(cell: &'a Cell, joined: &'a Joined, table: &'a [u32]) -> Book<'a> {
        Book::from_position(cell, joined, table, 0)
    }

    /// The book for a list that begins at another position of the table.
    pub fn from_position(
        cell: &'a Cell,
        joined: &'a Joined,
        table: &'a [u32],
        position: u64,
    ) -> Book<'a> {
        let Run {
            point,
            configuration,
            chapter,
        } = joined.run_at(position);
        Book {
            cell,
            joined,
            table,
            chapter,
            point,
            configuration,
            silent: 0,
        }
    }

    /// The count q of silent moves since the last carry.
    pub fn silent_moves(&self) -> u64 {
        self.silent
    }

    /// Whether some station is overfull in the book's configuration. From a position with an entry other
    /// than 0 of a planned table, that is never so.
    pub fn is_overfull(&self) -> bool {
        is_overfull(self.cell, &self.configuration)
    }

    /// Whether the book's move is open and a test of which outcome 0 follows a gate.
    pub fn is_at_gate(&self) -> bool {
        let has_gate = |entry| {
            let [a, b, ..] = letters_of(entry);
            kind_of(entry) == CARRY && a != b
        };
        self.kind() == TEST && self.open_move().is_some_and(has_gate)
    }

    /// Whether the book is at an end of a chapter that isn't the last, where only a list can put it that begins
    /// there.
    pub fn is_at_joint(&self) -> bool {
        self.kind() == END && !self.is_in_last_chapter()
    }

    /// The point, the configuration and the chapter that the book keeps.
    pub fn run(&self) -> Run {
        Run {
            point: self.point,
            configuration: self.configuration,
            chapter: self.chapter,
        }
    }

    /// The recipe of the book's chapter.
    fn recipe(&self) -> &'a Recipe {
        &self.joined.chapters[usize::from(self.chapter)]
    }

    /// The book's move, if it is open. The table has the chapters' positions one after another.
    fn open_move(&self) -> Option<u32> {
        let entry = self.table[self.joined.position(&self.run()) as usize];
        let open = is_open(
            self.cell,
            self.recipe(),
            self.point,
            &self.configuration,
            entry,
        );
        open.then_some(entry)
    }

    /// Answers a next-move call.
    pub fn next_move(&self) -> NextMove {
        match self.open_move() {
            Some(entry) => NextMove { refusal: 0, entry },
            None => NextMove {
                refusal: 18,
                entry: 0,
            },
        }
    }

    /// Answers a report.
    pub fn report(&mut self, outcome: u8) -> Report {
        let refusal = if outcome > 1 {
            17
        } else {
            match self.open_move() {
                None => 18,
                Some(_) if self.kind() == END => 19,
                Some(entry) => {
                    self.make(entry, outcome);
                    0
                }
            }
        };
        Report {
            refusal,
            run: self.run(),
        }
    }

    /// The kind of the book's point.
    fn kind(&self) -> u8 {
        self.recipe().kind[self.first_line()]
    }

    /// The first recipe line of the book's point.
    fn first_line(&self) -> usize {
        let points = self.recipe().point.iter();
        points.take_while(|&&point| point != self.point).count()
    }

    /// Makes an open move, which is then issued.
    fn make(&mut self, entry: u32, outcome: u8) {
        let letters = letters_of(entry);
        match kind_of(entry) {
            CARRY => self.carry(letters, outcome),
            kind => {
                self.take(letters[0]);
                if kind == TRANSFER {
                    self.take(letters[1]);
                    self.hand_over(letters[0], letters[1]);
                }
                self.silent += 1;
            }
        }
    }

    /// A line taken sets its resource to its `to`.
    fn take(&mut self, line: usize) {
        self.configuration.states[usize::from(self.cell.resource[line])] = self.cell.to[line];
    }

    /// All parts at a's resource are put at b's.
    fn hand_over(&mut self, a: usize, b: usize) {
        for place in &mut self.configuration.places {
            if *place == 1 + self.cell.resource[a] {
                *place = 1 + self.cell.resource[b];
            }
        }
    }

    fn carry(&mut self, letters: [usize; 4], outcome: u8) {
        let (recipe, kind, first) = (self.recipe(), self.kind(), self.first_line());
        let points = &recipe.point[first..usize::from(recipe.count)];
        let lines = points.iter().take_while(|&&p| p == self.point).count();
        match (kind, outcome) {
            (TEST, 0) => self.take(letters[1]),
            (TEST, _) => self.take(letters[0]),
            _ => letters[..lines].iter().for_each(|&line| self.take(line)),
        }
        if kind == DO {
            for n in first..first + lines {
                self.put(recipe.takes[n], 0);
            }
            for (n, &letter) in letters[..lines].iter().enumerate() {
                let place = 1 + self.cell.resource[letter];
                self.put(recipe.gives[first + n], place);
            }
        }
        self.point = match (kind, outcome) {
            (TEST, 0) => recipe.otherwise[first],
            _ => recipe.then[first],
        };
        self.silent = 0;
        self.go_on_from_end();
    }

    /// What reaches an end of a chapter that isn't the last is at point 0 of the next. That is no move, and
    /// leaves the count.
    fn go_on_from_end(&mut self) {
        if self.is_at_joint() {
            self.chapter += 1;
            self.point = 0;
        }
    }

    fn is_in_last_chapter(&self) -> bool {
        usize::from(self.chapter) + 1 == self.joined.chapters.len()
    }

    /// Puts the parts of a sum, in which part n counts 2^n, at a place.
    fn put(&mut self, sum: u8, place: u8) {
        for n in 0..MOST_PARTS {
            if sum / (1 << n) % 2 == 1 {
                self.configuration.places[n] = place;
            }
        }
    }
}

#[cfg(test)]
mod tests {
    use super::*;
    use crate::fixtures::{
        bench, bench_chapters, bench_table, gate, lane, limited, only_chapter, planned_chapters,
        some_table, BENCH_RECIPE, GIVING, TESTING,
    };
    use crate::random::Random;

    /// Feeds a list of calls to the run and to the book and compares every answer. Gives how many
    /// moves of each kind were issued.
    fn compare_list(
        (cell, joined): &(Cell, Joined),
        table: &[u32],
        start: u64,
        random: &mut Random,
    ) -> [usize; 5] {
        let chapters = &joined.chapters[..];
        let mut book = Book::from_position(cell, joined, table, start);
        let mut run = book.run();
        let mut issued = [0; 5];
        for _ in 0..60 {
            let next_move = run.next_move(cell, chapters, table);
            assert_eq!(next_move, book.next_move());
            if random.below(3) == 0 {
                continue;
            }
            let outcome = match random.below(8) {
                0 => random.bits() as u8,
                _ => random.below(2) as u8,
            };
            let report = run.report(cell, chapters, table, outcome);
            assert_eq!(report, book.report(outcome));
            run = report.run;
            if report.refusal == 0 {
                issued[kind_of(next_move.entry) as usize] += 1;
            }
        }
        issued
    }

    /// The bench example's cell with three chapters, of which the last has a loop.
    fn three_chapters() -> (Cell, Joined) {
        bench_chapters(&[&GIVING, &TESTING, &BENCH_RECIPE])
    }

    #[test]
    fn the_run_answers_as_the_book_does() {
        let mut random = Random(11);
        let mut issued = [0; 5];
        let (cell, recipe) = lane();
        let narrow = (limited(cell, &[2, 1, 1]), recipe);
        let single = [bench(), lane(), narrow, gate()].map(only_chapter);
        for example in single.into_iter().chain([three_chapters()]) {
            let positions = example.1.sizes.positions;
            for _ in 0..5 {
                let table = some_table(&example.0, &example.1, &mut random);
                for start in (0..positions).chain([0; 50]) {
                    let list = compare_list(&example, &table, start, &mut random);
                    (0..5).for_each(|kind| issued[kind] += list[kind]);
                }
            }
        }
        for (kind, times) in issued.into_iter().enumerate() {
            let possible = (1..=3).contains(&kind);
            assert_eq!(
                times > 500,
                possible,
                "kind {kind} was issued {times} times"
            );
        }
    }

    #[test]
    fn the_bench_example_keeps_its_promises_on_every_outcome() {
        let (cell, joined) = only_chapter(bench());
        let table = bench_table();
        let mut random = Random(12);
        for _ in 0..200 {
            let mut book = Book::new(&cell, &joined, &table);
            for _ in 0..40 {
                assert_eq!(book.next_move().refusal, 0);
                let at_end = book.run().point == 4;
                let refusal = book.report(random.below(2) as u8).refusal;
                assert_eq!(refusal, if at_end { 19 } else { 0 });
                assert!(book.silent_moves() < 6 * 3);
            }
        }
    }

    #[test]
    fn outcome_0_of_a_test_follows_the_gate() {
        let (cell, joined) = only_chapter(gate());
        let (_, table) = planned_chapters(&cell, &joined);
        for (outcome, point, state) in [(0, 3, 3), (1, 2, 2)] {
            let mut book = Book::new(&cell, &joined, &table);
            for at_gate in [false, false, true] {
                assert_eq!(book.is_at_gate(), at_gate);
                assert_eq!(book.report(outcome).refusal, 0);
            }
            assert!(!book.is_at_gate());
            let run = book.run();
            assert_eq!((run.point, run.configuration.states[1]), (point, state));
            // The part is taken from there at either outcome.
            assert_eq!(run.configuration.places[0], 2);
            assert_eq!(book.report(0).run.configuration, Configuration::START);
        }
    }

    #[test]
    fn the_book_moves_no_empty_pallet_through_a_photocell() {
        let (cell, joined) = only_chapter(bench());
        let mut table = bench_table();
        table[23] = 33_554_561;
        let mut book = Book::from_position(&cell, &joined, &table, 23);
        let before = book.run();
        assert_eq!(book.next_move().refusal, 18);
        for (outcome, refusal) in [(0, 18), (1, 18), (2, 17)] {
            let report = book.report(outcome);
            assert_eq!((report.refusal, report.run), (refusal, before));
        }
        assert_eq!(book.silent_moves(), 0);
        // Where the part is at the giver, it goes along.
        let mut book = Book::from_position(&cell, &joined, &table, 22);
        assert_eq!(book.report(0).run.configuration.places[0], 2);
    }

    #[test]
    fn silent_moves_are_counted_until_a_carry() {
        let (cell, joined) = only_chapter(bench());
        let table = bench_table();
        let mut book = Book::new(&cell, &joined, &table);
        let counts = [0, 1, 0, 0].map(|count| {
            assert_eq!(book.report(1).refusal, 0);
            assert_eq!(book.report(2).refusal, 17);
            (book.silent_moves(), count)
        });
        assert!(counts.iter().all(|(counted, count)| counted == count));
    }

    #[test]
    fn a_report_that_reaches_an_earlier_end_leaves_the_book_at_the_next_chapter() {
        let (cell, joined) = three_chapters();
        let (refusal, table) = planned_chapters(&cell, &joined);
        assert_eq!(refusal, 0);
        for outcome in [0, 1] {
            let mut book = Book::new(&cell, &joined, &table);
            let way = [0, 0, outcome, 0, 0, 0, 1, 0].map(|outcome| {
                let report = book.report(outcome);
                assert_eq!(report.refusal, 0);
                (report.run.chapter, report.run.point, book.silent_moves())
            });
            let tested = if outcome == 0 { 2 } else { 1 };
            let first = [(1, 0, 0), (1, 0, 1), (1, tested, 0), (2, 0, 0)];
            let last = [(2, 1, 0), (2, 1, 1), (2, 2, 0), (2, 4, 0)];
            assert_eq!(way, [first, last].concat()[..]);
            assert_eq!((book.report(0).refusal, book.report(7).refusal), (19, 17));
        }
    }

    #[test]
    fn a_book_that_begins_at_an_earlier_end_stays_there() {
        let (cell, joined) = three_chapters();
        let (_, mut table) = planned_chapters(&cell, &joined);
        let stays: Vec<u64> = (18..36).filter(|&p| table[p as usize] != 0).collect();
        assert!(!stays.is_empty() && stays.len() < 18);
        for position in 18..36 {
            let alive = stays.contains(&position);
            let book = |table| Book::from_position(&cell, &joined, table, position);
            let owed = if alive { (0, 67_108_864) } else { (18, 0) };
            let next_move = book(&table).next_move();
            assert_eq!((next_move.refusal, next_move.entry), owed);
            let report = book(&table).report(1);
            let owed = if alive { 19 } else { 18 };
            assert_eq!((report.refusal, report.run.point), (owed, 1));
            assert_eq!(book(&table).report(2).refusal, 17);
            table[position as usize] = 50_331_648;
            assert_eq!(
                Book::from_position(&cell, &joined, &table, position)
                    .report(1)
                    .refusal,
                18
            );
        }
    }
}
