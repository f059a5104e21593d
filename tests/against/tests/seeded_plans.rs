//! The library's planner against the independent program: seeded cells and recipes, small and great, in one
//! chapter and in several, and every kind of damage to them; and lists of calls on the planned tables, and on
//! stored ones for recipes that are no longer planned, against the book.

use against::calls::{Calls, Library};
use against::lists::{self, Form, List};
use against::pairs::{
    self, either_chapters, either_pair, limits_leave_range, unlimited, Pair, NO_LIMITS,
};
use against::plans::{needed, Handed, Planned};
use against::random::Random;
use against::{reason_for_24, scratches, BAD_CHAPTERS, REFUSALS, TOO_SHORT, UNREACHED};
use independent::{
    cell_bytes, cell_of_bytes, chapters_bytes, dense_pair, every_point_is_reached, is_overfull,
    joint_choices, judge, judge_planned, kind_of, letters_of, long_ways_pair, mixed_pair,
    odometer_pair, plan, stored_table, with_gates, with_photocells, without_gates,
    without_photocells, Book, Cell, Joined, Judging, Recipe, CARRY, FEW_JOINT_CHOICES,
    MOST_CHAPTERS, MOST_POSITIONS, STAY,
};
use std::slice;

/// Small pairs of a cell and a recipe that are planned, but for those with an unreached point. Each is also
/// planned with too short a table or scratch, and so many times after some damage. And the same in chapters.
const SMALL_PAIRS: usize = 22_500;
const SMALL_PAIRS_IN_CHAPTERS: usize = 6_000;
const DAMAGED: usize = 3;

/// Pairs that are planned with scratches of every length near the least that will do: so many for each
/// remainder of M modulo 8, out of so many seeded ones.
const SCRATCH_PAIRS: usize = 150;
const SCRATCH_SEEDS: usize = 24_000;

/// Great pairs that are planned, each of more positions than this; and those with a chapter of more.
const GREAT_PAIRS: usize = 50;
const GREAT_PAIRS_IN_CHAPTERS: usize = 16;
const GREAT: u64 = 100_000;

/// How many lists of calls are tried on a planned table, and with how many calls at most.
#[derive(Clone, Copy)]
struct Lists {
    count: usize,
    calls: usize,
}

/// A list is over within so many calls of an end or of an entry 0, for nothing changes there.
const LAST_CALLS: usize = 4;

/// The most positions with which a damaged pair is planned. Greater ones get too short a table.
const MOST_DAMAGED: usize = 4_000;

/// The most positions with which it is looked at what a cell's limits have changed.
const FEW_POSITIONS: usize = 5_000;

/// The recipe kinds.
const END: u8 = 0;
const TEST: u8 = 2;

/// What was seen in a run.
#[derive(Default)]
struct Seen {
    /// Plan calls by their refusal.
    refusals: [usize; REFUSALS],
    /// Plan calls refused with 24, by its reason.
    bad_chapters: [usize; 3],
    chaptered: Chaptered,
    /// Plan calls refused with 4 for a limit alone.
    limits_past_range: usize,
    scratches: scratches::Seen,
    limited: Limited,
    gated: Gated,
    laned: Laned,
    /// Planned tables by R, P and N.
    resources: [usize; 7],
    parts: [usize; 9],
    points: [usize; 17],
    /// Planned tables whose positions were also found by joint steps, and how many of these have both
    /// zeros and moves at points that are no ends.
    by_joint_steps: usize,
    mixed: usize,
    /// Stored tables of recipes with unreached points, and those by which the start led to an end.
    stored: [usize; 2],
    /// Accepted pairs, and those with a move of each kind.
    accepted: usize,
    kinds: [usize; 5],
    /// Accepted pairs with a test that goes on, and with a do of one to four lines that does.
    tests: usize,
    parallel: [usize; 5],
    lists: lists::Seen,
}

/// What was seen of planned tables of several chapters, by their number.
#[derive(Debug, Default)]
struct Chaptered {
    planned: [usize; MOST_CHAPTERS + 1],
    accepted: [usize; MOST_CHAPTERS + 1],
    /// Refused with 15, although the first chapter alone would not be; and accepted, although the last would.
    together: [usize; MOST_CHAPTERS + 1],
    last_alone: [usize; MOST_CHAPTERS + 1],
    /// Lists from the start that came to the last chapter.
    passed: [usize; MOST_CHAPTERS + 1],
    /// Those with earlier ends that stay, and that don't.
    joints: [usize; 2],
    /// Those refused with 15 of which some later chapter has an entry other than 0.
    filled: usize,
}

impl Chaptered {
    fn note(&mut self, (cell, joined): &(Cell, Joined), planned: &Planned) {
        let count = joined.chapters.len();
        let accepted = planned.refusal == 0;
        self.planned[count] += 1;
        self.accepted[count] += usize::from(accepted);
        let configurations = joined.sizes.configurations() as usize;
        let entries = planned.table.chunks(configurations);
        let at_joints = (0..joined.sizes.points as u8).zip(entries);
        let ends: Vec<&[u32]> = at_joints
            .filter(|(number, _)| joined.joint_at(*number).is_some())
            .map(|(_, entries)| entries)
            .collect();
        let has = |stays: bool| ends.iter().copied().flatten().any(|&e| (e != 0) == stays);
        (0..2).for_each(|n| self.joints[n] += usize::from(has(n == 0)));
        let later = &planned.table[joined.positions_of(0) as usize..];
        self.filled += usize::from(!accepted && later.iter().any(|&entry| entry != 0));
        if planned.table.len() <= FEW_POSITIONS {
            let alone = |chapter: &Recipe| {
                let joined = Joined::of(cell, slice::from_ref(chapter));
                stored_table(cell, &joined)[0] != 0
            };
            let [first, last] = [0, count - 1].map(|n| alone(&joined.chapters[n]));
            self.together[count] += usize::from(!accepted && first);
            self.last_alone[count] += usize::from(accepted && !last);
        }
    }

    /// Wants a third accepted, and enough of all that chapters can change.
    fn judge(&self) {
        println!("{self:?}");
        let sum = |times: &[usize]| times.iter().sum::<usize>();
        assert!(3 * sum(&self.accepted) > sum(&self.planned));
        assert!(4 * sum(&self.passed) > sum(&self.planned));
        for count in 2..=MOST_CHAPTERS {
            let [planned, accepted] = [self.planned[count], self.accepted[count]];
            assert!(planned >= 300 && 4 * accepted > planned, "{count} chapters");
            let changed = [self.together[count], self.last_alone[count]];
            assert!(changed.iter().all(|&times| times >= 30), "{count} chapters");
        }
        let others = [self.joints[0], self.joints[1], self.filled];
        assert!(others.iter().all(|&times| times >= 1_000));
    }
}

/// What was seen of planned tables of cells with limits.
#[derive(Default)]
struct Limited {
    planned: usize,
    accepted: usize,
    /// Those with positions that have an overfull station, at an end and elsewhere.
    overfull: [usize; 2],
    /// Of those whose positions without limits were looked at: refused for the limits alone, and accepted
    /// with fewer entries at positions without an overfull station.
    lost: usize,
    narrowed: usize,
}

impl Limited {
    fn note(&mut self, (cell, joined): &(Cell, Joined), planned: &Planned) {
        let sizes = &joined.sizes;
        let overfull: Vec<bool> = (0..sizes.positions)
            .map(|position| is_overfull(cell, &sizes.at(position).1))
            .collect();
        self.planned += 1;
        self.accepted += usize::from(planned.refusal == 0);
        let mut found = [false; 2];
        for number in 0..sizes.points as u8 {
            let is_end = kind_of_point(joined, number) == END;
            found[usize::from(!is_end)] |= at_point(joined, &overfull, number).contains(&true);
        }
        (0..2).for_each(|n| self.overfull[n] += usize::from(found[n]));
        if overfull.len() <= FEW_POSITIONS {
            self.note_without_limits(cell, joined, &overfull, planned);
        }
    }

    /// Notes what the limits have changed.
    fn note_without_limits(
        &mut self,
        cell: &Cell,
        joined: &Joined,
        overfull: &[bool],
        planned: &Planned,
    ) {
        let [positions, scratch] = needed(joined);
        let mut wide = vec![0; positions];
        let refusal = plan(&unlimited(cell), &joined.chapters, &mut wide, scratch);
        let lost = |p: usize| !overfull[p] && planned.table[p] == 0 && wide[p] != 0;
        match planned.refusal {
            0 => self.narrowed += usize::from((0..positions).any(lost)),
            _ => self.lost += usize::from(refusal == 0),
        }
    }

    /// Wants many of both answers, and of what the limits can change.
    fn judge(&self) {
        assert!(3 * self.accepted >= self.planned, "too few are accepted");
        let seen = [self.lost, self.narrowed, self.overfull[0], self.overfull[1]];
        assert!(seen.iter().all(|&times| times >= 500), "{seen:?}");
    }

    fn print(&self) {
        println!(
            "with limits {} planned, {} accepted, {:?} with overfull ends and other positions",
            self.planned, self.accepted, self.overfull
        );
        println!(
            "{} refused for the limits alone, {} accepted with fewer entries",
            self.lost, self.narrowed
        );
    }
}

/// What was seen of planned tables of cells with gates.
#[derive(Default)]
struct Gated {
    planned: usize,
    accepted: usize,
    /// Accepted ones with a test whose outcomes lead to different states.
    parted: usize,
    /// Of those whose recipe was also planned without gates: refused for the gates alone, and accepted for
    /// them alone.
    lost: usize,
    gained: usize,
}

impl Gated {
    fn note(&mut self, (cell, joined): &(Cell, Joined), planned: &Planned) {
        let accepted = planned.refusal == 0;
        self.planned += 1;
        self.accepted += usize::from(accepted);
        let is_parted = |entry: u32| {
            let [a, b, ..] = letters_of(entry);
            kind_of(entry) == CARRY && cell.to[a] != cell.to[b]
        };
        let mut tests =
            (0..joined.sizes.points as u8).filter(|&number| kind_of_point(joined, number) == TEST);
        let parted = tests.any(|number| {
            let mut entries = at_point(joined, &planned.table, number).iter();
            entries.any(|&entry| is_parted(entry))
        });
        self.parted += usize::from(accepted && parted);
        if planned.table.len() <= FEW_POSITIONS {
            let ungated = stored_table(&without_gates(cell), joined)[0] != 0;
            self.lost += usize::from(!accepted && ungated);
            self.gained += usize::from(accepted && !ungated);
        }
    }

    /// Wants gates in a third of all planned tables, a third of these accepted, and enough of what gates can
    /// change.
    fn judge(&self, all: usize) {
        assert!(3 * self.planned >= all, "too few cells have gates");
        assert!(3 * self.accepted >= self.planned, "too few are accepted");
        let seen = [self.parted, self.lost, self.gained];
        let least = [1_000, 150, 300];
        assert!((0..3).all(|n| seen[n] >= least[n]), "{seen:?}");
    }

    fn print(&self) {
        println!(
            "with gates {} planned, {} accepted, {} of them with a test whose outcomes part",
            self.planned, self.accepted, self.parted
        );
        println!(
            "{} refused for the gates alone, {} accepted for them alone",
            self.lost, self.gained
        );
    }
}

/// What was seen of planned tables of cells with a lane that won't start empty.
#[derive(Default)]
struct Laned {
    planned: usize,
    accepted: usize,
    /// Of those whose recipe was also planned on other ports: refused for the photocells alone, accepted with
    /// fewer entries for them, and accepted, but not with photocells everywhere.
    lost: usize,
    narrowed: usize,
    needed: usize,
}

impl Laned {
    fn note(&mut self, (cell, joined): &(Cell, Joined), planned: &Planned) {
        let accepted = planned.refusal == 0;
        self.planned += 1;
        self.accepted += usize::from(accepted);
        if planned.table.len() <= FEW_POSITIONS {
            let free = stored_table(&without_photocells(cell), joined);
            let guarded = stored_table(&with_photocells(cell), joined);
            let lost = planned.table.iter().zip(&free);
            let fewer = lost.filter(|(&now, &free)| now == 0 && free != 0).count() > 0;
            self.lost += usize::from(!accepted && free[0] != 0);
            self.narrowed += usize::from(accepted && fewer);
            self.needed += usize::from(accepted && guarded[0] == 0);
        }
    }

    /// Wants such lanes in a quarter of all planned tables, a third of these accepted, and enough of what they
    /// can change.
    fn judge(&self, all: usize) {
        assert!(4 * self.planned >= all, "too few cells have loaded lanes");
        assert!(3 * self.accepted >= self.planned, "too few are accepted");
        let seen = [self.lost, self.narrowed, self.needed];
        assert!(seen.iter().all(|&times| times >= 150), "{seen:?}");
    }

    fn print(&self) {
        println!(
            "with loaded lanes {} planned, {} accepted, {} of them not with such lanes alone",
            self.planned, self.accepted, self.needed
        );
        println!(
            "{} refused for the photocells alone, {} accepted with fewer entries",
            self.lost, self.narrowed
        );
    }
}

impl Seen {
    /// Notes a plan call.
    fn note_call(&mut self, handed: &Handed, refusal: u32) {
        self.refusals[refusal as usize] += 1;
        self.scratches.note(handed, refusal);
        if refusal == BAD_CHAPTERS.into() {
            self.bad_chapters[reason_for_24(&handed.recipes)] += 1;
        }
    }

    /// Notes a planned table.
    fn note(&mut self, records: &(Cell, Joined), planned: &Planned) {
        let (cell, joined) = records;
        let sizes = &joined.sizes;
        self.resources[sizes.resources] += 1;
        self.parts[sizes.parts] += 1;
        for chapter in 0..joined.chapters.len() as u8 {
            let points = joined.positions_of(chapter) / sizes.configurations();
            self.points[points as usize] += 1;
        }
        let table = &planned.table[..sizes.positions as usize];
        if joint_choices(cell, joined) <= FEW_JOINT_CHOICES {
            self.by_joint_steps += 1;
            let points = 0..sizes.points as u8;
            let open_points = points.filter(|&p| kind_of_point(joined, p) != END);
            let entries: Vec<u32> = open_points
                .flat_map(|p| at_point(joined, table, p))
                .copied()
                .collect();
            let found = [true, false].map(|zero| entries.iter().any(|&e| (e == 0) == zero));
            self.mixed += usize::from(found == [true; 2]);
        }
        if planned.refusal == 0 {
            self.note_accepted(joined, table);
        }
        if cell.limits != NO_LIMITS {
            self.limited.note(records, planned);
        }
        if cell.has_gates() {
            self.gated.note(records, planned);
        }
        if (0..usize::from(cell.count)).any(|line| cell.is_loaded_lane(line)) {
            self.laned.note(records, planned);
        }
        if joined.chapters.len() > 1 {
            self.chaptered.note(records, planned);
        }
    }

    fn note_accepted(&mut self, joined: &Joined, table: &[u32]) {
        self.accepted += 1;
        for (kind, times) in self.kinds.iter_mut().enumerate().skip(1) {
            *times += usize::from(table.iter().any(|&entry| kind_of(entry) as usize == kind));
        }
        let (mut test, mut parallel) = (false, [false; 5]);
        for number in 0..joined.sizes.points as u8 {
            let (chapter, point) = joined.chapter_and_point(number);
            let lines = pairs::lines_at(joined.chapter(chapter), point);
            let goes_on = at_point(joined, table, number)
                .iter()
                .any(|&entry| entry != 0);
            match kind_of_point(joined, number) {
                END => {}
                TEST => test |= goes_on,
                _ => parallel[lines.len()] |= goes_on,
            }
        }
        self.tests += usize::from(test);
        for (times, seen) in self.parallel.iter_mut().zip(parallel) {
            *times += usize::from(seen);
        }
    }

    fn print(&self) {
        println!("plans by refusal {:?}", self.refusals);
        println!("24 for none, too many and a joint {:?}", self.bad_chapters);
        println!("{} of these 4 for a limit alone", self.limits_past_range);
        self.limited.print();
        self.gated.print();
        self.laned.print();
        println!(
            "transfers issued through a photocell {}, of an empty pallet {}",
            self.lists.loaded_lanes, self.lists.empty_pallets
        );
        println!("planned by R {:?}", &self.resources[1..]);
        println!("planned by P {:?}", self.parts);
        println!("planned by N {:?}", &self.points[1..]);
        println!(
            "{} also by joint steps, {} of them mixed; stored {}, {} of them led to an end",
            self.by_joint_steps, self.mixed, self.stored[0], self.stored[1]
        );
        println!(
            "{} accepted, with moves of kind 1 to 4 {:?}, tests {}, dos of 1 to 4 lines {:?}",
            self.accepted,
            &self.kinds[1..],
            self.tests,
            &self.parallel[1..]
        );
        println!(
            "{} calls, next-moves by refusal {:?}, reports {:?}, issued by kind {:?}, {} in a row, {} overfull",
            self.lists.calls,
            self.lists.next_moves,
            self.lists.reports,
            &self.lists.issued[1..],
            self.lists.silent,
            self.lists.overfull
        );
        println!(
            "tests with a gate by form and outcome {:?}, joints passed by form {:?}, calls at earlier ends {:?}",
            self.lists.gates, self.lists.joints, self.lists.at_joints
        );
    }

    /// Wants each refusal that the planner can give at least so often, those of later requests at least so often,
    /// and no other.
    fn judge_refusals(&self, least: usize, least_later: usize) {
        for (refusal, times) in self.refusals.into_iter().enumerate() {
            match refusal {
                1 | 2 | 16..=19 | 21 => assert_eq!(times, 0, "the planner cannot give {refusal}"),
                _ => assert!(times >= least, "{refusal} was seen too seldom"),
            }
        }
        let later = [20, 22, 23, 24].map(|refusal: usize| self.refusals[refusal]);
        assert!(later.iter().all(|&times| times >= least_later), "{later:?}");
        assert!(self.limits_past_range >= least_later);
    }

    /// Prints what was seen of small pairs and wants enough of everything.
    fn judge_small(&self) {
        self.print();
        self.judge_refusals(300, 1_000);
        assert!(self.stored.iter().all(|&times| times >= 1_000));
        self.scratches.judge(1_000, 30);
        self.limited.judge();
        self.gated.judge(self.parts.iter().sum());
        self.laned.judge(self.parts.iter().sum());
        assert!(3 * self.accepted > SMALL_PAIRS);
        assert!(self.by_joint_steps > SMALL_PAIRS / 2 && self.mixed > SMALL_PAIRS / 4);
        for (name, seen) in [
            ("R", &self.resources[1..]),
            ("P", &self.parts),
            ("N", &self.points[1..]),
            ("moves of each kind", &self.kinds[1..]),
            ("dos of each number of lines", &self.parallel[1..]),
            ("tests", &[self.tests]),
        ] {
            assert!(seen.iter().all(|&times| times >= 30), "{name}: {seen:?}");
        }
        let lists = &self.lists;
        assert!(lists.calls >= 1_000_000);
        assert!(lists.issued[1..4].iter().all(|&times| times >= 20_000));
        assert!(lists.next_moves[0] >= 100_000);
        assert!(lists.reports[17..].iter().all(|&times| times >= 10_000));
        let mut gates = lists.gates.as_flattened().iter();
        assert!(gates.all(|&times| times >= 1_000));
        assert!(lists.loaded_lanes >= 1_000 && lists.empty_pallets >= 1_000);
    }

    /// The same of small pairs in several chapters.
    fn judge_small_chapters(&self) {
        self.print();
        self.judge_refusals(40, 500);
        assert!(self.bad_chapters.iter().all(|&times| times >= 100));
        assert!(self.stored[0] >= 300);
        self.scratches.judge(300, 10);
        self.chaptered.judge();
        assert!(3 * self.limited.accepted > self.limited.planned);
        let gated = &self.gated;
        assert!(3 * gated.planned > self.parts.iter().sum() && 3 * gated.accepted > gated.planned);
        assert!(self.by_joint_steps > SMALL_PAIRS_IN_CHAPTERS / 4);
        assert!(self.mixed > SMALL_PAIRS_IN_CHAPTERS / 8);
        let lists = &self.lists;
        assert!(lists.calls >= 300_000 && lists.issued[1..4].iter().all(|&n| n >= 10_000));
        assert!(lists.loaded_lanes >= 1_000 && lists.empty_pallets >= 1_000);
        assert!(lists.joints.iter().all(|&times| times >= 3_000));
        let at_joints = [0, 17, 18, 19].map(|refusal: usize| lists.at_joints[refusal]);
        assert!(at_joints.iter().all(|&times| times >= 500), "{at_joints:?}");
    }
}

/// The kind of a point of the joined recipe.
fn kind_of_point(joined: &Joined, number: u8) -> u8 {
    let (chapter, point) = joined.chapter_and_point(number);
    let recipe = joined.chapter(chapter);
    recipe.kind[pairs::lines_at(recipe, point)[0]]
}

/// The part of a table for the positions of a point of the joined recipe.
fn at_point<'a, T>(joined: &Joined, table: &'a [T], number: u8) -> &'a [T] {
    let configurations = joined.sizes.configurations() as usize;
    &table[usize::from(number) * configurations..][..configurations]
}

/// Plans chapters with a table and a scratch that are long enough, and feeds lists of calls on the table
/// to the library and to the book. If a point is unreached, so that nothing is planned, these are on the
/// table that was stored for it.
fn plan_and_follow(
    (cell, chapters): (Cell, Vec<Recipe>),
    lists: Lists,
    random: &mut Random,
    seen: &mut Seen,
) {
    let joined = Joined::of(&cell, &chapters);
    let [entries, scratch] = needed(&joined);
    let handed = Handed {
        cell: cell_bytes(&cell).to_vec(),
        recipes: chapters_bytes(&chapters),
        entries: entries + random.choose(&[0, 0, 1, 9]),
        scratch: scratches::long_enough(scratch, random),
    };
    let planned = handed.plan(random);
    let records = (cell, joined);
    seen.note_call(&handed, planned.refusal);
    if planned.refusal == UNREACHED.into() {
        let table = stored_table(&records.0, &records.1);
        let from_start = follow_all(&handed, &records, &table, lists, random, seen);
        seen.stored[0] += 1;
        seen.stored[1] += usize::from(from_start.reports[19] > 0);
    } else {
        seen.note(&records, &planned);
        let from_start = follow_all(&handed, &records, &planned.table, lists, random, seen);
        let joints = from_start.joints.iter().sum::<usize>();
        let passed = joints > 0 && joints + 1 == chapters.len();
        seen.chaptered.passed[chapters.len()] += usize::from(passed);
    }
}

/// Feeds lists of calls on a table to the library and to the book. What was seen in the first of them.
fn follow_all(
    handed: &Handed,
    (cell, joined): &(Cell, Joined),
    table: &[u32],
    lists: Lists,
    random: &mut Random,
    seen: &mut Seen,
) -> lists::Seen {
    let mut first = None;
    for n in 0..lists.count {
        // The first begins at the start, the others mostly where there is an entry.
        let position = match n {
            0 => 0,
            _ => some_position(&table[..joined.sizes.positions as usize], random),
        };
        let book = Book::from_position(cell, joined, table, position as u64);
        let form = [Form::Value, Form::Record][n % 2];
        let list_seen = follow(handed, table, book, form, lists.calls, random);
        let promised = table[position] != 0;
        assert!(
            keeps_promises(&list_seen, promised, joined),
            "from {position}\n{handed}"
        );
        seen.lists.add(&list_seen);
        first.get_or_insert(list_seen);
    }
    first.unwrap_or_default()
}

/// Beside the answers: from an entry, 18 is never given, silent moves in a row are few and no station is
/// overfull before or after a call; from a 0 nothing is issued.
fn keeps_promises(seen: &lists::Seen, promised: bool, joined: &Joined) -> bool {
    let shut = seen.next_moves[18] + seen.reports[18];
    let in_time = seen.silent < joined.sizes.configurations();
    match promised {
        true => shut == 0 && in_time && seen.overfull == 0,
        false => seen.issued == [0; 5],
    }
}

/// Compares a list of at most so many calls with the book.
fn follow(
    handed: &Handed,
    table: &[u32],
    mut book: Book,
    form: Form,
    calls: usize,
    random: &mut Random,
) -> lists::Seen {
    let list = List {
        cell: &handed.cell,
        recipes: &handed.recipes,
        table,
    };
    let mut seen = lists::Seen::default();
    let over = |book: &Book| matches!(kind_of(book.next_move().entry), 0 | STAY);
    while seen.calls < calls {
        let was_over = over(&book);
        seen.add(&list.compare(LAST_CALLS, form, &mut book, random));
        if was_over {
            break;
        }
    }
    seen
}

/// A position, most times one with an entry, and with a move if there is such a one near.
fn some_position(table: &[u32], random: &mut Random) -> usize {
    let tries = (0..20).map(|_| random.below(table.len()));
    let positions: Vec<usize> = tries.collect();
    let goes_on = |&&p: &&usize| (1..4).contains(&kind_of(table[p]));
    let has_entry = |&&p: &&usize| table[p] != 0;
    let found = positions.iter().find(goes_on);
    let found = found.or_else(|| positions.iter().find(has_entry));
    *found.unwrap_or(&positions[0])
}

/// Plans with a table or a scratch that is too short, which an unreached point comes before.
fn plan_short((cell, chapters): &(Cell, Vec<Recipe>), random: &mut Random, seen: &mut Seen) {
    let owed = match chapters.iter().all(every_point_is_reached) {
        true => TOO_SHORT,
        false => UNREACHED,
    };
    let (cell, recipes) = (cell_bytes(cell).to_vec(), chapters_bytes(chapters));
    let handed = Handed::too_short(cell, recipes, random);
    let refusal = handed.plan(random).refusal;
    assert_eq!(refusal, owed.into(), "{handed}");
    seen.note_call(&handed, refusal);
}

/// Plans after some damage to the records.
fn plan_damaged(pair: &Pair, random: &mut Random, seen: &mut Seen) {
    let handed = Handed::damaged(pair, MOST_DAMAGED, random);
    let refusal = handed.plan(random).refusal;
    seen.note_call(&handed, refusal);
    let cell = cell_of_bytes(&handed.cell);
    seen.limits_past_range += usize::from(limits_leave_range(&cell));
}

/// A recipe as the only chapter.
fn only_chapter((cell, recipe): (Cell, Recipe)) -> (Cell, Vec<Recipe>) {
    (cell, vec![recipe])
}

/// The most positions in a chapter of the small pair with this number.
fn few_positions(n: usize) -> u64 {
    [60, 400, 400, 400, 2_000, 5_000][n / 2 % 6]
}

/// Plans small pairs, with enough lent and with too little, and after some damage. `chapters` makes a pair of at
/// most so many positions in each chapter.
fn plan_small(
    count: usize,
    mut chapters: impl FnMut(usize, u64, &mut Random) -> (Cell, Vec<Recipe>),
    lists: Lists,
    random: &mut Random,
) -> Seen {
    let mut seen = Seen::default();
    for n in 0..count {
        let most = few_positions(n);
        let pair = chapters(n, most, random);
        plan_short(&pair, random, &mut seen);
        let rows = match n % 16 {
            0 => pairs::good_chapters(u64::MAX, pair.1.len(), random),
            1..=5 => pairs::good_chapters(most, pair.1.len(), random),
            _ => Pair::of(&pair.0, &pair.1),
        };
        for _ in 0..DAMAGED {
            plan_damaged(&rows, random, &mut seen);
        }
        plan_and_follow(pair, lists, random, &mut seen);
    }
    seen
}

#[test]
fn small_pairs() {
    let mut source = independent::Random(12);
    let lists = Lists {
        count: 6,
        calls: 24,
    };
    let pair = |n, most, _: &mut Random| only_chapter(either_pair(n, most, &mut source));
    let seen = plan_small(SMALL_PAIRS, pair, lists, &mut Random::new(11));
    seen.judge_small();
}

#[test]
fn small_pairs_in_chapters() {
    let mut source = independent::Random(20);
    let lists = Lists {
        count: 6,
        calls: 40,
    };
    let chapters = |n, most: u64, random: &mut Random| {
        let count = pairs::several(random);
        either_chapters(n, (most / 4).max(60), count, &mut source)
    };
    let count = SMALL_PAIRS_IN_CHAPTERS;
    let seen = plan_small(count, chapters, lists, &mut Random::new(19));
    seen.judge_small_chapters();
}

/// Plans these pairs, but for those with an unreached point, and wants tables with the entries that are owed. How
/// many are accepted, and how many are refused with 15.
fn plan_owed(pairs: impl Iterator<Item = (Cell, Vec<Recipe>)>, random: &mut Random) -> [usize; 2] {
    let mut answers = [0; 2];
    for (cell, chapters) in pairs {
        if chapters.iter().all(every_point_is_reached) {
            let handed = Handed::of(cell_bytes(&cell).to_vec(), chapters_bytes(&chapters));
            let refused = handed.plan_owed(random).refusal == 15;
            answers[usize::from(refused)] += 1;
        }
    }
    println!("realisable and not {answers:?}");
    answers
}

#[test]
fn small_pairs_have_the_entries_that_are_owed() {
    let mut source = independent::Random(12);
    let pairs = (0..SMALL_PAIRS).map(|n| either_pair(n, few_positions(n), &mut source));
    let answers = plan_owed(pairs.map(only_chapter), &mut Random::new(24));
    assert!(answers.iter().all(|&times| times >= 3_000));
}

#[test]
fn small_pairs_in_chapters_have_the_entries_that_are_owed() {
    let mut source = independent::Random(20);
    let mut counts = Random::new(25);
    let pairs = (0..SMALL_PAIRS_IN_CHAPTERS).map(|n| {
        let most = (few_positions(n) / 4).max(60);
        either_chapters(n, most, pairs::several(&mut counts), &mut source)
    });
    let answers = plan_owed(pairs, &mut Random::new(26));
    assert!(answers.iter().all(|&times| times >= 800));
}

#[test]
fn great_pairs_have_the_entries_that_are_owed() {
    let is_great = |(cell, chapters): &(Cell, Vec<Recipe>)| {
        Joined::of(cell, chapters).greatest_positions() > GREAT
    };
    let mut source = independent::Random(14);
    let alone = (0..).map(|n| only_chapter(either_pair(n, MOST_POSITIONS, &mut source)));
    let alone = alone.filter(is_great).take(GREAT_PAIRS);
    let mut source = independent::Random(23);
    let joined = (0..).map(|n| either_chapters(n, MOST_POSITIONS, 2, &mut source));
    let joined = joined.filter(is_great).take(GREAT_PAIRS_IN_CHAPTERS);
    let dense = [dense_pair(), with_gates(dense_pair())].map(only_chapter);
    let pairs = alone.chain(joined).chain(dense);
    let answers = plan_owed(pairs, &mut Random::new(27));
    assert!(answers.iter().all(|&times| times >= 5));
}

/// Plans with scratches of lengths near the least that will do, and of others, whatever they hold. `positions` are
/// those of the chapter that has most.
fn plan_with_scratches(
    handed: &mut Handed,
    positions: usize,
    planned: &Planned,
    random: &mut Random,
    seen: &mut scratches::Seen,
) {
    let least = handed.scratch;
    let near = least.saturating_sub(2)..=least + 2;
    // Others too: any that is long enough, and those with about a byte for each position.
    let others = [least + random.below(positions), positions - 1, positions];
    for scratch in near.chain(others) {
        handed.scratch = scratch;
        for byte in [Some(0), Some(0xff), None] {
            let refusal = handed.plan_again(planned, byte, random);
            assert_eq!(refusal == 14, 8 * scratch < positions, "{handed}");
            seen.note(handed, refusal);
        }
    }
}

#[test]
fn scratches_of_every_length_near_the_least() {
    let mut random = Random::new(17);
    let mut source = independent::Random(18);
    let mut seen = scratches::Seen::default();
    // Pairs by M modulo 8, those with several chapters, and those of all that are realisable and that aren't.
    let (mut by_remainder, mut several, mut answers) = ([0; 8], 0, [0; 2]);
    for n in 0..SCRATCH_SEEDS {
        let most = [60, 60, 400, 2_000][n / 2 % 4];
        // Every other one has several chapters, of which the greatest counts.
        let (cell, chapters) = match n / 8 % 2 {
            0 => only_chapter(either_pair(n, most, &mut source)),
            _ => either_chapters(n, most / 2 + 30, pairs::several(&mut random), &mut source),
        };
        let positions = Joined::of(&cell, &chapters).greatest_positions() as usize;
        let pairs = &mut by_remainder[positions % 8];
        // An unreached point would be refused whatever is lent.
        if *pairs == SCRATCH_PAIRS || !chapters.iter().all(every_point_is_reached) {
            continue;
        }
        *pairs += 1;
        several += usize::from(chapters.len() > 1);
        let mut handed = Handed::of(cell_bytes(&cell).to_vec(), chapters_bytes(&chapters));
        let planned = handed.plan(&mut random);
        answers[usize::from(planned.refusal == 15)] += 1;
        plan_with_scratches(&mut handed, positions, &planned, &mut random, &mut seen);
        if by_remainder == [SCRATCH_PAIRS; 8] {
            break;
        }
    }
    println!("pairs by M modulo 8 {by_remainder:?}, {several} of them in several chapters");
    println!("realisable and not {answers:?}");
    assert_eq!(by_remainder, [SCRATCH_PAIRS; 8]);
    assert!(answers.iter().all(|&times| times >= 200) && several >= 300);
    seen.judge(1_000, 500);
}

/// Plans many pairs in one table and scratch, and judges the table each time in this way.
fn judge_one_table_for_many_pairs(judge: Judging) {
    let mut source = independent::Random(16);
    let mut random = Random::new(21);
    // Each pair is planned with what the one before has left.
    let (mut table, mut scratch) = (vec![0; 2_000], vec![0; 250]);
    let mut refusals = [0; REFUSALS];
    for n in 0..3_400 {
        let (cell, chapters) = match n / 2 % 4 {
            0 => either_chapters(n, 250, pairs::several(&mut random), &mut source),
            _ => only_chapter(either_pair(n, 2_000, &mut source)),
        };
        let (before, scratch_before) = (table.clone(), scratch.clone());
        let records = (cell_bytes(&cell), chapters_bytes(&chapters));
        let refusal = Library::plan(&records.0, &records.1, &mut table, &mut scratch);
        refusals[refusal as usize] += 1;
        if !chapters.iter().all(every_point_is_reached) {
            assert_eq!(refusal, UNREACHED.into());
            assert!(table == before && scratch == scratch_before);
            continue;
        }
        let joined = Joined::of(&cell, &chapters);
        let judged = judge(&cell, &joined, &table).map(u32::from);
        assert_eq!(judged, Ok(refusal));
        let positions = joined.sizes.positions as usize;
        assert_eq!(table[positions..], before[positions..]);
    }
    println!("plans by refusal {refusals:?}");
    assert!(refusals[0] >= 1_000 && refusals[15] >= 300 && refusals[22] >= 200);
}

#[test]
fn one_table_for_many_pairs() {
    judge_one_table_for_many_pairs(judge);
}

#[test]
fn one_table_for_many_pairs_has_the_entries_that_are_owed() {
    judge_one_table_for_many_pairs(judge_planned);
}

#[test]
fn great_pairs() {
    let mut random = Random::new(13);
    let mut source = independent::Random(14);
    let mut seen = Seen::default();
    let lists = Lists {
        count: 300,
        calls: 50,
    };
    let (mut planned, mut over_half) = (0, 0);
    while planned < GREAT_PAIRS {
        let pair = only_chapter(either_pair(planned, MOST_POSITIONS, &mut source));
        let positions = Joined::of(&pair.0, &pair.1).sizes.positions;
        if positions <= GREAT || !every_point_is_reached(&pair.1[0]) {
            continue;
        }
        planned += 1;
        over_half += usize::from(positions > MOST_POSITIONS / 2);
        plan_and_follow(pair, lists, &mut random, &mut seen);
    }
    seen.print();
    println!("{over_half} of more than half as many positions as there may be");
    let Seen {
        refusals, kinds, ..
    } = &seen;
    assert!(refusals[0] >= 17 && refusals[15] >= 5 && over_half >= 10);
    let limited = &seen.limited;
    assert!(limited.planned >= 20 && 3 * limited.accepted >= limited.planned);
    assert!(limited.overfull[0] >= 10);
    let gated = &seen.gated;
    assert!(3 * gated.planned >= GREAT_PAIRS && 3 * gated.accepted >= gated.planned);
    assert!(gated.parted >= 5);
    assert!(kinds[1..].iter().all(|&times| times >= 10));
    assert!(seen.lists.issued[1..4].iter().all(|&times| times >= 1_000));
}

#[test]
fn great_pairs_in_chapters() {
    let mut random = Random::new(22);
    let mut source = independent::Random(23);
    let mut seen = Seen::default();
    let lists = Lists {
        count: 500,
        calls: 60,
    };
    let (mut planned, mut greatest) = (0, 0);
    while planned < GREAT_PAIRS_IN_CHAPTERS {
        let chapters = random.choose(&[2, 2, 3, 4]);
        let pair = either_chapters(planned, MOST_POSITIONS, chapters, &mut source);
        let joined = Joined::of(&pair.0, &pair.1);
        let several = pair.1.len() > 1 && pair.1.iter().all(every_point_is_reached);
        if joined.greatest_positions() <= GREAT || !several {
            continue;
        }
        planned += 1;
        greatest = greatest.max(joined.sizes.positions);
        plan_and_follow(pair, lists, &mut random, &mut seen);
    }
    // As many positions in each of two chapters as there may be.
    let (cell, recipe) = dense_pair();
    plan_and_follow((cell, vec![recipe; 2]), lists, &mut random, &mut seen);
    seen.print();
    println!("{greatest} positions at most");
    assert!(3 * seen.refusals[0] >= planned && seen.refusals[15] >= 3);
    assert!(greatest > MOST_POSITIONS);
    assert!(seen.lists.joints.iter().all(|&times| times >= 50));
    assert!(seen.lists.issued[1..4].iter().all(|&times| times >= 1_000));
}

#[test]
fn dense_mixed_and_long() {
    let mut random = Random::new(15);
    let mut seen = Seen::default();
    let lists = Lists {
        count: 20,
        calls: 3_000,
    };
    let mixed = |lines, silent, seed| mixed_pair(lines, silent, &mut independent::Random(seed));
    for pair in [
        dense_pair(),
        with_gates(dense_pair()),
        mixed(29, 14, 6),
        mixed(64, 52, 3),
        long_ways_pair(3, 5),
    ] {
        plan_and_follow(only_chapter(pair), lists, &mut random, &mut seen);
    }
    for stations in 1..=3 {
        let pair = only_chapter(odometer_pair(stations));
        plan_and_follow(pair, lists, &mut random, &mut seen);
    }
    seen.print();
    assert_eq!((seen.refusals[0], seen.refusals[15]), (5, 3));
    assert!(seen.lists.issued[1..4].iter().all(|&times| times >= 200));
    // No way to the last station's top is shorter.
    assert!(seen.lists.silent >= 399);
}
