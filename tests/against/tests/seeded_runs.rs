//! The library's calls on records and runs against the independent program: seeded rounds of calls on
//! cells and recipes that fit each other, in one chapter and in several, and on every kind of damage to them.

use against::damage::seeded_records;
use against::pairs::{self, limits_leave_range, unlimited, Pair, NO_LIMITS};
use against::random::Random;
use against::rounds::{accepted, compare, Answers, Round, Table};
use against::{reason_for_24, BAD_CHAPTERS, REFUSALS, TOO_SHORT};
use independent::{
    cell_of_bytes, entry_of, every_point_is_reached, is_overfull, kind_of, letters_of, run_bytes,
    run_of_bytes, without_photocells, Cell, Joined, Recipe, Run, CARRY, MOST_CHAPTERS,
    MOST_POSITIONS, NO_LIMIT, RECIPE_BYTES, RUN_BYTES, TRANSFER,
};
use std::ops::RangeInclusive;
use std::slice;

/// Pairs of a cell and a recipe, those with several chapters, and rounds of calls on each.
const PAIRS: usize = 6_000;
const PAIRS_IN_CHAPTERS: usize = 4_000;
const ROUNDS: usize = 80;

/// The most positions of all chapters together, where there are several.
const MOST_IN_CHAPTERS: usize = 4 << 20;

/// How many calls are made at least, and how often everything that must be seen is seen at least.
const LEAST_CALLS: usize = 1_000_000;
const LEAST_SEEN: usize = 1_000;

/// The recipe kind of a test.
const TEST: u8 = 2;

/// What was seen in a run.
#[derive(Default)]
struct Seen {
    calls: usize,
    /// For check, next-move, report and place, how often each refusal came.
    refusals: [[usize; REFUSALS]; 4],
    /// Refusals 24 in each of these, by their reason.
    chapters: [[usize; 3]; 4],
    chaptered: Chaptered,
    /// How often each of these was accepted although the recipe has an unreached point.
    unreached: [usize; 4],
    /// Refusals 4 for a limit alone.
    limits_past_range: [usize; 1],
    /// Moves that only the limits shut, by their kind: without a station overfull before, and with one.
    shut: [[usize; 5]; 2],
    /// Accepted next-moves with a station overfull before, by their kind.
    mending: [usize; 5],
    /// Accepted next-moves that leave a station just full, by their kind.
    just_fitting: [usize; 5],
    /// Accepted next-moves of each kind.
    moves: [usize; 5],
    /// Accepted reports of the kinds 1 to 3, and those of kind 4, all of which get 19.
    reports: [usize; 5],
    /// Carried dos of one to four lines.
    parallel: [usize; 5],
    /// Tests by their outcome, and those of them whose outcomes lead to different states.
    tests: [usize; 2],
    parted: [usize; 2],
    /// Dos by a line that a test of it would leave by a gate elsewhere.
    gated_dos: [usize; 1],
    /// Entries at tests that nothing but the second letter shuts, without a gate and with one.
    other_gates: [usize; 2],
    /// Transfers of no part, of one, and of several.
    handed_over: [usize; 3],
    /// The latter two through a port with a photocell.
    loaded: [usize; 2],
    /// Transfers that only a photocell shuts.
    not_started: [usize; 1],
    /// Dos that give a part that the same step takes: on the same line, and on another.
    exchanged: [usize; 2],
}

/// What was seen of chapters, where there are several.
#[derive(Default)]
struct Chaptered {
    /// Accepted next-moves in each chapter.
    moves: [usize; MOST_CHAPTERS],
    /// Refusals 16 for the chapter alone, in next-move, report and place.
    chapter_not_there: [usize; 3],
    /// Reports that land on the next chapter, by the outcome.
    landings: [usize; 2],
    /// Next-moves and reports at an end of an earlier chapter: accepted or 19, 18 and 17.
    at_joints: [usize; 3],
    /// Rounds with a rest behind the last chapter that counts for nothing.
    rests: [usize; 1],
    /// Places of parts that the run's own chapter doesn't name.
    parts_of_others: [usize; 1],
}

impl Chaptered {
    fn note(&mut self, round: &Round, (cell, joined): &(Cell, Joined), answers: &Answers) {
        self.rests[0] += usize::from(!round.recipes.len().is_multiple_of(RECIPE_BYTES));
        let run = run_of_bytes(&round.run);
        let refusals = [answers.next_move >> 32, answers.report.into()];
        if !joined.holds(&run) {
            let elsewhere = Run {
                point: 0,
                chapter: 0,
                ..run
            };
            if usize::from(run.chapter) >= joined.chapters.len() && joined.holds(&elsewhere) {
                let all = [refusals[0], refusals[1], u64::from(answers.place / 256)];
                (0..3).for_each(|n| self.chapter_not_there[n] += usize::from(all[n] == 16));
            }
            return;
        }
        let at_end = joined.is_end(run.chapter, run.point);
        if at_end && joined.is_earlier(run.chapter) {
            let [next_move, report] = refusals;
            self.at_joints[0] += usize::from(next_move == 0 && report == 19);
            self.at_joints[1] += usize::from(next_move == 18 && report == 18);
            self.at_joints[2] += usize::from(report == 17);
        }
        if refusals[0] == 0 {
            self.moves[usize::from(run.chapter)] += 1;
        }
        if refusals == [0, 0] {
            let made = joined.makes(cell, &run, answers.next_move as u32, round.outcome);
            let landed = made.is_some_and(|made| made.chapter > run.chapter);
            self.landings[usize::from(round.outcome)] += usize::from(landed);
        }
        let own = Joined::of(cell, slice::from_ref(joined.chapter(run.chapter)));
        let part = usize::from(round.part);
        let of_others = (own.sizes.parts..joined.sizes.parts).contains(&part);
        self.parts_of_others[0] += usize::from(of_others && answers.place < 256);
    }

    /// Prints what was seen and wants enough of everything.
    fn judge(&self) {
        println!("next-moves by chapter: {:?}", self.moves);
        assert!(self.moves.iter().all(|&times| times >= LEAST_SEEN / 2));
        let all: [(&str, &[usize]); 5] = [
            ("16 for the chapter alone", &self.chapter_not_there),
            ("reports that land, by outcome", &self.landings),
            ("at an earlier end: 19, 18 and 17", &self.at_joints),
            ("rests that count for nothing", &self.rests),
            ("parts of other chapters", &self.parts_of_others),
        ];
        for (name, seen) in all {
            println!("{name}: {seen:?}");
            assert!(seen.iter().all(|&times| times >= LEAST_SEEN), "{name}");
        }
    }
}

impl Seen {
    /// Notes what a round's calls answered.
    fn note(&mut self, round: &Round, table: &Table, answers: &Answers) {
        let Answers {
            check,
            next_move,
            report,
            place,
        } = *answers;
        let refusals = [check, (next_move >> 32) as u32, report, place / 256];
        for (times, refusal) in self.refusals.iter_mut().zip(refusals) {
            self.calls += 1;
            times[refusal as usize] += 1;
        }
        self.note_chapters(round, refusals);
        let cell = cell_of_bytes(&round.cell);
        self.limits_past_range[0] += usize::from(limits_leave_range(&cell));
        let Some(records) = accepted(&round.cell, &round.recipes) else {
            return;
        };
        if !records.1.chapters.iter().all(every_point_is_reached) {
            for (times, refusal) in self.unreached.iter_mut().zip(refusals) {
                *times += usize::from(refusal == 0);
            }
        }
        if records.1.chapters.len() > 1 {
            self.chaptered.note(round, &records, answers);
        }
        let run = run_of_bytes(&round.run);
        if records.1.holds(&run) && next_move >> 32 != u64::from(TOO_SHORT) {
            let entry = table.entries()[records.1.position(&run) as usize];
            self.note_move(round, &records, entry, answers);
        }
    }

    /// Notes why the calls were refused with 24, if they were.
    fn note_chapters(&mut self, round: &Round, refusals: [u32; 4]) {
        let reason = reason_for_24(&round.recipes);
        for (times, refusal) in self.chapters.iter_mut().zip(refusals) {
            times[reason] += usize::from(refusal == BAD_CHAPTERS.into());
        }
    }

    /// Notes the move at a run that is there, made or refused.
    fn note_move(
        &mut self,
        round: &Round,
        records: &(Cell, Joined),
        entry: u32,
        answers: &Answers,
    ) {
        if records.0.limits != NO_LIMITS {
            self.note_limited_move(records, round, entry, answers);
        }
        self.note_second_letter(records, round, entry, answers);
        self.note_lane(records, round, entry, answers);
        if answers.next_move as u32 != 0 {
            self.moves[kind_of(entry) as usize] += 1;
            if answers.report == 0 || answers.report == 19 {
                self.note_report(records, round, entry);
            }
        }
    }

    /// Notes what the limits of a cell have to do with the answers.
    fn note_limited_move(
        &mut self,
        (cell, joined): &(Cell, Joined),
        round: &Round,
        entry: u32,
        answers: &Answers,
    ) {
        let run = run_of_bytes(&round.run);
        let overfull = is_overfull(cell, &run.configuration);
        let open = |cell| joined.is_open(cell, &run, entry);
        let kind = kind_of(entry) as usize;
        match answers.next_move >> 32 {
            0 if overfull => self.mending[kind] += 1,
            0 => {
                let just_fits = !open(&tighter(cell));
                self.just_fitting[kind] += usize::from(just_fits);
            }
            18 if open(&unlimited(cell)) => self.shut[usize::from(overfull)][kind] += 1,
            _ => {}
        }
    }

    /// Notes a transfer that would be open without a photocell.
    fn note_lane(
        &mut self,
        (cell, joined): &(Cell, Joined),
        round: &Round,
        entry: u32,
        answers: &Answers,
    ) {
        if kind_of(entry) == TRANSFER && answers.next_move >> 32 == 18 {
            let run = run_of_bytes(&round.run);
            let open = joined.is_open(&without_photocells(cell), &run, entry);
            self.not_started[0] += usize::from(open);
        }
    }

    /// Notes an entry at a test that would be open with another second letter.
    fn note_second_letter(
        &mut self,
        (cell, joined): &(Cell, Joined),
        round: &Round,
        entry: u32,
        answers: &Answers,
    ) {
        let run = run_of_bytes(&round.run);
        let recipe = joined.chapter(run.chapter);
        let is_test = recipe.kind[pairs::lines_at(recipe, run.point)[0]] == TEST;
        if !is_test || answers.next_move >> 32 != 18 {
            return;
        }
        let [a, b, c, d] = letters_of(entry);
        let gate = cell.line_on_failure(a);
        let other = entry_of(kind_of(entry), [a, gate, c, d]);
        if b != gate && joined.is_open(cell, &run, other) {
            self.other_gates[usize::from(gate != a)] += 1;
        }
    }

    /// Notes a report that was made, or refused at an end.
    fn note_report(&mut self, (cell, joined): &(Cell, Joined), round: &Round, entry: u32) {
        let run = run_of_bytes(&round.run);
        let kind = kind_of(entry);
        self.reports[kind as usize] += 1;
        if kind == TRANSFER {
            let [out, ..] = letters_of(entry);
            let giver = cell.resource[out] + 1;
            let places = run.configuration.places.iter();
            let parts = places.filter(|&&place| place == giver).count();
            self.handed_over[parts.min(2)] += 1;
            if cell.is_loaded_lane(out) {
                self.loaded[parts.min(2) - 1] += 1;
            }
        }
        if kind == CARRY {
            self.note_carry(cell, joined.chapter(run.chapter), entry, round);
        }
    }

    fn note_carry(&mut self, cell: &Cell, recipe: &Recipe, entry: u32, round: &Round) {
        let lines = pairs::lines_at(recipe, run_of_bytes(&round.run).point);
        let is_parted = |&line: &usize| cell.to[line] != cell.to[cell.line_on_failure(line)];
        let letters = letters_of(entry);
        let parted = usize::from(letters[..lines.len()].iter().any(is_parted));
        if recipe.kind[lines[0]] == TEST {
            self.tests[usize::from(round.outcome)] += 1;
            self.parted[usize::from(round.outcome)] += parted;
            return;
        }
        self.gated_dos[0] += parted;
        self.parallel[lines.len()] += 1;
        let same = lines
            .iter()
            .any(|&n| recipe.takes[n] & recipe.gives[n] != 0);
        let other = lines.iter().any(|&n| {
            let differs = |&&m: &&usize| m != n;
            let mut others = lines.iter().filter(differs);
            others.any(|&m| recipe.takes[n] & recipe.gives[m] != 0)
        });
        self.exchanged[0] += usize::from(same);
        self.exchanged[1] += usize::from(other);
    }

    /// Prints what was seen and wants enough of everything: so many calls, 24 for each of these reasons, and so
    /// often each kind of move.
    fn judge(&self, least_calls: usize, reasons: RangeInclusive<usize>, least_moves: usize) {
        println!("{} calls", self.calls);
        assert!(self.calls >= least_calls);
        self.judge_refusals("check", 0, &[3..=13, 20..=20, 23..=24]);
        let of_next_move = [3..=14, 16..=16, 18..=18, 20..=20, 23..=24];
        self.judge_refusals("next-move", 1, &of_next_move);
        self.judge_refusals("report", 2, &[3..=14, 16..=20, 23..=24]);
        self.judge_refusals("place", 3, &[3..=13, 16..=16, 20..=20, 23..=24]);
        println!(
            "24 in each for none, too many and a joint {:?}",
            self.chapters
        );
        for seen in &self.chapters {
            assert!(seen[reasons.clone()]
                .iter()
                .all(|&times| times >= LEAST_SEEN));
        }
        for (name, seen) in self.moves_seen().into_iter().chain(self.limits_seen()) {
            println!("{name}: {seen:?}");
            assert!(seen.iter().all(|&times| times >= least_moves), "{name}");
        }
    }

    fn moves_seen(&self) -> [(&str, &[usize]); 12] {
        [
            ("accepted with an unreached point", &self.unreached[..]),
            ("next-moves of kind 1 to 4", &self.moves[1..]),
            ("reports of kind 1 to 4", &self.reports[1..]),
            ("dos of 1 to 4 lines", &self.parallel[1..]),
            ("tests of outcome 0 and 1", &self.tests),
            ("tests with a gate that leads elsewhere", &self.parted),
            ("dos beside a gate that leads elsewhere", &self.gated_dos),
            ("entries that the second letter shuts", &self.other_gates),
            ("transfers of no part, one, several", &self.handed_over),
            ("of one, several through a photocell", &self.loaded),
            ("transfers that a photocell shuts", &self.not_started),
            (
                "dos that give what they take, here and there",
                &self.exchanged,
            ),
        ]
    }

    fn limits_seen(&self) -> [(&str, &[usize]); 6] {
        [
            ("refusals 4 for a limit alone", &self.limits_past_range[..]),
            // Internal work moves no part, so that it neither fills a station nor mends one.
            (
                "transfers and carries that limits shut",
                &self.shut[0][2..4],
            ),
            ("moves that an overfull station shuts", &self.shut[1][1..4]),
            ("transfers and carries that mend one", &self.mending[2..4]),
            ("ends with an overfull station", &self.mending[4..]),
            (
                "transfers and carries that just fit",
                &self.just_fitting[2..4],
            ),
        ]
    }

    /// A call must be accepted and refused by each of these rules often enough, and by no other.
    fn judge_refusals(&self, name: &str, call: usize, rules: &[RangeInclusive<usize>]) {
        let times = self.refusals[call];
        println!("{name}: accepted and refused by each rule {times:?}");
        for (number, times) in times.into_iter().enumerate() {
            if number == 0 || rules.iter().any(|rules| rules.contains(&number)) {
                assert!(times >= LEAST_SEEN, "{name}: {number} was seen too seldom");
            } else {
                assert_eq!(times, 0, "{name} cannot be refused by rule {number}");
            }
        }
    }
}

/// The cell with room for one part less at each station with a limit.
fn tighter(cell: &Cell) -> Cell {
    let less = |most| if most == NO_LIMIT { most } else { most - 1 };
    Cell {
        limits: cell.limits.map(less),
        ..cell.clone()
    }
}

/// A run for accepted records, with the entry to try there.
fn seeded_run((cell, joined): &(Cell, Joined), random: &mut Random) -> (Run, u32) {
    // Not every try finds lines for its kind of move, or a run without an overfull station, which is
    // wanted once in three times.
    let any_places = random.below(3) > 0;
    let tries = (0..8).find_map(|_| {
        let kind = random.choose(&[1, 2, 2, 2, 3, 3, 3, 3, 4]);
        let found = pairs::run_with_move(cell, joined, kind, random);
        found.filter(|(run, _)| any_places || !is_overfull(cell, &run.configuration))
    });
    let (mut run, mut entry) = tries.unwrap_or_else(|| (pairs::any_run(joined, random), 0));
    match random.below(18) {
        0..=2 => entry = pairs::other_entry(entry, cell, random),
        3 | 4 => pairs::other_configuration(&mut run, &joined.sizes, random),
        5 => {
            let kind = 1 + random.number(4);
            let elsewhere = pairs::run_with_move(cell, joined, kind, random);
            entry = elsewhere.map_or(entry, |(_, other)| other);
        }
        6 => run = pairs::any_run(joined, random),
        7..=11 => pairs::crowd(&mut run, entry, cell, joined, random),
        12..=14 => entry = pairs::other_second_letter(entry, cell, random),
        _ => {}
    }
    (run, entry)
}

/// A run's bytes, at times with one that leaves its range, too few of them or some too many.
fn seeded_run_bytes(run: &Run, joined: &Joined, random: &mut Random) -> Vec<u8> {
    let mut bytes = run_bytes(run).to_vec();
    let at = random.below(RUN_BYTES);
    let sizes = &joined.sizes;
    match random.below(26) {
        0 => bytes[at] = random.byte(),
        1 => bytes[at] = bytes[at].wrapping_add(random.choose(&[1, 255])),
        2 => {
            // Each number's count, which is the first that is out of range.
            bytes[at] = match at {
                0 => points_of(joined, run.chapter),
                1..=6 => sizes.states[at - 1].max(1) as u8,
                15 => joined.chapters.len() as u8,
                _ if at - 7 < sizes.parts => sizes.resources as u8 + 1,
                _ => 1,
            };
        }
        3 => bytes.fill_with(|| random.byte()),
        4 => bytes.truncate(random.below(RUN_BYTES)),
        5..=8 => bytes.extend((0..1 + random.below(20)).map(|_| random.byte())),
        // A run as it was before there were chapters.
        9 => bytes.truncate(RUN_BYTES - 1),
        10 => bytes[15] = random.choose(&[joined.chapters.len() as u8, 8, 255]),
        _ => {}
    }
    bytes
}

/// How many points a chapter has.
fn points_of(joined: &Joined, chapter: u8) -> u8 {
    (joined.positions_of(chapter) / joined.sizes.configurations()) as u8
}

/// How many entries to hand in where `positions` are needed.
fn seeded_length(positions: usize, random: &mut Random) -> usize {
    match random.below(16) {
        0 => positions - 1,
        1 => random.below(positions),
        2 | 3 => positions + 1,
        4 | 5 => positions + random.below(Table::SPARE + 1),
        _ => positions,
    }
}

/// A run and a number of entries for these records. The entry to try is put at the run's position.
fn seeded_run_and_table(
    records: &(Cell, Joined),
    table: &mut Table,
    random: &mut Random,
) -> (Vec<u8>, usize) {
    let joined = &records.1;
    let (run, entry) = seeded_run(records, random);
    let bytes = seeded_run_bytes(&run, joined, random);
    let positions = joined.sizes.positions as usize;
    // Some chapters are too great together for the table.
    if positions > table.entries().len() - Table::SPARE {
        return (bytes, random.choose(&[0, table.entries().len()]));
    }
    let run = run_of_bytes(&bytes);
    if joined.holds(&run) {
        table.set(joined.position(&run), entry);
    }
    (bytes, seeded_length(positions, random))
}

/// A run and a number of entries for records that are refused before these count.
fn any_run_and_table(random: &mut Random) -> (Vec<u8>, usize) {
    let mut run = vec![0; random.choose(&[0, RUN_BYTES - 1, RUN_BYTES, RUN_BYTES, 40])];
    if random.coin() {
        run.fill_with(|| random.byte());
    }
    (run, random.choose(&[0, 1, 90, 8192]))
}

/// One round of calls.
fn seeded_round(pair: &Pair, table: &mut Table, random: &mut Random) -> Round {
    let (cell, recipes) = seeded_records(pair, random);
    let (run, entries) = match accepted(&cell, &recipes) {
        Some(records) => seeded_run_and_table(&records, table, random),
        None => any_run_and_table(random),
    };
    let outcome = match random.below(8) {
        0 => random.byte(),
        _ => random.below(2) as u8,
    };
    let part = match random.below(4) {
        0 => random.byte(),
        _ => random.below(9) as u8,
    };
    Round {
        cell,
        recipes,
        run,
        entries,
        outcome,
        part,
    }
}

/// Rounds of calls on so many pairs, each with as many chapters as are named for its number.
fn seeded_rounds(
    pairs: usize,
    chapters: impl Fn(&mut Random) -> usize,
    most_positions: usize,
    random: &mut Random,
) -> Seen {
    let mut table = Table::seeded(most_positions, random);
    let mut seen = Seen::default();
    let mut gated = 0;
    for n in 0..pairs {
        // Most tables are small; some come near to the limit, and some pass it.
        let most = match n % 16 {
            0 => u64::MAX,
            1 => 4 * MOST_POSITIONS,
            2 => MOST_POSITIONS,
            3..=5 => 65_536,
            6..=8 => 1_024,
            _ => 8_192,
        };
        let count = chapters(random);
        let pair = pairs::good_chapters(most, count, random);
        gated += usize::from(pair.records().0.has_gates());
        let mut greatest = 0;
        for _ in 0..ROUNDS {
            let round = seeded_round(&pair, &mut table, random);
            seen.note(&round, &table, &compare(&round, &table));
            greatest = greatest.max(round.entries);
        }
        table.assert_unchanged(greatest);
    }
    table.assert_unchanged(table.entries().len());
    println!("{gated} cells of {pairs} with gates");
    assert!(3 * gated >= pairs);
    seen
}

#[test]
fn seeded_calls() {
    let mut random = Random::new(3);
    let seen = seeded_rounds(PAIRS, |_| 1, MOST_POSITIONS as usize, &mut random);
    seen.judge(LEAST_CALLS, 0..=1, LEAST_SEEN);
}

#[test]
fn seeded_calls_over_chapters() {
    let mut random = Random::new(5);
    let seen = seeded_rounds(
        PAIRS_IN_CHAPTERS,
        pairs::several,
        MOST_IN_CHAPTERS,
        &mut random,
    );
    seen.judge(LEAST_CALLS / 2, 0..=2, LEAST_SEEN / 2);
    seen.chaptered.judge();
}
