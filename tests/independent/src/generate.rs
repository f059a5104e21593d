//! Cells and recipes that fit each other, many of which are realisable. A recipe is written along a
//! walk through its cell, so that there is a way for it, and a further chapter along a walk that goes on where
//! the one before ended; then some are damaged in a place or more. There are cells with limits and without, more
//! than a third of them have gates, and more than a third have lanes that won't start empty. One recipe in ten
//! has points that are not reached from point 0, the others have none.

mod cell_lines;
mod chains;
mod cut;
mod great;
mod lanes;
mod walk;

pub use chains::chain_pair;
pub use cut::{cut, Cut};
pub use great::{
    dense_pair, gap_pair, long_ways_pair, mixed_pair, odometer_pair, stations_reversed, with_gates,
};
pub use lanes::{with_photocells, without_photocells};

use crate::cell::{cell_bytes, cell_of_bytes, Cell, GATE, IN, NO_LIMIT, OUT, PHOTOCELLS};
use crate::chapters::check;
use crate::joined::Joined;
use crate::random::Random;
use crate::recipe::{
    every_point_is_reached, recipe_of_bytes, Recipe, END, MOST_PARALLEL, RECIPE_BYTES,
};
use crate::sizes::{Configuration, MOST_PARTS, MOST_RESOURCES};
use crate::table::MOST_LINES;
use walk::{Chapter, Ends};

/// A value line of a cell, and one of a recipe.
type CellLine = [u8; 5];
type RecipeLine = [u8; 7];

/// The most parts that each resource may hold.
type Limits = [u8; MOST_RESOURCES];

const NO_LIMITS: Limits = [NO_LIMIT; MOST_RESOURCES];

const END_LINE: RecipeLine = [0, END, 0, 0, 0, 0, 0];

/// How often a cell is thrown away in which the walk finds nothing to do.
const MOST_TRIES: usize = 4;

/// One recipe in so many has unreached points.
const FORGETFUL: usize = 10;

/// What a cell may have beside its lines of the first four acts.
#[derive(Clone, Copy)]
struct Extras {
    limits: bool,
    gates: bool,
    /// More lanes than chance gives it, and unless it is wide two stations that have states to choose from.
    lanes: bool,
}

/// A cell without limits and a recipe, of at most this many positions, 50 or more, that pass the rules
/// 3 to 13.
pub fn likely_pair(most_positions: u64, random: &mut Random) -> (Cell, Recipe) {
    pair(most_positions, false, random)
}

/// The same with limits at some of the stations, most of which leave too little room for all parts.
pub fn limited_pair(most_positions: u64, random: &mut Random) -> (Cell, Recipe) {
    pair(most_positions, true, random)
}

fn pair(most_positions: u64, limits: bool, random: &mut Random) -> (Cell, Recipe) {
    let (cell, mut chapters) = chapters(most_positions, limits, 1, random);
    (cell, chapters.remove(0))
}

/// A cell without limits and so many chapters, seldom fewer, each of at most this many positions, 50 or more,
/// that pass the rules before 14.
pub fn likely_chapters(
    most_positions: u64,
    count: usize,
    random: &mut Random,
) -> (Cell, Vec<Recipe>) {
    chapters(most_positions, false, count, random)
}

/// The same with limits at some of the stations, most of which leave too little room for all parts.
pub fn limited_chapters(
    most_positions: u64,
    count: usize,
    random: &mut Random,
) -> (Cell, Vec<Recipe>) {
    chapters(most_positions, true, count, random)
}

fn chapters(
    most_positions: u64,
    limits: bool,
    count: usize,
    random: &mut Random,
) -> (Cell, Vec<Recipe>) {
    // A planner refuses every recipe with an unreached point, so chance alone would leave too few others.
    let forgets = random.once_in(FORGETFUL);
    // Not every cell has an operation at which there can be a gate, and some lose theirs.
    let gates = random.choose(&[true, true, false, false]);
    let extras = Extras {
        limits,
        gates,
        // The smallest pairs have no room for the states that they want.
        lanes: random.once_in(2) && most_positions >= 120,
    };
    let is_wanted = |chapters: &[Recipe]| chapters.iter().all(every_point_is_reached) != forgets;
    let likely = loop {
        let lines = likely_lines(most_positions, extras, count, random);
        if is_wanted(&lines.records().1) {
            break lines;
        }
    };
    let tries = random.choose(&[0, 8]);
    for _ in 0..tries {
        let (cell, chapters) = likely.clone().damaged(extras, random).records();
        let fits = || Joined::of(&cell, &chapters).greatest_positions() <= most_positions;
        if check(&cell, &chapters) == 0 && fits() && is_wanted(&chapters) {
            return (cell, chapters);
        }
    }
    likely.records()
}

/// The value lines of a cell, its limits, and the value lines of each chapter.
#[derive(Clone)]
struct Lines {
    cell: Vec<CellLine>,
    limits: Limits,
    chapters: Vec<Vec<RecipeLine>>,
}

impl Lines {
    fn records(&self) -> (Cell, Vec<Recipe>) {
        let chapters = self.chapters.iter().map(|lines| recipe_of_lines(lines));
        (limited_cell(&self.cell, self.limits), chapters.collect())
    }
}

/// The lines of a cell and of chapters for which there is a way, unless their points were too few or the
/// limits, the gates or the photocells were not looked at.
fn likely_lines(most_positions: u64, extras: Extras, count: usize, random: &mut Random) -> Lines {
    let only_ends = random.below(40);
    let mut tries = 0;
    loop {
        let shape = likely_shape(most_positions, extras, random);
        let cell = cell_lines::cell_lines(&shape, extras, random);
        let limits = match extras.limits {
            true => some_limits(shape.states.len(), random),
            false => NO_LIMITS,
        };
        let looked_at = match extras.limits && random.once_in(3) {
            true => NO_LIMITS,
            false => limits,
        };
        let mut looked_at = limited_cell(&cell, looked_at);
        if extras.gates && random.once_in(3) {
            looked_at = without_gates(&looked_at);
        }
        if random.once_in(3) {
            looked_at = without_photocells(&looked_at);
        }
        let chapters = likely_chapter_lines(&looked_at, &shape, count, only_ends, random);
        tries += 1;
        let does_something = chapters.len() == count && chapters[0].len() > 1;
        if does_something || only_ends < 2 && count == 1 || tries == MOST_TRIES {
            return Lines {
                cell,
                limits,
                chapters,
            };
        }
    }
}

/// The lines of so many chapters, or of fewer where one finds nothing to do and so has to be the last. If
/// `only_ends` is 0 or 1 the last is made of ends alone.
fn likely_chapter_lines(
    cell: &Cell,
    shape: &Shape,
    count: usize,
    only_ends: usize,
    random: &mut Random,
) -> Vec<Vec<RecipeLine>> {
    let mut chapters: Vec<Vec<RecipeLine>> = vec![];
    let mut from = Configuration::START;
    // The chapters mostly go on from each other; but each may begin anew, or be the first again.
    let style = if count > 1 { random.below(16) } else { 0 };
    while chapters.len() + 1 < count {
        let chapter = match (style, chapters.first()) {
            (1, Some(first)) => Chapter {
                lines: first.clone(),
                ended: None,
            },
            _ => earlier_chapter(cell, shape, from, random),
        };
        let begins_with_end = chapter.lines[0][1] == END;
        chapters.push(chapter.lines);
        if begins_with_end {
            return chapters;
        }
        if style > 1 {
            from = chapter.ended.unwrap_or(from);
        }
    }
    chapters.push(match (style, chapters.first()) {
        _ if only_ends < 2 => end_lines(only_ends, shape),
        (1, Some(first)) => first.clone(),
        _ => walk::chapter_lines(cell, shape, from, Ends::Anywhere, random).lines,
    });
    chapters
}

/// A chapter from a configuration, behind which others come, mostly one with an end that isn't its first point.
fn earlier_chapter(
    cell: &Cell,
    shape: &Shape,
    from: Configuration,
    random: &mut Random,
) -> Chapter {
    let tries = random.choose(&[0, MOST_TRIES, MOST_TRIES, MOST_TRIES]);
    let mut walk = || walk::chapter_lines(cell, shape, from, Ends::Together, random);
    let mut chapter = walk();
    for _ in 0..tries {
        if chapter.ended.is_some() && chapter.lines[0][1] != END {
            break;
        }
        chapter = walk();
    }
    chapter
}

/// One end, or nothing but ends.
fn end_lines(only_ends: usize, shape: &Shape) -> Vec<RecipeLine> {
    match only_ends {
        0 => vec![END_LINE],
        _ => (0..shape.points as u8)
            .map(|point| numbered(END_LINE, point))
            .collect(),
    }
}

/// A shape, with limits one of several parts, as one alone fills no station past its limit, with gates one in
/// which most stations have states to choose from, and with lanes one of two such stations at least, or a wide one.
fn likely_shape(most_positions: u64, extras: Extras, random: &mut Random) -> Shape {
    loop {
        let shape = Shape::new(most_positions, random);
        let several = shape.states.iter().filter(|&&count| count > 1).count();
        let choose = 3 * several >= 2 * shape.states.len();
        let has_lanes = shape.wide || several > 1;
        if (shape.parts > 1 || !extras.limits)
            && (choose || !extras.gates)
            && (has_lanes || !extras.lanes)
        {
            return shape;
        }
    }
}

/// Limits for so many resources, most of them small.
fn some_limits(resources: usize, random: &mut Random) -> Limits {
    let mut limits = NO_LIMITS;
    limits[..resources].fill_with(|| random.choose(&[1, 1, 2, 2, 3, 4, NO_LIMIT]));
    limits
}

/// How great a pair may become.
#[derive(Clone)]
struct Shape {
    /// Parallel lines want many stations, for which small cells have room if they do little else.
    wide: bool,
    /// How many states each resource may have.
    states: Vec<u8>,
    parts: usize,
    points: usize,
}

impl Shape {
    fn new(most_positions: u64, random: &mut Random) -> Shape {
        let wide = random.once_in(3);
        let resources = match wide {
            true => random.choose(&[4, 4, 4, 5, 6]),
            false => random.choose(&[1, 2, 2, 3, 3, 4, 5, 6]),
        };
        let most_states = match wide {
            true => random.choose(&[1, 1, 2]),
            false => random.choose(&[2, 2, 3, 3, 4, 8]),
        };
        let states = (0..resources).map(|_| 1 + random.below(most_states) as u8);
        let mut shape = Shape {
            wide,
            states: states.collect(),
            parts: match wide {
                true => random.choose(&[2, 2, 3, 4]),
                false => random.choose(&[1, 1, 2, 2, 3, 4, 5, 8]),
            },
            points: random.choose(&[2, 3, 4, 5, 6, 8, 12, 16]),
        };
        while shape.positions() > most_positions {
            shape.shrink(random);
        }
        for _ in 0..random.choose(&[0, 0, 5, 40]) {
            shape.grow(most_positions, random);
        }
        shape
    }

    /// Adds a state, a part or a point if there is room for it.
    fn grow(&mut self, most_positions: u64, random: &mut Random) {
        let before = self.clone();
        let k = random.below(self.states.len());
        match random.below(3) {
            0 => self.states[k] = (self.states[k] + 1).min(8),
            1 => self.parts = (self.parts + 1).min(MOST_PARTS),
            _ => self.points = (self.points + 1).min(16),
        }
        if self.positions() > most_positions {
            *self = before;
        }
    }

    fn positions(&self) -> u64 {
        let joint_states: u64 = self.states.iter().map(|&count| u64::from(count)).product();
        let placings = (self.states.len() as u64 + 1).pow(self.parts as u32);
        self.points as u64 * joint_states * placings
    }

    fn shrink(&mut self, random: &mut Random) {
        let (fewest_resources, fewest_parts) = if self.wide { (4, 2) } else { (1, 1) };
        let k = random.below(self.states.len());
        match random.below(8) {
            0 if self.states.len() > fewest_resources => _ = self.states.pop(),
            1..=3 => self.states[k] = (self.states[k] - 1).max(1),
            4 | 5 => self.parts = (self.parts - 1).max(fewest_parts),
            _ => self.points = (self.points - 1).max(1),
        }
    }
}

impl Lines {
    /// The same with up to three lines changed or left out, or limits lowered, or other ends of gates, or lanes
    /// that get a photocell or lose theirs.
    fn damaged(mut self, extras: Extras, random: &mut Random) -> Lines {
        let Lines {
            cell,
            limits,
            chapters,
        } = &mut self;
        for _ in 0..1 + random.below(3) {
            let chapter = match chapters.len() {
                1 => 0,
                count => random.below(count),
            };
            let recipe = &mut chapters[chapter];
            let cell_line = random.below(cell.len());
            let recipe_line = random.below(recipe.len());
            if extras.gates && random.once_in(3) {
                turn_gate(cell, random);
                continue;
            }
            if random.once_in(6) {
                turn_lane(cell, random);
                continue;
            }
            if extras.limits && random.once_in(2) {
                let most = &mut limits[usize::from(cell[cell_line][0])];
                *most = 1 + random.below(usize::from(*most).min(4)) as u8;
                continue;
            }
            let field = random.below(7);
            match field {
                0 if cell.len() > 1 => _ = cell.remove(cell_line),
                0 | 1 => cell[cell_line][1] = random.below(4) as u8,
                2 => recipe[recipe_line][field] = random.below(4) as u8,
                3 if random.once_in(2) => cell[cell_line][field] = random.below(4) as u8,
                3 | 4 => recipe[recipe_line][field] ^= 1 << random.below(3),
                _ => recipe[recipe_line][field] = random.below(recipe.len()) as u8,
            }
        }
        self
    }
}

/// Leads some gate, if there is one, to another state.
fn turn_gate(cell: &mut [CellLine], random: &mut Random) {
    let gates: Vec<usize> = (0..cell.len()).filter(|&n| cell[n][2] == GATE).collect();
    if !gates.is_empty() {
        cell[random.choose(&gates)][4] = random.below(4) as u8;
    }
}

/// Moves some lane, if there is one, to the other side of the last port with a photocell.
fn turn_lane(cell: &mut [CellLine], random: &mut Random) {
    let outs: Vec<usize> = (0..cell.len()).filter(|&n| cell[n][2] == OUT).collect();
    if outs.is_empty() {
        return;
    }
    let port = cell[random.choose(&outs)][3];
    let on_port = |line: &&mut CellLine| matches!(line[2], IN | OUT) && line[3] == port;
    for line in cell.iter_mut().filter(on_port) {
        line[3] = (port + PHOTOCELLS) % (2 * PHOTOCELLS);
    }
}

/// A recipe line with another point.
fn numbered(mut line: RecipeLine, point: u8) -> RecipeLine {
    line[0] = point;
    line
}

fn limited_cell(lines: &[CellLine], limits: Limits) -> Cell {
    Cell {
        limits,
        ..cell_of_lines(lines)
    }
}

fn cell_of_lines(lines: &[CellLine]) -> Cell {
    let mut bytes = cell_bytes(&Cell::EMPTY);
    bytes[0] = lines.len() as u8;
    for (at, line) in bytes[1..].chunks_exact_mut(5).zip(lines) {
        at.copy_from_slice(line);
    }
    cell_of_bytes(&bytes)
}

/// The cell with those of its lines that `keep` names, and with its limits.
fn keeping(cell: &Cell, keep: impl Fn(usize) -> bool) -> Cell {
    let kept = (0..usize::from(cell.count)).filter(|&n| keep(n));
    let lines: Vec<CellLine> = kept.map(|n| cell.line(n)).collect();
    limited_cell(&lines, cell.limits)
}

/// The cell without its gates.
pub fn without_gates(cell: &Cell) -> Cell {
    keeping(cell, |n| cell.act[n] != GATE)
}

/// These points, and behind them all others to which branches lead from them.
fn with_all_behind(recipe: &Recipe, mut found: Vec<u8>) -> Vec<u8> {
    let mut n = 0;
    while n < found.len() {
        for branch in recipe.branches_at(found[n]) {
            if !found.contains(&branch) {
                found.push(branch);
            }
        }
        n += 1;
    }
    found
}

fn recipe_of_lines(lines: &[RecipeLine]) -> Recipe {
    let mut bytes = [0; RECIPE_BYTES];
    bytes[0] = lines.len() as u8;
    for (at, line) in bytes[1..].chunks_exact_mut(7).zip(lines) {
        at.copy_from_slice(line);
    }
    recipe_of_bytes(&bytes)
}

#[cfg(test)]
mod tests {
    use super::*;
    use crate::entry::{kind_of, letters_of, makes, TRANSFER};
    use crate::fixtures::{limited, planned, planned_chapters};
    use crate::limits::is_overfull;
    use crate::recipe::TEST;
    use crate::run::Run;
    use crate::single;
    use crate::sizes::Sizes;

    /// How often each feature is met.
    #[derive(Debug, Default)]
    struct Counts {
        realisable: usize,
        tests: usize,
        rework: usize,
        parallel: [usize; MOST_PARALLEL],
        transfers: usize,
        silent_rings: usize,
        several_parts: usize,
        unreached_points: usize,
        one_end: usize,
        no_parts: usize,
        no_end: usize,
    }

    /// The points to which one or more branches lead from a point.
    fn points_after(recipe: &Recipe, point: u8) -> Vec<u8> {
        with_all_behind(recipe, recipe.branches_at(point))
    }

    /// The positions to which the planned moves from the start lead, whatever the outcomes.
    fn met_from_start(cell: &Cell, recipe: &Recipe, table: &[u32]) -> Vec<u64> {
        let sizes = Sizes::of(cell, recipe);
        let mut met = vec![0];
        let mut n = 0;
        while n < met.len() {
            let (point, configuration) = sizes.at(met[n]);
            let entry = table[met[n] as usize];
            for outcome in [0, 1] {
                let made = makes(cell, recipe, point, &configuration, entry, outcome);
                let next = made.map(|(point, c)| sizes.position(point, &c));
                met.extend(next.filter(|next| !met.contains(next)));
            }
            n += 1;
        }
        met
    }

    /// Whether the planned moves from the start have a transfer among them, whatever the outcomes.
    fn uses_a_transfer(cell: &Cell, recipe: &Recipe, table: &[u32]) -> bool {
        let met = met_from_start(cell, recipe, table);
        met.iter().any(|&p| kind_of(table[p as usize]) == TRANSFER)
    }

    /// Whether they have a test among them of which outcome 0 ends elsewhere than outcome 1.
    fn uses_a_gate(cell: &Cell, recipe: &Recipe, table: &[u32]) -> bool {
        let sizes = Sizes::of(cell, recipe);
        let met = met_from_start(cell, recipe, table);
        met.iter().any(|&position| {
            let (point, configuration) = sizes.at(position);
            let entry = table[position as usize];
            let made =
                [0, 1].map(|outcome| makes(cell, recipe, point, &configuration, entry, outcome));
            let [failed, passed] = made.map(|made| made.map(|(_, configuration)| configuration));
            failed != passed
        })
    }

    impl Counts {
        fn add(&mut self, cell: &Cell, recipe: &Recipe) {
            let sizes = Sizes::of(cell, recipe);
            let points = 0..sizes.points as u8;
            let after = points_after(recipe, 0);
            let reached: Vec<u8> = points
                .clone()
                .filter(|p| *p == 0 || after.contains(p))
                .collect();
            let kind_met = |kind| reached.iter().any(|&point| recipe.kind_at(point) == kind);
            let all_reached = reached.len() == points.len();
            assert_eq!(every_point_is_reached(recipe), all_reached);
            let (refusal, table) = planned(cell, recipe);
            let accepted = refusal == 0 && all_reached;
            let loops = |&point: &u8| points_after(recipe, point).contains(&point);
            self.realisable += usize::from(accepted);
            self.tests += usize::from(accepted && kind_met(TEST));
            self.no_end += usize::from(accepted && !kind_met(END));
            self.rework += usize::from(accepted && kind_met(TEST) && reached.iter().any(loops));
            for lines in reached.iter().map(|&point| recipe.lines_at(point).len()) {
                self.parallel[lines - 1] += usize::from(accepted);
            }
            self.transfers += usize::from(accepted && uses_a_transfer(cell, recipe, &table));
            self.silent_rings +=
                usize::from(walk::has_silent_ring(cell, &Run::fresh().configuration));
            self.several_parts += usize::from(accepted && sizes.parts > 1);
            self.unreached_points += usize::from(!all_reached);
            self.one_end += usize::from(recipe.count == 1 && kind_met(END));
            self.no_parts += usize::from(sizes.parts == 0);
        }
    }

    fn counts(most_positions: u64, pairs: usize, seed: u64) -> Counts {
        let mut random = Random(seed);
        let mut counts = Counts::default();
        for _ in 0..pairs {
            let (cell, recipe) = likely_pair(most_positions, &mut random);
            assert_eq!(single::check(&cell, &recipe), 0);
            assert!(Sizes::of(&cell, &recipe).positions <= most_positions);
            counts.add(&cell, &recipe);
        }
        counts
    }

    #[test]
    fn many_are_realisable_and_every_feature_is_met() {
        for (most_positions, pairs, seed) in [(400, 3000, 31), (20_000, 600, 32)] {
            let counts = counts(most_positions, pairs, seed);
            assert!(3 * counts.realisable > pairs && 10 * counts.realisable < 9 * pairs);
            let Counts {
                tests,
                rework,
                parallel,
                transfers,
                silent_rings,
                several_parts,
                unreached_points,
                one_end,
                no_parts,
                no_end,
                ..
            } = counts;
            let often = [tests, transfers, silent_rings, several_parts, rework];
            assert!(often.iter().all(|&count| 20 * count > pairs));
            let seldom = [one_end, no_parts, no_end];
            let met = |count: &usize| 100 * count > pairs;
            assert!(seldom.iter().chain(&parallel).all(met));
            assert_about_a_tenth(unreached_points, pairs);
        }
    }

    fn assert_about_a_tenth(count: usize, pairs: usize) {
        assert!(14 * count > pairs && 7 * count < pairs, "{count}");
    }

    /// How often limits matter among limited pairs.
    #[derive(Debug, Default)]
    struct Limited {
        realisable: usize,
        /// Some position has an overfull station.
        overfull: usize,
        /// Not realisable, but without limits.
        lost: usize,
        /// Realisable, but some position without an overfull station is lost to the limits.
        narrowed: usize,
    }

    impl Limited {
        fn add(&mut self, cell: &Cell, recipe: &Recipe) {
            let sizes = Sizes::of(cell, recipe);
            let unlimited = limited(cell.clone(), &NO_LIMITS);
            let (refusal, table) = planned(cell, recipe);
            let (unlimited_refusal, unlimited_table) = planned(&unlimited, recipe);
            let overfull = |p: usize| is_overfull(cell, &sizes.at(p as u64).1);
            let lost = |p: usize| !overfull(p) && table[p] == 0 && unlimited_table[p] != 0;
            self.realisable += usize::from(refusal == 0);
            self.overfull += usize::from((0..table.len()).any(overfull));
            self.lost += usize::from(refusal != 0 && unlimited_refusal == 0);
            self.narrowed += usize::from(refusal == 0 && (0..table.len()).any(lost));
        }
    }

    #[test]
    fn limited_pairs_are_realisable_or_not_for_their_limits() {
        let mut random = Random(33);
        let mut counts = Limited::default();
        let mut unreached_points = 0;
        let pairs = 2000;
        for _ in 0..pairs {
            let (cell, recipe) = limited_pair(400, &mut random);
            assert_eq!(single::check(&cell, &recipe), 0);
            assert!(Sizes::of(&cell, &recipe).positions <= 400);
            counts.add(&cell, &recipe);
            unreached_points += usize::from(!every_point_is_reached(&recipe));
        }
        assert_about_a_tenth(unreached_points, pairs);
        let Limited {
            realisable,
            overfull,
            lost,
            narrowed,
        } = counts;
        assert!(3 * realisable > pairs && 2 * overfull > pairs);
        assert!(20 * lost > pairs && 20 * narrowed > pairs, "{counts:?}");
    }

    /// How often gates are there and matter.
    #[derive(Debug, Default)]
    struct Gated {
        /// Cells with gates.
        cells: usize,
        /// Of these, those with which the recipe is realisable, and those of them that use a gate.
        realisable: usize,
        used: usize,
        /// Not realisable, but without gates; and realisable, but not without.
        lost: usize,
        gained: usize,
    }

    impl Gated {
        fn add(&mut self, cell: &Cell, recipe: &Recipe) {
            let (refusal, table) = planned(cell, recipe);
            let realisable = refusal == 0;
            let ungated = planned(&without_gates(cell), recipe).0 == 0;
            self.cells += 1;
            self.realisable += usize::from(realisable);
            self.used += usize::from(realisable && uses_a_gate(cell, recipe, &table));
            self.lost += usize::from(!realisable && ungated);
            self.gained += usize::from(realisable && !ungated);
        }
    }

    #[test]
    fn a_third_of_the_cells_have_gates_and_many_of_these_matter() {
        for (most_positions, pairs, seed) in [(400, 2000, 34), (20_000, 400, 35)] {
            let mut random = Random(seed);
            let mut counts = Gated::default();
            for n in 0..pairs {
                let pair = [likely_pair, limited_pair][n % 2];
                let (cell, recipe) = pair(most_positions, &mut random);
                if cell.has_gates() {
                    counts.add(&cell, &recipe);
                }
            }
            let Gated {
                cells,
                realisable,
                used,
                lost,
                gained,
            } = counts;
            println!("{pairs} pairs: {counts:?}");
            assert!(3 * cells >= pairs && 3 * realisable >= cells, "{counts:?}");
            assert!(6 * used >= cells && 40 * gained >= cells && 100 * lost >= cells);
        }
    }

    /// How often lanes are there and matter, among pairs.
    #[derive(Debug, Default)]
    struct Laned {
        /// Cells with a lane that won't start empty, and with one that will.
        guarded: usize,
        free: usize,
        /// The planned moves from the start hand over nothing in some transfer.
        empty: usize,
        /// Realisable, but not with photocells everywhere.
        needed: usize,
        /// Not realisable, but without photocells.
        lost: usize,
        /// Realisable, but some position is lost to the photocells.
        narrowed: usize,
    }

    /// Whether the planned moves from the start have a transfer among them whose giver holds nothing.
    fn moves_an_empty_pallet(cell: &Cell, recipe: &Recipe, table: &[u32]) -> bool {
        let sizes = Sizes::of(cell, recipe);
        let met = met_from_start(cell, recipe, table);
        met.iter().any(|&position| {
            let entry = table[position as usize];
            let giver = cell.resource[letters_of(entry)[0]];
            let places = sizes.at(position).1.places;
            kind_of(entry) == TRANSFER && !places.contains(&(giver + 1))
        })
    }

    impl Laned {
        fn add(&mut self, cell: &Cell, recipe: &Recipe) {
            let outs = (0..usize::from(cell.count)).filter(|&n| cell.act[n] == OUT);
            let guarded = |n: usize| cell.is_loaded_lane(n);
            self.guarded += usize::from(outs.clone().any(guarded));
            self.free += usize::from(outs.clone().any(|n| !guarded(n)));
            let (refusal, table) = planned(cell, recipe);
            let (without, free_table) = planned(&without_photocells(cell), recipe);
            let (with, _) = planned(&with_photocells(cell), recipe);
            let moves_empty = moves_an_empty_pallet(cell, recipe, &table);
            self.empty += usize::from(refusal == 0 && moves_empty);
            self.needed += usize::from(refusal == 0 && with == 15);
            self.lost += usize::from(refusal == 15 && without == 0);
            self.narrowed += usize::from(refusal == 0 && table != free_table);
        }
    }

    #[test]
    fn lanes_start_empty_or_do_not_and_many_of_them_matter() {
        for (most_positions, pairs, seed) in [(400, 3000, 37), (20_000, 600, 38)] {
            let mut random = Random(seed);
            let mut counts = Laned::default();
            for n in 0..pairs {
                let pair = [likely_pair, limited_pair][n % 2];
                let (cell, recipe) = pair(most_positions, &mut random);
                counts.add(&cell, &recipe);
            }
            let Laned {
                guarded,
                free,
                empty,
                needed,
                lost,
                narrowed,
            } = counts;
            assert!(3 * guarded > pairs && 3 * free > pairs, "{counts:?}");
            assert!(40 * empty > pairs && 40 * needed > pairs, "{counts:?}");
            assert!(80 * lost > pairs && 15 * narrowed > pairs, "{counts:?}");
        }
    }

    #[test]
    fn a_cell_without_its_gates_keeps_all_else() {
        let (cell, recipe) = crate::fixtures::gate();
        let limited = limited(cell, &[1, 2]);
        let without = without_gates(&limited);
        assert_eq!((without.count, without.has_gates()), (6, false));
        assert_eq!(without.line(5), [1, 3, 1, 3, 0]);
        assert_eq!(without.limits, limited.limits);
        assert_eq!(single::check(&without, &recipe), 0);
        assert_eq!(without_gates(&without), without);
    }

    /// How often each feature of chapters is met, by their number.
    #[derive(Debug, Default)]
    struct Chaptered {
        seen: [usize; 9],
        realisable: [usize; 9],
        /// Realisable, and the planned moves come to the last chapter, on some outcomes.
        passed: [usize; 9],
        /// The first chapter alone is realisable, but not all of them.
        together: [usize; 9],
        /// Some chapter names a part that the first doesn't.
        new_parts: usize,
        unreached_points: usize,
        /// An earlier chapter has several ends, or none.
        several_ends: usize,
        endless: usize,
    }

    impl Chaptered {
        fn add(&mut self, cell: &Cell, joined: &Joined) {
            let count = joined.chapters.len();
            let (refusal, table) = planned_chapters(cell, joined);
            let realisable = refusal == 0;
            self.seen[count] += 1;
            self.realisable[count] += usize::from(realisable);
            let first = Joined::of(cell, &joined.chapters[..1]);
            let first_alone = planned_chapters(cell, &first).0 == 0;
            self.together[count] += usize::from(!realisable && first_alone);
            let met = joined_from_start(cell, joined, &table);
            let last = |&p: &u64| usize::from(joined.run_at(p).chapter) + 1 == count;
            self.passed[count] += usize::from(realisable && met.iter().any(last));
            self.new_parts += usize::from(first.sizes.parts < joined.sizes.parts);
            let all_reached = joined.chapters.iter().all(every_point_is_reached);
            self.unreached_points += usize::from(!all_reached);
            let ends = |chapter: &Recipe| {
                let points = 0..chapter.points();
                points.filter(|&p| chapter.kind_at(p) == END).count()
            };
            let earlier = joined.chapters[..count - 1].iter();
            self.several_ends += usize::from(earlier.clone().any(|chapter| ends(chapter) > 1));
            self.endless += usize::from(earlier.clone().any(|chapter| ends(chapter) == 0));
        }
    }

    /// The positions to which the planned moves from the start lead, whatever the outcomes.
    fn joined_from_start(cell: &Cell, joined: &Joined, table: &[u32]) -> Vec<u64> {
        let mut met = vec![0];
        let mut n = 0;
        while n < met.len() {
            let run = joined.run_at(met[n]);
            let entry = table[met[n] as usize];
            for outcome in [0, 1] {
                let made = joined.makes(cell, &run, entry, outcome);
                let next = made.map(|run| joined.position(&run));
                met.extend(next.filter(|next| !met.contains(next)));
            }
            n += 1;
        }
        met
    }

    #[test]
    fn many_chapters_are_realisable_and_their_joints_are_passed() {
        let mut random = Random(36);
        let mut counts = Chaptered::default();
        let wanted = 4000;
        for n in 0..wanted {
            let chapters = [likely_chapters, limited_chapters][n % 2];
            let (cell, chapters) = chapters(200, 1 + n / 2 % 8, &mut random);
            assert_eq!(check(&cell, &chapters), 0);
            let joined = Joined::of(&cell, &chapters);
            assert!(joined.greatest_positions() <= 200);
            counts.add(&cell, &joined);
        }
        println!("{counts:?}");
        for count in 2..=8 {
            let Chaptered {
                seen,
                realisable,
                passed,
                together,
                ..
            } = &counts;
            assert!(seen[count] >= 200 && 3 * realisable[count] > seen[count]);
            assert!(4 * passed[count] > seen[count] && 20 * together[count] > seen[count]);
        }
        let often = [counts.new_parts, counts.several_ends, counts.endless];
        assert!(often.iter().all(|&times| 20 * times > wanted));
        assert_about_a_tenth(counts.unreached_points, wanted);
    }

    #[test]
    fn the_same_seed_gives_the_same_pairs() {
        for seed in 0..50 {
            for pair in [likely_pair, limited_pair] {
                let first = pair(1000, &mut Random(seed));
                assert_eq!(first, pair(1000, &mut Random(seed)));
            }
        }
    }
}
