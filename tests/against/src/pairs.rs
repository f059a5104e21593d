//! Cells and recipes that fit each other, so that moves of every kind are open in them, in one chapter and in
//! several; and runs and entries to try on them.

use crate::generate::{self, Rows, DO, END, IN, INTERNAL, OPERATION, OUT, TEST};
use crate::random::Random;
use crate::{gates, points};
use crate::{CellFile, RecipeFile};
use independent::{
    carry_of, cell_bytes, cell_of_bytes, chapters_of_bytes, check_cell, entry_of, kind_of,
    letters_of, likely_chapters, likely_pair, limited_chapters, limited_pair, recipe_bytes,
    stored_table, Cell, Configuration, Joined, Recipe, Run, Sizes, CELL_BYTES, MOST_CHAPTERS,
    MOST_RESOURCES, NO_LIMIT,
};
use independent::{CARRY, INTERNAL as INTERNAL_MOVE, STAY, TRANSFER};

/// The limits of a cell without any.
pub const NO_LIMITS: [u8; MOST_RESOURCES] = [NO_LIMIT; MOST_RESOURCES];

/// Recipes that give one part after another, each by operation 1, and then end.
pub const TWO_GIVEN: [&str; 3] = ["0,1,1,0,1,1,0", "1,1,1,0,2,2,0", "2,0,0,0,0,0,0"];
pub const THREE_GIVEN: [&str; 4] = [
    "0,1,1,0,1,1,0",
    "1,1,1,0,2,2,0",
    "2,1,1,0,4,3,0",
    "3,0,0,0,0,0,0",
];

/// Points that are pasted behind the bench example's recipe and forgotten: an end, and two dos that lead
/// to each other.
pub const PASTED_END: &str = "5,0,0,0,0,0,0\n";
pub const PASTED_LOOP: &str = "5,1,1,0,1,6,0\n6,1,3,1,0,5,0\n";

/// The value lines of a cell, its limits, and the value lines of a recipe, chapter by chapter.
#[derive(Clone)]
pub struct Pair {
    pub cell: Rows,
    pub limits: [u8; MOST_RESOURCES],
    pub recipes: Vec<Rows>,
}

impl Pair {
    /// The pair with these value lines in one chapter, and these limits at its first resources.
    pub fn of_lines(cell: &[&str], limits: &[u8], recipe: &[&str]) -> Pair {
        Pair::of_chapters(cell, limits, &[recipe])
    }

    /// The same in several chapters.
    pub fn of_chapters(cell: &[&str], limits: &[u8], chapters: &[&[&str]]) -> Pair {
        let mut pair = Pair {
            cell: rows_of(cell),
            limits: NO_LIMITS,
            recipes: chapters.iter().map(|lines| rows_of(lines)).collect(),
        };
        pair.limits[..limits.len()].copy_from_slice(limits);
        pair
    }

    /// The lines of records.
    pub fn of(cell: &Cell, chapters: &[Recipe]) -> Pair {
        let rows = |recipe: &Recipe| generate::rows::<RecipeFile>(&recipe_bytes(recipe));
        Pair {
            cell: generate::rows::<CellFile>(&cell_bytes(cell)),
            limits: cell.limits,
            recipes: chapters.iter().map(rows).collect(),
        }
    }

    pub fn cell_bytes(&self) -> Vec<u8> {
        let mut record = generate::record::<CellFile>(&self.cell);
        limits_of(&mut record).copy_from_slice(&self.limits);
        record
    }

    /// The records of all chapters, one after another.
    pub fn recipes_bytes(&self) -> Vec<u8> {
        let records = self.recipes.iter();
        records
            .flat_map(|rows| generate::record::<RecipeFile>(rows))
            .collect()
    }

    /// The records of the cell and of its chapters.
    pub fn records(&self) -> (Cell, Vec<Recipe>) {
        let (cell, recipes) = (self.cell_bytes(), self.recipes_bytes());
        (cell_of_bytes(&cell), chapters_of_bytes(&recipes))
    }

    /// The records of the cell and of the first chapter, where that is all that there is.
    pub fn single(&self) -> (Cell, Recipe) {
        let (cell, mut chapters) = self.records();
        (cell, chapters.remove(0))
    }

    /// Whether a pair that passes the rules before 14 can be built, unreached points or not.
    pub fn is_realisable(&self) -> bool {
        let (cell, chapters) = self.records();
        stored_table(&cell, &Joined::of(&cell, &chapters))[0] != 0
    }

    /// Wants an operation at point 0 that the cell hasn't, unless the recipe ends there. Whether the recipe
    /// can then not be built.
    pub fn want_unknown_operation(&mut self) -> bool {
        let is_unknown = |number: &u32| self.cell.iter().all(|row| row[3] != *number);
        let Some(unknown) = (0..64).find(is_unknown) else {
            return false;
        };
        let first = self.recipes[0].iter_mut();
        first
            .filter(|row| row[0] == 0 && row[1] != END)
            .for_each(|row| row[2] = unknown);
        !self.is_realisable()
    }
}

/// The cell without its limits.
pub fn unlimited(cell: &Cell) -> Cell {
    Cell {
        limits: NO_LIMITS,
        ..cell.clone()
    }
}

/// Whether rule 4 is the first that a cell breaks, and by its limits alone.
pub fn limits_leave_range(cell: &Cell) -> bool {
    check_cell(cell).number == 4 && check_cell(&unlimited(cell)).number != 4
}

/// The numbers of value lines.
fn rows_of(lines: &[&str]) -> Rows {
    let number = |text: &str| text.parse().expect("a value line has numbers");
    let row = |line: &&str| line.split(',').map(number).collect();
    lines.iter().map(row).collect()
}

/// The limits in the bytes of a cell record.
pub fn limits_of(record: &mut [u8]) -> &mut [u8] {
    &mut record[CELL_BYTES - MOST_RESOURCES..CELL_BYTES]
}

/// How great a pair may become.
#[derive(Clone)]
struct Shape {
    states: Vec<u32>,
    parts: u32,
    points: u32,
}

impl Shape {
    /// A shape of at most this many positions.
    fn new(most_positions: u64, random: &mut Random) -> Shape {
        let resources = random.choose(&[1, 2, 2, 3, 3, 4, 4, 4, 5, 6]);
        let most_states = random.choose(&[2, 2, 3, 4, 8]);
        let state_count = |random: &mut Random| 1 + random.number(most_states);
        let mut shape = Shape {
            states: (0..resources).map(|_| state_count(random)).collect(),
            parts: random.choose(&[1, 2, 2, 3, 3, 4, 5, 8]),
            points: 1 + random.number(16),
        };
        while shape.positions() > most_positions {
            shape.shrink(random);
        }
        shape
    }

    /// The same, half of the time with fewer points, or with fewer parts.
    fn smaller(&self, random: &mut Random) -> Shape {
        let mut smaller = self.clone();
        match random.below(4) {
            0 => smaller.points = 1 + random.number(self.points),
            1 => smaller.parts = 1 + random.number(self.parts),
            _ => {}
        }
        smaller
    }

    fn positions(&self) -> u64 {
        let joint_states: u64 = self.states.iter().map(|&count| u64::from(count)).product();
        let placings = (self.states.len() as u64 + 1).pow(self.parts);
        u64::from(self.points) * joint_states * placings
    }

    fn shrink(&mut self, random: &mut Random) {
        let k = random.below(self.states.len());
        match random.below(8) {
            // Parallel lines want stations, so these go last.
            0 if self.states.len() > 1 => _ = self.states.pop(),
            1 | 2 => self.states[k] = (self.states[k] - 1).max(1),
            3 | 4 => self.parts = (self.parts - 1).max(1),
            _ => self.points = (self.points - 1).max(1),
        }
    }
}

/// A cell and a recipe of at most this many positions that pass the rules 3 to 12. Both use the same few
/// operations and the cell few ports, so that much of it fits together. Two cells in three have limits, more
/// than a third have gates, and about one recipe in ten has unreached points.
pub fn good_pair(most_positions: u64, random: &mut Random) -> Pair {
    good_chapters(most_positions, 1, random)
}

/// The same with so many chapters, each of at most this many positions. One of them in ten has unreached
/// points.
pub fn good_chapters(most_positions: u64, chapters: usize, random: &mut Random) -> Pair {
    let shape = Shape::new(most_positions, random);
    let operations: Vec<u32> = (0..1 + random.below(3))
        .map(|_| random.number(64))
        .collect();
    let mut pair = Pair {
        cell: cell_rows(&shape, &operations, random),
        limits: match random.below(3) {
            0 => NO_LIMITS,
            _ => some_limits(shape.states.len(), random),
        },
        recipes: vec![],
    };
    while pair.recipes.len() < chapters {
        let is_last = pair.recipes.len() + 1 == chapters;
        let shape = match chapters {
            1 => shape.clone(),
            _ => shape.smaller(random),
        };
        let recipe = recipe_rows(&shape, &operations, random);
        if is_last || recipe[0][1] != END {
            pair.recipes.push(recipe);
        }
    }
    pair
}

/// How many chapters: two or more, and at times as many as there may be.
pub fn several(random: &mut Random) -> usize {
    random.choose(&[2, 2, 2, 3, 3, 4, 5, 6, 7, MOST_CHAPTERS, MOST_CHAPTERS])
}

/// Chapters over a cell, each of at most this many positions, of which many are realisable. Every other cell has
/// limits, more than a third have gates, and about one set of chapters in ten has unreached points.
pub fn either_chapters(
    n: usize,
    most_positions: u64,
    chapters: usize,
    source: &mut independent::Random,
) -> (Cell, Vec<Recipe>) {
    let generate = [likely_chapters, limited_chapters][n % 2];
    generate(most_positions, chapters, source)
}

/// A cell and a recipe of at most this many positions, many of which are realisable. Every other pair has
/// limits, more than a third have gates, and about one recipe in ten has unreached points.
pub fn either_pair(
    n: usize,
    most_positions: u64,
    source: &mut independent::Random,
) -> (Cell, Recipe) {
    let pair = [likely_pair, limited_pair][n % 2];
    pair(most_positions, source)
}

/// Limits for so many resources, most of them small.
pub fn some_limits(resources: usize, random: &mut Random) -> [u8; MOST_RESOURCES] {
    let mut limits = NO_LIMITS;
    limits[..resources]
        .fill_with(|| random.choose(&[1, 1, 1, 1, 2, 2, 2, 3, 4, 5, 6, 7, NO_LIMIT]));
    limits
}

/// A cell of 64 lines and a recipe of 64 lines, four at each of 16 points, that are accepted. Each of
/// four stations goes through three states in each of its ways. In state 0 of all stations, the cell
/// lines 36 to 39 carry every point from where part n is at station n.
pub fn full_pair() -> Pair {
    let cell = |n: u32| {
        let from = n / 4 % 3;
        vec![n % 4, from, n / 4 % 4, n / 16, (from + 1) % 3]
    };
    let recipe = |n: u32| {
        let part = 1 << (n % 4);
        vec![n / 4, DO, 2, part, part, (n / 4 + 1) % 16, 0]
    };
    Pair {
        cell: (0..64).map(cell).collect(),
        limits: NO_LIMITS,
        recipes: vec![(0..64).map(recipe).collect()],
    }
}

/// A do of two to four lines for as many stations, each of which can do what several of the lines want.
pub fn parallel_pair(random: &mut Random) -> Pair {
    let stations = 2 + random.number(3);
    let operations = random.choose(&[&[1][..], &[1, 1, 2]]);
    let mut cell: Rows = vec![];
    for k in 0..stations {
        let states = random.choose(&[1, 1, 1, 2]);
        for _ in 0..2 + random.below(2) {
            let [from, to] = [(); 2].map(|()| random.number(states));
            cell.push(vec![k, from, OPERATION, random.choose(operations), to]);
        }
    }
    random.shuffle(&mut cell);
    // Each line takes a part or gives one. Where a part is says who takes it, and who gives is open.
    let mut sums: Vec<[u32; 2]> = vec![[1, 0], [0, 1], [2, 0], [0, 2]];
    random.shuffle(&mut sums);
    let mut recipe: Rows = vec![];
    for [takes, gives] in sums.into_iter().take(stations as usize) {
        recipe.push(vec![0, DO, random.choose(operations), takes, gives, 1, 0]);
    }
    recipe.push(vec![1, END, 0, 0, 0, 0, 0]);
    Pair {
        cell,
        limits: NO_LIMITS,
        recipes: vec![recipe],
    }
}

/// A station that gives a part, tests it and takes it by another operation for each outcome, in one chapter or, cut
/// before the test and behind the end, in three, of which the last gives the part once more. Where the station's
/// lines begin and end is left to chance, so that many of them lead on at one outcome only, or to where the next
/// chapter doesn't go on.
pub fn forking_pair(in_chapters: bool, random: &mut Random) -> Pair {
    let end = |point: u32| vec![point, END, 0, 0, 0, 0, 0];
    let fork = |first: u32| {
        let test = vec![first, TEST, 2, 1, 0, first + 1, first + 2];
        let taken = |n: u32| vec![first + n, DO, n + 2, 1, 0, first + 3, 0];
        vec![test, taken(1), taken(2), end(first + 3)]
    };
    let give = vec![0, DO, 1, 0, 1, 1, 0];
    let giving = vec![give.clone(), end(1)];
    Pair {
        cell: forking_cell(random),
        limits: NO_LIMITS,
        recipes: match in_chapters {
            true => vec![giving.clone(), fork(0), giving],
            false => vec![[vec![give], fork(1)].concat()],
        },
    }
}

/// The station, and a second one from which empty pallets come, but one time in four a photocell stops them.
fn forking_cell(random: &mut Random) -> Rows {
    let states = 4 + random.number(4);
    let port = random.choose(&[4, 40, 40, 40]);
    let mut cell: Rows = vec![vec![1, 0, OUT, port, 0]];
    // Many lines for the test, and little silent work, which would lead from anywhere to everywhere.
    for (act, arg, least) in [
        (OPERATION, 1, 4),
        (OPERATION, 2, 8),
        (OPERATION, 3, 2),
        (OPERATION, 4, 2),
        (INTERNAL, 0, 1),
        (IN, port, 1),
    ] {
        for _ in 0..least + random.below(3) {
            let [from, to] = [(); 2].map(|()| random.number(states));
            cell.push(vec![0, from, act, arg, to]);
        }
    }
    if random.below(3) == 0 {
        gates::add(&mut cell, |k| [states, 1][k], random);
    }
    random.shuffle(&mut cell);
    cell
}

fn cell_rows(shape: &Shape, operations: &[u32], random: &mut Random) -> Rows {
    let resources = shape.states.len();
    let gated = random.below(5) < 2;
    let lines = match random.below(8) {
        // Gates want room behind the others.
        0 if gated => 48,
        0 => 64,
        _ => resources * (1 + random.below(5)),
    };
    let operation = |k: usize, random: &mut Random| {
        let number = random.choose(operations);
        cell_row(shape, k, OPERATION, number, random)
    };
    // An operation for each resource, so that none is without a line.
    let mut rows: Rows = (0..resources).map(|k| operation(k, random)).collect();
    while rows.len() < lines {
        let k = random.below(resources);
        let free = lines - rows.len();
        match random.below(6) {
            0..=2 => rows.push(operation(k, random)),
            3 => rows.push(cell_row(shape, k, INTERNAL, random.number(64), random)),
            _ if resources > 1 && free > 3 => push_transfer(&mut rows, shape, random),
            _ => {}
        }
    }
    if gated {
        gates::add(&mut rows, |k| shape.states[k], random);
    }
    random.shuffle(&mut rows);
    rows
}

fn cell_row(shape: &Shape, k: usize, act: u32, arg: u32, random: &mut Random) -> Vec<u32> {
    let states = shape.states[k];
    vec![
        k as u32,
        random.number(states),
        act,
        arg,
        random.number(states),
    ]
}

/// An out and an in of two stations; at times each has the other act too, from the same state, so that
/// an in and an out of one station stand side by side.
fn push_transfer(rows: &mut Rows, shape: &Shape, random: &mut Random) {
    let resources = shape.states.len();
    let giver = random.below(resources);
    let taker = (giver + 1 + random.below(resources - 1)) % resources;
    let rare = random.number(64);
    let port = random.choose(&[0, 31, 32, 63, rare]);
    let both_ways = random.below(4) == 0;
    for (station, act, other) in [(giver, OUT, IN), (taker, IN, OUT)] {
        let row = cell_row(shape, station, act, port, random);
        if both_ways {
            let mut back = cell_row(shape, station, other, port, random);
            back[1] = row[1];
            rows.push(back);
        }
        rows.push(row);
    }
}

fn recipe_rows(shape: &Shape, operations: &[u32], random: &mut Random) -> Rows {
    let mut rows = Vec::new();
    for point in 0..shape.points {
        let then = random.number(shape.points);
        match random.below(6) {
            0 => rows.push(vec![point, END, 0, 0, 0, 0, 0]),
            1 | 2 => {
                let operation = random.choose(operations);
                let takes = 1 + random.number((1 << shape.parts) - 1);
                let otherwise = random.number(shape.points);
                rows.push(vec![point, TEST, operation, takes, 0, then, otherwise]);
            }
            _ => push_do(&mut rows, shape, point, then, operations, random),
        }
    }
    points::lead_to_most(&mut rows, random);
    rows
}

/// A do of up to as many lines as there are stations. A part may be both taken and given.
fn push_do(
    rows: &mut Rows,
    shape: &Shape,
    point: u32,
    then: u32,
    operations: &[u32],
    random: &mut Random,
) {
    let most = shape.states.len().min(4).min(2 * shape.parts as usize);
    let lines = 1 + random.below(most);
    let mut sums = vec![[0, 0]; lines];
    let mut slots: Vec<(u32, usize)> = (0..shape.parts)
        .flat_map(|part| [(part, 0), (part, 1)])
        .collect();
    random.shuffle(&mut slots);
    for (k, (part, side)) in slots.into_iter().enumerate() {
        // One goes to each line, so that none takes and gives nothing.
        let line = if k < lines {
            k
        } else {
            random.below(2 * lines)
        };
        if let Some(sums) = sums.get_mut(line) {
            sums[side] |= 1 << part;
        }
    }
    for [takes, gives] in sums {
        let operation = random.choose(operations);
        rows.push(vec![point, DO, operation, takes, gives, then, 0]);
    }
}

/// Any configuration in range.
fn any_configuration(sizes: &Sizes, random: &mut Random) -> Configuration {
    let mut configuration = Configuration::START;
    for (state, count) in configuration.states.iter_mut().zip(sizes.states) {
        if count > 0 {
            *state = random.below(count as usize) as u8;
        }
    }
    for place in &mut configuration.places[..sizes.parts] {
        *place = random.below(sizes.resources + 1) as u8;
    }
    configuration
}

/// Any run in range.
pub fn any_run(joined: &Joined, random: &mut Random) -> Run {
    let configuration = any_configuration(&joined.sizes, random);
    let number = random.below(joined.sizes.points as usize) as u8;
    let (chapter, point) = joined.chapter_and_point(number);
    Run {
        point,
        configuration,
        chapter,
    }
}

/// One of those that `fits`, if any does.
fn some(count: u8, random: &mut Random, fits: impl Fn(usize) -> bool) -> Option<usize> {
    let fitting: Vec<usize> = (0..usize::from(count)).filter(|&n| fits(n)).collect();
    (!fitting.is_empty()).then(|| random.choose(&fitting))
}

/// A run with an entry of this kind that is open there, or nearly so: at times one station is to
/// serve two lines, or to hand over to itself. None if the pair has no lines for it.
pub fn run_with_move(
    cell: &Cell,
    joined: &Joined,
    kind: u32,
    random: &mut Random,
) -> Option<(Run, u32)> {
    let mut run = any_run(joined, random);
    let recipe = joined.chapter(run.chapter);
    let at_end = kind == STAY;
    let line = some(recipe.count, random, |n| {
        (u32::from(recipe.kind[n]) == END) == at_end
    })?;
    run.point = recipe.point[line];
    let mut letters = [0; 4];
    let used = match kind {
        INTERNAL_MOVE => {
            letters[0] = some(cell.count, random, |n| u32::from(cell.act[n]) == INTERNAL)?;
            1
        }
        TRANSFER => {
            letters = transfer(cell, &joined.sizes, &mut run, random)?;
            2
        }
        CARRY => {
            letters = carry(cell, recipe, &mut run, random)?;
            lines_at(recipe, run.point).len()
        }
        _ => 0,
    };
    for &letter in &letters[..used] {
        run.configuration.states[usize::from(cell.resource[letter])] = cell.from[letter];
    }
    let entry = match kind {
        CARRY => carry_of(cell, recipe, run.point, &letters[..used]),
        _ => entry_of(kind, letters),
    };
    Some((run, entry))
}

/// An out and an in on its port, with about half of the parts at the out's station.
fn transfer(cell: &Cell, sizes: &Sizes, run: &mut Run, random: &mut Random) -> Option<[usize; 4]> {
    let a = some(cell.count, random, |n| u32::from(cell.act[n]) == OUT)?;
    let same_station = random.below(16) == 0;
    let b = some(cell.count, random, |n| {
        let same = cell.resource[n] == cell.resource[a];
        u32::from(cell.act[n]) == IN && cell.arg[n] == cell.arg[a] && same == same_station
    })?;
    for place in &mut run.configuration.places[..sizes.parts] {
        if random.coin() {
            *place = cell.resource[a] + 1;
        }
    }
    Some([a, b, 0, 0])
}

/// The recipe lines of a point.
pub fn lines_at(recipe: &Recipe, point: u8) -> Vec<usize> {
    (0..usize::from(recipe.count))
        .filter(|&n| recipe.point[n] == point)
        .collect()
}

/// Cell lines for the lines of the run's point, with the parts where these want them.
fn carry(cell: &Cell, recipe: &Recipe, run: &mut Run, random: &mut Random) -> Option<[usize; 4]> {
    let mut letters = [0; 4];
    let lines = lines_at(recipe, run.point);
    let may_share = random.below(8) == 0;
    for (i, &n) in lines.iter().enumerate() {
        let earlier = &letters[..i];
        let line = some(cell.count, random, |line| {
            let shares = |&other: &usize| cell.resource[other] == cell.resource[line];
            u32::from(cell.act[line]) == OPERATION
                && cell.arg[line] == recipe.op[n]
                && (may_share || !earlier.iter().any(shares))
        })?;
        letters[i] = line;
    }
    let places = &mut run.configuration.places;
    let mut put = |sum: u8, place: u8| {
        let parts = (0..places.len()).filter(|part| sum >> part & 1 == 1);
        parts.for_each(|part| places[part] = place);
    };
    for &n in &lines {
        put(recipe.gives[n], 0);
    }
    for (&n, &line) in lines.iter().zip(&letters) {
        put(recipe.takes[n], cell.resource[line] + 1);
    }
    Some(letters)
}

/// An entry like this one that mostly isn't open where this one is.
pub fn other_entry(entry: u32, cell: &Cell, random: &mut Random) -> u32 {
    let mut letters = letters_of(entry);
    let kind = kind_of(entry);
    let count = usize::from(cell.count);
    let n = random.below(4);
    match random.below(9) {
        0 => 0,
        1 => random.bits() as u32,
        2 => entry ^ 1 << random.below(32),
        // Kinds past 4 that a narrow look would take for this one.
        3 => entry_of(kind | 8 << random.below(5), letters),
        4 => entry_of(random.number(7), letters),
        5 => {
            letters.swap(n, random.below(4));
            entry_of(kind, letters)
        }
        6 => {
            letters[n] = random.below(64);
            entry_of(kind, letters)
        }
        7 => {
            letters[n] = random.below(count);
            entry_of(kind, letters)
        }
        _ => {
            let plausible = letters.map(|_| random.below(count));
            entry_of(1 + random.number(4), plausible)
        }
    }
}

/// The entry with another second letter, or the same: of a test, one alone is open.
pub fn other_second_letter(entry: u32, cell: &Cell, random: &mut Random) -> u32 {
    let [a, _, c, d] = letters_of(entry);
    let any = random.below(usize::from(cell.count));
    let b = random.choose(&[0, a, any, cell.line_on_failure(a)]);
    entry_of(kind_of(entry), [a, b, c, d])
}

/// Puts most parts at one station, which is then overfull if it has a small limit; but none of those
/// that a carry names, so that the entry is otherwise open as before. A transfer may mend its giver, so
/// that this is often the station.
pub fn crowd(run: &mut Run, entry: u32, cell: &Cell, joined: &Joined, random: &mut Random) {
    let recipe = joined.chapter(run.chapter);
    let lines = lines_at(recipe, run.point).into_iter();
    let named = match kind_of(entry) {
        CARRY => lines.fold(0, |sum, n| sum | recipe.takes[n] | recipe.gives[n]),
        _ => 0,
    };
    let Sizes {
        resources, parts, ..
    } = joined.sizes;
    let small = |&k: &usize| usize::from(cell.limits[k]) < parts;
    let stations: Vec<usize> = (0..resources).filter(small).collect();
    let at_giver = kind_of(entry) == TRANSFER && random.below(4) > 0;
    let k = if at_giver {
        usize::from(cell.resource[letters_of(entry)[0]])
    } else if stations.is_empty() {
        random.below(resources)
    } else {
        random.choose(&stations)
    };
    for part in (0..parts).filter(|part| named >> part & 1 == 0) {
        if random.below(4) > 0 {
            run.configuration.places[part] = k as u8 + 1;
        }
    }
}

/// Puts one station into another of its states, or one part to another place.
pub fn other_configuration(run: &mut Run, sizes: &Sizes, random: &mut Random) {
    let other = any_configuration(sizes, random);
    if random.coin() || sizes.parts == 0 {
        let k = random.below(sizes.resources);
        run.configuration.states[k] = other.states[k];
    } else {
        let n = random.below(sizes.parts);
        run.configuration.places[n] = other.places[n];
    }
}
