//! Loaded lanes through the C interface: which ports won't start empty, and for whose parts; what is beside a
//! lane; limits; tables from before there were photocells; plans and lists of processes that differ with the
//! ports; and worked examples.

use against::calls::{Calls, Library};
use against::installs::{owed, Installing};
use against::lanes::{has_photocell, on_port, PalletLine, PORTS};
use against::lists::{self, Form, List};
use against::pairs::{either_pair, good_pair, lines_at, run_with_move, Pair};
use against::plans::{Handed, Planned};
use against::random::Random;
use against::rounds::{compare, Round, Table};
use against::RunRecord;
use independent::{
    cell_bytes, entry_of, every_point_is_reached, is_overfull, kind_of, letters_of, recipe_bytes,
    run_bytes, stored_table, without_photocells, Book, Cell, Joined, Recipe, Run, CARRY, RUN_BYTES,
    STAY, TRANSFER,
};
use std::slice;

const BENCH_CELL: &str = include_str!("../../../examples/bench/cell.csv");
const BENCH_RECIPE: &str = include_str!("../../../examples/bench/recipe.csv");
const LANE_CELL: &str = include_str!("../../../examples/lane/cell.csv");
const PHOTOCELL_CELL: &str = include_str!("../../../examples/lane/cell_photocell.csv");
const LANE_RECIPE: &str = include_str!("../../../examples/lane/recipe.csv");

/// How often each condition must at least be seen.
const LEAST_SEEN: usize = 1_000;

/// Runs before a transfer that are tried on every port.
const TRANSFERS: usize = 1_400;

/// Carries beside which a lane is tried; plans, how many entries of each are looked at, and the calls of a list
/// over one; and pallet lines that are planned and that are listed.
const CARRIES: usize = 36_000;
const PLANNED: usize = 2_500;
const LOOKED_AT: usize = 40;
const CALLS: usize = 12;
const PALLETS: usize = 4_000;
const LISTED: usize = 1_500;

/// The most positions of a pair.
const FEW_POSITIONS: [u64; 4] = [60, 200, 400, 1_000];

/// The value lines of a file.
fn value_lines(file: &str) -> Vec<&str> {
    file.lines().skip(1).collect()
}

/// The pair of two files.
fn pair_of(cell: &str, recipe: &str) -> Pair {
    Pair::of_lines(&value_lines(cell), &[], &value_lines(recipe))
}

/// A cell and chapters with a table that has one entry set at a time.
struct Tried {
    recipes: Vec<u8>,
    joined: Joined,
    table: Table,
}

impl Tried {
    fn new(pair: &Pair) -> Tried {
        let (cell, chapters) = pair.records();
        let joined = Joined::of(&cell, &chapters);
        Tried {
            recipes: pair.recipes_bytes(),
            table: Table::new(vec![0; joined.sizes.positions as usize]),
            joined,
        }
    }

    /// What a next-move call and a report, in both its forms, answer to this entry, as the independent program
    /// does.
    fn answers(&mut self, cell: &Cell, run: &Run, entry: u32) -> (u64, u32) {
        let position = self.joined.position(run);
        self.table.set(position, entry);
        let round = Round {
            cell: cell_bytes(cell).to_vec(),
            recipes: self.recipes.clone(),
            run: run_bytes(run).to_vec(),
            entries: self.table.entries().len(),
            outcome: (position % 2) as u8,
            part: 0,
        };
        let answers = compare(&round, &self.table);
        self.table.set(position, 0);
        (answers.next_move, answers.report)
    }
}

/// The answers to an entry that is open where no end is, or that isn't.
fn expected(entry: u32, open: bool) -> (u64, u32) {
    match open {
        true => (entry.into(), 0),
        false => (18 << 32, 18),
    }
}

/// How the parts stand before a transfer.
#[derive(Clone, Copy)]
enum Load {
    /// None at the giver, and perhaps some elsewhere.
    Empty,
    /// All at the taker.
    AtTaker,
    /// One at the giver.
    One,
    /// All at the giver.
    All,
}

const LOADS: [Load; 4] = [Load::Empty, Load::AtTaker, Load::One, Load::All];

/// Places the parts in this way, if there are any.
fn place(run: &mut Run, load: Load, [giver, taker]: [u8; 2], parts: usize, random: &mut Random) {
    let places = &mut run.configuration.places[..parts];
    match load {
        Load::AtTaker => places.fill(taker),
        Load::All => places.fill(giver),
        Load::Empty | Load::One => {
            for place in places.iter_mut().filter(|place| **place == giver) {
                *place = random.choose(&[0, 0, taker]);
            }
        }
    }
    if matches!(load, Load::One) && parts > 0 {
        places[random.below(parts)] = giver;
    }
}

/// The run after a transfer between these places, with the states that its lines lead to.
fn handed_over(cell: &Cell, run: &Run, [a, b]: [usize; 2]) -> Run {
    let mut after = *run;
    for line in [a, b] {
        after.configuration.states[usize::from(cell.resource[line])] = cell.to[line];
    }
    for place in &mut after.configuration.places {
        if *place == cell.resource[a] + 1 {
            *place = cell.resource[b] + 1;
        }
    }
    after
}

/// What was seen of transfers, each tried on every port.
#[derive(Debug, Default)]
struct Transfers {
    /// Shut by the lane alone, and the same open on a port without a photocell.
    shut: usize,
    open_elsewhere: usize,
    /// Of these shut ones, those with parts at the taker.
    at_taker: usize,
    /// Open with exactly one part at the giver, and with several, on a port with a photocell.
    one: usize,
    several: usize,
    /// Shut by a limit although the lane starts, on a port with a photocell; and shut by both.
    overfull: usize,
    both: usize,
    /// At an empty giver and at a held one, by the port.
    ports: [Vec<usize>; 2],
}

impl Transfers {
    fn note(&mut self, port: u8, held: usize, at_taker: bool, overfull: bool) {
        let ports = &mut self.ports[usize::from(held > 0)];
        ports.resize(PORTS.into(), 0);
        ports[usize::from(port)] += 1;
        let counted = match (has_photocell(port), held, overfull) {
            (true, 0, false) => &mut self.shut,
            (true, 0, true) => &mut self.both,
            (true, _, true) => &mut self.overfull,
            (true, 1, false) => &mut self.one,
            (true, _, false) => &mut self.several,
            (false, 0, false) => &mut self.open_elsewhere,
            (false, ..) => return,
        };
        *counted += 1;
        self.at_taker += usize::from(has_photocell(port) && held == 0 && !overfull && at_taker);
    }

    fn judge(&self) {
        println!("{self:?}");
        let Transfers {
            shut,
            open_elsewhere,
            at_taker,
            one,
            several,
            overfull,
            both,
            ports,
        } = self;
        let all = [shut, open_elsewhere, at_taker, one, several, overfull, both];
        assert!(all.iter().all(|&&times| times >= LEAST_SEEN), "{all:?}");
        let every_port = |ports: &Vec<usize>| ports.iter().all(|&times| times >= 100);
        assert!(ports.iter().all(every_port), "{ports:?}");
    }
}

/// A run before a transfer between two stations, of which no line is wrong, and the lines.
fn seeded_transfer(pair: &Pair, random: &mut Random) -> Option<(Run, [usize; 2])> {
    let (cell, chapters) = pair.records();
    let joined = Joined::of(&cell, &chapters);
    let (run, entry) = run_with_move(&cell, &joined, TRANSFER, random)?;
    let [a, b, ..] = letters_of(entry);
    (cell.resource[a] != cell.resource[b]).then_some((run, [a, b]))
}

#[test]
fn every_port_at_an_empty_giver_and_at_a_held_one() {
    let mut random = Random::new(81);
    let mut seen = Transfers::default();
    let mut tried = 0;
    while tried < TRANSFERS {
        let pair = good_pair(FEW_POSITIONS[tried % 4], &mut random);
        let Some((mut run, lines)) = seeded_transfer(&pair, &mut random) else {
            continue;
        };
        tried += 1;
        let cell = pair.records().0;
        let mut calls = Tried::new(&pair);
        let parts = calls.joined.sizes.parts;
        let places = lines.map(|line| cell.resource[line] + 1);
        place(&mut run, LOADS[tried / 4 % 4], places, parts, &mut random);
        let at = |place: u8| {
            let places = &run.configuration.places[..parts];
            places.iter().filter(|&&other| other == place).count()
        };
        let overfull = is_overfull(&cell, &handed_over(&cell, &run, lines).configuration);
        let entry = entry_of(TRANSFER, [lines[0], lines[1], 0, 0]);
        for port in 0..PORTS {
            let held = at(places[0]);
            let open = (!has_photocell(port) || held > 0) && !overfull;
            let cell = on_port(&cell, lines[0], port);
            let answers = calls.answers(&cell, &run, entry);
            assert_eq!(answers, expected(entry, open), "port {port}, {run:?}");
            seen.note(port, held, at(places[1]) > 0, overfull);
        }
    }
    seen.judge();
}

/// Puts the stations of a transfer that the carry doesn't need into the states from which it leads, and takes
/// all parts that the carry doesn't name from its giver. The lines, if there is such a transfer.
fn lane_beside(
    cell: &Cell,
    joined: &Joined,
    run: &mut Run,
    carry: u32,
    random: &mut Random,
) -> Option<[usize; 2]> {
    let recipe = joined.chapter(run.chapter);
    let lines = lines_at(recipe, run.point);
    let letters = letters_of(carry);
    let busy: Vec<u8> = letters[..lines.len()]
        .iter()
        .map(|&line| cell.resource[line])
        .collect();
    let (other, entry) = run_with_move(cell, joined, TRANSFER, random)?;
    let [a, b, ..] = letters_of(entry);
    let stations = [a, b].map(|line| cell.resource[line]);
    if stations[0] == stations[1] || stations.iter().any(|k| busy.contains(k)) {
        return None;
    }
    for k in stations.map(usize::from) {
        run.configuration.states[k] = other.configuration.states[k];
    }
    let named = lines
        .iter()
        .fold(0, |sum, &n| sum | recipe.takes[n] | recipe.gives[n]);
    for (part, place) in run.configuration.places.iter_mut().enumerate() {
        if named >> part & 1 == 0 && *place == stations[0] + 1 {
            *place = 0;
        }
    }
    Some([a, b])
}

#[test]
fn a_carry_beside_a_lane_that_wont_start() {
    let mut random = Random::new(82);
    let mut beside = 0;
    for n in 0..CARRIES {
        let pair = good_pair(FEW_POSITIONS[n % 4], &mut random);
        let (cell, chapters) = pair.records();
        let joined = Joined::of(&cell, &chapters);
        let Some((mut run, carry)) = run_with_move(&cell, &joined, CARRY, &mut random) else {
            continue;
        };
        let Some([a, b]) = lane_beside(&cell, &joined, &mut run, carry, &mut random) else {
            continue;
        };
        let transfer = entry_of(TRANSFER, [a, b, 0, 0]);
        let mut calls = Tried::new(&pair);
        let port = random.below(usize::from(PORTS)) as u8;
        let open = |cell: &Cell| joined.is_open(cell, &run, carry);
        let moved = on_port(&cell, a, port);
        // A carry is open or not, whatever the lane beside it does.
        assert_eq!(open(&cell), open(&moved));
        let answers = calls.answers(&moved, &run, carry);
        assert_eq!(answers, expected(carry, open(&cell)), "{run:?}");
        let fits = !is_overfull(&cell, &run.configuration);
        let starts = !has_photocell(port) && fits;
        let answers = calls.answers(&moved, &run, transfer);
        assert_eq!(answers, expected(transfer, starts), "port {port}, {run:?}");
        beside += usize::from(open(&cell) && has_photocell(port) && fits);
    }
    println!("{beside} carries that are open beside a lane that won't start");
    assert!(beside >= LEAST_SEEN);
}

/// A pair with the table that was planned before there were photocells, and the one that is planned now.
struct Plan {
    cell: Cell,
    joined: Joined,
    handed: Handed,
    before: Vec<u32>,
    now: Planned,
}

/// A pair, some lane of which won't start empty, planned, accepted or not.
fn seeded_plan(n: usize, source: &mut independent::Random, random: &mut Random) -> Plan {
    loop {
        let (cell, recipe): (Cell, Recipe) = either_pair(n, FEW_POSITIONS[n / 2 % 4], source);
        let has_lane = (0..usize::from(cell.count)).any(|line| cell.is_loaded_lane(line));
        if every_point_is_reached(&recipe) && has_lane {
            let handed = Handed::of(cell_bytes(&cell).to_vec(), recipe_bytes(&recipe).to_vec());
            let joined = Joined::of(&cell, slice::from_ref(&recipe));
            return Plan {
                before: stored_table(&without_photocells(&cell), &joined),
                now: handed.plan(random),
                cell,
                joined,
                handed,
            };
        }
    }
}

impl Plan {
    /// Whether the entry of before hands over nothing through a port with a photocell at a position.
    fn is_shut(&self, position: u64) -> bool {
        let entry = self.before[position as usize];
        let [out, ..] = letters_of(entry);
        let places = self.joined.run_at(position).configuration.places;
        let empty = !places.contains(&(self.cell.resource[out] + 1));
        kind_of(entry) == TRANSFER && has_photocell(self.cell.arg[out]) && empty
    }

    /// The positions with an entry of before, in any order, but those first at which it is no longer open.
    fn positions(&self, random: &mut Random) -> Vec<u64> {
        let positions = 0..self.joined.sizes.positions;
        let mut positions: Vec<u64> = positions
            .filter(|&p| self.before[p as usize] != 0)
            .collect();
        random.shuffle(&mut positions);
        positions.sort_by_key(|&position| !self.is_shut(position));
        positions
    }

    /// What a next-move call and both forms of report give with the table of before, and the run that they leave.
    fn given(&self, cell: &[u8], position: u64, outcome: u8) -> (u64, u32, [u8; RUN_BYTES]) {
        let recipes = &self.handed.recipes;
        let mut run = run_bytes(&self.joined.run_at(position));
        let mut record = RunRecord::of(&run).expect("the run is long enough");
        let next_move = Library::next_move(cell, recipes, &self.before, &run);
        let first = Library::report(cell, recipes, &self.before, &mut run, outcome);
        let second = Library::report_record(cell, recipes, &self.before, &mut record, outcome);
        assert_eq!((first, run), (second, record.bytes()), "{}", self.handed);
        (next_move, first, run)
    }
}

/// What was seen of entries that were planned before there were photocells.
#[derive(Debug, Default)]
struct Stored {
    /// Those that are no longer open.
    shut: usize,
    /// Those that are: transfers without a photocell and with one, and all else.
    transfers: [usize; 2],
    others: usize,
}

impl Stored {
    /// Wants 18 for an entry that is no longer open, which nothing leaves changed, and for every other one what
    /// it gets without photocells.
    fn compare(&mut self, plan: &Plan, position: u64, outcome: u8) {
        let given = plan.given(&plan.handed.cell, position, outcome);
        let entry = plan.before[position as usize];
        if plan.is_shut(position) {
            let run = run_bytes(&plan.joined.run_at(position));
            assert_eq!(given, (18 << 32, 18, run), "{}", plan.handed);
            assert_ne!(plan.now.table[position as usize], entry);
            self.shut += 1;
            return;
        }
        let free = cell_bytes(&without_photocells(&plan.cell));
        let before = plan.given(&free, position, outcome);
        assert_eq!(given, before, "{}", plan.handed);
        let report = if kind_of(entry) == STAY { 19 } else { 0 };
        assert_eq!((given.0, given.1), (entry.into(), report));
        if kind_of(entry) == TRANSFER {
            let port = plan.cell.arg[letters_of(entry)[0]];
            self.transfers[usize::from(has_photocell(port))] += 1;
        } else {
            self.others += 1;
        }
    }
}

#[test]
fn tables_from_before_there_were_photocells() {
    let mut random = Random::new(83);
    let mut source = independent::Random(84);
    let mut seen = Stored::default();
    for n in 0..PLANNED {
        let plan = seeded_plan(n, &mut source, &mut random);
        let positions = plan.positions(&mut random);
        for &position in positions.iter().take(LOOKED_AT) {
            seen.compare(&plan, position, random.below(2) as u8);
        }
    }
    println!("entries from before: {seen:?}");
    let Stored {
        shut,
        transfers,
        others,
    } = seen;
    let all = [shut, transfers[0], transfers[1], others];
    assert!(all.iter().all(|&times| times >= LEAST_SEEN));
}

#[test]
fn lists_over_tables_from_before() {
    let mut random = Random::new(87);
    let mut source = independent::Random(88);
    let mut seen = lists::Seen::default();
    for n in 0..PLANNED {
        let plan = seeded_plan(n, &mut source, &mut random);
        let list = List {
            cell: &plan.handed.cell,
            recipes: &plan.handed.recipes,
            table: &plan.before,
        };
        let positions = plan.positions(&mut random);
        for (&position, form) in positions.iter().zip([Form::Value, Form::Record]) {
            let mut book = Book::from_position(&plan.cell, &plan.joined, &plan.before, position);
            seen.add(&list.compare(CALLS, form, &mut book, &mut random));
        }
    }
    let lists::Seen {
        next_moves,
        reports,
        ..
    } = seen;
    println!("next-moves {next_moves:?}, reports {reports:?}");
    let counts = [next_moves[0], next_moves[18], reports[0], reports[18]];
    assert!(counts.iter().all(|&times| times >= LEAST_SEEN));
}

/// What was seen of pallet lines.
#[derive(Debug, Default)]
struct Pallets {
    /// Accepted without photocells, and of these those that are so with photocells at the loaded lanes too.
    accepted: usize,
    loaded: usize,
    /// Of the accepted, those that a photocell at one empty lane makes refused, and those of them in chapters.
    refused: usize,
    in_chapters: usize,
    /// Refused for a limit, whatever the lanes.
    without_room: usize,
}

/// The planner's answer for a pallet line, which must be the one that it owes.
fn answer(line: &PalletLine, random: &mut Random) -> u32 {
    let refusal = Handed::of_pair(&line.pair()).plan_alike(random).refusal;
    let realisable = line.comes_empty() && line.has_room();
    assert_eq!(refusal, if realisable { 0 } else { 15 });
    refusal
}

impl Pallets {
    /// Plans a line with the photocells that it has, with none, with one at each loaded lane, and with one at
    /// some empty lane too.
    fn plan(&mut self, mut line: PalletLine, random: &mut Random) {
        answer(&line, random);
        line.photocells.fill(false);
        let refusal = answer(&line, random);
        let accepted = usize::from(refusal == 0);
        self.accepted += accepted;
        self.without_room += 1 - accepted;
        let (empty, loaded) = (line.empty_lanes(), line.loaded_lanes());
        line.photocells[loaded.clone()].fill(true);
        assert_eq!(answer(&line, random), refusal);
        self.loaded += if loaded.is_empty() { 0 } else { accepted };
        line.photocells[random.below(empty.len())] = true;
        assert_eq!(answer(&line, random), 15);
        self.refused += accepted;
        self.in_chapters += if line.in_chapters { accepted } else { 0 };
    }
}

#[test]
fn a_pallet_comes_empty_to_where_it_is_loaded_or_not_at_all() {
    let mut random = Random::new(85);
    let mut seen = Pallets::default();
    for _ in 0..PALLETS {
        seen.plan(PalletLine::new(6, &mut random), &mut random);
    }
    println!("{seen:?}");
    let Pallets {
        accepted,
        loaded,
        refused,
        in_chapters,
        without_room,
    } = seen;
    let often = [accepted, loaded, refused, in_chapters];
    assert!(often.iter().all(|&times| times >= LEAST_SEEN));
    assert!(without_room >= 200);
}

/// The list for a line that lacks the operation by which its pallet is loaded.
fn listed(line: &PalletLine, random: &mut Random) -> Vec<[u8; 4]> {
    let handed = Handed::of_pair(&line.pair_without_loading());
    let owed = owed(&handed);
    assert_eq!(owed.refusal, 0, "{handed}");
    let list = random.below(100);
    Installing { handed, list }.compare(&owed, random);
    owed.processes
}

#[test]
fn a_process_is_listed_where_the_empty_pallet_comes() {
    let mut random = Random::new(86);
    // Lists that differ with the photocell of one lane, and of these those with lines either way.
    let (mut differ, mut both) = (0, 0);
    for _ in 0..LISTED {
        let mut line = PalletLine::new(3, &mut random);
        line.in_chapters = false;
        line.photocells.fill(false);
        let free = listed(&line, &mut random);
        let n = random.below(line.empty_lanes().len());
        line.photocells[n] = true;
        let guarded = listed(&line, &mut random);
        // What helps where a lane won't start empty helps where it does.
        assert!(guarded.iter().all(|process| free.contains(process)));
        differ += usize::from(free != guarded);
        both += usize::from(free != guarded && !guarded.is_empty());
    }
    println!("{differ} lists that differ with a photocell, {both} of them with lines either way");
    assert!(differ >= LEAST_SEEN && both >= 100);
}

/// What a next-move call and a report answer at a position of a pair with this entry in its table.
fn answers_at(pair: &Pair, position: u64, entry: u32) -> (u64, u32) {
    let mut calls = Tried::new(pair);
    let run = calls.joined.run_at(position);
    calls.answers(&pair.records().0, &run, entry)
}

#[test]
fn the_pallet_of_the_bench_example_does_not_follow_its_part() {
    let follows = 33_554_561;
    let bench = pair_of(BENCH_CELL, BENCH_RECIPE);
    let Planned { refusal, table } = Handed::of_pair(&bench).plan(&mut Random::new(1));
    assert_eq!((refusal, table[22], table[23]), (0, follows, 0));
    assert_eq!(table.iter().filter(|&&entry| entry != 0).count(), 24);
    for port in 0..PORTS {
        let mut pair = bench.clone();
        (pair.cell[1][3], pair.cell[2][3]) = (port.into(), port.into());
        let open = !has_photocell(port);
        let table = Handed::of_pair(&pair).plan(&mut Random::new(2)).table;
        assert_eq!(table[23], if open { follows } else { 0 }, "port {port}");
        assert_eq!(answers_at(&pair, 23, follows), expected(follows, open));
        // Where the part is at station 0, it goes along on every port.
        assert_eq!(table[22], follows, "port {port}");
        assert_eq!(answers_at(&pair, 22, follows), expected(follows, true));
    }
}

#[test]
fn an_operation_that_waits_for_an_empty_pallet() {
    let recipe = ["0,1,1,0,1,1,0", "1,0,0,0,0,0,0"];
    let fetched = entry_of(TRANSFER, [0, 1, 0, 0]);
    for port in 0..PORTS {
        let lane = ["0,0,3", "1,0,2"].map(|line| format!("{line},{port},1"));
        let pair = Pair::of_lines(&[&lane[0], &lane[1], "1,1,1,1,1"], &[], &recipe);
        let Planned { refusal, table } = Handed::of_pair(&pair).plan(&mut Random::new(3));
        let open = port >= 32;
        assert_eq!(refusal, if open { 0 } else { 15 }, "port {port}");
        assert_eq!(table[0], if open { fetched } else { 0 });
        assert_eq!(answers_at(&pair, 0, fetched), expected(fetched, open));
    }
}

#[test]
fn the_example_fetches_its_pallet_empty_and_sends_it_back_loaded() {
    let handed = Handed::of_pair(&pair_of(LANE_CELL, LANE_RECIPE));
    let Planned { refusal, table } = handed.plan(&mut Random::new(4));
    assert_eq!(refusal, 0);
    let Handed { cell, recipes, .. } = &handed;
    let mut run = [0xff; RUN_BYTES];
    assert_eq!(Library::fresh(&mut run), 0);
    let moves = [0, 1, 2, 3].map(|_| {
        let entry = Library::next_move(cell, recipes, &table, &run);
        assert_eq!(Library::report(cell, recipes, &table, &mut run, 0), 0);
        entry
    });
    let silent = [[0, 1], [3, 4]].map(|[a, b]| entry_of(TRANSFER, [a, b, 0, 0]));
    let carries = [2, 5].map(|a| entry_of(CARRY, [a, 0, 0, 0]));
    let expected = [silent[0], carries[0], silent[1], carries[1]];
    assert_eq!(moves, expected.map(u64::from));
    // With a photocell at the port by which it is fetched there is no way.
    let guarded = pair_of(PHOTOCELL_CELL, LANE_RECIPE);
    assert_eq!(LANE_CELL.replace(",40,", ",4,"), PHOTOCELL_CELL);
    let refusal = Handed::of_pair(&guarded).plan(&mut Random::new(5)).refusal;
    assert_eq!(refusal, 15);
}

/// Everything near to the example: its records and the run before each of its transfers, a byte from what they
/// are.
#[test]
fn one_byte_from_the_example() {
    let handed = Handed::of_pair(&pair_of(LANE_CELL, LANE_RECIPE));
    let table = Table::new(handed.plan(&mut Random::new(6)).table);
    let fetching = [0; RUN_BYTES];
    let mut returning = [0; RUN_BYTES];
    (returning[0], returning[1], returning[2], returning[7]) = (1, 1, 1, 2);
    for run in [fetching, returning] {
        let good = [handed.cell.clone(), handed.recipes.clone(), run.to_vec()];
        // The lines of the cell and one more, which counts for nothing; those of the recipe; the run.
        for (slice, places) in [(0, 0..1 + 7 * 5), (1, 0..1 + 3 * 7), (2, 0..RUN_BYTES)] {
            for at in places {
                for byte in 0..=255 {
                    compare(&Round::changed_in(&good, (slice, at), byte, &table), &table);
                }
            }
        }
    }
}

#[test]
fn a_lane_that_starts_and_a_limit() {
    // Two parts at station 0, with room for so many at station 1; a third part is there already.
    let recipe = ["0,1,1,7,0,1,0", "1,0,0,0,0,0,0"];
    let entry = entry_of(TRANSFER, [0, 1, 0, 0]);
    for (port, most, open) in [(0, 3, true), (31, 2, false), (32, 3, true), (63, 2, false)] {
        let lane = ["0,0,3", "1,0,2"].map(|line| format!("{line},{port},0"));
        let pair = Pair::of_lines(&[&lane[0], &lane[1]], &[8, most], &recipe);
        // The parts are at the places 1, 1 and 2.
        let position = 1 + 3 + 2 * 9;
        assert_eq!(answers_at(&pair, position, entry), expected(entry, open));
        // All at station 1, which has no room: nothing mends that, least of all an empty pallet.
        let overfull = 2 + 2 * 3 + 2 * 9;
        let fits = most == 3 && port >= 32;
        assert_eq!(answers_at(&pair, overfull, entry), expected(entry, fits));
    }
}
