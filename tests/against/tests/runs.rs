//! The library's calls on records and runs, through the C interface: worked examples, bounds, and
//! everything near to the bench example against the independent program.

use against::calls::{Calls, Independent, Library};
use against::damage::ever_more_damaged;
use against::generate::{self, Rows};
use against::pairs::{full_pair, limits_of, Pair, PASTED_END, PASTED_LOOP, THREE_GIVEN, TWO_GIVEN};
use against::rounds::{accepted, compare, Round, Table};
use against::{CellFile, Format, RecipeFile, RunRecord};
use independent::{
    entry_of, run_bytes, run_of_bytes, CARRY, CELL_BYTES, MOST_POSITIONS, MOST_RESOURCES, RUN_BYTES,
};

const BENCH_CELL: &[u8] = include_bytes!("../../../examples/bench/cell.csv");
const BENCH_RECIPE: &[u8] = include_bytes!("../../../examples/bench/recipe.csv");

/// The bench example's records, with the table as far as a run from the start can come.
fn bench() -> (Vec<u8>, Vec<u8>, Vec<u32>) {
    let mut cell = vec![0; CellFile::RECORD_BYTES];
    let mut recipe = vec![0; RecipeFile::RECORD_BYTES];
    assert_eq!(CellFile::library(BENCH_CELL, &mut cell), 0);
    assert_eq!(RecipeFile::library(BENCH_RECIPE, &mut recipe), 0);
    let mut table = vec![0; 90];
    for (position, entry) in [
        (0, 50_331_648),
        (22, 33_554_561),
        (26, 50_331_843),
        (50, 50_331_652),
        (68, 50_331_652),
        (72, 67_108_864),
    ] {
        table[position] = entry;
    }
    (cell, recipe, table)
}

/// The bytes of the run at a position of the bench example.
fn bench_run(position: u64) -> Vec<u8> {
    let (cell, recipe, _) = bench();
    run_at(&cell, &recipe, position)
}

/// The bytes of the run at a position of records that are accepted.
fn run_at(cell: &[u8], recipes: &[u8], position: u64) -> Vec<u8> {
    let (_, joined) = accepted(cell, recipes).expect("the records are accepted");
    run_bytes(&joined.run_at(position)).to_vec()
}

/// Follows the bench example's run from the start to its end. The recipe may have further points, which the
/// table has entries for behind the others.
fn follow_to_the_end(cell: &[u8], recipe: &[u8], table: &[u32]) {
    assert_eq!(Library::check(cell, recipe), 0);
    let mut run = vec![0xff; RUN_BYTES];
    assert_eq!(Library::fresh(&mut run), 0);
    assert_eq!(run, [0; RUN_BYTES]);
    for (position, entry, outcome, next, place) in [
        (0, 50_331_648, 0, 22, 0),
        (22, 33_554_561, 0, 26, 1),
        (26, 50_331_843, 1, 50, 2),
        (50, 50_331_652, 0, 72, 2),
    ] {
        assert_eq!(run, bench_run(position));
        assert_eq!(Library::place(cell, recipe, &run, 0), place);
        assert_eq!(Library::place(cell, recipe, &run, 1), 255);
        assert_eq!(Library::next_move(cell, recipe, table, &run), entry);
        let mut record = RunRecord::of(&run).expect("the run is long enough");
        let second = Library::report_record(cell, recipe, table, &mut record, outcome);
        let refusal = Library::report(cell, recipe, table, &mut run, outcome);
        assert_eq!((refusal, second), (0, 0));
        assert_eq!(run, bench_run(next));
        assert_eq!(run, record.bytes());
    }
    let end = Library::next_move(cell, recipe, table, &run);
    assert_eq!(end, 67_108_864);
    assert_eq!(Library::report(cell, recipe, table, &mut run, 1), 19);
    assert_eq!(run, bench_run(72));
}

#[test]
fn the_bench_example_from_a_fresh_run() {
    let (cell, recipe, table) = bench();
    follow_to_the_end(&cell, &recipe, &table);
}

#[test]
fn a_recipe_with_forgotten_points_is_run_with_its_stored_table() {
    let (cell, _, table) = bench();
    // All positions of the end have the same entry; the two dos can't be carried by turns and have none.
    for (pasted, entries) in [
        (PASTED_END, [67_108_864; 18].as_slice()),
        (PASTED_LOOP, &[0; 36]),
    ] {
        let file = [BENCH_RECIPE, pasted.as_bytes()].concat();
        let mut recipe = vec![0; RecipeFile::RECORD_BYTES];
        assert_eq!(RecipeFile::library(&file, &mut recipe), 0);
        let stored = [&table[..], entries].concat();
        follow_to_the_end(&cell, &recipe, &stored);
        // A run may also stand at a forgotten point.
        let forgotten = run_at(&cell, &recipe, 90);
        let answers = match entries[0] {
            0 => both(18),
            entry => (entry.into(), 19),
        };
        assert_eq!(refused(&cell, &recipe, &stored, &forgotten, 1), answers);
        // Its positions count for the length of the table.
        let short = &stored[..stored.len() - 1];
        assert_eq!(refused(&cell, &recipe, short, &bench_run(0), 1), both(14));
    }
}

#[test]
fn a_failed_test_in_the_bench_example_leads_back_to_the_start() {
    let (cell, recipe, table) = bench();
    let mut run = bench_run(26);
    assert_eq!(Library::report(&cell, &recipe, &table, &mut run, 0), 0);
    assert_eq!(run, bench_run(68));
    let answer = Library::next_move(&cell, &recipe, &table, &run);
    assert_eq!(answer, 50_331_652);
    assert_eq!(Library::report(&cell, &recipe, &table, &mut run, 1), 0);
    assert_eq!(run, bench_run(0));
}

/// The library's next-move call and report, for a report that must be refused.
fn refused(cell: &[u8], recipe: &[u8], table: &[u32], run: &[u8], outcome: u8) -> (u64, u32) {
    let next_move = Library::next_move(cell, recipe, table, run);
    let mut left = run.to_vec();
    let report = Library::report(cell, recipe, table, &mut left, outcome);
    assert_eq!(left, run, "a refused report gives its own run");
    (next_move, report)
}

/// The results of a next-move call and a report that one rule refuses.
fn both(number: u32) -> (u64, u32) {
    (u64::from(number) << 32, number)
}

#[test]
fn rules_from_14_on_are_tried_in_their_order() {
    let (cell, recipe, table) = bench();
    let end = bench_run(72);
    let all = |table: &[u32], run: &[u8], outcome| refused(&cell, &recipe, table, run, outcome);
    // Each change breaks a rule before all those that were broken so far.
    assert_eq!(all(&table, &end, 1), (67_108_864, 19));
    let blank = [0; 90];
    assert_eq!(all(&blank, &end, 1), both(18));
    assert_eq!(all(&blank, &end, 2), (18 << 32, 17));
    let mut gone = end.clone();
    gone[0] = 5;
    assert_eq!(all(&blank, &gone, 2), both(16));
    assert_eq!(all(&blank, &gone[..15], 2), both(16));
    assert_eq!(all(&blank[..89], &gone, 2), both(14));
    assert_eq!(Library::place(&cell, &recipe, &gone, 0), 16 * 256 + 255);
    assert_eq!(Library::place(&cell, &recipe, &gone, 9), 16 * 256 + 255);
}

#[test]
fn the_cell_is_judged_before_the_recipe_and_both_before_the_rest() {
    let (cell, recipe, table) = bench();
    let mut gone = bench_run(72);
    gone[0] = 5;
    let answers = |cell: &[u8], recipe: &[u8], number: u32| {
        let short = &table[..89];
        assert_eq!(refused(cell, recipe, short, &gone, 2), both(number));
        let place = Library::place(cell, recipe, &gone, 0);
        assert_eq!(place, number * 256 + 255);
        assert_eq!(Library::check(cell, recipe), number);
    };
    for (records, refusal) in ever_more_damaged((cell, recipe)) {
        answers(&records.0, &records.1, refusal);
    }
}

/// The answers of a next-move call and a report at a position of records that are accepted, in a table
/// with this entry there. Both calls must answer as the independent program's do.
fn answers_at(pair: &Pair, position: u64, entry: u32) -> (u64, u32) {
    let (cell, recipes) = (pair.cell_bytes(), pair.recipes_bytes());
    let (_, joined) = accepted(&cell, &recipes).expect("the pair is accepted");
    let mut table = Table::new(vec![0; joined.sizes.positions as usize]);
    table.set(position, entry);
    let round = Round {
        run: run_at(&cell, &recipes, position),
        cell,
        recipes,
        entries: table.entries().len(),
        outcome: 1,
        part: 0,
    };
    let answers = compare(&round, &table);
    (answers.next_move, answers.report)
}

/// A nest for parts that are given one after the other.
fn nest(most: u8) -> Pair {
    Pair::of_lines(&["0,0,1,1,0"], &[most], &TWO_GIVEN)
}

#[test]
fn a_move_that_overfills_a_station_is_not_open_and_an_end_is_an_end() {
    let carry = 50_331_648;
    assert_eq!(answers_at(&nest(1), 0, carry), (carry.into(), 0));
    assert_eq!(answers_at(&nest(1), 5, carry), both(18));
    assert_eq!(answers_at(&nest(2), 5, carry), (carry.into(), 0));
    // Both parts stand in the nest at the end.
    for most in [1, 2] {
        assert_eq!(answers_at(&nest(most), 11, 67_108_864), (67_108_864, 19));
        assert_eq!(answers_at(&nest(most), 11, carry), both(18));
    }
}

#[test]
fn a_move_that_mends_an_overfull_station_is_open() {
    let lines = ["0,0,1,1,0", "0,0,3,0,0", "1,0,2,0,0", "1,0,0,0,0"];
    let limited = |limits| Pair::of_lines(&lines, limits, &THREE_GIVEN);
    let (carry, hand_over, work) = (50_331_648, 33_554_561, 16_777_219);
    for (limits, open) in [
        // The first station is mended, and nothing else may be done before.
        (&[1, 8], [false, true, false]),
        (&[2, 8], [false, true, true]),
        (&[3, 8], [true, true, true]),
        // The parts that it hands over would be too many for the second.
        (&[1, 1], [false, false, false]),
        (&[3, 1], [true, false, true]),
    ] {
        for (entry, open) in [carry, hand_over, work].into_iter().zip(open) {
            let expected = if open { (entry.into(), 0) } else { both(18) };
            assert_eq!(answers_at(&limited(limits), 58, entry), expected);
        }
    }
}

#[test]
fn a_station_is_filled_up_to_every_limit() {
    // So many parts stand at the first of two stations, and one more is given there.
    let recipe = ["0,1,1,0,128,1,0", "1,0,0,0,0,0,0"];
    let cell = ["0,0,1,1,0", "1,0,1,2,0"];
    for most in 1..=8 {
        let pair = Pair::of_lines(&cell, &[most, 1], &recipe);
        for parts in 0..8u32 {
            let position = (3u64.pow(parts) - 1) / 2;
            let answers = answers_at(&pair, position, 50_331_648);
            let open = parts < most.into();
            assert_eq!(answers, if open { (50_331_648, 0) } else { both(18) });
        }
    }
}

#[test]
fn parts_are_counted_after_the_whole_carry() {
    // Two stations exchange one part for two.
    let cell = ["0,0,1,1,0", "1,0,1,1,0"];
    let recipe = ["0,1,1,1,6,1,0", "0,1,1,6,1,1,0", "1,0,0,0,0,0,0"];
    let carry = entry_of(CARRY, [0, 1, 0, 0]);
    let position = 1 + 2 * 3 + 2 * 9;
    for (limits, open) in [
        (&[2, 1], true),
        (&[8, 8], true),
        (&[1, 2], false),
        (&[1, 1], false),
    ] {
        let pair = Pair::of_lines(&cell, limits, &recipe);
        let expected = if open { (carry.into(), 0) } else { both(18) };
        assert_eq!(answers_at(&pair, position, carry), expected);
    }
}

/// Compares the calls on two records with this run, at each outcome.
fn compare_outcomes(cell: &[u8], recipe: &[u8], run: &[u8], table: &Table) {
    for (outcome, part) in [(0, 0), (1, 1), (2, 255)] {
        let round = Round {
            cell: cell.to_vec(),
            recipes: recipe.to_vec(),
            run: run.to_vec(),
            entries: table.entries().len(),
            outcome,
            part,
        };
        compare(&round, table);
    }
}

#[test]
fn one_byte_from_the_bench_example() {
    let (cell, recipe, table) = bench();
    let table = Table::new(table);
    // The lines and one more, which counts for nothing; and the limits.
    for (record, places) in [
        (0, 0..1 + 6 * 5),
        (0, CELL_BYTES - MOST_RESOURCES..CELL_BYTES),
        (1, 0..1 + 6 * 7),
        (2, 0..RUN_BYTES),
    ] {
        for at in places {
            for byte in 0..=255 {
                let mut handed = [cell.clone(), recipe.clone(), bench_run(26)];
                handed[record][at] = byte;
                let [cell, recipe, run] = handed;
                compare_outcomes(&cell, &recipe, &run, &table);
            }
        }
    }
    table.assert_unchanged(90);
}

#[test]
fn every_limit_and_every_place_of_two_parts() {
    let pair = nest(1);
    let (mut cell, recipe) = (pair.cell_bytes(), pair.recipes_bytes());
    let mut table = Table::new(vec![50_331_648; 12]);
    (8..12).for_each(|position| table.set(position, 67_108_864));
    for k in 0..MOST_RESOURCES {
        for most in 0..=255 {
            limits_of(&mut cell)[k] = most;
            for position in 0..12 {
                let run = run_at(&pair.cell_bytes(), &recipe, position);
                compare_outcomes(&cell, &recipe, &run, &table);
            }
        }
        limits_of(&mut cell)[k] = 8;
    }
}

#[test]
fn every_entry_near_to_one_of_the_bench_example() {
    let (cell, recipe, entries) = bench();
    let mut table = Table::new(entries.clone());
    for position in [0, 1, 22, 26, 50, 68, 72, 89] {
        let run = bench_run(position);
        let near = entries[position as usize];
        let bits = (0..32).map(|bit| near ^ 1 << bit);
        let kinds = (0..=255).map(|kind| kind << 24 | near & 0xff_ffff);
        let letters = (0..4096).map(|low| near & 0xffff_f000 | low);
        for entry in bits.chain(kinds).chain(letters) {
            table.set(position, entry);
            compare_outcomes(&cell, &recipe, &run, &table);
        }
    }
    table.assert_unchanged(90);
}

#[test]
fn slices_of_every_length() {
    let (cell, recipe, table) = bench();
    let table = Table::new(table);
    let run = bench_run(22);
    let longer = |bytes: &[u8]| [bytes, &[0x5a; 20]].concat();
    for length in 0..CellFile::RECORD_BYTES + 20 {
        compare_outcomes(&longer(&cell)[..length], &recipe, &run, &table);
        compare_outcomes(&longer(&cell)[..length], &recipe[..9], &run, &table);
    }
    // From two records on there are two chapters.
    let twice = longer(&[&recipe[..], &recipe].concat());
    for length in 0..=twice.len() {
        compare_outcomes(&cell, &twice[..length], &run, &table);
    }
    for length in 0..RUN_BYTES + 20 {
        compare_outcomes(&cell, &recipe, &longer(&run)[..length], &table);
    }
    for length in 0..=90 {
        let shorter = Table::new(table.entries()[..length].to_vec());
        compare_outcomes(&cell, &recipe, &run, &shorter);
        compare_outcomes(&cell, &recipe, &run[..15], &shorter);
    }
}

#[test]
fn a_fresh_run_is_written_whole_or_not_at_all() {
    for length in 0..40 {
        let mut run = vec![0x5a; length];
        let mut expected = run.clone();
        let refusal = Library::fresh(&mut run);
        assert_eq!(refusal, Independent::fresh(&mut expected));
        assert_eq!(run, expected);
        assert_eq!(refusal, if length < 16 { 14 } else { 0 });
    }
}

#[test]
fn four_parallel_lines_have_a_station_each() {
    let pair = full_pair();
    let (cell, recipes) = (pair.cell_bytes(), pair.recipes_bytes());
    let (_, joined) = accepted(&cell, &recipes).expect("the pair is accepted");
    let run = [15, 0, 0, 0, 0, 0, 0, 1, 2, 3, 4, 0, 0, 0, 0, 0];
    let position = joined.position(&run_of_bytes(&run));
    let mut table = Table::new(vec![0; joined.sizes.positions as usize]);
    let round = Round {
        cell,
        recipes,
        run: run.to_vec(),
        entries: table.entries().len(),
        outcome: 0,
        part: 3,
    };
    // Any four of the lines 36 to 39, which are the same operation of the stations 0 to 3.
    for n in 0..256 {
        let letters = [0, 1, 2, 3].map(|place| 36 + n / 4usize.pow(place) % 4);
        let entry = entry_of(CARRY, letters);
        table.set(position, entry);
        let answers = compare(&round, &table);
        let open = letters == [36, 37, 38, 39];
        let expected = if open { (entry.into(), 0) } else { both(18) };
        assert_eq!((answers.next_move, answers.report), expected);
    }
}

/// The records of a cell whose resources have these many states, and of a recipe of so many points,
/// two at least, and parts. The last point is an end.
fn records_of(states: &[u32], points: u32, parts: u32) -> (Vec<u8>, Vec<u8>) {
    let stations = states.iter().zip(0..);
    let cell: Rows = stations
        .map(|(count, k)| vec![k, 0, 1, 1, count - 1])
        .collect();
    let mut recipe: Rows = (1..points)
        .map(|next| vec![next - 1, 1, 1, 0, 1 << (parts - 1), next, 0])
        .collect();
    recipe.push(vec![points - 1, 0, 0, 0, 0, 0, 0]);
    let cell = generate::record::<CellFile>(&cell);
    (cell, generate::record::<RecipeFile>(&recipe))
}

#[test]
fn the_greatest_table_is_read_to_its_end() {
    let positions = MOST_POSITIONS as usize;
    let mut table = Table::new(vec![0; positions + 1]);
    table.set(MOST_POSITIONS - 1, 67_108_864);
    let (cell, recipes) = records_of(&[4, 4, 4], 16, 5);
    let mut round = Round {
        cell,
        recipes,
        run: vec![15, 3, 3, 3, 0, 0, 0, 3, 3, 3, 3, 3, 0, 0, 0, 0],
        entries: positions,
        outcome: 1,
        part: 4,
    };
    for entries in [positions, positions + 1] {
        round.entries = entries;
        let answers = compare(&round, &table);
        assert_eq!((answers.next_move, answers.report), (67_108_864, 19));
        assert_eq!((answers.check, answers.place), (0, 3));
    }
    round.entries = positions - 1;
    let answers = compare(&round, &table);
    assert_eq!((answers.next_move, answers.report), both(14));

    let (fifth_state, _) = records_of(&[4, 5, 4], 16, 5);
    round.cell = fifth_state;
    let answers = compare(&round, &table);
    assert_eq!((answers.next_move, answers.report), both(13));
    assert_eq!((answers.check, answers.place), (13, 13 * 256 + 255));
    table.assert_unchanged(positions + 1);
}

/// Whether so many positions would pass for few if a number lost its upper bits.
fn comes_round(positions: u64) -> bool {
    positions > MOST_POSITIONS && positions % (1 << 32) <= MOST_POSITIONS
}

#[test]
fn sizes_that_a_narrow_number_would_lose() {
    let mut found = 0;
    for n in 0..8u32.pow(6) {
        let mut states = [0; 6];
        (0..6).for_each(|k| states[k] = 1 + n / 8u32.pow(k as u32) % 8);
        if !states.is_sorted() {
            continue;
        }
        let joint_states: u64 = states.iter().map(|&count| u64::from(count)).product();
        for parts in 6..=8 {
            for points in 2..=16 {
                if comes_round(u64::from(points) * joint_states * 7u64.pow(parts)) {
                    let (cell, recipe) = records_of(&states, points, parts);
                    assert_eq!(Library::check(&cell, &recipe), 13);
                    found += 1;
                }
            }
        }
    }
    println!("{found} sizes");
    assert!(found > 0);
}
