//! The program `walk`, run as a process on good and damaged files and inputs, against the independent
//! program.
//!
//! The move of each position is fixed: the smallest entry that begins a way of the fewest silent moves to a carry
//! that leads on. So what is printed is compared byte for byte.

use against::generate::{self, Generate, Rows};
use against::pairs::{PASTED_END, PASTED_LOOP};
use against::random::Random;
use against::{CellFile, Columns, RecipeFile, REFUSALS as ALL_REFUSALS};
use independent::{cell_bytes, likely_pair, recipe_bytes};
use std::fmt::{Display, Formatter, Result};
use std::fs::{self, File};
use std::io::{BufRead, BufReader, Write};
use std::path::{Path, PathBuf};
use std::process::{Child, Command, Stdio};
use std::sync::mpsc;
use std::thread;
use std::time::Duration;

const BENCH_CELL: &str = include_str!("../../../examples/bench/cell.csv");
const BENCH_RECIPE: &str = include_str!("../../../examples/bench/recipe.csv");
const GATE_CELL: &str = include_str!("../../../examples/gate/cell.csv");
const LANE_CELL: &str = include_str!("../../../examples/lane/cell.csv");
const PHOTOCELL_CELL: &str = include_str!("../../../examples/lane/cell_photocell.csv");
const LANE_RECIPE: &str = include_str!("../../../examples/lane/recipe.csv");

/// How many bytes of a file are read.
const FILE_BYTES: usize = 8192;

/// Runs of the program in the seeded test, and how often each refusal must at least be seen in them.
const RUNS: usize = 3_000;
const LEAST_SEEN: usize = 20;

/// How many lines of moves they must at least print.
const LEAST_MOVES: usize = 4_000;

/// Every refusal that a plan and the outcomes can lead to. A run that `walk` itself begins and a table
/// that it has planned are never refused with 16 or 18.
const REFUSALS: [usize; 19] = [
    1, 2, 3, 4, 5, 6, 7, 8, 9, 10, 11, 12, 13, 14, 15, 17, 19, 22, 23,
];

fn root() -> &'static Path {
    Path::new(env!("CARGO_MANIFEST_DIR"))
        .ancestors()
        .nth(2)
        .expect("the package stands two folders below the workspace")
}

/// The program, which the prover leaves behind.
fn program() -> PathBuf {
    let program = root().join("crates/walk/out/walk");
    assert!(
        program.is_file(),
        "{} is missing: make it with `rt ci`, or with `rt run` in crates/walk",
        program.display()
    );
    program
}

/// An empty folder of this name.
fn folder(name: &str) -> PathBuf {
    let folder = Path::new(env!("CARGO_TARGET_TMPDIR"))
        .join("walk")
        .join(name);
    if folder.exists() {
        fs::remove_dir_all(&folder).expect("an earlier run's folder can be removed");
    }
    fs::create_dir_all(&folder).expect("a folder can be made");
    folder
}

/// The two files, where they are there, and standard input.
#[derive(Clone)]
struct Case {
    cell: Option<Vec<u8>>,
    recipe: Option<Vec<u8>>,
    input: Vec<u8>,
}

impl Display for Case {
    fn fmt(&self, f: &mut Formatter) -> Result {
        for (name, file) in [("cell", &self.cell), ("recipe", &self.recipe)] {
            match file {
                Some(file) => writeln!(f, "{name} \"{}\"", file.escape_ascii())?,
                None => writeln!(f, "no {name}")?,
            }
        }
        write!(f, "input \"{}\"", self.input.escape_ascii())
    }
}

impl Case {
    fn new(cell: &str, recipe: &str, input: &str) -> Case {
        Case {
            cell: Some(cell.into()),
            recipe: Some(recipe.into()),
            input: input.into(),
        }
    }

    /// What the independent program prints.
    fn expected(&self) -> Vec<u8> {
        independent::walk(self.cell.as_deref(), self.recipe.as_deref(), &self.input)
    }

    /// The program, ready to start in a folder with the case's files.
    fn command(&self, folder: &Path) -> Command {
        for (name, file) in [("cell.csv", &self.cell), ("recipe.csv", &self.recipe)] {
            let path = folder.join(name);
            match file {
                Some(file) => fs::write(path, file).expect("a file can be written"),
                None if path.exists() => fs::remove_file(path).expect("a file can be removed"),
                None => (),
            }
        }
        let mut command = Command::new(program());
        command.current_dir(folder);
        command
    }

    /// Compares what the program prints when all of the input is there at once; gives it.
    fn compare(&self, folder: &Path) -> Vec<u8> {
        let path = folder.join("input");
        fs::write(&path, &self.input).expect("a file can be written");
        let input = File::open(path).expect("the file is there");
        self.judge(start(self.command(folder), input.into()))
    }

    /// Compares what the program prints when the input comes byte by byte.
    fn compare_by_bytes(&self, folder: &Path) {
        let mut child = start(self.command(folder), Stdio::piped());
        let mut stdin = child.stdin.take().expect("its input is a pipe");
        thread::scope(|scope| {
            // A program that has ended reads no more, so that a write may fail.
            scope.spawn(move || {
                self.input
                    .iter()
                    .all(|&byte| stdin.write_all(&[byte]).is_ok())
            });
            self.judge(child);
        });
    }

    fn judge(&self, child: Child) -> Vec<u8> {
        let output = child.wait_with_output().expect("the program ends");
        let expected = self.expected();
        assert!(
            output.stdout == expected && output.stderr.is_empty() && output.status.success(),
            "{self}\nprinted:\n{}\nexpected:\n{}\nerrors \"{}\", {}",
            String::from_utf8_lossy(&output.stdout),
            String::from_utf8_lossy(&expected),
            output.stderr.escape_ascii(),
            output.status
        );
        output.stdout
    }
}

/// Starts the program with this as its standard input.
fn start(mut command: Command, input: Stdio) -> Child {
    let command = command.stdin(input).stdout(Stdio::piped());
    let child = command.stderr(Stdio::piped()).spawn();
    child.expect("the program starts")
}

/// The number in the last line if it is a refusal.
fn refusal(printed: &[u8]) -> Option<usize> {
    let text = String::from_utf8_lossy(printed);
    let number = text.lines().last()?.strip_prefix("refused,")?;
    Some(number.parse().expect("a refusal is a number"))
}

/// The value lines of a record, which has this many columns.
fn rows(record: &[u8], columns: usize) -> Rows {
    let lines = record[1..].chunks(columns).take(record[0].into());
    lines
        .map(|line| line.iter().map(|&number| number.into()).collect())
        .collect()
}

/// Mostly outcomes; here and there a digit that is none, or a byte that is no digit.
fn some_input(random: &mut Random) -> Vec<u8> {
    let length = random.choose(&[0, 1, 4, 12, 40, 150]);
    // A test that always fails, or never does, can lead on for longest.
    let bias = random.choose(&[0, 1, 4, 5, 9, 10]);
    let outcome = |random: &mut Random| b'0' + u8::from(random.below(10) < bias);
    let mut input: Vec<u8> = (0..length).map(|_| outcome(random)).collect();
    if length > 0 && random.below(3) == 0 {
        let at = random.below(length);
        input[at] = match random.below(3) {
            0 => b'2' + random.below(8) as u8,
            1 => random.choose(b"\n\0 /:,-\xff\xb0"),
            _ => random.byte(),
        };
    }
    input
}

/// A file with its value lines again and again, until more than can be read of it.
fn overlong(file: &[u8], names: usize, random: &mut Random) -> Vec<u8> {
    let mut long = file.to_vec();
    let lines = &file[names..];
    while long.len() <= FILE_BYTES && !lines.is_empty() {
        long.extend_from_slice(lines);
    }
    if random.coin() && long.len() > FILE_BYTES {
        long[FILE_BYTES..].fill(random.byte());
    }
    long
}

fn some_case(random: &mut Random) -> Case {
    let (cell_rows, recipe_rows) = match random.below(12) {
        // A cell and a recipe that were not meant for each other are mostly too great.
        0 => (CellFile::good_rows(random), RecipeFile::good_rows(random)),
        _ => {
            let most_positions = random.choose(&[60, 400, 2_000, 8_192, 60_000]);
            let mut seed = independent::Random(random.bits());
            let (cell, recipe) = likely_pair(most_positions, &mut seed);
            (
                rows(&cell_bytes(&cell), CellFile::GREATEST.len()),
                rows(&recipe_bytes(&recipe), RecipeFile::GREATEST.len()),
            )
        }
    };
    let (mut cell_rows, mut recipe_rows) = (cell_rows, recipe_rows);
    let change = random.below(16);
    match change {
        0 => CellFile::break_rule(random.choose(&[4, 5, 6, 23]), &mut cell_rows, random),
        1..=3 => {
            let rule = random.choose(&[4, 7, 8, 9, 10, 11, 11, 12]);
            RecipeFile::break_rule(rule, &mut recipe_rows, random);
        }
        _ => (),
    }
    let mut cell = Some(generate::file::<CellFile>(&cell_rows));
    let mut recipe = Some(generate::file::<RecipeFile>(&recipe_rows));
    let file = if random.coin() {
        &mut cell
    } else {
        &mut recipe
    };
    match change {
        4 => *file = None,
        5 => {
            let names = if random.coin() {
                CellFile::NAMES
            } else {
                RecipeFile::NAMES
            };
            *file = Some(names.to_vec());
        }
        6 => cell = cell.map(|file| overlong(&file, CellFile::NAMES.len(), random)),
        7 => recipe = recipe.map(|file| overlong(&file, RecipeFile::NAMES.len(), random)),
        8 | 9 => file
            .iter_mut()
            .for_each(|file| generate::damage(file, random)),
        _ => (),
    }
    Case {
        cell,
        recipe,
        input: some_input(random),
    }
}

#[test]
fn seeded_files_and_inputs() {
    let mut random = Random::new(41);
    let folder = folder("seeded");
    let mut seen = [0; ALL_REFUSALS];
    let mut moves = 0;
    for _ in 0..RUNS {
        let printed = some_case(&mut random).compare(&folder);
        moves += printed.iter().filter(|&&byte| byte == b'\n').count() - 1;
        if let Some(number) = refusal(&printed) {
            seen[number] += 1;
            moves -= 1;
        }
    }
    println!("{moves} moves, refusals {seen:?}");
    for number in REFUSALS {
        assert!(seen[number] >= LEAST_SEEN, "{number}: {seen:?}");
    }
    assert!(moves >= LEAST_MOVES, "{moves} moves");
}

#[test]
fn input_that_comes_byte_by_byte() {
    let mut random = Random::new(42);
    let folder = folder("bytes");
    for _ in 0..100 {
        some_case(&mut random).compare_by_bytes(&folder);
    }
}

#[test]
fn the_stored_run_is_the_bench_example() {
    let stored = |name: &str| {
        let path = root().join("crates/walk").join(name);
        fs::read_to_string(path).expect("the stored run is there")
    };
    assert_eq!(stored("data/cell.csv"), BENCH_CELL);
    assert_eq!(stored("data/recipe.csv"), BENCH_RECIPE);
    let case = Case::new(BENCH_CELL, BENCH_RECIPE, &stored("stdin"));
    assert_eq!(case.compare(&folder("bench")), stored("stdout").as_bytes());
}

/// The stored output of this name.
fn stored_output(name: &str) -> Vec<u8> {
    let expected = Path::new(env!("CARGO_MANIFEST_DIR")).join(format!("expected/{name}.txt"));
    fs::read(expected).expect("the expected output is there")
}

#[test]
fn tests_with_and_without_a_reject_gate() {
    let folder = folder("gate");
    for (cell, input, name) in [
        (BENCH_CELL, "0010", "walk_bench"),
        (BENCH_CELL, "00002", "walk_rework"),
        (GATE_CELL, "0010", "walk_gate"),
        (GATE_CELL, "00000", "walk_gate_opens"),
    ] {
        let case = Case::new(cell, BENCH_RECIPE, input);
        let printed = case.compare(&folder);
        assert_eq!(printed, stored_output(name), "{name}");
    }
    let lone = format!("{BENCH_CELL}1,1,4,3,0\n");
    let case = Case::new(&lone, BENCH_RECIPE, "0010");
    assert_eq!(refusal(&case.compare(&folder)), Some(23));
}

#[test]
fn a_pallet_fetched_with_and_without_a_photocell() {
    let folder = folder("lane");
    let case = Case::new(LANE_CELL, LANE_RECIPE, "0000");
    assert_eq!(case.compare(&folder), stored_output("walk_lane"));
    let case = Case::new(PHOTOCELL_CELL, LANE_RECIPE, "0000");
    assert_eq!(refusal(&case.compare(&folder)), Some(15));
}

/// What is printed for files of these value lines and an input, below the names.
fn printed(cell: &[&str], recipe: &[&str], input: &str, folder: &Path) -> String {
    let file = |names: &str, lines: &[&str]| {
        let lines = lines.iter().map(|line| format!("{line}\n"));
        lines.fold(format!("{names}\n"), |file, line| file + &line)
    };
    let cell = file("resource,from,act,arg,to", cell);
    let recipe = file("point,kind,op,takes,gives,then,else", recipe);
    let printed = Case::new(&cell, &recipe, input).compare(folder);
    let printed = String::from_utf8(printed).expect("the text is ASCII");
    let lines = printed.strip_prefix("position,entry,next\n");
    lines.expect("the names come first").to_string()
}

#[test]
fn of_two_carries_the_one_with_the_smaller_last_letter() {
    let folder = folder("letters");
    let cell = ["0,0,1,1,0", "0,0,1,2,0", "1,0,1,1,0", "1,0,1,2,0"];
    let mut recipe = ["0,1,1,0,1,1,0", "0,1,2,0,2,1,0", "1,0,0,0,0,0,0"];
    // The first part is given at station 1 by line 2, the second at station 0 by line 1.
    let moved = "0,50331714,14\nrefused,19\n";
    assert_eq!(printed(&cell, &recipe, "00", &folder), moved);
    // With the recipe's lines the other way round it is line 3 for the second part and line 0 for the first.
    recipe.swap(0, 1);
    let moved = "0,50331651,16\nrefused,19\n";
    assert_eq!(printed(&cell, &recipe, "00", &folder), moved);
}

#[test]
fn a_shorter_way_wins_over_a_smaller_number() {
    let folder = folder("shortest");
    let cell = [
        "0,0,0,0,1",
        "0,1,0,0,2",
        "0,2,1,1,0",
        "0,0,3,40,3",
        "1,0,2,40,1",
        "0,3,1,1,0",
    ];
    let recipe = ["0,1,1,0,1,1,0", "1,0,0,0,0,0,0"];
    // An empty pallet leaves, instead of two internal works.
    let moved = "0,33554691,21\n21,50331653,37\nrefused,19\n";
    assert_eq!(printed(&cell, &recipe, "000", &folder), moved);
    // Without the pallet's lane, the longer way is the only one.
    let moved = "0,16777216,2\n2,16777217,4\n4,50331650,7\nrefused,19\n";
    assert_eq!(printed(&cell[..3], &recipe, "0000", &folder), moved);
}

#[test]
fn points_that_nothing_leads_to() {
    let expected = stored_output("walk_unreached");
    let folder = folder("unreached");
    for pasted in [PASTED_END, PASTED_LOOP] {
        let recipe = format!("{BENCH_RECIPE}{pasted}");
        for input in ["", "0010", "9"] {
            let case = Case::new(BENCH_CELL, &recipe, input);
            assert_eq!(case.compare(&folder), expected);
        }
    }
}

#[test]
fn a_rework_loop_without_end() {
    let case = Case::new(BENCH_CELL, BENCH_RECIPE, &"0".repeat(100_000));
    let printed = case.compare(&folder("loop"));
    let lines = printed.iter().filter(|&&byte| byte == b'\n').count();
    assert_eq!(lines, 100_001);
}

#[test]
fn a_digit_is_answered_before_the_next_comes() {
    let case = Case::new(BENCH_CELL, BENCH_RECIPE, "0010");
    let mut child = start(case.command(&folder("answers")), Stdio::piped());
    let mut stdin = child.stdin.take().expect("its input is a pipe");
    let stdout = child.stdout.take().expect("its output is a pipe");
    let (sender, lines) = mpsc::channel();
    thread::spawn(move || {
        let lines = BufReader::new(stdout).lines();
        lines
            .map_while(|line| line.ok())
            .all(|line| sender.send(line).is_ok())
    });
    let next = || {
        lines
            .recv_timeout(Duration::from_secs(20))
            .unwrap_or_default()
    };
    let mut printed = next() + "\n";
    for &digit in &case.input {
        stdin.write_all(&[digit]).expect("the program reads");
        printed += &(next() + "\n");
    }
    drop(stdin);
    child.kill().expect("the program can be ended");
    child.wait().expect("the program has ended");
    assert_eq!(printed.as_bytes(), case.expected());
}

#[test]
fn a_file_is_judged_by_its_first_bytes() {
    let folder = folder("first");
    let refused = |cell: &str| {
        let case = Case::new(cell, BENCH_RECIPE, "0");
        refusal(&case.compare(&folder))
    };
    // Lines of 11 and 10 bytes behind the names line's 25.
    let whole = String::from("resource,from,act,arg,to\n")
        + &"0,0,1,10,1\n".repeat(7)
        + &"0,0,1,1,1\n".repeat(809);
    assert_eq!(whole.len(), FILE_BYTES);
    assert_eq!(refused(&whole), Some(3));
    assert_eq!(refused(&format!("{whole}x")), Some(3));
    assert_eq!(refused(&format!("{whole}\n\n")), Some(3));
    assert_eq!(refused(&whole[..FILE_BYTES - 1]), Some(2));
    let shifted = whole.replacen("0,0,1,1,1\n", "0,0,1,10,1\n", 1);
    assert_eq!(refused(&shifted), Some(2));
    assert_eq!(refused(&format!("{}x", &whole[..FILE_BYTES - 1])), Some(2));
}

#[test]
fn a_folder_in_the_place_of_a_file_counts_as_empty() {
    let case = Case {
        cell: None,
        ..Case::new(BENCH_CELL, BENCH_RECIPE, "0010")
    };
    let folder = folder("folder");
    fs::create_dir(folder.join("cell.csv")).expect("a folder can be made");
    fs::write(folder.join("recipe.csv"), BENCH_RECIPE).expect("a file can be written");
    let mut command = Command::new(program());
    command.current_dir(&folder);
    case.judge(start(command, Stdio::null()));
}

/// A cell of this many stations, the first with eight states, that alone can do operation 1.
fn cell_of(stations: usize) -> String {
    let others: String = (1..stations).map(|k| format!("{k},0,0,0,0\n")).collect();
    format!("resource,from,act,arg,to\n0,0,1,1,7\n0,7,1,1,0\n{others}")
}

/// A recipe that puts the last of some parts into the cell and takes it out, again and again, and has
/// this many points.
fn recipe_of(parts: usize, points: usize) -> String {
    let mut recipe = String::from("point,kind,op,takes,gives,then,else\n");
    for point in 0..points - 1 {
        let part = 1 << (parts - 1);
        let (takes, gives) = if point % 2 == 0 { (0, part) } else { (part, 0) };
        recipe += &format!("{point},1,1,{takes},{gives},{},0\n", point + 1);
    }
    recipe + &format!("{},0,0,0,0,0,0\n", points - 1)
}

#[test]
fn the_table_has_8192_places() {
    let folder = folder("places");
    let refused = |stations: usize, parts: usize, points: usize| {
        let case = Case::new(&cell_of(stations), &recipe_of(parts, points), "0000");
        refusal(&case.compare(&folder))
    };
    // 4 points, 8 states and 2^8 placings; the run comes to the end.
    assert_eq!(refused(1, 8, 4), Some(19));
    // 3 points, 8 states and 7^3 placings are 8232, the least number past 8192 that there can be.
    assert_eq!(refused(6, 3, 3), Some(14));
    // 16 points, 8 states and 2^8 placings; 16 points, 8 states and 4^6 or 4^8.
    assert_eq!(refused(1, 8, 16), Some(14));
    assert_eq!(refused(3, 6, 16), Some(14));
    assert_eq!(refused(3, 8, 16), Some(13));
}
