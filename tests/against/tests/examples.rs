//! The C examples, compiled against the library and run on good and damaged files.

use against::pairs::PASTED_END;
use against::plans::needed;
use independent::{plan, read_cell, read_recipe, Cell, Joined, Recipe, Run};
use std::collections::BTreeMap;
use std::fs;
use std::path::{Path, PathBuf};
use std::process::Command;
use std::sync::{Mutex, OnceLock};

const BENCH_CELL: &str = include_str!("../../../examples/bench/cell.csv");
const BENCH_RECIPE: &str = include_str!("../../../examples/bench/recipe.csv");
const BENCH_TABLE: &str = include_str!("../../../examples/bench/table.csv");
const NEST_CELL: &str = include_str!("../../../examples/nest/cell.csv");
const NEST_RECIPE: &str = include_str!("../../../examples/nest/recipe.csv");
const NEST_LIMITS: &str = include_str!("../../../examples/nest/limits.csv");
const ONE_NEST: &str = include_str!("../../../examples/nest/one_nest.csv");
const GAP_CELL: &str = include_str!("../../../examples/gap/cell.csv");
const GAP_RECIPE: &str = include_str!("../../../examples/gap/recipe.csv");
const GATE_CELL: &str = include_str!("../../../examples/gate/cell.csv");
const GATE_RECIPE: &str = include_str!("../../../examples/gate/recipe.csv");
const LANE_CELL: &str = include_str!("../../../examples/lane/cell.csv");
const PHOTOCELL_CELL: &str = include_str!("../../../examples/lane/cell_photocell.csv");
const LANE_RECIPE: &str = include_str!("../../../examples/lane/recipe.csv");
const CHAPTERS_CELL: &str = include_str!("../../../examples/chapters/cell.csv");
const CHAPTERS: [&str; 2] = [
    include_str!("../../../examples/chapters/recipe_0.csv"),
    include_str!("../../../examples/chapters/recipe_1.csv"),
];
const CHAPTERS_TABLE: &str = include_str!("../../../examples/chapters/table.csv");
const WAY_CELL: &str = include_str!("../../../examples/way/cell.csv");
const WAY_RECIPE: &str = include_str!("../../../examples/way/recipe.csv");
const WAY_TABLE_BEFORE: &str = include_str!("../../../examples/way/table_before.csv");

/// Recipes of one end, and of two of which nothing leads to the second.
const ONE_END: &str = "point,kind,op,takes,gives,then,else\n0,0,0,0,0,0,0\n";
const TWO_ENDS: &str = "point,kind,op,takes,gives,then,else\n0,0,0,0,0,0,0\n1,0,0,0,0,0,0\n";

fn root() -> &'static Path {
    Path::new(env!("CARGO_MANIFEST_DIR"))
        .ancestors()
        .nth(2)
        .expect("the package stands two folders below the workspace")
}

/// An example program, compiled against the library.
fn compile(name: &str) -> PathBuf {
    let program = Path::new(env!("CARGO_TARGET_TMPDIR")).join(name);
    let status = Command::new("cc")
        .args([
            "-std=c99",
            "-pedantic",
            "-Wall",
            "-Wextra",
            "-Werror",
            "-O2",
            "-I",
        ])
        .arg(root().join("include"))
        .arg("-o")
        .arg(&program)
        .arg(root().join(format!("examples/c/{name}.c")))
        .arg(root().join("crates/capi/out/libcapi.a"))
        .status()
        .expect("cc starts");
    assert!(status.success(), "cc: {status}");
    program
}

/// The program that checks files, compiled once for all tests.
fn check_files() -> &'static Path {
    static PROGRAM: OnceLock<PathBuf> = OnceLock::new();
    PROGRAM.get_or_init(|| compile("check_files"))
}

/// The program that follows a table, compiled once for all tests.
fn follow_table() -> &'static Path {
    static PROGRAM: OnceLock<PathBuf> = OnceLock::new();
    PROGRAM.get_or_init(|| compile("follow"))
}

/// The line screen, compiled once for all tests.
fn line_screen() -> &'static Path {
    static PROGRAM: OnceLock<PathBuf> = OnceLock::new();
    PROGRAM.get_or_init(|| compile("line_screen"))
}

/// The program that lists processes to install, compiled once for all tests.
fn list_processes() -> &'static Path {
    static PROGRAM: OnceLock<PathBuf> = OnceLock::new();
    PROGRAM.get_or_init(|| compile("install"))
}

/// The program that prints a planned table, compiled once for all tests.
fn plan_table() -> &'static Path {
    static PROGRAM: OnceLock<PathBuf> = OnceLock::new();
    PROGRAM.get_or_init(|| compile("plan_table"))
}

/// The file of an expected output.
fn stored(name: &str) -> PathBuf {
    Path::new(env!("CARGO_MANIFEST_DIR")).join(format!("expected/{name}.txt"))
}

fn expected(name: &str) -> String {
    fs::read_to_string(stored(name)).expect("the expected output is there")
}

/// A folder of this name with these files, where they are given.
fn folder(name: &str, files: &[(&str, Option<&str>)]) -> PathBuf {
    let folder = Path::new(env!("CARGO_TARGET_TMPDIR"))
        .join("files")
        .join(name);
    if folder.exists() {
        fs::remove_dir_all(&folder).expect("an earlier run's folder can be removed");
    }
    fs::create_dir_all(&folder).expect("a folder can be made");
    for (file, text) in files {
        if let Some(text) = text {
            fs::write(folder.join(file), text).expect("a file can be written");
        }
    }
    folder
}

/// Compares what an example prints with the stored output `expected/NAME.txt`.
fn compare(name: &str, command: &mut Command) {
    let output = command.output().expect("the example starts");
    let expected = expected(name);
    assert_eq!(String::from_utf8_lossy(&output.stdout), expected);
    assert_eq!(String::from_utf8_lossy(&output.stderr), "");
    let status = if expected.contains("refused") { 1 } else { 0 };
    assert_eq!(output.status.code(), Some(status));
}

/// Checks these files, where they are given.
fn check(name: &str, cell: Option<&str>, recipe: Option<&str>) {
    let folder = folder(name, &[("cell.csv", cell), ("recipe.csv", recipe)]);
    let files = ["cell.csv", "recipe.csv"].map(|file| folder.join(file));
    compare(name, Command::new(check_files()).args(files));
}

/// The recipe files of these chapters in a folder of this name, and the cell's before them.
fn chapter_files(name: &str, cell: &str, chapters: &[&str]) -> Vec<PathBuf> {
    let names = (0..chapters.len()).map(|n| format!("recipe_{n}.csv"));
    let names: Vec<String> = names.collect();
    let mut files = vec![("cell.csv", Some(cell))];
    files.extend(
        names
            .iter()
            .map(String::as_str)
            .zip(chapters.iter().copied().map(Some)),
    );
    let folder = folder(name, &files);
    files.iter().map(|(file, _)| folder.join(file)).collect()
}

/// Checks a cell with these chapters.
fn check_chapters(name: &str, cell: &str, chapters: &[&str]) {
    let files = chapter_files(name, cell, chapters);
    compare(name, Command::new(check_files()).args(files));
}

/// Checks a limits file, where it is given, with this cell and the nest example's recipe.
fn check_limits(name: &str, cell: &str, limits: Option<&str>) {
    let files = [
        ("limits.csv", limits),
        ("cell.csv", Some(cell)),
        ("recipe.csv", Some(NEST_RECIPE)),
    ];
    let folder = folder(name, &files);
    let files = files.map(|(file, _)| folder.join(file));
    compare(name, Command::new(check_files()).arg("-l").args(files));
}

/// Follows a table of these files.
fn follow(name: &str, [cell, recipe, table]: [&str; 3], outcomes: &str) {
    follow_chapters(name, cell, &[recipe], table, outcomes);
}

/// Follows a table of a cell with these chapters.
fn follow_chapters(name: &str, cell: &str, chapters: &[&str], table: &str, outcomes: &str) {
    let mut files = chapter_files(name, cell, chapters);
    let path = files[0].with_file_name("table.csv");
    fs::write(&path, table).expect("a file can be written");
    files.push(path);
    compare(name, Command::new(follow_table()).args(files).arg(outcomes));
}

/// The records of these files, and the independent planner's table for them.
fn planned(cell: &str, chapters: &[&str]) -> (Cell, Vec<Recipe>, Vec<u32>) {
    let cell = read_cell(cell.as_bytes()).record;
    let recipes = chapters
        .iter()
        .map(|file| read_recipe(file.as_bytes()).record);
    let recipes: Vec<Recipe> = recipes.collect();
    let [entries, scratch] = needed(&Joined::of(&cell, &recipes));
    let mut table = vec![0; entries];
    assert_eq!(plan(&cell, &recipes, &mut table, scratch), 0);
    (cell, recipes, table)
}

/// A table file with these entries at their positions.
fn table_file(entries: BTreeMap<usize, u32>) -> String {
    let lines = entries.iter().map(|(p, entry)| format!("{p},{entry}\n"));
    format!("position,entry\n{}", lines.collect::<String>())
}

/// The independent planner's table for these files, every entry other than 0.
fn whole_table(cell: &str, chapters: &[&str]) -> String {
    let (_, _, table) = planned(cell, chapters);
    let entries = table.into_iter().enumerate();
    table_file(entries.filter(|(_, entry)| *entry != 0).collect())
}

/// The independent planner's table for these files, as far as a run from the start can come.
fn planned_table(cell: &str, chapters: &[&str]) -> String {
    let (cell, recipes, table) = planned(cell, chapters);
    let joined = Joined::of(&cell, &recipes);
    let mut entries = BTreeMap::new();
    let mut waiting = vec![Run::fresh()];
    while let Some(run) = waiting.pop() {
        let position = joined.position(&run) as usize;
        if entries.insert(position, table[position]).is_none() {
            let reports = [0, 1].map(|outcome| run.report(&cell, &recipes, &table, outcome));
            waiting.extend(reports.map(|report| report.run));
        }
    }
    table_file(entries)
}

/// The lines of one text that another hasn't.
fn lines_beside<'a>(text: &'a str, other: &str) -> Vec<&'a str> {
    let is_beside = |line: &&str| other.lines().all(|there| there != *line);
    text.lines().filter(is_beside).collect()
}

/// Plans for these files, and follows the plan.
fn screen(name: &str, [cell, recipe]: [&str; 2], outcomes: &[&str]) {
    let files = [("cell.csv", Some(cell)), ("recipe.csv", Some(recipe))];
    let folder = folder(name, &files);
    let files = files.map(|(file, _)| folder.join(file));
    compare(name, Command::new(line_screen()).args(files).args(outcomes));
}

/// Plans for a cell with these chapters, and follows the plan.
fn screen_chapters(name: &str, cell: &str, chapters: &[&str], outcomes: &[&str]) {
    let files = chapter_files(name, cell, chapters);
    compare(name, Command::new(line_screen()).args(files).args(outcomes));
}

/// Plans for the nest example with these limits, and follows the plan.
fn screen_nest(name: &str, limits: &str, outcomes: &[&str]) {
    let files = [
        ("limits.csv", Some(limits)),
        ("cell.csv", Some(NEST_CELL)),
        ("recipe.csv", Some(NEST_RECIPE)),
    ];
    let folder = folder(name, &files);
    let files = files.map(|(file, _)| folder.join(file));
    let mut command = Command::new(line_screen());
    compare(name, command.arg("-l").args(files).args(outcomes));
}

/// Lists the processes that a cell lacks, with limits where they are given.
fn install(name: &str, [cell, recipe]: [&str; 2], limits: Option<&str>) {
    let files = [("cell.csv", Some(cell)), ("recipe.csv", Some(recipe))];
    let folder = folder(name, &[&files[..], &[("limits.csv", limits)]].concat());
    let mut command = Command::new(list_processes());
    if limits.is_some() {
        command.arg("-l").arg(folder.join("limits.csv"));
    }
    compare(name, command.args(files.map(|(file, _)| folder.join(file))));
}

/// Plans for a cell with these chapters, with limits where they are given, and prints the table.
fn print_table(name: &str, cell: &str, chapters: &[&str], limits: Option<&str>) {
    let files = chapter_files(name, cell, chapters);
    let mut command = Command::new(plan_table());
    if let Some(limits) = limits {
        let path = files[0].with_file_name("limits.csv");
        fs::write(&path, limits).expect("a file can be written");
        command.arg("-l").arg(path);
    }
    compare(name, command.args(files));
}

/// Compares what a script prints, which is run in the nest example's folder, with the stored output.
fn run_script(script: &str, arguments: &[&str], name: &str) {
    // Each builds its program anew, which no other may run meanwhile.
    static ONE_AT_A_TIME: Mutex<()> = Mutex::new(());
    let _waited = ONE_AT_A_TIME.lock();
    let output = Command::new(root().join("examples/c").join(script))
        .args(arguments)
        .current_dir(root().join("examples/nest"))
        .output()
        .expect("the script starts");
    assert_eq!(String::from_utf8_lossy(&output.stdout), expected(name));
    assert!(output.status.success());
}

#[test]
fn the_bench_example() {
    check("bench", Some(BENCH_CELL), Some(BENCH_RECIPE));
}

#[test]
fn the_scripts_build_and_run_the_examples() {
    let nest = ["-l", "limits.csv", "cell.csv", "recipe.csv"];
    let limited = "-l limits.csv cell.csv recipe.csv 0 0 0 0 0";
    let limited: Vec<&str> = limited.split(' ').collect();
    let gate = "../gate/cell.csv ../gate/recipe.csv 0 0 0 0";
    let gate: Vec<&str> = gate.split(' ').collect();
    let lane = "../lane/cell.csv ../lane/recipe.csv 0 0 0 0";
    let lane: Vec<&str> = lane.split(' ').collect();
    let chapters = ["cell.csv", "recipe_0.csv", "recipe_1.csv"].map(|f| format!("../chapters/{f}"));
    let chapters: Vec<&str> = chapters.iter().map(String::as_str).collect();
    let screened = [&chapters[..], &["0", "0", "1", "0"]].concat();
    let followed = [&chapters[..], &["../chapters/table.csv", "0000"]].concat();
    for (script, arguments, name) in [
        ("run", &[][..], "bench"),
        ("follow", &[], "follow"),
        ("screen", &[], "screen"),
        ("run", &nest, "nest"),
        ("screen", &limited, "screen_nest"),
        ("screen", &gate, "screen_gate_opens"),
        ("screen", &lane, "screen_lane"),
        ("install", &[], "install"),
        ("run", &chapters, "chapters"),
        ("screen", &screened, "screen_chapters"),
        ("follow", &followed, "follow_chapters"),
    ] {
        run_script(script, arguments, name);
    }
}

#[test]
fn the_scripts_print_tables_and_run_the_way_example() {
    let nest = "-l limits.csv cell.csv recipe.csv";
    let chapters = "../chapters/cell.csv ../chapters/recipe_0.csv ../chapters/recipe_1.csv";
    let way = "../way/cell.csv ../way/recipe.csv";
    let before = "../way/table_before.csv 000";
    for (script, files, rest, name) in [
        ("table", "", "", "table"),
        ("table", nest, "", "table_nest"),
        ("table", chapters, "", "table_chapters"),
        ("screen", way, "0 0", "screen_way"),
        ("follow", way, before, "follow_way_before"),
        ("table", way, "", "table_way"),
    ] {
        let arguments = [files, rest].map(str::split_whitespace);
        let arguments: Vec<&str> = arguments.into_iter().flatten().collect();
        run_script(script, &arguments, name);
    }
}

#[test]
fn a_port_without_a_partner() {
    let cell = BENCH_CELL.replace("1,0,2,5,1", "1,0,2,6,1");
    check("port", Some(&cell), Some(BENCH_RECIPE));
}

#[test]
fn missing_files_count_as_empty() {
    check("missing", None, None);
}

#[test]
fn refusals_without_a_value_line_to_show() {
    // The names line alone; and a last line without byte 10, which is no line.
    let cell = "resource,from,act,arg,to\n";
    let recipe = BENCH_RECIPE.trim_end();
    check("unshown", Some(cell), Some(recipe));
}

#[test]
fn bytes_that_are_no_text_are_not_printed() {
    let cell = BENCH_CELL.replace("1,1,1,2,2", "1,1,1,2,2\r");
    let recipe = BENCH_RECIPE.replace("2,1,3,1,0,4,0", "2,1,3,1,0,4\u{1b}[2J");
    check("bytes", Some(&cell), Some(&recipe));
}

#[test]
fn a_file_longer_than_the_first_read() {
    let cell = format!("{BENCH_CELL}{}0,0\n", "0,0,1,1,1\n".repeat(1000));
    let recipe = "point,kind,op,takes,gives,then,else\n0,0,0,0,0,0,0\n";
    check("long", Some(&cell), Some(recipe));
}

#[test]
fn the_bench_example_followed_to_its_end() {
    let files = [BENCH_CELL, BENCH_RECIPE, BENCH_TABLE];
    follow("follow", files, "0010");
}

#[test]
fn a_failed_test_and_an_outcome_that_is_none() {
    let files = [BENCH_CELL, BENCH_RECIPE, BENCH_TABLE];
    follow("rework", files, "000012");
}

#[test]
fn a_recipe_with_a_forgotten_point() {
    let recipe = format!("{BENCH_RECIPE}{PASTED_END}");
    // It is read, and its stored table followed as before, but it isn't planned any more.
    check("unreached", Some(BENCH_CELL), Some(&recipe));
    let files = [BENCH_CELL, &recipe, BENCH_TABLE];
    follow("follow_unreached", files, "0010");
    screen("screen_unreached", [BENCH_CELL, &recipe], &["0"]);
    install("install_unreached", [GAP_CELL, &recipe], None);
}

#[test]
fn the_stored_table_is_the_bench_examples_plan() {
    assert_eq!(BENCH_TABLE, planned_table(BENCH_CELL, &[BENCH_RECIPE]));
}

#[test]
fn a_test_with_a_reject_gate() {
    let files = [GATE_CELL, GATE_RECIPE];
    check("gate", Some(GATE_CELL), Some(GATE_RECIPE));
    screen("screen_gate", files, &["0", "0", "1", "0"]);
    screen("screen_gate_opens", files, &["0", "0", "0", "0"]);
    let table = planned_table(GATE_CELL, &[GATE_RECIPE]);
    follow("follow_gate", [files[0], files[1], &table], "00000010");
}

#[test]
fn a_recipe_in_two_chapters() {
    assert_eq!(CHAPTERS_CELL, BENCH_CELL);
    assert_eq!(CHAPTERS_TABLE, planned_table(CHAPTERS_CELL, &CHAPTERS));
    check_chapters("chapters", CHAPTERS_CELL, &CHAPTERS);
    let outcomes = ["0", "0", "1", "0"];
    screen_chapters("screen_chapters", CHAPTERS_CELL, &CHAPTERS, &outcomes);
    let outcomes = ["0", "0", "0", "0", "0"];
    screen_chapters("screen_chapters_end", CHAPTERS_CELL, &CHAPTERS, &outcomes);
    let table = CHAPTERS_TABLE;
    follow_chapters("follow_chapters", CHAPTERS_CELL, &CHAPTERS, table, "0000");
    follow_chapters(
        "follow_chapters_17",
        CHAPTERS_CELL,
        &CHAPTERS,
        table,
        "0012",
    );
}

#[test]
fn chapters_that_are_refused() {
    // One after another the same, of which the second finds its part given already.
    let twice = [CHAPTERS[0]; 2];
    check_chapters("chapters_twice", BENCH_CELL, &twice);
    screen_chapters("screen_chapters_twice", BENCH_CELL, &twice, &["0"]);
    // A first chapter of one end; and one of two, of which a plan is refused before that.
    let one_end = [ONE_END, BENCH_RECIPE];
    check_chapters("chapters_one_end", BENCH_CELL, &one_end);
    screen_chapters("screen_chapters_one_end", BENCH_CELL, &one_end, &["0"]);
    let two_ends = [TWO_ENDS, BENCH_RECIPE];
    check_chapters("chapters_two_ends", BENCH_CELL, &two_ends);
    screen_chapters("screen_chapters_two_ends", BENCH_CELL, &two_ends, &["0"]);
    follow_chapters(
        "follow_chapters_24",
        BENCH_CELL,
        &two_ends,
        BENCH_TABLE,
        "0",
    );
    // A file that is refused is named by its chapter.
    let damaged = CHAPTERS[1].replace("1,1,3,1,0,3,0", "1,1,3,1,0,4,0");
    let damaged = [CHAPTERS[0], &damaged];
    check_chapters("chapters_12", BENCH_CELL, &damaged);
    screen_chapters("screen_chapters_12", BENCH_CELL, &damaged, &["0"]);
}

#[test]
fn a_gate_without_its_line_and_one_that_stands_there_twice() {
    let lone = format!("{BENCH_CELL}1,1,4,3,0\n");
    check("gate_alone", Some(&lone), Some(BENCH_RECIPE));
    let twice = format!("{GATE_CELL}1,1,4,2,0\n");
    screen("screen_gate_twice", [&twice, GATE_RECIPE], &["0"]);
}

#[test]
fn a_table_from_before_there_were_gates() {
    // The second letter of the test's entry was 0.
    let table = BENCH_TABLE.replace("26,50331843", "26,50331651");
    assert_ne!(table, BENCH_TABLE);
    follow("follow_old", [BENCH_CELL, BENCH_RECIPE, &table], "0010");
}

#[test]
fn a_pallet_that_is_fetched_empty_and_sent_back_loaded() {
    let files = [LANE_CELL, LANE_RECIPE];
    check("lane", Some(LANE_CELL), Some(LANE_RECIPE));
    screen("screen_lane", files, &["0"; 4]);
    let table = planned_table(LANE_CELL, &[LANE_RECIPE]);
    follow("follow_lane", [files[0], files[1], &table], "0000");
}

#[test]
fn a_photocell_where_the_pallet_is_fetched() {
    assert_eq!(LANE_CELL.replace(",40,", ",4,"), PHOTOCELL_CELL);
    let files = [PHOTOCELL_CELL, LANE_RECIPE];
    screen("screen_photocell", files, &["0"; 4]);
    // No process helps but one that needs no pallet.
    install("install_photocell", files, None);
    // A table from before there was one: its first move is no longer open.
    let table = planned_table(LANE_CELL, &[LANE_RECIPE]);
    follow("follow_photocell", [files[0], files[1], &table], "0000");
}

#[test]
fn a_table_that_belongs_to_another_cell() {
    // The test is made from another state, so that the entry for it is no longer open.
    let cell = BENCH_CELL.replace("1,1,1,2,2", "1,2,1,2,2");
    follow("stale", [&cell, BENCH_RECIPE, BENCH_TABLE], "0010");
}

#[test]
fn a_cell_and_a_recipe_that_are_too_great_together() {
    let states = "0,7,0,0,0\n1,7,0,0,0\n2,7,0,0,0\n3,7,0,0,0\n";
    let cell = format!("resource,from,act,arg,to\n{states}");
    let recipe = BENCH_RECIPE.replace("0,1,1,0,1,1,0", "0,1,1,0,128,1,0");
    follow("great", [&cell, &recipe, BENCH_TABLE], "0010");
}

#[test]
fn the_bench_example_planned_and_shown_in_words() {
    let files = [BENCH_CELL, BENCH_RECIPE];
    screen("screen", files, &["0", "0", "1", "0"]);
    screen("screen_rework", files, &["0", "0", "0", "0", "300"]);
}

#[test]
fn internal_work_parallel_operations_and_a_report_at_the_end() {
    let cell = "resource,from,act,arg,to\n0,0,1,7,1\n1,0,0,9,1\n1,1,1,8,0\n";
    let recipe = "point,kind,op,takes,gives,then,else\n\
                  0,1,7,0,1,1,0\n0,1,8,0,2,1,0\n1,0,0,0,0,0,0\n";
    screen("screen_end", [cell, recipe], &["0", "0", "1"]);
}

#[test]
fn files_that_the_screen_refuses() {
    let cell = BENCH_CELL.replace("1,0,2,5,1", "1,0,2,6,1");
    screen("screen_port", [&cell, BENCH_RECIPE], &["0"]);
    screen("screen_names", [BENCH_CELL, BENCH_CELL], &["0"]);
}

#[test]
fn a_recipe_that_strands_a_part() {
    // The station has left the state in which it can test, so that a failed test has no way on.
    let recipe = BENCH_RECIPE.replace("3,1,3,1,0,0,0", "3,2,2,1,0,2,2");
    screen("screen_stranded", [BENCH_CELL, &recipe], &["0"]);
}

#[test]
fn limits_files_that_are_accepted() {
    check_limits("nest", NEST_CELL, Some(NEST_LIMITS));
    check_limits("limits_two", NEST_CELL, Some("resource,most\n0,1\n1,7\n"));
    // No recipe has more than eight parts, so that 8 is no limit.
    check_limits("limits_eight", NEST_CELL, Some("resource,most\n0,8\n"));
}

#[test]
fn limits_files_that_are_refused() {
    check_limits("limits_above", NEST_CELL, Some("resource,most\n1,2\n2,1\n"));
    check_limits("limits_range", NEST_CELL, Some("resource,most\n1,9\n0,1\n"));
    check_limits("limits_missing", NEST_CELL, None);
}

#[test]
fn limits_of_a_cell_that_is_refused() {
    let cell = NEST_CELL.replace("1,0,2,5,0", "1,0,2,6,0");
    check_limits("limits_port", &cell, Some(NEST_LIMITS));
}

#[test]
fn the_nest_example_followed_to_its_end() {
    screen_nest("screen_nest", NEST_LIMITS, &["0"; 5]);
}

#[test]
fn one_nest_is_too_few_for_two_parts() {
    screen_nest("screen_one_nest", ONE_NEST, &["0"; 5]);
}

#[test]
fn limits_that_the_screen_refuses() {
    screen_nest("screen_limits", "resource,most\n1,2\n0,1\n", &["0"]);
}

#[test]
fn the_bench_example_that_lacks_a_process() {
    assert_eq!(GAP_CELL, BENCH_CELL.replace("1,1,1,2,2\n", ""));
    assert_eq!(GAP_RECIPE, BENCH_RECIPE);
    install("install", [GAP_CELL, GAP_RECIPE], None);
    let cell = BENCH_CELL.replace("0,0,1,1,1\n", "");
    install("install_two", [&cell, BENCH_RECIPE], None);
}

#[test]
fn a_process_where_a_nest_is_full() {
    let cell = "resource,from,act,arg,to\n0,0,1,1,0\n1,0,1,3,0\n";
    let recipe = NEST_RECIPE.replace("2,1,2,3,0,3,0", "2,0,0,0,0,0,0");
    let recipe = recipe.replace("3,0,0,0,0,0,0\n", "");
    let limits = "resource,most\n0,1\n";
    install("install_nest", [cell, &recipe], Some(limits));
    install("install_built", [cell, &recipe], None);
}

#[test]
fn no_process_helps_a_station_with_one_nest() {
    let files = [NEST_CELL, NEST_RECIPE];
    install("install_none", files, Some(ONE_NEST));
}

#[test]
fn what_is_refused_gets_no_list() {
    let cell = BENCH_CELL.replace("1,0,2,5,1", "1,0,2,6,1");
    install("install_port", [&cell, BENCH_RECIPE], None);
    let limits = "resource,most\n2,1\n";
    install("install_limits", [GAP_CELL, GAP_RECIPE], Some(limits));
    let full = format!("{GAP_CELL}{}", "0,0,0,0,0\n".repeat(60));
    install("install_full", [&full, GAP_RECIPE], None);
}

#[test]
fn a_printed_table_has_every_entry_of_the_plan_and_the_stored_ones() {
    for (name, cell, chapters, stored) in [
        ("table", BENCH_CELL, &[BENCH_RECIPE][..], BENCH_TABLE),
        ("table_chapters", CHAPTERS_CELL, &CHAPTERS, CHAPTERS_TABLE),
    ] {
        print_table(name, cell, chapters, None);
        let printed = expected(name);
        assert_eq!(printed, whole_table(cell, chapters));
        assert_eq!(lines_beside(stored, &printed), [""; 0], "{name}");
    }
}

#[test]
fn a_printed_table_is_followed_as_the_stored_one() {
    // It has the positions too to which no run comes.
    for (name, cell, chapters, printed, outcomes) in [
        ("follow", BENCH_CELL, &[BENCH_RECIPE][..], "table", "0010"),
        (
            "follow_chapters",
            CHAPTERS_CELL,
            &CHAPTERS,
            "table_chapters",
            "0000",
        ),
    ] {
        let mut files = chapter_files("follow_printed", cell, chapters);
        files.push(stored(printed));
        compare(name, Command::new(follow_table()).args(files).arg(outcomes));
    }
}

#[test]
fn the_shorter_of_two_ways() {
    print_table("table_way", WAY_CELL, &[WAY_RECIPE], None);
    let printed = expected("table_way");
    assert_eq!(printed, whole_table(WAY_CELL, &[WAY_RECIPE]));
    // One transfer, 33554691, and not two internal works, though the first of these, 16777216, is a smaller number.
    assert_eq!(printed.lines().nth(1), Some("0,33554691"));
    screen("screen_way", [WAY_CELL, WAY_RECIPE], &["0", "0"]);
    follow("follow_way", [WAY_CELL, WAY_RECIPE, &printed], "00");
}

#[test]
fn a_table_from_before_the_shortest_way_was_fixed() {
    let planned = whole_table(WAY_CELL, &[WAY_RECIPE]);
    let before = planned.replace("\n0,33554691\n", "\n0,16777216\n");
    assert_ne!(before, planned);
    assert_eq!(WAY_TABLE_BEFORE, before);
    let files = [WAY_CELL, WAY_RECIPE, WAY_TABLE_BEFORE];
    follow("follow_way_before", files, "000");
}

#[test]
fn a_table_with_limits() {
    let recipe = &[NEST_RECIPE][..];
    let whole = whole_table(NEST_CELL, recipe);
    // Two nests are enough for all parts.
    print_table("table_nest", NEST_CELL, recipe, Some(NEST_LIMITS));
    assert_eq!(expected("table_nest"), whole);
    // Where station 0 has one, no entry leaves two parts there, or stands where two are.
    let limits = "resource,most\n0,1\n";
    print_table("table_limited", NEST_CELL, recipe, Some(limits));
    let limited = expected("table_limited");
    assert_eq!(
        lines_beside(&whole, &limited),
        ["19,50331648", "49,33554561", "58,67108864", "67,67108864"]
    );
    // One nest at station 1 is too few; and limits that don't rise are refused.
    print_table("table_one_nest", NEST_CELL, recipe, Some(ONE_NEST));
    let limits = "resource,most\n1,2\n0,1\n";
    print_table("table_limits", NEST_CELL, recipe, Some(limits));
}

#[test]
fn what_is_refused_gets_no_table() {
    let cell = BENCH_CELL.replace("1,0,2,5,1", "1,0,2,6,1");
    print_table("table_port", &cell, &[BENCH_RECIPE], None);
    let damaged = CHAPTERS[1].replace("1,1,3,1,0,3,0", "1,1,3,1,0,4,0");
    let damaged = [CHAPTERS[0], &damaged];
    print_table("table_chapters_12", BENCH_CELL, &damaged, None);
    let forgotten = format!("{BENCH_RECIPE}{PASTED_END}");
    print_table("table_unreached", BENCH_CELL, &[&forgotten], None);
    // A planner that answers 15 has filled the table all the same.
    let stranded = BENCH_RECIPE.replace("3,1,3,1,0,0,0", "3,2,2,1,0,2,2");
    print_table("table_stranded", BENCH_CELL, &[&stranded], None);
    let twice = [CHAPTERS[0]; 2];
    print_table("table_chapters_twice", BENCH_CELL, &twice, None);
}

#[test]
fn eight_chapters_have_a_table_and_nine_have_none() {
    // Each gives a part and takes it again, so that the next finds it outside.
    let cell = "resource,from,act,arg,to\n0,0,1,1,0\n";
    let round = "point,kind,op,takes,gives,then,else\n\
                 0,1,1,0,1,1,0\n1,1,1,1,0,2,0\n2,0,0,0,0,0,0\n";
    print_table("table_eight", cell, &[round; 8], None);
    assert_eq!(expected("table_eight"), whole_table(cell, &[round; 8]));
    for (program, name) in [(plan_table(), "plan_table"), (line_screen(), "line_screen")] {
        for count in [0, 9] {
            let files = chapter_files("usage", cell, &vec![round; count]);
            let output = Command::new(program).args(files).output();
            let output = output.expect("the example starts");
            assert_eq!(String::from_utf8_lossy(&output.stdout), "");
            let usage = format!("usage: {name} [-l LIMITS] CELL RECIPE ..");
            assert!(String::from_utf8_lossy(&output.stderr).starts_with(&usage));
            assert_eq!(output.status.code(), Some(1));
        }
    }
}

#[test]
fn a_table_that_cannot_be_written() {
    let full = fs::OpenOptions::new().write(true).open("/dev/full");
    let files = chapter_files("table_full", BENCH_CELL, &[BENCH_RECIPE]);
    let output = Command::new(plan_table())
        .args(files)
        .stdout(full.expect("the device that is always full is there"))
        .output()
        .expect("the example starts");
    assert!(String::from_utf8_lossy(&output.stderr).starts_with("table: "));
    assert_eq!(output.status.code(), Some(1));
}
