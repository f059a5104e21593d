//! Records with every kind of damage: numbers that break a rule, any bytes, other lengths, and other numbers
//! of chapters.

use crate::generate::{record, Generate, Rows, END};
use crate::pairs::{limits_of, Pair};
use crate::random::Random;
use crate::{CellFile, Format, RecipeFile};
use independent::{CELL_BYTES, MOST_CHAPTERS, MOST_LINES, MOST_RESOURCES, RECIPE_BYTES};

/// The records of a cell and of its chapters, these one after another.
pub type Records = (Vec<u8>, Vec<u8>);

/// The rules of a recipe that a change of numbers breaks.
const RECIPE_RULES: [u8; 7] = [4, 7, 8, 9, 10, 11, 12];

/// The records of a pair: mostly as they are, else with some damage to one of them or to several.
pub fn seeded_records(pair: &Pair, random: &mut Random) -> Records {
    let mut records = (pair.cell_bytes(), pair.recipes_bytes());
    match random.below(22) {
        0 | 1 => records.0 = broken_cell(pair, random),
        2 | 3 => break_recipe(pair, &mut records.1, random),
        4 => {
            // Both at once, of which the cell's comes first.
            records.0 = broken_cell(pair, random);
            break_recipe(pair, &mut records.1, random);
        }
        5 => damage_bytes::<CellFile>(&mut records.0, random),
        6 => damage_bytes::<RecipeFile>(some_record(&mut records.1, random), random),
        7 => {
            damage_bytes::<CellFile>(&mut records.0, random);
            damage_bytes::<RecipeFile>(some_record(&mut records.1, random), random);
        }
        8 => resize(&mut records.0, random),
        9 => resize_recipes(&mut records.1, random),
        10 => break_limits(&mut records.0, random),
        11 => {
            // A cell with broken lines too, or beside a recipe that comes after it.
            if random.coin() {
                records.0 = broken_cell(pair, random);
            } else {
                break_recipe(pair, &mut records.1, random);
            }
            break_limits(&mut records.0, random);
        }
        12 => change_limits(&mut records.0, random),
        13 => damage_chapters(pair, &mut records, random),
        _ => {}
    }
    records
}

/// Some chapter's record.
fn some_record<'a>(recipes: &'a mut [u8], random: &mut Random) -> &'a mut [u8] {
    let chapters = recipes.len() / RECIPE_BYTES;
    let chapter = random.below(chapters);
    &mut recipes[chapter * RECIPE_BYTES..][..RECIPE_BYTES]
}

/// Puts a record whose numbers mostly break a rule in the place of some chapter's.
fn break_recipe(pair: &Pair, recipes: &mut [u8], random: &mut Random) {
    let chapter = random.below(pair.recipes.len());
    let rows = &pair.recipes[chapter];
    let record = broken::<RecipeFile>(rows, &RECIPE_RULES, random);
    recipes[chapter * RECIPE_BYTES..][..RECIPE_BYTES].copy_from_slice(&record);
}

/// Changes the number of chapters, or makes one of them begin with an end; at times another record is broken too.
fn damage_chapters(pair: &Pair, (cell, recipes): &mut Records, random: &mut Random) {
    match random.below(8) {
        0 => *cell = broken_cell(pair, random),
        1 | 2 => break_recipe(pair, recipes, random),
        _ => {}
    }
    match random.below(6) {
        0 => recipes.truncate(random.below(RECIPE_BYTES)),
        1 => *recipes = too_many_chapters(recipes, random),
        2..=4 => end_at_once(some_record(recipes, random)),
        _ => {
            // One chapter more, and perhaps a rest.
            let rest = random.choose(&[0, 0, 1, RECIPE_BYTES - 1]);
            let first = recipes[..RECIPE_BYTES].to_vec();
            recipes.extend(first.iter().cycle().take(RECIPE_BYTES + rest));
        }
    }
}

/// The chapters again and again, until there are more than there may be, and perhaps a rest.
pub fn too_many_chapters(recipes: &[u8], random: &mut Random) -> Vec<u8> {
    let chapters = MOST_CHAPTERS + random.choose(&[1, 1, 2, 8]);
    let rest = random.choose(&[0, 0, 1, RECIPE_BYTES - 1]);
    let bytes = recipes.iter().cycle().copied();
    bytes.take(chapters * RECIPE_BYTES + rest).collect()
}

/// Makes of a record one of a single end.
pub fn end_at_once(record: &mut [u8]) {
    record[0] = 1;
    record[1..8].copy_from_slice(&[0, END as u8, 0, 0, 0, 0, 0]);
}

/// The bench example's records with more and more damage; the cell may have other lines behind its own. Each
/// step breaks a rule before all those that were broken so far, which stands beside it.
pub fn ever_more_damaged((mut cell, mut recipe): Records) -> Vec<(Records, u32)> {
    let mut steps = vec![];
    // Recipe line 0 with a then that isn't there, without parts, of no kind; then no lines.
    for (at, number, refusal) in [(6, 5, 12), (5, 0, 10), (2, 3, 4), (0, 0, 3)] {
        recipe[at] = number;
        steps.push(((cell.clone(), recipe.clone()), refusal));
    }
    // Cell line 3 a gate without its operation line; a limit of a resource that isn't there; line 2 with
    // another port; line 4 of a resource with a gap before it; a limit out of range; line 2 of no act; then
    // too many lines.
    for (at, number, refusal) in [
        (18, 4, 23),
        (CELL_BYTES - 1, 7, 20),
        (14, 6, 6),
        (21, 3, 5),
        (CELL_BYTES - MOST_RESOURCES, 9, 4),
        (13, 5, 4),
        (0, 65, 3),
    ] {
        cell[at] = number;
        steps.push(((cell.clone(), recipe.clone()), refusal));
    }
    steps
}

/// A cell record as `seeded_records` has it, but more often with some damage.
pub fn seeded_cell(pair: &Pair, random: &mut Random) -> Vec<u8> {
    let mut record = pair.cell_bytes();
    match random.below(12) {
        0 | 1 => record = broken_cell(pair, random),
        2 => damage_bytes::<CellFile>(&mut record, random),
        3 => resize(&mut record, random),
        4 => break_limits(&mut record, random),
        5 => {
            record = broken_cell(pair, random);
            break_limits(&mut record, random);
        }
        6 => change_limits(&mut record, random),
        _ => {}
    }
    record
}

/// A cell record whose lines mostly break a rule.
fn broken_cell(pair: &Pair, random: &mut Random) -> Vec<u8> {
    let mut record = broken::<CellFile>(&pair.cell, &[4, 5, 6, 23, 23], random);
    limits_of(&mut record).copy_from_slice(&pair.limits);
    record
}

/// A record whose numbers mostly break one of these rules.
fn broken<F: Generate + Format>(rows: &Rows, rules: &[u8], random: &mut Random) -> Vec<u8> {
    let mut rows = rows.clone();
    F::break_rule(random.choose(rules), &mut rows, random);
    record::<F>(&rows)
}

/// Puts a number out of range, or one that only a resource may have that is there, in the place of some
/// limit.
fn break_limits(record: &mut [u8], random: &mut Random) {
    let any = random.byte();
    for _ in 0..1 + random.below(2) {
        let k = random.below(MOST_RESOURCES);
        let limits = limits_of(record);
        match random.coin() {
            true => limits[k] = random.choose(&[0, 9, 10, 255, any]),
            // The greatest resources are there in the fewest cells.
            false => limits[k.max(random.below(MOST_RESOURCES))] = 1 + random.below(7) as u8,
        }
    }
}

/// Gives each resource any limit of the range, those that aren't there mostly none.
fn change_limits(record: &mut [u8], random: &mut Random) {
    let lines = record[1..].chunks(5).take(record[0].into());
    let resources = 1 + lines.map(|line| line[0]).max().unwrap_or(0);
    let there = match random.below(4) {
        0 => MOST_RESOURCES,
        _ => usize::from(resources).min(MOST_RESOURCES),
    };
    limits_of(record)[..there].fill_with(|| 1 + random.below(8) as u8);
}

/// Changes the count or some other byte, or all of them, or what stands past the count.
fn damage_bytes<F: Format>(record: &mut [u8], random: &mut Random) {
    match random.below(8) {
        0 => record[0] = random.choose(&[0, 1, 63, 64, 65, 128, 255]),
        1 => record[0] = record[0].wrapping_add(random.choose(&[1, 255])),
        2 => record[0] = random.byte(),
        3 => record[random.below(F::RECORD_BYTES)] = random.byte(),
        4 => record.fill_with(|| random.byte()),
        5 => fill_past_lines::<F>(record, random),
        _ => {
            let telling = [0, 1, 2, 3, 4, 5, 6, 7, 8, 15, 16, 63, 64, 255];
            record[random.below(lines_end::<F>(record))] = random.choose(&telling);
        }
    }
}

/// Puts any bytes where everything counts for nothing: past the line count.
pub fn fill_past_lines<F: Format>(record: &mut [u8], random: &mut Random) {
    let (lines, all_lines) = (lines_end::<F>(record), 1 + MOST_LINES * F::GREATEST.len());
    record[lines..all_lines].fill_with(|| random.byte());
}

/// Where the lines of a record end that count.
fn lines_end<F: Format>(record: &[u8]) -> usize {
    1 + usize::from(record[0]) * F::GREATEST.len()
}

/// Makes recipes too short for one, or for the last of them, or longer by a rest.
fn resize_recipes(recipes: &mut Vec<u8>, random: &mut Random) {
    match random.below(4) {
        0 => recipes.truncate(random.below(recipes.len())),
        1 => recipes.truncate(recipes.len() - 1),
        2 => recipes.truncate(RECIPE_BYTES - 1),
        _ => recipes.resize(recipes.len() + 1 + random.below(RECIPE_BYTES - 1), 0xa5),
    }
}

/// Makes a record too short, or longer than it has to be.
fn resize(record: &mut Vec<u8>, random: &mut Random) {
    let length = record.len();
    match random.below(3) {
        0 => record.truncate(random.below(length)),
        1 => record.truncate(length - 1),
        _ => record.resize(length + 1 + random.below(20), 0xa5),
    }
}
