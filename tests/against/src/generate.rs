//! Files for the comparison: good ones, and every kind of damage to them.

use crate::random::Random;
use crate::{gates, points};
use crate::{CellFile, Columns, Format, LimitsFile, RecipeFile};
use independent::{MOST_LINES, MOST_RESOURCES};
use std::ops::RangeInclusive;

/// The value lines of a file as numbers.
pub type Rows = Vec<Vec<u32>>;

pub(crate) const INTERNAL: u32 = 0;
pub(crate) const OPERATION: u32 = 1;
pub(crate) const IN: u32 = 2;
pub(crate) const OUT: u32 = 3;
pub(crate) const GATE: u32 = 4;

pub(crate) const END: u32 = 0;
pub(crate) const DO: u32 = 1;
pub(crate) const TEST: u32 = 2;

const PARTS: usize = 8;

/// Columns of a cell row.
pub(crate) mod cell {
    pub const RESOURCE: usize = 0;
    pub const FROM: usize = 1;
    pub const ACT: usize = 2;
    pub const ARG: usize = 3;
    pub const TO: usize = 4;
}

/// Columns of a recipe row.
pub(crate) mod recipe {
    pub const POINT: usize = 0;
    pub const KIND: usize = 1;
    pub const OP: usize = 2;
    pub const TAKES: usize = 3;
    pub const GIVES: usize = 4;
    pub const THEN: usize = 5;
    pub const ELSE: usize = 6;
}

/// Columns of a limits row.
mod limits {
    pub const RESOURCE: usize = 0;
    pub const MOST: usize = 1;
}

/// A format whose files can be made up.
pub trait Generate: Columns {
    /// The rows of a file that the reader must accept; for limits, over a cell of six resources.
    fn good_rows(random: &mut Random) -> Rows;

    /// Changes numbers so that they mostly break `rule`, one of the format's rules from 4 on.
    fn break_rule(rule: u8, rows: &mut Rows, random: &mut Random);
}

/// The file with these value lines.
pub fn file<F: Columns>(rows: &[Vec<u32>]) -> Vec<u8> {
    let mut file = F::NAMES.to_vec();
    for row in rows {
        for (k, number) in row.iter().enumerate() {
            if k > 0 {
                file.push(b',');
            }
            push_number(&mut file, *number);
        }
        file.push(b'\n');
    }
    file
}

/// The record with these value lines, as bytes. A number that no byte holds becomes 255. What stands
/// behind the lines is as a reader leaves it.
pub fn record<F: Format>(rows: &[Vec<u32>]) -> Vec<u8> {
    let mut record = vec![0; 1 + MOST_LINES * F::GREATEST.len()];
    record[0] = rows.len().min(255) as u8;
    let numbers = rows.iter().flatten();
    for (byte, &number) in record[1..].iter_mut().zip(numbers) {
        *byte = number.min(255) as u8;
    }
    record.extend_from_slice(F::BEHIND_LINES);
    record
}

/// The value lines of a record.
pub fn rows<F: Format>(record: &[u8]) -> Rows {
    let lines = record[1..].chunks(F::GREATEST.len());
    lines
        .take(record[0].into())
        .map(|line| line.iter().map(|&number| number.into()).collect())
        .collect()
}

fn push_number(text: &mut Vec<u8>, number: u32) {
    let start = text.len();
    let mut rest = number;
    loop {
        text.push(b'0' + (rest % 10) as u8);
        rest /= 10;
        if rest == 0 {
            break;
        }
    }
    text[start..].reverse();
}

/// Rows of numbers in their ranges, which may break any later rule.
pub fn rows_in_range<F: Columns>(lines: usize, random: &mut Random) -> Rows {
    let row = |random: &mut Random| {
        let columns = 0..F::GREATEST.len();
        columns
            .map(|k| number_in(range_of::<F>(k), random))
            .collect()
    };
    (0..lines).map(|_| row(random)).collect()
}

/// The range of a column.
pub fn range_of<F: Columns>(column: usize) -> RangeInclusive<u32> {
    F::LEAST[column]..=F::GREATEST[column]
}

/// A number of its range.
fn number_in(range: RangeInclusive<u32>, random: &mut Random) -> u32 {
    let (least, greatest) = range.into_inner();
    least + random.number(greatest - least + 1)
}

/// A number at, near or past a bound of a column's range, or one that a narrow type would lose bits
/// of.
fn number_near(range: RangeInclusive<u32>, random: &mut Random) -> u32 {
    let (least, greatest) = range.into_inner();
    if least > 0 && random.coin() {
        return least - random.number(2);
    }
    match random.below(8) {
        0 => greatest,
        1 | 2 => greatest + 1,
        3 => greatest.saturating_sub(1),
        4 => 256 + random.number(greatest + 1),
        5 => 65536 + random.number(greatest + 1),
        6 => random.choose(&[
            9, 10, 99, 100, 255, 256, 999, 1000, 9999, 10000, 65535, 65536,
        ]),
        _ => random.choose(&[99998, 99999, 100_000, 1_000_000]),
    }
}

/// A number out of range, of good form.
fn number_past(range: RangeInclusive<u32>, random: &mut Random) -> u32 {
    let (least, greatest) = range.into_inner();
    if least > 0 && random.coin() {
        return random.number(least);
    }
    match random.below(4) {
        0 => greatest + 1,
        1 => 256 + random.number(greatest + 1),
        2 => 65536 + random.number(greatest + 1),
        _ => greatest + 1 + random.number(99999 - greatest),
    }
}

/// Puts a number at or past a bound into some field.
pub fn try_bounds<F: Columns>(rows: &mut Rows, random: &mut Random) {
    change_number::<F>(rows, random, number_near);
}

/// Swaps, drops or doubles a line, or swaps two of its numbers.
pub fn move_rows(rows: &mut Rows, random: &mut Random) {
    if rows.is_empty() {
        return;
    }
    let n = random.below(rows.len());
    let m = random.below(rows.len());
    match random.below(4) {
        0 => rows.swap(n, m),
        1 => _ = rows.remove(n),
        2 => rows.insert(m, rows[n].clone()),
        _ => {
            let columns = rows[n].len();
            rows[n].swap(random.below(columns), random.below(columns));
        }
    }
}

/// Gives some field another number of its range.
pub fn change_in_range<F: Columns>(rows: &mut Rows, random: &mut Random) {
    change_number::<F>(rows, random, number_in);
}

fn change_number<F: Columns>(
    rows: &mut Rows,
    random: &mut Random,
    number: impl Fn(RangeInclusive<u32>, &mut Random) -> u32,
) {
    if rows.is_empty() {
        return;
    }
    let n = random.below(rows.len());
    let k = random.below(F::GREATEST.len());
    rows[n][k] = number(range_of::<F>(k), random);
}

/// Some row that `fits`, if there is one.
pub(crate) fn some_row(
    rows: &Rows,
    random: &mut Random,
    fits: impl Fn(&[u32]) -> bool,
) -> Option<usize> {
    let fitting: Vec<usize> = (0..rows.len()).filter(|&n| fits(&rows[n])).collect();
    (!fitting.is_empty()).then(|| random.choose(&fitting))
}

impl Generate for CellFile {
    fn good_rows(random: &mut Random) -> Rows {
        let resources = 1 + random.number(6);
        let lines = (1 + random.below(64)).max(resources as usize);
        let mut rows: Rows = Vec::with_capacity(lines);
        let mut missing: Vec<u32> = (0..resources).collect();
        loop {
            let free = lines - rows.len() - missing.len();
            if free == 0 {
                break;
            }
            if resources > 1 && free > 1 && random.coin() {
                let giver = random.number(resources);
                let taker = (giver + 1 + random.number(resources - 1)) % resources;
                let port = random.number(64);
                rows.push(cell_row(giver, OUT, port, random));
                rows.push(cell_row(taker, IN, port, random));
                missing.retain(|&resource| resource != giver && resource != taker);
            } else {
                let resource = random.number(resources);
                rows.push(work_row(resource, random));
                missing.retain(|&other| other != resource);
            }
        }
        for resource in missing {
            rows.push(work_row(resource, random));
        }
        if random.below(5) < 2 {
            gates::add(&mut rows, |_| CellFile::GREATEST[cell::TO] + 1, random);
        }
        random.shuffle(&mut rows);
        rows
    }

    fn break_rule(rule: u8, rows: &mut Rows, random: &mut Random) {
        use cell::*;
        if rows.is_empty() {
            return;
        }
        match rule {
            4 => change_number::<CellFile>(rows, random, number_past),
            5 => {
                let greatest = rows.iter().map(|row| row[RESOURCE]).max().unwrap_or(0);
                // From the gap on, resources go up by one; where the range has no room for that,
                // only the gap's own lines do.
                let full = greatest >= CellFile::GREATEST[RESOURCE];
                let gap = random.number(if full { greatest } else { greatest + 1 });
                for row in rows {
                    if row[RESOURCE] == gap || !full && row[RESOURCE] > gap {
                        row[RESOURCE] += 1;
                    }
                }
            }
            6 => {
                let transfer = some_row(rows, random, |row| row[ACT] == IN || row[ACT] == OUT);
                let n = transfer.unwrap_or_else(|| random.below(rows.len()));
                match random.below(4) {
                    0 => rows[n][ARG] = random.number(64),
                    1 => rows[n][ACT] = if rows[n][ACT] == IN { OUT } else { IN },
                    2 => rows[n][ACT] = random.number(2),
                    _ => {
                        let resource = rows[n][RESOURCE];
                        let port = rows[n][ARG];
                        let partners = rows
                            .iter_mut()
                            .filter(|row| matches!(row[ACT], IN | OUT) && row[ARG] == port);
                        partners.for_each(|row| row[RESOURCE] = resource);
                    }
                }
            }
            23 => gates::break_rule(rows, random),
            _ => panic!("no change of numbers breaks rule {rule} of a cell"),
        }
    }
}

fn cell_row(resource: u32, act: u32, arg: u32, random: &mut Random) -> Vec<u32> {
    vec![resource, random.number(8), act, arg, random.number(8)]
}

/// A row of internal work or of an operation.
fn work_row(resource: u32, random: &mut Random) -> Vec<u32> {
    let act = random.number(OPERATION + 1);
    let arg = random.number(64);
    cell_row(resource, act, arg, random)
}

impl Generate for RecipeFile {
    fn good_rows(random: &mut Random) -> Rows {
        // Chance alone would hardly ever fill all 64 lines.
        let full = random.below(8) == 0;
        let points = if full { 16 } else { 1 + random.number(16) };
        let mut rows = Vec::new();
        for point in 0..points {
            let then = random.number(points);
            if full {
                push_do(&mut rows, point, 4, then, random);
                continue;
            }
            match random.below(5) {
                0 => rows.push(vec![point, END, 0, 0, 0, 0, 0]),
                1 => {
                    let otherwise = random.number(points);
                    let takes = 1 + random.number(255);
                    rows.push(vec![
                        point,
                        TEST,
                        random.number(64),
                        takes,
                        0,
                        then,
                        otherwise,
                    ]);
                }
                _ => push_do(&mut rows, point, 1 + random.below(4), then, random),
            }
        }
        points::lead_to_most(&mut rows, random);
        rows
    }

    fn break_rule(rule: u8, rows: &mut Rows, random: &mut Random) {
        use recipe::*;
        if rows.is_empty() {
            return;
        }
        match rule {
            4 => change_number::<RecipeFile>(rows, random, number_past),
            7 => {
                let n = random.below(rows.len());
                if random.coin() {
                    rows[n][POINT] = random.number(16);
                } else {
                    for row in &mut rows[n..] {
                        row[POINT] = (row[POINT] + 1).min(15);
                    }
                }
            }
            8 => {
                let n = random.below(rows.len());
                match random.below(4) {
                    0 => rows.insert(n, rows[n].clone()),
                    1 => {
                        let lines = random.below(5);
                        let copies = vec![rows[n].clone(); lines];
                        rows.splice(n..n, copies);
                    }
                    2 => {
                        // Only a line that shares its point can differ from another of it.
                        let shared = shared_point(rows, random).unwrap_or(n);
                        rows[shared][KIND] = random.number(3);
                    }
                    _ => {
                        let shared = shared_point(rows, random).unwrap_or(n);
                        rows[shared][THEN] = random.number(16);
                    }
                }
                rows.truncate(64);
            }
            9 => {
                let n = random.below(rows.len());
                let unused: &[usize] = match rows[n][KIND] {
                    END => &[OP, TAKES, GIVES, THEN, ELSE],
                    DO => &[ELSE],
                    _ => &[GIVES],
                };
                let k = random.choose(unused);
                rows[n][k] = 1 + random.number(RecipeFile::GREATEST[k]);
            }
            10 => {
                if let Some(n) = some_row(rows, random, |row| row[KIND] != END) {
                    rows[n][TAKES] = 0;
                    rows[n][GIVES] = 0;
                }
            }
            11 => {
                if let Some(n) = shared_point(rows, random) {
                    let point = rows[n][POINT];
                    let other = some_row(rows, random, |row| row[POINT] == point).unwrap_or(n);
                    let k = random.choose(&[TAKES, GIVES]);
                    rows[n][k] |= rows[other][k] | 1 << random.below(PARTS);
                }
            }
            12 => {
                let points = rows.iter().map(|row| row[POINT]).max().unwrap_or(0) + 1;
                let Some(n) = some_row(rows, random, |row| row[KIND] != END) else {
                    return;
                };
                let target = (points + random.number(2)).min(15);
                if rows[n][KIND] == TEST && random.coin() {
                    rows[n][ELSE] = target;
                } else {
                    let point = rows[n][POINT];
                    let lines = rows.iter_mut().filter(|row| row[POINT] == point);
                    lines.for_each(|row| row[THEN] = target);
                }
            }
            _ => panic!("no change of numbers breaks rule {rule} of a recipe"),
        }
    }
}

impl Generate for LimitsFile {
    fn good_rows(random: &mut Random) -> Rows {
        limits_rows(MOST_RESOURCES, random)
    }

    fn break_rule(rule: u8, rows: &mut Rows, random: &mut Random) {
        if rows.is_empty() {
            return;
        }
        match rule {
            4 => change_number::<LimitsFile>(rows, random, number_past),
            20 => {
                let n = random.below(rows.len());
                let m = random.below(rows.len());
                match random.below(4) {
                    // Where the cell has fewer resources, the later ones are too great.
                    0 => rows[n][limits::RESOURCE] = 5,
                    1 => rows[n][limits::RESOURCE] = random.number(6),
                    2 => rows.insert(m, rows[n].clone()),
                    _ => rows.swap(n, m),
                }
            }
            _ => panic!("no change of numbers breaks rule {rule} of limits"),
        }
    }
}

/// Limits for some of so many resources, for one at least.
pub fn limits_rows(resources: usize, random: &mut Random) -> Rows {
    let row = |resource: u32, random: &mut Random| {
        let range = range_of::<LimitsFile>(limits::MOST);
        vec![resource, number_in(range, random)]
    };
    let mut rows: Rows = (0..resources as u32)
        .map(|resource| row(resource, random))
        .collect();
    let left_out = random.below(resources);
    (0..left_out).for_each(|_| _ = rows.remove(random.below(rows.len())));
    rows
}

/// Some row whose point another row has too.
fn shared_point(rows: &Rows, random: &mut Random) -> Option<usize> {
    let mut lines = [0; 16];
    for row in rows {
        if let Some(count) = lines.get_mut(row[recipe::POINT] as usize) {
            *count += 1;
        }
    }
    some_row(rows, random, |row| {
        lines
            .get(row[recipe::POINT] as usize)
            .is_some_and(|&count| count > 1)
    })
}

/// A do of up to four lines that have no part in common.
fn push_do(rows: &mut Rows, point: u32, lines: usize, then: u32, random: &mut Random) {
    let mut takes = [0; 4];
    let mut gives = [0; 4];
    let first = random.below(PARTS);
    for k in 0..PARTS {
        let part = 1 << ((first + k) % PARTS);
        // The first parts go one to each line, so that none takes and gives nothing.
        let taker = if k < lines {
            k
        } else {
            random.below(lines + 1)
        };
        let giver = random.below(lines + 1);
        let (side, other) = if random.coin() {
            (&mut takes, &mut gives)
        } else {
            (&mut gives, &mut takes)
        };
        if taker < lines {
            side[taker] |= part;
        }
        if giver < lines {
            other[giver] |= part;
        }
    }
    for line in 0..lines {
        rows.push(vec![
            point,
            DO,
            random.number(64),
            takes[line],
            gives[line],
            then,
            0,
        ]);
    }
}

/// One file of a run: good, changed in its numbers, in its bytes or in both, or without a plan.
pub fn seeded_file<F: Generate>(
    good_rows: impl Fn(&mut Random) -> Rows,
    random: &mut Random,
) -> Vec<u8> {
    let (mut rows, number_changes, byte_changes) = match random.below(20) {
        0 => return noise::<F>(random),
        1 => {
            let rows = good_rows(random);
            (rows_of_any_count::<F>(rows, random), 0, random.below(3))
        }
        2..=9 => (good_rows(random), 1 + random.below(3), 0),
        10 | 11 => (good_rows(random), 1, 1 + random.below(3)),
        12..=15 => (good_rows(random), 0, 1 + random.below(3)),
        _ => (good_rows(random), 0, 0),
    };
    for _ in 0..number_changes {
        change_numbers::<F>(&mut rows, random);
    }
    let mut file = file::<F>(&rows);
    for _ in 0..byte_changes {
        damage(&mut file, random);
    }
    file
}

/// Any count of rows: these over and over, or others in their ranges.
fn rows_of_any_count<F: Columns>(rows: Rows, random: &mut Random) -> Rows {
    let lines = random.choose(&[0, 1, 2, 63, 64, 65, 66, 1000]);
    if random.coin() {
        rows_in_range::<F>(lines, random)
    } else {
        rows.iter().cycle().take(lines).cloned().collect()
    }
}

fn change_numbers<F: Generate>(rows: &mut Rows, random: &mut Random) {
    // Rules 1 to 3 are not about numbers.
    let rules = &F::REFUSALS[3..];
    match random.below(8) {
        0 => try_bounds::<F>(rows, random),
        1 => move_rows(rows, random),
        2 => change_in_range::<F>(rows, random),
        _ => F::break_rule(random.choose(rules), rows, random),
    }
}

/// Changes the bytes of a file.
pub fn damage(file: &mut Vec<u8>, random: &mut Random) {
    match random.below(16) {
        0 => replace_names(file, random),
        1 => insert(file, random.below(file.len() + 1), b"\n"),
        2 => file.truncate(random.below(file.len() + 1)),
        3 => _ = file.pop(),
        4 => {
            let tail = random.choose(&[&b"0"[..], b"\n", b"\r\n", b"\0", b"0,0,1,1,1", b" "]);
            file.extend_from_slice(tail);
        }
        5 => carriage_returns(file, random),
        6 => widen_number(file, random),
        7 | 8 => damage_lines(file, random),
        _ => damage_byte(file, random),
    }
}

fn insert(file: &mut Vec<u8>, at: usize, bytes: &[u8]) {
    file.splice(at..at, bytes.iter().copied());
}

/// Puts another names line, or none, in the place of the first line.
fn replace_names(file: &mut Vec<u8>, random: &mut Random) {
    let end = file
        .iter()
        .position(|&byte| byte == b'\n')
        .map_or(file.len(), |at| at + 1);
    let names = random.choose(&[
        CellFile::NAMES,
        RecipeFile::NAMES,
        LimitsFile::NAMES,
        b"",
        b"\n",
        b"resource,from\n",
    ]);
    file.splice(..end, names.iter().copied());
}

/// Ends one line, or every line, as some other systems do.
fn carriage_returns(file: &mut Vec<u8>, random: &mut Random) {
    let only = if random.coin() {
        Some(random.below(70))
    } else {
        None
    };
    let mut ended = Vec::with_capacity(file.len() + 70);
    for (n, line) in file.split_inclusive(|&byte| byte == b'\n').enumerate() {
        match line.strip_suffix(b"\n") {
            Some(text) if only.is_none_or(|only| only == n) => {
                ended.extend_from_slice(text);
                ended.extend_from_slice(b"\r\n");
            }
            _ => ended.extend_from_slice(line),
        }
    }
    *file = ended;
}

/// Gives some number a sign, a space, leading zeros or more digits.
fn widen_number(file: &mut Vec<u8>, random: &mut Random) {
    let starts_number =
        |&at: &usize| file[at].is_ascii_digit() && (at == 0 || !file[at - 1].is_ascii_digit());
    let starts: Vec<usize> = (0..file.len()).filter(starts_number).collect();
    if starts.is_empty() {
        return;
    }
    let at = random.choose(&starts);
    let more = random.choose(&[
        &b"0"[..],
        b"00000",
        b"1",
        b"1000",
        b"10000",
        b"100000",
        b"+",
        b"-",
        b" ",
    ]);
    insert(file, at, more);
}

/// Swaps, cuts, glues, drops or doubles whole lines, the names line too.
fn damage_lines(file: &mut Vec<u8>, random: &mut Random) {
    let mut lines: Vec<Vec<u8>> = file
        .split_inclusive(|&byte| byte == b'\n')
        .map(<[u8]>::to_vec)
        .collect();
    if lines.is_empty() {
        return;
    }
    let n = random.below(lines.len());
    let m = random.below(lines.len());
    match random.below(6) {
        0 => lines.swap(n, m),
        1 => {
            let length = random.below(lines[n].len());
            lines[n].truncate(length);
            lines[n].push(b'\n');
        }
        2 => _ = lines[n].pop(),
        3 => _ = lines.remove(n),
        4 => lines.insert(m, lines[n].clone()),
        _ => {
            let end = lines[n].len().saturating_sub(1);
            lines[n].splice(end..end, *b",0");
        }
    }
    *file = lines.concat();
}

/// Changes, drops, doubles or adds one byte.
fn damage_byte(file: &mut Vec<u8>, random: &mut Random) {
    let telling = b"\0\n\r\t +-,./0123456789:;x\x7f\x80\xff";
    let byte = if random.coin() {
        random.byte()
    } else {
        random.choose(telling)
    };
    if file.is_empty() {
        file.push(byte);
        return;
    }
    let at = random.below(file.len());
    match random.below(4) {
        0 => file[at] = byte,
        1 => _ = file.remove(at),
        2 => file.insert(at, file[at]),
        _ => file.insert(at, byte),
    }
}

/// Bytes without a plan: any at all, or those that files are made of, with the names line or without.
pub fn noise<F: Columns>(random: &mut Random) -> Vec<u8> {
    let mut file = if random.coin() {
        F::NAMES.to_vec()
    } else {
        Vec::new()
    };
    let any_byte = random.below(3) == 0;
    for _ in 0..random.below(120) {
        file.push(if any_byte {
            random.byte()
        } else {
            random.choose(b"0123,,\n")
        });
    }
    file
}

/// The longest cell file that is accepted: 64 lines, none of which can be longer.
pub fn longest_cell() -> Vec<u8> {
    let row = |n: u32| {
        // The acts go round, so that each out follows the in of another resource on its port.
        let port = 10 + n / 4;
        vec![n % 6, n % 8, n % 4, port, (n + 1) % 8]
    };
    file::<CellFile>(&(0..64).map(row).collect::<Rows>())
}

/// The longest recipe file that is accepted: four parallel lines at each of 16 points, with as many
/// digits as four sums without a common part can have.
pub fn longest_recipe() -> Vec<u8> {
    const SUMS: [u32; 4] = [128, 64 + 32 + 4, 16, 8 + 2];
    let row = |n: u32| {
        let sum = SUMS[n as usize % 4];
        vec![n / 4, DO, 10 + n % 54, sum, sum, 10 + n / 4 % 6, 0]
    };
    file::<RecipeFile>(&(0..64).map(row).collect::<Rows>())
}

/// A cell file of good form with too many lines for a record: at least `length` bytes, by whole lines.
pub fn overlong_cell(length: usize) -> Vec<u8> {
    let longest = longest_cell();
    let lines = &longest[CellFile::NAMES.len()..];
    let line = lines.len() / 64;
    let mut file = longest.clone();
    while file.len() < length {
        let missing = (length - file.len()).div_ceil(line) * line;
        file.extend_from_slice(&lines[..missing.min(lines.len())]);
    }
    file
}
