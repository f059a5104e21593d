//! The points of a recipe by what leads to them: recipes in which a chain of `then` and `else` leads from
//! point 0 to every point, and recipes in which some points are forgotten.

use crate::generate::recipe::{ELSE, KIND, POINT, THEN};
use crate::generate::{record, Rows, DO, END, TEST};
use crate::random::Random;
use crate::RecipeFile;
use independent::{every_point_is_reached, recipe_of_bytes, MOST_LINES};

const MOST_POINTS: usize = 16;

/// Leads to every point, seven times in eight. Most of those that are left as chance made them have
/// unreached points, which are then about one recipe in ten.
pub fn lead_to_most(rows: &mut Rows, random: &mut Random) {
    if random.below(8) > 0 {
        lead_everywhere(rows, random);
    }
}

/// Leads to every point from point 0, by chains of any shape: the points get other numbers, and their
/// branches lead elsewhere. Ends for which there are too few branches go.
fn lead_everywhere(rows: &mut Rows, random: &mut Random) {
    let mut points = points_of(rows);
    random.shuffle(&mut points);
    // A do leads on as often as it is led to, and a test once more. So all that leads on comes before the
    // ends, and for these there is then one branch more than there are tests.
    points.sort_by_key(|lines| lines[0][KIND] == END);
    let kinds: Vec<u32> = points.iter().map(|lines| lines[0][KIND]).collect();
    let count = |kind| kinds.iter().filter(|&&other| other == kind).count();
    points.truncate(count(DO) + 2 * count(TEST) + 1);

    let mut numbers: Vec<u32> = (0..points.len() as u32).collect();
    random.shuffle(&mut numbers[1..]);
    let mut free: Vec<(usize, usize)> = Vec::new();
    for n in 0..points.len() {
        if n > 0 {
            let (from, branch) = free.swap_remove(random.below(free.len()));
            set(&mut points[from], branch, numbers[n]);
        }
        set(&mut points[n], POINT, numbers[n]);
        free.extend(branches(kinds[n]).iter().map(|&branch| (n, branch)));
    }
    for (from, branch) in free {
        set(&mut points[from], branch, random.choose(&numbers));
    }
    points.sort_by_key(|lines| lines[0][POINT]);
    *rows = points.concat();
}

/// The recipe with a change after which some point is unreached: old points pasted behind the others, an
/// end in the place of point 0, or nothing that leads to some other point any more.
pub fn forgetful(rows: &Rows, random: &mut Random) -> Rows {
    loop {
        let mut changed = rows.clone();
        match random.below(6) {
            0 => end_at_once(&mut changed),
            1 => turn_away(&mut changed, random),
            _ => paste(&mut changed, random),
        }
        let fits = changed.len() <= MOST_LINES && points_of(&changed).len() <= MOST_POINTS;
        if fits && is_forgetful(&changed) {
            return changed;
        }
    }
}

/// Whether a recipe that passes the rules up to 12 has an unreached point.
fn is_forgetful(rows: &[Vec<u32>]) -> bool {
    !every_point_is_reached(&recipe_of_bytes(&record::<RecipeFile>(rows)))
}

/// Makes point 0 an end.
fn end_at_once(rows: &mut Rows) {
    rows.retain(|row| row[POINT] > 0);
    rows.insert(0, vec![0, END, 0, 0, 0, 0, 0]);
}

/// Leads elsewhere what leads to some point other than 0.
fn turn_away(rows: &mut Rows, random: &mut Random) {
    let count = points_of(rows).len();
    if count == 1 {
        return;
    }
    let point = 1 + random.below(count - 1);
    let elsewhere = (point + 1 + random.below(count - 1)) % count;
    for row in rows {
        for &branch in branches(row[KIND]) {
            if row[branch] == point as u32 {
                row[branch] = elsewhere as u32;
            }
        }
    }
}

/// Pastes an old point behind the others, which leads on as before or to itself, or two that lead to each
/// other.
fn paste(rows: &mut Rows, random: &mut Random) {
    let points = points_of(rows);
    let next = points.len() as u32;
    let targets = match random.below(3) {
        0 => vec![None],
        1 => vec![Some(next)],
        _ => vec![Some(next + 1), Some(next)],
    };
    for (number, target) in (next..).zip(targets) {
        let mut lines = points[random.below(points.len())].clone();
        for &branch in branches(lines[0][KIND]) {
            let before = lines[0][branch];
            set(&mut lines, branch, target.unwrap_or(before));
        }
        set(&mut lines, POINT, number);
        rows.extend(lines);
    }
}

/// The lines of each point.
fn points_of(rows: &[Vec<u32>]) -> Vec<Rows> {
    let points = rows.chunk_by(|row, next| row[POINT] == next[POINT]);
    points.map(<[Vec<u32>]>::to_vec).collect()
}

/// The columns that say where a point of this kind leads.
fn branches(kind: u32) -> &'static [usize] {
    match kind {
        END => &[],
        DO => &[THEN],
        _ => &[THEN, ELSE],
    }
}

/// Puts a number into a column of all lines of a point.
fn set(lines: &mut Rows, column: usize, number: u32) {
    lines.iter_mut().for_each(|row| row[column] = number);
}
