//! Recipes in chapters: 1 to 8 recipes over one cell, each within the limits of a single one. The rules that
//! they are checked by, and the bytes that they are handed in.

use crate::cell::{check_cell, Cell};
use crate::joined::Joined;
use crate::recipe::{
    check_recipe, every_point_is_reached, recipe_bytes, recipe_of_bytes, Recipe, RECIPE_BYTES,
};
use crate::sizes::{scratch_bytes, MOST_POSITIONS};

/// The most chapters that there may be.
pub const MOST_CHAPTERS: usize = 8;

/// The first of the rules that every call tries on a cell and its chapters, or 0 if they break none: 24 for
/// the number of chapters, the cell's rules, each chapter's in their order with 24 behind them, and then 13.
pub fn check(cell: &Cell, chapters: &[Recipe]) -> u8 {
    try_to_run(cell, chapters).err().unwrap_or(0)
}

/// The same for a call that plans, which tries rule 22 too.
pub fn check_to_plan(cell: &Cell, chapters: &[Recipe]) -> u8 {
    try_to_plan(cell, chapters).err().unwrap_or(0)
}

/// The joined recipe of chapters that break none of the rules before 14, or the first that they do.
pub(crate) fn try_to_run(cell: &Cell, chapters: &[Recipe]) -> Result<Joined, u8> {
    try_chapters(cell, chapters, |_| true)
}

/// The same for a call that plans.
fn try_to_plan(cell: &Cell, chapters: &[Recipe]) -> Result<Joined, u8> {
    try_chapters(cell, chapters, every_point_is_reached)
}

/// The same for a call that plans with a table of so many entries and a scratch of so many bytes, by the
/// rules before 15. The scratch serves one chapter at a time.
pub(crate) fn try_lent(
    cell: &Cell,
    chapters: &[Recipe],
    table: usize,
    scratch: usize,
) -> Result<Joined, u8> {
    let joined = try_to_plan(cell, chapters)?;
    let short_table = (table as u64) < joined.sizes.positions;
    let short_scratch = (scratch as u64) < scratch_bytes(joined.greatest_positions());
    if short_table || short_scratch {
        return Err(14);
    }
    Ok(joined)
}

/// Tries the rules in their order; 22 is broken by a chapter that isn't `whole`.
fn try_chapters(
    cell: &Cell,
    chapters: &[Recipe],
    whole: fn(&Recipe) -> bool,
) -> Result<Joined, u8> {
    if !(1..=MOST_CHAPTERS).contains(&chapters.len()) {
        return Err(24);
    }
    check_cell(cell).try_rule()?;
    for (n, chapter) in chapters.iter().enumerate() {
        check_recipe(chapter).try_rule()?;
        if !whole(chapter) {
            return Err(22);
        }
        let is_last = n + 1 == chapters.len();
        if !is_last && chapter.begins_with_end() {
            return Err(24);
        }
    }
    let joined = Joined::of(cell, chapters);
    if joined.greatest_positions() > MOST_POSITIONS {
        return Err(13);
    }
    Ok(joined)
}

/// The records as bytes, one after another.
pub fn chapters_bytes(chapters: &[Recipe]) -> Vec<u8> {
    chapters.iter().flat_map(recipe_bytes).collect()
}

/// The records that the bytes say, as many as there are whole ones. A rest counts for nothing.
pub fn chapters_of_bytes(bytes: &[u8]) -> Vec<Recipe> {
    let records = bytes.chunks_exact(RECIPE_BYTES);
    records.map(recipe_of_bytes).collect()
}

#[cfg(test)]
mod tests {
    use super::*;
    use crate::fixtures::{
        bench, cell_of, limit, limit_with_a_fifth_state, recipe_of, BENCH_CELL, BENCH_RECIPE,
        GIVING, TESTING,
    };

    const END: [&str; 1] = ["0,0,0,0,0,0,0"];

    fn recipes(chapters: &[&[&str]]) -> Vec<Recipe> {
        chapters.iter().map(|lines| recipe_of(lines)).collect()
    }

    /// What a call that doesn't plan and one that does say of chapters over the bench example's cell.
    fn refusals(chapters: &[Recipe]) -> [u8; 2] {
        let cell = cell_of(&BENCH_CELL);
        [check(&cell, chapters), check_to_plan(&cell, chapters)]
    }

    #[test]
    fn one_to_eight_chapters() {
        let chapter = recipe_of(&GIVING);
        for count in 0..12 {
            let owed = if (1..=8).contains(&count) { 0 } else { 24 };
            assert_eq!(refusals(&vec![chapter.clone(); count]), [owed; 2]);
            // Their number comes before the cell's rules.
            let owed = if owed == 24 { 24 } else { 3 };
            let chapters = vec![chapter.clone(); count];
            assert_eq!(check(&Cell::EMPTY, &chapters), owed);
            assert_eq!(check_to_plan(&Cell::EMPTY, &chapters), owed);
            assert_eq!(
                try_lent(&Cell::EMPTY, &chapters, 0, 0).err(),
                Some(owed),
                "{count}"
            );
        }
    }

    #[test]
    fn the_last_chapter_alone_may_begin_with_an_end() {
        assert_eq!(refusals(&recipes(&[&END])), [0; 2]);
        assert_eq!(refusals(&recipes(&[&GIVING, &END])), [0; 2]);
        assert_eq!(refusals(&recipes(&[&END, &BENCH_RECIPE])), [24; 2]);
        assert_eq!(refusals(&recipes(&[&END, &END])), [24; 2]);
        assert_eq!(refusals(&recipes(&[&GIVING, &END, &GIVING])), [24; 2]);
        // A further end that nothing leads to is refused before that, in a call that plans.
        let two_ends = ["0,0,0,0,0,0,0", "1,0,0,0,0,0,0"];
        assert_eq!(refusals(&recipes(&[&two_ends, &BENCH_RECIPE])), [24, 22]);
        assert_eq!(refusals(&recipes(&[&GIVING, &two_ends])), [0, 22]);
    }

    #[test]
    fn chapters_are_checked_in_order() {
        let (mut cell, _) = bench();
        let mut chapters = recipes(&[&GIVING, &TESTING, &BENCH_RECIPE]);
        let mut expect = |change: fn(&mut Cell, &mut [Recipe]), owed: [u8; 2]| {
            change(&mut cell, &mut chapters);
            let given = [check(&cell, &chapters), check_to_plan(&cell, &chapters)];
            assert_eq!(given, owed);
        };
        // Each change breaks a rule before all those that were broken so far.
        expect(|cell, _| (cell.to[1], cell.to[4]) = (7, 7), [0; 2]);
        expect(|_, chapters| chapters[2].takes[3] = 129, [13; 2]);
        expect(|_, chapters| chapters[2].otherwise[1] = 2, [13, 22]);
        expect(|_, chapters| chapters[2].then[0] = 5, [12; 2]);
        expect(|_, chapters| chapters[1] = recipe_of(&END), [24; 2]);
        expect(|_, chapters| chapters[1].op[0] = 1, [9; 2]);
        expect(|_, chapters| chapters[1].count = 0, [3; 2]);
        expect(|_, chapters| chapters[0].then[0] = 0, [3, 22]);
        expect(|_, chapters| chapters[0] = recipe_of(&END), [24; 2]);
        expect(|_, chapters| chapters[0].kind[0] = 3, [4; 2]);
        expect(|cell, _| cell.act[3] = 4, [23; 2]);
        expect(|cell, _| cell.count = 65, [3; 2]);
        let many = [&chapters[..], &chapters, &chapters].concat();
        assert_eq!(check(&cell, &many), 24);
    }

    #[test]
    fn rule_13_is_for_each_chapter_and_parts_count_over_all() {
        let (cell, great) = limit();
        let small = recipe_of(&["0,1,1,0,1,1,0", "1,0,0,0,0,0,0"]);
        let both = [small.clone(), great.clone()];
        for chapters in [&[great.clone(), great.clone()][..], &both, &[great, small]] {
            assert_eq!(check(&cell, chapters), 0);
        }
        let (wide, great) = limit_with_a_fifth_state();
        let small = &both[0];
        for chapters in [[small.clone(), great.clone()], [great, small.clone()]] {
            assert_eq!(check(&wide, &chapters), 13);
        }
        // Two chapters that are few enough alone: one has the points, the other names a part.
        let points = (0..16).map(|p| format!("{p},1,1,16,1,{},0", (p + 1) % 16));
        let points: Vec<String> = points.collect();
        let points: Vec<&str> = points.iter().map(String::as_str).collect();
        let part = ["0,1,1,0,32,1,0", "1,0,0,0,0,0,0"];
        for (chapters, owed) in [
            (&[&points[..]][..], 0),
            (&[&part], 0),
            (&[&points, &part], 13),
            (&[&part, &points], 13),
        ] {
            assert_eq!(check(&cell, &recipes(chapters)), owed);
        }
    }

    #[test]
    fn the_table_has_the_sum_and_the_scratch_the_greatest() {
        let cell = cell_of(&BENCH_CELL);
        let chapters = recipes(&[&GIVING, &BENCH_RECIPE, &TESTING]);
        // 2, 5 and 4 points of 18 configurations each.
        let sum = 36 + 90 + 72;
        for (table, scratch, owed) in [
            (sum, 12, 0),
            (sum - 1, 12, 14),
            (sum, 11, 14),
            (sum + 9, 99, 0),
            (90, 12, 14),
            (0, 0, 14),
        ] {
            let given = try_lent(&cell, &chapters, table, scratch);
            assert_eq!(given.err().unwrap_or(0), owed, "{table}, {scratch}");
        }
    }

    #[test]
    fn as_many_chapters_as_there_are_whole_records() {
        let chapters = recipes(&[&GIVING, &TESTING, &BENCH_RECIPE]);
        let bytes = chapters_bytes(&chapters);
        assert_eq!(bytes.len(), 3 * RECIPE_BYTES);
        assert_eq!(chapters_of_bytes(&bytes), chapters);
        let longer = [&bytes[..], &bytes].concat();
        for length in 0..=longer.len() {
            let read = chapters_of_bytes(&longer[..length]);
            assert_eq!(read.len(), length / 449);
            let again = chapters.iter().cycle();
            assert!(read.iter().eq(again.take(read.len())));
        }
    }
}
