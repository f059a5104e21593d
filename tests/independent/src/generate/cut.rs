//! Recipes cut into chapters. Where nothing leads back across a cut, and all that leads across it leads to one
//! point, the recipe and its chapters do the same.

use super::{numbered, recipe_of_lines, with_all_behind, RecipeLine, END_LINE};
use crate::chapters::MOST_CHAPTERS;
use crate::random::Random;
use crate::recipe::{Recipe, DO, END, TEST};

/// The most points of a chapter.
const MOST_POINTS: usize = 16;

/// A recipe in chapters, and for each of its points the chapter and the point there.
pub struct Cut {
    pub chapters: Vec<Recipe>,
    pub points: Vec<(u8, u8)>,
}

/// Cuts a recipe, all of whose points are reached, at random; none if it can't be cut. In an earlier chapter
/// one end, or two, stand for the point with which the next one begins.
pub fn cut(recipe: &Recipe, random: &mut Random) -> Option<Cut> {
    let mut cut = Cut {
        chapters: vec![],
        points: vec![(0, 0); recipe.points().into()],
    };
    // Point 0 of the next chapter, and then its others.
    let mut rest: Vec<u8> = (0..recipe.points()).collect();
    while cut.chapters.len() + 1 < MOST_CHAPTERS {
        let joints = joints(recipe, &rest);
        if joints.is_empty() || !cut.chapters.is_empty() && random.once_in(8) {
            break;
        }
        // The first ones leave most for further cuts.
        let chosen = random.below(joints.len()).min(random.below(joints.len()));
        let after = reached_from(recipe, joints[chosen]);
        rest.retain(|point| !after.contains(point));
        cut.add_chapter(recipe, &rest, Some(after[0]), random);
        rest = after;
    }
    let is_cut = !cut.chapters.is_empty();
    cut.add_chapter(recipe, &rest, None, random);
    is_cut.then_some(cut)
}

/// Those of some points, the first of which leads to all others, before which they can be cut: nothing behind
/// leads back, nothing before leads anywhere behind but there, and no end comes before.
fn joints(recipe: &Recipe, points: &[u8]) -> Vec<u8> {
    let is_joint = |&&joint: &&u8| {
        let after = reached_from(recipe, joint);
        let mut before = points.iter().filter(|point| !after.contains(point));
        let stays = |&branch: &u8| branch == joint || !after.contains(&branch);
        !after.contains(&points[0])
            && before.all(|&point| {
                recipe.kind_at(point) != END && recipe.branches_at(point).iter().all(stays)
            })
    };
    points[1..].iter().filter(is_joint).copied().collect()
}

/// The points to which branches lead from a point, which comes first; the others rise.
fn reached_from(recipe: &Recipe, point: u8) -> Vec<u8> {
    let mut found = with_all_behind(recipe, vec![point]);
    found[1..].sort_unstable();
    found
}

impl Cut {
    /// Adds these points as a chapter. Behind them come ends in the place of the point at which the next
    /// chapter begins, if there is one.
    fn add_chapter(
        &mut self,
        recipe: &Recipe,
        points: &[u8],
        next: Option<u8>,
        random: &mut Random,
    ) {
        let chapter = self.chapters.len() as u8;
        for (number, &point) in (0..).zip(points) {
            self.points[usize::from(point)] = (chapter, number);
        }
        let mut lines = self.lines_of(recipe, points);
        if let Some(next) = next {
            let across = |&[branch, column]: &[u8; 2]| {
                let line = recipe.lines_at(branch).start;
                recipe.line(line)[usize::from(column)] == next
            };
            let columns = points.iter().flat_map(|&p| branch_columns(recipe, p));
            let leading: Vec<[u8; 2]> = columns.filter(across).collect();
            self.lead_to_ends(&mut lines, &leading, points.len(), random);
        }
        self.chapters.push(recipe_of_lines(&lines));
    }

    /// The lines of some points with the numbers that they have in their chapter.
    fn lines_of(&self, recipe: &Recipe, points: &[u8]) -> Vec<RecipeLine> {
        let number = |point: u8| self.points[usize::from(point)].1;
        let lines = points.iter().flat_map(|&point| recipe.lines_at(point));
        let renumbered = lines.map(|n| {
            let mut line = numbered(recipe.line(n), number(recipe.point[n]));
            if line[1] != END {
                line[5] = number(line[5]);
            }
            if line[1] == TEST {
                line[6] = number(line[6]);
            }
            line
        });
        renumbered.collect()
    }

    /// Leads these branches, each a point and a column, to ends behind so many points: to one, or by chance to
    /// one of two, if there are as many branches and there is room.
    fn lead_to_ends(
        &self,
        lines: &mut Vec<RecipeLine>,
        branches: &[[u8; 2]],
        points: usize,
        random: &mut Random,
    ) {
        let has_room = branches.len() > 1 && points + 2 <= MOST_POINTS;
        let ends = if has_room && random.once_in(2) { 2 } else { 1 };
        for (n, &[point, column]) in branches.iter().enumerate() {
            let end = (points + n % ends) as u8;
            let number = self.points[usize::from(point)].1;
            let same_point = lines.iter_mut().filter(|line| line[0] == number);
            same_point.for_each(|line| line[usize::from(column)] = end);
        }
        lines.extend((0..ends).map(|n| numbered(END_LINE, (points + n) as u8)));
    }
}

/// The columns of a point that say where it leads.
fn branch_columns(recipe: &Recipe, point: u8) -> Vec<[u8; 2]> {
    match recipe.kind_at(point) {
        END => vec![],
        DO => vec![[point, 5]],
        _ => vec![[point, 5], [point, 6]],
    }
}

#[cfg(test)]
mod tests {
    use super::*;
    use crate::chapters::{check, check_to_plan};
    use crate::fixtures::{cell_of, recipe_of, BENCH_CELL, BENCH_RECIPE, GIVING, TESTING, WHOLE};

    /// All chapters into which a recipe is cut by some seeds, each once.
    fn cuts(recipe: &Recipe) -> Vec<Vec<Recipe>> {
        let mut found: Vec<Vec<Recipe>> = vec![];
        for seed in 0..100 {
            let cut = cut(recipe, &mut Random(seed));
            let chapters = cut.map_or(vec![], |cut| cut.chapters);
            if !found.contains(&chapters) {
                found.push(chapters);
            }
        }
        found
    }

    #[test]
    fn the_bench_cells_recipe_is_cut_before_its_test() {
        let found = cuts(&recipe_of(&WHOLE));
        let both = [&GIVING[..], &TESTING].map(recipe_of).to_vec();
        assert!(found.contains(&both));
        // Before its end too, and there by two ends or one; and in both places.
        let end = recipe_of(&["0,0,0,0,0,0,0"]);
        let ends_behind = |chapters: &&Vec<Recipe>| chapters.last() == Some(&end);
        let several = found.iter().filter(|chapters| chapters.len() == 3).count();
        assert_eq!((found.len(), several), (5, 2));
        assert_eq!(found.iter().filter(ends_behind).count(), 4);
    }

    #[test]
    fn what_leads_back_or_ends_before_is_not_cut() {
        // The bench recipe can be cut before its end, before the do that leads there alone, and at both.
        let found = cuts(&recipe_of(&BENCH_RECIPE));
        assert_eq!((found.len(), found.contains(&vec![])), (3, false));
        for lines in [
            &["0,1,1,0,1,1,0", "1,1,1,1,0,0,0"][..],
            &["0,2,1,1,0,1,2", "1,1,1,0,2,2,0", "2,2,1,1,0,0,1"],
            // An end that stands before would lead on then.
            &[
                "0,2,1,1,0,1,2",
                "1,1,1,0,2,3,0",
                "2,0,0,0,0,0,0",
                "3,0,0,0,0,0,0",
            ],
            &["0,0,0,0,0,0,0"],
        ] {
            assert!(cuts(&recipe_of(lines)) == [vec![]], "{lines:?}");
        }
    }

    #[test]
    fn a_long_recipe_is_cut_into_eight_chapters_at_most() {
        let lines: Vec<String> = (0..15)
            .map(|p| format!("{p},1,1,{},{},{},0", p % 2, 1 - p % 2, p + 1))
            .chain(["15,0,0,0,0,0,0".to_string()])
            .collect();
        let lines: Vec<&str> = lines.iter().map(String::as_str).collect();
        let recipe = recipe_of(&lines);
        let cell = cell_of(&BENCH_CELL);
        let mut counts = [0; 9];
        for seed in 0..1000 {
            let Cut { chapters, points } = cut(&recipe, &mut Random(seed)).expect("it can be cut");
            counts[chapters.len()] += 1;
            assert_eq!(check(&cell, &chapters), 0);
            assert_eq!(check_to_plan(&cell, &chapters), 0);
            // Each of its lines is where it was said to be.
            for (point, &(chapter, number)) in (0..16).zip(&points) {
                let chapter = &chapters[usize::from(chapter)];
                let [line, other] = [recipe.lines_at(point).start, chapter.lines_at(number).start];
                assert_eq!(recipe.line(line)[1..5], chapter.line(other)[1..5]);
            }
        }
        assert!(counts[2..].iter().all(|&times| times >= 5), "{counts:?}");
    }
}
