//! The joined recipe: the points of all chapters one after another as one recipe, taken without the limit of
//! 16 points. An end of an earlier chapter is a point of its own, at which nothing is done; what leads to it
//! lands on point 0 of the next chapter. J and W are those of every chapter, so that the chapters' tables one
//! after another are the table of the joined recipe.

use crate::cell::Cell;
use crate::entry::{kind_of, makes, CARRY};
use crate::recipe::{Recipe, END};
use crate::run::Run;
use crate::sizes::{parts_of, Sizes};

/// Chapters over a cell, all of which pass the rules 3 to 12, as one recipe.
#[derive(Clone, Debug, PartialEq, Eq)]
pub struct Joined {
    pub chapters: Vec<Recipe>,
    /// The numbers of the joined recipe, whose N and M are the sums of the chapters'.
    pub sizes: Sizes,
}

impl Joined {
    pub fn of(cell: &Cell, chapters: &[Recipe]) -> Joined {
        let points = chapters.iter().map(|chapter| u64::from(chapter.points()));
        Joined {
            chapters: chapters.to_vec(),
            sizes: Sizes::with(cell, points.sum(), parts_of(chapters)),
        }
    }

    /// How many points come before a chapter.
    fn points_before(&self, chapter: u8) -> u8 {
        let before = self.chapters[..usize::from(chapter)].iter();
        before.map(Recipe::points).sum()
    }

    /// The number of a chapter's point in the joined recipe, which has 128 points at most.
    pub fn number(&self, chapter: u8, point: u8) -> u8 {
        self.points_before(chapter) + point
    }

    /// The chapter of a point of the joined recipe, and its number there.
    pub fn chapter_and_point(&self, number: u8) -> (u8, u8) {
        let mut point = number;
        let before = self.chapters.iter().take_while(|chapter| {
            let is_before = chapter.points() <= point;
            point -= if is_before { chapter.points() } else { 0 };
            is_before
        });
        (before.count() as u8, point)
    }

    /// A chapter that is there.
    pub fn chapter(&self, chapter: u8) -> &Recipe {
        &self.chapters[usize::from(chapter)]
    }

    /// Whether another chapter comes behind this one.
    pub fn is_earlier(&self, chapter: u8) -> bool {
        usize::from(chapter) + 1 < self.chapters.len()
    }

    /// M of one chapter.
    pub fn positions_of(&self, chapter: u8) -> u64 {
        u64::from(self.chapter(chapter).points()) * self.sizes.configurations()
    }

    /// The greatest M of all chapters.
    pub fn greatest_positions(&self) -> u64 {
        let points = self.chapters.iter().map(Recipe::points).max().unwrap_or(0);
        u64::from(points) * self.sizes.configurations()
    }

    /// Rule 16: whether the chapter of a run is there, and its point and its configuration.
    pub fn holds(&self, run: &Run) -> bool {
        let chapter = self.chapters.get(usize::from(run.chapter));
        chapter.is_some_and(|chapter| {
            // Past the chapter's points stand those of the next.
            run.point < chapter.points() && {
                let number = self.number(run.chapter, run.point);
                self.sizes.holds(number, &run.configuration)
            }
        })
    }

    /// The position in the lent table of a run that is there.
    pub fn position(&self, run: &Run) -> u64 {
        let number = self.number(run.chapter, run.point);
        self.sizes.position(number, &run.configuration)
    }

    /// The run at a position of the lent table.
    pub fn run_at(&self, position: u64) -> Run {
        let (number, configuration) = self.sizes.at(position);
        let (chapter, point) = self.chapter_and_point(number);
        Run {
            point,
            configuration,
            chapter,
        }
    }

    /// Whether a point of a chapter is an end, be it an earlier one or the end.
    pub fn is_end(&self, chapter: u8, point: u8) -> bool {
        self.chapter(chapter).kind_at(point) == END
    }

    /// The chapter and point at which a carry lands that leads to this point: where this is an end of an
    /// earlier chapter, point 0 of the next one.
    fn landing(&self, chapter: u8, point: u8) -> (u8, u8) {
        match self.is_earlier(chapter) && self.is_end(chapter, point) {
            true => (chapter + 1, 0),
            false => (chapter, point),
        }
    }

    /// The points of the joined recipe to which one of its points leads: none from an end, and from a test
    /// one for each outcome by its number.
    pub fn branches_at(&self, number: u8) -> Vec<u8> {
        let (chapter, point) = self.chapter_and_point(number);
        let branches = self.chapter(chapter).branches_at(point);
        let landings = branches.iter().map(|&branch| self.landing(chapter, branch));
        landings
            .map(|(chapter, point)| self.number(chapter, point))
            .collect()
    }

    /// For a point of the joined recipe that is an end of an earlier chapter, point 0 of the next chapter.
    pub fn joint_at(&self, number: u8) -> Option<u8> {
        let (chapter, point) = self.chapter_and_point(number);
        let is_joint = self.is_earlier(chapter) && self.is_end(chapter, point);
        is_joint.then(|| self.number(chapter + 1, 0))
    }

    /// Whether an entry is a move open at a run that is there.
    pub fn is_open(&self, cell: &Cell, run: &Run, entry: u32) -> bool {
        self.makes(cell, run, entry, 0).is_some()
    }

    /// The run that an entry makes of a run that is there on an outcome, which only a test looks at; none if
    /// the entry isn't open. An end, an earlier one too, stays where it is.
    pub fn makes(&self, cell: &Cell, run: &Run, entry: u32, outcome: u8) -> Option<Run> {
        let Run {
            point,
            configuration,
            chapter,
        } = run;
        let recipe = self.chapter(*chapter);
        let (point, configuration) = makes(cell, recipe, *point, configuration, entry, outcome)?;
        let (chapter, point) = match kind_of(entry) {
            CARRY => self.landing(*chapter, point),
            _ => (*chapter, point),
        };
        Some(Run {
            point,
            configuration,
            chapter,
        })
    }
}

#[cfg(test)]
mod tests {
    use super::*;
    use crate::fixtures::{bench_chapters, BENCH_RECIPE, GIVING, TESTING};
    use crate::sizes::Configuration;

    fn three() -> (Cell, Joined) {
        bench_chapters(&[&GIVING, &TESTING, &BENCH_RECIPE])
    }

    #[test]
    fn the_points_of_all_chapters_one_after_another() {
        let (_, joined) = three();
        assert_eq!((joined.sizes.points, joined.sizes.positions), (11, 198));
        let numbers = [(0, 0), (0, 1), (1, 0), (1, 3), (2, 0), (2, 4)];
        for ((chapter, point), number) in numbers.into_iter().zip([0, 1, 2, 5, 6, 10]) {
            assert_eq!(joined.number(chapter, point), number);
            assert_eq!(joined.chapter_and_point(number), (chapter, point));
        }
        let positions = [0, 1, 2].map(|chapter| joined.positions_of(chapter));
        assert_eq!((positions, joined.greatest_positions()), ([36, 72, 90], 90));
    }

    #[test]
    fn what_leads_to_an_earlier_end_lands_on_the_next_chapter() {
        let (_, joined) = three();
        let branches = (0..11).map(|number| joined.branches_at(number));
        let expected: [&[u8]; 11] = [
            &[2],
            &[],
            &[4, 3],
            &[6],
            &[6],
            &[],
            &[7],
            &[9, 8],
            &[10],
            &[6],
            &[],
        ];
        assert!(branches.eq(expected.map(<[u8]>::to_vec)));
        let joints: Vec<Option<u8>> = (0..11).map(|number| joined.joint_at(number)).collect();
        assert_eq!((joints[1], joints[5], joints[10]), (Some(2), Some(6), None));
        assert_eq!(joints.iter().flatten().count(), 2);
    }

    #[test]
    fn each_position_is_that_of_its_run() {
        let (_, joined) = three();
        for position in 0..198 {
            let run = joined.run_at(position);
            assert!(joined.holds(&run));
            assert_eq!(joined.position(&run), position);
        }
        // The tables of the chapters begin where those before end.
        for (chapter, start) in [(0, 0), (1, 36), (2, 108)] {
            let run = Run {
                chapter,
                ..Run::fresh()
            };
            assert_eq!(joined.position(&run), start);
        }
    }

    #[test]
    fn rule_16_wants_a_chapter_that_is_there_and_a_point_of_it() {
        let (_, joined) = three();
        let points = [2, 4, 5];
        for chapter in 0..=255 {
            for point in 0..=255 {
                let run = Run {
                    point,
                    configuration: Configuration::START,
                    chapter,
                };
                let count = points.get(usize::from(chapter));
                let owed = count.is_some_and(|&count| point < count);
                assert_eq!(joined.holds(&run), owed, "{chapter}, {point}");
            }
        }
    }

    #[test]
    fn parts_are_those_of_all_chapters() {
        let part_three = ["0,1,1,0,8,1,0", "1,0,0,0,0,0,0"];
        let (_, joined) = bench_chapters(&[&GIVING, &part_three]);
        assert_eq!((joined.sizes.parts, joined.sizes.placings), (4, 81));
        let mut run = Run::fresh();
        run.configuration.places[3] = 2;
        assert!(joined.holds(&run));
        run.configuration.places[4] = 1;
        assert!(!joined.holds(&run));
    }

    #[test]
    fn a_carry_lands_and_nothing_else_does() {
        let (cell, joined) = three();
        let landed = joined.makes(&cell, &Run::fresh(), 50_331_648, 0);
        let landed = landed.expect("the first operation is open");
        assert_eq!((landed.chapter, landed.point), (1, 0));
        assert_eq!(landed.configuration.places[0], 1);
        // At the earlier end itself kind 4 alone is open, and leads nowhere.
        let at_end = Run {
            point: 1,
            chapter: 0,
            ..landed
        };
        assert_eq!(joined.makes(&cell, &at_end, 67_108_864, 1), Some(at_end));
        for entry in [0, 33_554_561, 50_331_648] {
            assert!(!joined.is_open(&cell, &at_end, entry));
        }
        // A silent move stays at its point.
        let handed = joined.makes(&cell, &landed, 33_554_561, 0);
        let handed = handed.expect("the transfer is open");
        assert_eq!((handed.chapter, handed.point), (1, 0));
        // Both outcomes of the test lead on within the chapter, and then to the last one.
        for (outcome, point) in [(0, 2), (1, 1)] {
            let tested = joined.makes(&cell, &handed, 50_331_843, outcome);
            let tested = tested.expect("the test is open");
            assert_eq!((tested.chapter, tested.point), (1, point));
            let taken = joined.makes(&cell, &tested, 50_331_652, outcome);
            assert_eq!(taken.map(|run| (run.chapter, run.point)), Some((2, 0)));
        }
    }
}
