//! Configurations, and the numbers that a cell and a recipe fix together: how many configurations and
//! positions there are, and which position is which.

use crate::cell::Cell;
use crate::recipe::Recipe;
use std::slice;

/// The most resources that a cell may have.
pub const MOST_RESOURCES: usize = 6;

/// The most parts that a recipe may name.
pub const MOST_PARTS: usize = 8;

/// The most positions that rule 13 lets pass.
pub const MOST_POSITIONS: u64 = 1_048_576;

/// How many bytes a scratch needs for so many positions: whole ones, with a bit for each position.
pub fn scratch_bytes(positions: u64) -> u64 {
    positions.div_ceil(8)
}

/// The state of each resource and the place of each part: 0 outside the cell, k + 1 at resource k.
#[derive(Clone, Copy, Debug, PartialEq, Eq)]
pub struct Configuration {
    pub states: [u8; MOST_RESOURCES],
    pub places: [u8; MOST_PARTS],
}

impl Configuration {
    /// Every resource in state 0, holding nothing.
    pub const START: Configuration = Configuration {
        states: [0; MOST_RESOURCES],
        places: [0; MOST_PARTS],
    };
}

/// The numbers of a cell and a recipe that pass the rules 3 to 12; of chapters over one cell too, in which P
/// and W count over all of them, and so do N and M in the joined recipe.
#[derive(Clone, Debug, PartialEq, Eq)]
pub struct Sizes {
    /// R, the number of resources.
    pub resources: usize,
    /// How many states each resource has; 0 for one that isn't there.
    pub states: [u64; MOST_RESOURCES],
    /// J, the number of joint states.
    pub joint_states: u64,
    /// N, the number of points.
    pub points: u64,
    /// P, the number of parts.
    pub parts: usize,
    /// W, the number of ways to place the parts.
    pub placings: u64,
    /// M, the number of positions.
    pub positions: u64,
}

impl Sizes {
    pub fn of(cell: &Cell, recipe: &Recipe) -> Sizes {
        Sizes::with(
            cell,
            recipe.points().into(),
            parts_of(slice::from_ref(recipe)),
        )
    }

    /// The numbers of a cell with so many points and parts.
    pub(crate) fn with(cell: &Cell, points: u64, parts: usize) -> Sizes {
        let mut states = [0; MOST_RESOURCES];
        for n in 0..usize::from(cell.count) {
            let greatest = cell.from[n].max(cell.to[n]);
            let count = &mut states[usize::from(cell.resource[n])];
            *count = u64::from(greatest + 1).max(*count);
        }
        // Rule 5 has left no gap between the resources.
        let resources = cell.resources();
        let joint_states = states[..resources].iter().product();
        let placings = (resources as u64 + 1).pow(parts as u32);
        Sizes {
            resources,
            states,
            joint_states,
            points,
            parts,
            placings,
            positions: points * joint_states * placings,
        }
    }

    /// J × W, the number of configurations.
    pub fn configurations(&self) -> u64 {
        self.joint_states * self.placings
    }

    /// The number of a point with a configuration, both of which are there.
    pub fn position(&self, point: u8, configuration: &Configuration) -> u64 {
        let mut j = 0;
        let mut weight = 1;
        for k in 0..self.resources {
            j += u64::from(configuration.states[k]) * weight;
            weight *= self.states[k];
        }
        let mut w = 0;
        let mut weight = 1;
        for n in 0..self.parts {
            w += u64::from(configuration.places[n]) * weight;
            weight *= self.resources as u64 + 1;
        }
        (u64::from(point) * self.joint_states + j) * self.placings + w
    }

    /// The point and the configuration of a position below M.
    pub fn at(&self, position: u64) -> (u8, Configuration) {
        let mut configuration = Configuration::START;
        let mut w = position % self.placings;
        for place in &mut configuration.places[..self.parts] {
            let places = self.resources as u64 + 1;
            *place = (w % places) as u8;
            w /= places;
        }
        let mut j = position / self.placings % self.joint_states;
        for (state, count) in configuration.states.iter_mut().zip(self.states) {
            if count > 0 {
                *state = (j % count) as u8;
                j /= count;
            }
        }
        let point = position / self.placings / self.joint_states;
        (point as u8, configuration)
    }

    /// Rule 16: whether the point and the configuration are there.
    pub fn holds(&self, point: u8, configuration: &Configuration) -> bool {
        let state_held = |k: usize| {
            let state = configuration.states[k];
            if k < self.resources {
                u64::from(state) < self.states[k]
            } else {
                state == 0
            }
        };
        let place_held = |n: usize| {
            let place = configuration.places[n];
            if n < self.parts {
                usize::from(place) <= self.resources
            } else {
                place == 0
            }
        };
        u64::from(point) < self.points
            && (0..MOST_RESOURCES).all(state_held)
            && (0..MOST_PARTS).all(place_held)
    }
}

/// P: the greatest part number in any takes or gives of some recipes, plus 1, or 0 without parts.
pub(crate) fn parts_of(recipes: &[Recipe]) -> usize {
    let sums = recipes.iter().flat_map(|recipe| {
        let lines = 0..usize::from(recipe.count);
        lines.map(|n| recipe.takes[n] | recipe.gives[n])
    });
    let named = sums.fold(0, |named, sum| named | sum);
    (u8::BITS - named.leading_zeros()) as usize
}

#[cfg(test)]
mod tests {
    use super::*;
    use crate::fixtures::{bench, cell_of, limit, limit_with_a_fifth_state, recipe_of};

    #[test]
    fn the_bench_example_has_90_positions() {
        let (cell, recipe) = bench();
        let sizes = Sizes::of(&cell, &recipe);
        assert_eq!((sizes.resources, sizes.parts, sizes.points), (2, 1, 5));
        assert_eq!(sizes.states, [2, 3, 0, 0, 0, 0]);
        assert_eq!((sizes.joint_states, sizes.placings), (6, 3));
        assert_eq!(sizes.positions, 90);
    }

    #[test]
    fn without_parts_there_is_one_way_to_place_them() {
        let cell = cell_of(&["0,0,1,1,7"]);
        let sizes = Sizes::of(&cell, &recipe_of(&["0,0,0,0,0,0,0"]));
        assert_eq!((sizes.parts, sizes.placings, sizes.positions), (0, 1, 8));
    }

    #[test]
    fn a_gate_may_have_the_greatest_state() {
        let end = recipe_of(&["0,0,0,0,0,0,0"]);
        let states = |lines: &[&str]| Sizes::of(&cell_of(lines), &end).states[0];
        assert_eq!(states(&["0,0,1,1,1"]), 2);
        assert_eq!(states(&["0,0,1,1,1", "0,0,4,1,7"]), 8);
        assert_eq!(states(&["0,0,1,1,1", "0,0,4,1,0"]), 2);
    }

    #[test]
    fn the_greatest_part_counts_and_not_how_many_there_are() {
        let cell = cell_of(&["0,0,1,1,0", "1,0,1,1,0"]);
        let recipe = recipe_of(&["0,1,1,0,128,1,0", "1,1,1,4,0,0,0"]);
        let sizes = Sizes::of(&cell, &recipe);
        assert_eq!((sizes.parts, sizes.placings), (8, 6561));
        assert_eq!(sizes.positions, 2 * 6561);
    }

    #[test]
    fn the_limit_example_and_a_fifth_state() {
        let (cell, recipe) = limit();
        assert_eq!(Sizes::of(&cell, &recipe).positions, MOST_POSITIONS);
        let (cell, recipe) = limit_with_a_fifth_state();
        assert_eq!(Sizes::of(&cell, &recipe).positions, 1_310_720);
    }

    #[test]
    fn the_greatest_sizes_do_not_come_round() {
        let lines: Vec<String> = (0..6).map(|k| format!("{k},7,1,0,0")).collect();
        let lines: Vec<&str> = lines.iter().map(String::as_str).collect();
        let points: Vec<String> = (0..16).map(|p| format!("{p},1,0,128,0,0,0")).collect();
        let points: Vec<&str> = points.iter().map(String::as_str).collect();
        let sizes = Sizes::of(&cell_of(&lines), &recipe_of(&points));
        assert_eq!(sizes.positions, 16 * 262_144 * 5_764_801);
    }

    #[test]
    fn a_scratch_has_a_bit_for_each_position() {
        for (positions, bytes) in [
            (1, 1),
            (7, 1),
            (8, 1),
            (9, 2),
            (88, 11),
            (89, 12),
            (90, 12),
            (96, 12),
            (97, 13),
            (MOST_POSITIONS - 1, 131_072),
            (MOST_POSITIONS, 131_072),
            (MOST_POSITIONS + 1, 131_073),
        ] {
            assert_eq!(scratch_bytes(positions), bytes, "{positions} positions");
        }
    }

    #[test]
    fn low_resources_and_low_parts_weigh_least() {
        let (cell, recipe) = bench();
        let sizes = Sizes::of(&cell, &recipe);
        let mut configuration = Configuration::START;
        configuration.states[..2].copy_from_slice(&[1, 2]);
        configuration.places[0] = 2;
        assert_eq!(sizes.position(4, &configuration), (4 * 6 + 5) * 3 + 2);
        configuration.states[1] = 0;
        assert_eq!(sizes.position(1, &configuration), (6 + 1) * 3 + 2);
    }

    #[test]
    fn each_position_is_that_of_its_point_and_configuration() {
        for (cell, recipe) in [bench(), limit()] {
            let sizes = Sizes::of(&cell, &recipe);
            for position in 0..sizes.positions {
                let (point, configuration) = sizes.at(position);
                assert!(sizes.holds(point, &configuration));
                assert_eq!(sizes.position(point, &configuration), position);
            }
        }
    }

    #[test]
    fn rule_16_wants_each_number_in_its_count() {
        let (cell, recipe) = bench();
        let sizes = Sizes::of(&cell, &recipe);
        // Points, two resources of two and three states, one part at one of three places.
        let counts = [5, 2, 3, 1, 1, 1, 1, 3, 1, 1, 1, 1, 1, 1, 1];
        for (at, count) in counts.into_iter().enumerate() {
            for number in [0, count - 1, count, 255] {
                let mut bytes = [0; 15];
                bytes[at] = number;
                let configuration = Configuration {
                    states: bytes[1..7].try_into().unwrap(),
                    places: bytes[7..].try_into().unwrap(),
                };
                let held = sizes.holds(bytes[0], &configuration);
                assert_eq!(held, number < count, "byte {at} is {number}");
            }
        }
    }
}
