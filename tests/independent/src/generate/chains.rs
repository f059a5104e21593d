//! Cells whose stations count in a chain, so that silent ways are long and a planner's layers many and small.

use super::{
    limited_cell, numbered, recipe_of_lines, some_limits, CellLine, RecipeLine, END_LINE, NO_LIMITS,
};
use crate::cell::{Cell, GATE, IN, INTERNAL, OPERATION, OUT, PHOTOCELLS};
use crate::random::Random;
use crate::recipe::{Recipe, DO, TEST};
use crate::single::check_to_plan;
use crate::sizes::Sizes;

/// The fewest configurations of a chain, and the fewest moves after which its last station has counted to its
/// end, if no line but those of the count is there.
const FEWEST_CONFIGURATIONS: u64 = 3_000;
const FEWEST_MOVES: usize = 120;

/// The operations by which parts are given, and by which they are tested and taken.
const GIVE: u8 = 0;
const TAKE: u8 = 1;

/// A chain and a recipe for it that pass the rules before 14, of at most this many positions, 10,000 or more.
/// The stations stand in any order in the chain, and each counts through its states in any order, so that a
/// move may lead anywhere from anywhere. The first counts by internal work, each other one by the transfers
/// with which the one before starts anew. In some cells other lines stand beside these, or one is left out.
pub fn chain_pair(most_positions: u64, random: &mut Random) -> (Cell, Recipe) {
    loop {
        let chain = Chain::new(random);
        if chain.moves() < FEWEST_MOVES {
            continue;
        }
        let limits = match random.once_in(4) {
            true => some_limits(chain.links.len(), random),
            false => NO_LIMITS,
        };
        let cell = limited_cell(&chain.cell_lines(random), limits);
        let recipe = recipe_of_lines(&chain.recipe_lines(random));
        if check_to_plan(&cell, &recipe) != 0 {
            continue;
        }
        let sizes = Sizes::of(&cell, &recipe);
        let configurations = sizes.joint_states * sizes.placings;
        if configurations >= FEWEST_CONFIGURATIONS && sizes.positions <= most_positions {
            return (cell, recipe);
        }
    }
}

struct Chain {
    links: Vec<Link>,
    parts: usize,
}

/// A station of a chain.
struct Link {
    resource: u8,
    /// Its states in the order in which it counts, which is from state 0 on.
    states: Vec<u8>,
    /// The port on which it takes from the link before.
    port: u8,
}

impl Link {
    /// The state in which it has counted to its end.
    fn top(&self) -> u8 {
        self.states[self.states.len() - 1]
    }

    /// This state, or now and then any.
    fn mostly(&self, state: u8, random: &mut Random) -> u8 {
        match random.once_in(8) {
            true => random.choose(&self.states),
            false => state,
        }
    }
}

impl Chain {
    fn new(random: &mut Random) -> Chain {
        let count = 2 + random.below(5);
        let mut resources: Vec<u8> = (0..count as u8).collect();
        reorder(&mut resources, random);
        let ports = random.choose(&[1, 2, 32, 32, 32]);
        let guarded = random.once_in(8);
        let mut link = |resource| {
            let mut states: Vec<u8> = (1..random.choose(&[2, 3, 4, 5, 6, 7, 8])).collect();
            reorder(&mut states, random);
            states.insert(0, 0);
            // Counts are made with empty pallets, and one with a photocell stops where no part comes.
            let first = match guarded && random.once_in(2) {
                true => 0,
                false => PHOTOCELLS,
            };
            Link {
                resource,
                states,
                port: first + random.below(ports) as u8,
            }
        };
        Chain {
            links: resources.into_iter().map(&mut link).collect(),
            parts: random.choose(&[1, 2, 2, 3, 3, 4]),
        }
    }

    /// After how many moves the last station has counted to its end.
    fn moves(&self) -> usize {
        // One of the last station's counts takes all of the count before, and the transfer.
        let counts = self.links.iter().map(|link| link.states.len() - 1);
        counts.fold(0, |before, count| count * (before + 1))
    }

    fn cell_lines(&self, random: &mut Random) -> Vec<CellLine> {
        let mut lines = vec![];
        for (n, link) in self.links.iter().enumerate() {
            let (act, arg) = match n {
                0 => (INTERNAL, random.below(64) as u8),
                _ => (IN, link.port),
            };
            let counts = link.states.windows(2);
            lines.extend(counts.map(|pair| [link.resource, pair[0], act, arg, pair[1]]));
            if let Some(next) = self.links.get(n + 1) {
                let anew = link.mostly(0, random);
                lines.push([link.resource, link.top(), OUT, next.port, anew]);
            }
        }
        for _ in 0..random.choose(&[0, 0, 0, 1, 2, 4]) {
            lines.push(self.other_line(random));
        }
        lines.extend(self.operations(random));
        match random.below(8) {
            0 => _ = lines.remove(random.below(lines.len())),
            1 => lines.retain(|line| (line[2], line[3]) != (OPERATION, GIVE)),
            _ => {}
        }
        random.shuffle(&mut lines);
        lines
    }

    /// Internal work that goes up or down, or an in or an out on one of the ports.
    fn other_line(&self, random: &mut Random) -> CellLine {
        let link = &self.links[random.below(self.links.len())];
        let [from, to] = [(); 2].map(|()| random.choose(&link.states));
        let act = random.choose(&[INTERNAL, INTERNAL, IN, OUT]);
        let port = self.links[random.below(self.links.len())].port;
        [link.resource, from, act, port, to]
    }

    /// Parts are given at the first or the last station, in any state, and mostly taken at the end of the
    /// last one's count. Where they are tested and taken there may be a gate, which leads anywhere.
    fn operations(&self, random: &mut Random) -> Vec<CellLine> {
        let [first, last] = [&self.links[0], &self.links[self.links.len() - 1]];
        let giver = random.choose(&[first, first, last]);
        let at = random.choose(&giver.states);
        let end = last.mostly(last.top(), random);
        let [given, taken] = [giver.mostly(at, random), last.mostly(0, random)];
        let mut lines = vec![
            [giver.resource, at, OPERATION, GIVE, given],
            [last.resource, end, OPERATION, TAKE, taken],
        ];
        if random.once_in(2) {
            let failed = random.choose(&last.states);
            lines.push([last.resource, end, GATE, TAKE, failed]);
        }
        lines
    }

    /// Parts are given, perhaps tested, and taken: the last alone, all at once, or one after another. Then
    /// comes an end, or the first point again.
    fn recipe_lines(&self, random: &mut Random) -> Vec<RecipeLine> {
        let last = 1 << (self.parts - 1);
        let sums = match random.below(3) {
            0 => vec![last],
            1 => vec![2 * last - 1],
            _ => (0..self.parts).map(|part| 1 << part).collect(),
        };
        let mut lines: Vec<RecipeLine> = vec![];
        lines.extend(sums.iter().map(|&sum| [0, DO, GIVE, 0, sum, 0, 0]));
        if random.once_in(2) {
            lines.push([0, TEST, TAKE, last, 0, 0, 0]);
        }
        lines.extend(sums.iter().map(|&sum| [0, DO, TAKE, sum, 0, 0, 0]));
        let ends = random.once_in(2);
        let points = lines.len() as u8;
        for (line, point) in lines.iter_mut().zip(0..) {
            let next = point + 1;
            line[5] = if next == points && !ends { 0 } else { next };
            if line[1] == TEST {
                line[6] = random.choose(&[point, next]);
            }
            *line = numbered(*line, point);
        }
        if ends {
            lines.push(numbered(END_LINE, points));
        }
        lines
    }
}

/// Leaves the items in their order, or puts them in reverse order or in any.
fn reorder(items: &mut [u8], random: &mut Random) {
    match random.below(3) {
        0 => {}
        1 => items.reverse(),
        _ => random.shuffle(items),
    }
}

#[cfg(test)]
mod tests {
    use super::*;
    use crate::entry::{kind_of, letters_of, CARRY, INTERNAL, TRANSFER};
    use crate::fixtures::{alone, planned};
    use crate::judge::longest_way;

    /// How often items rise, fall, and do neither.
    fn note_order(items: &[u8], seen: &mut [usize; 3]) {
        let rises = items.is_sorted();
        let falls = items.iter().rev().is_sorted();
        seen[0] += usize::from(rises);
        seen[1] += usize::from(falls);
        seen[2] += usize::from(!rises && !falls);
    }

    #[test]
    fn stations_and_states_stand_in_any_order() {
        let mut random = Random(51);
        let (mut stations, mut states) = ([0; 3], [0; 3]);
        for _ in 0..500 {
            let Chain { links, .. } = Chain::new(&mut random);
            let resources: Vec<u8> = links.iter().map(|link| link.resource).collect();
            note_order(&resources, &mut stations);
            for link in &links {
                assert_eq!(link.states[0], 0);
                note_order(&link.states[1..], &mut states);
            }
        }
        let mut seen = stations.iter().chain(&states);
        assert!(seen.all(|&times| times >= 100), "{stations:?} {states:?}");
    }

    #[test]
    fn a_chain_of_eight_states_counts_as_the_long_ways_do() {
        let link = |resource| Link {
            resource,
            states: (0..8).collect(),
            port: 0,
        };
        for (stations, moves) in [(1, 7), (2, 56), (3, 399), (4, 2_800)] {
            let links = (0..stations).map(link).collect();
            assert_eq!(Chain { links, parts: 1 }.moves(), moves);
        }
    }

    /// Whether some transfer in the table hands a part over.
    fn hands_over(cell: &Cell, sizes: &Sizes, table: &[u32]) -> bool {
        (0..).zip(table).any(|(position, &entry)| {
            let giver = cell.resource[letters_of(entry)[0]] + 1;
            kind_of(entry) == TRANSFER && sizes.at(position).1.places.contains(&giver)
        })
    }

    #[test]
    fn ways_are_long_and_both_answers_are_met() {
        let mut random = Random(52);
        let pairs = 150;
        // By the answer: all, and those with a way of more than 100 silent moves.
        let (mut answers, mut long) = ([0; 2], [0; 2]);
        let (mut works, mut hands, mut limited, mut several_parts) = (0, 0, 0, 0);
        let mut gated_tests = 0;
        for _ in 0..pairs {
            let (cell, recipe) = chain_pair(60_000, &mut random);
            let sizes = Sizes::of(&cell, &recipe);
            assert_eq!(check_to_plan(&cell, &recipe), 0);
            assert!(sizes.positions <= 60_000);
            assert!(sizes.joint_states * sizes.placings >= FEWEST_CONFIGURATIONS);
            let (refusal, table) = planned(&cell, &recipe);
            let longest = longest_way(&cell, &alone(&cell, &recipe), &table);
            let refused = usize::from(refusal == 15);
            answers[refused] += 1;
            long[refused] += usize::from(longest.is_ok_and(|moves| moves > 100));
            works += usize::from(table.iter().any(|&entry| kind_of(entry) == INTERNAL));
            hands += usize::from(hands_over(&cell, &sizes, &table));
            limited += usize::from(cell.limits != NO_LIMITS);
            several_parts += usize::from(sizes.parts > 1);
            let goes_by_gate = |&entry: &u32| {
                let [a, b, ..] = letters_of(entry);
                kind_of(entry) == CARRY && b != 0 && cell.to[a] != cell.to[b]
            };
            gated_tests += usize::from(table.iter().any(goes_by_gate));
        }
        assert!(3 * answers[0] > pairs && 6 * answers[1] > pairs);
        assert!(6 * long[0] > pairs && long[1] >= 3, "{long:?}");
        let often = [works, hands, limited, several_parts];
        assert!(often.iter().all(|&times| 6 * times > pairs), "{often:?}");
        assert!(12 * gated_tests > pairs, "{gated_tests}");
    }
}
