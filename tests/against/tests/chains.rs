//! The library's planner on cells with long silent ways, through the C interface: hundreds of layers, many of
//! them small. Its tables are the independent planner's, entry for entry, in one chapter and in several.

use against::plans::Handed;
use against::random::Random;
use independent::{
    cell_bytes, chain_pair, chapters_bytes, cut, kind_of, letters_of, long_ways_pair, longest_way,
    stations_reversed, with_photocells, Cell, Joined, Recipe, CARRY,
};
use std::slice;

/// Seeded chains, and the most positions of one.
const CHAINS: usize = 600;
const MOST_POSITIONS: u64 = 100_000;

/// Of fewer configurations than this the library looks for marks among all; of more, only where the layer
/// before may have left some, unless that has many rows.
const FEW_CONFIGURATIONS: u64 = 4_096;

/// A way of more silent moves than this is long: as many layers come before its first position's.
const LONG: u64 = 100;

/// What was seen of the plans, by whether they were refused.
#[derive(Debug, Default)]
struct Seen {
    planned: [usize; 2],
    /// Those of few configurations and of many.
    few: [usize; 2],
    many: [usize; 2],
    /// Those of many configurations with a long way.
    long: [usize; 2],
    /// The most silent moves in a row.
    longest: u64,
    /// Those with a test of which outcome 0 leads elsewhere than outcome 1.
    parted: [usize; 2],
}

impl Seen {
    /// Plans chapters with just enough lent, and notes what was seen.
    fn plan(&mut self, cell: &Cell, chapters: &[Recipe], random: &mut Random) {
        let handed = Handed::of(cell_bytes(cell).to_vec(), chapters_bytes(chapters));
        let planned = handed.plan_alike(random);
        let joined = Joined::of(cell, chapters);
        let longest = longest_way(cell, &joined, &planned.table).expect("every way is in time");
        let refused = usize::from(planned.refusal == 15);
        self.planned[refused] += 1;
        self.longest = self.longest.max(longest);
        let is_parted = |&entry: &u32| {
            let [a, b, ..] = letters_of(entry);
            // A do of a chain has one line, and no second letter.
            kind_of(entry) == CARRY && b != 0 && cell.to[a] != cell.to[b]
        };
        self.parted[refused] += usize::from(planned.table.iter().any(is_parted));
        if joined.sizes.configurations() < FEW_CONFIGURATIONS {
            self.few[refused] += 1;
        } else {
            self.many[refused] += 1;
            self.long[refused] += usize::from(longest > LONG);
        }
    }
}

#[test]
fn seeded_chains() {
    let mut random = Random::new(53);
    let mut source = independent::Random(54);
    let mut seen = Seen::default();
    let mut in_chapters = Seen::default();
    for _ in 0..CHAINS {
        let (cell, recipe) = chain_pair(MOST_POSITIONS, &mut source);
        seen.plan(&cell, slice::from_ref(&recipe), &mut random);
        if let Some(cut) = cut(&recipe, &mut source) {
            in_chapters.plan(&cell, &cut.chapters, &mut random);
        }
    }
    println!("{seen:?}");
    println!("cut into chapters: {in_chapters:?}");
    let least = |seen: [usize; 2], least: [usize; 2]| (0..2).all(|n| seen[n] >= least[n]);
    assert!(least(seen.planned, [300, 100]));
    assert!(least(seen.few, [20, 10]) && least(seen.many, [300, 100]));
    assert!(least(seen.long, [150, 15]) && seen.longest > 1_000);
    assert!(least(seen.parted, [50, 1]));
    assert!(least(in_chapters.planned, [100, 20]) && least(in_chapters.long, [50, 5]));
}

#[test]
fn silent_ways_of_thousands_of_moves() {
    let mut random = Random::new(55);
    for (stations, parts, moves) in [(3, 5, 399), (4, 3, 2_800)] {
        let pair = long_ways_pair(stations, parts);
        for pair in [stations_reversed(pair.clone()), pair] {
            let mut seen = Seen::default();
            seen.plan(&pair.0, slice::from_ref(&pair.1), &mut random);
            assert_eq!((seen.long, seen.longest), ([1, 0], moves));
            // The counts are made with empty pallets, which a photocell stops.
            let guarded = with_photocells(&pair.0);
            let mut seen = Seen::default();
            seen.plan(&guarded, slice::from_ref(&pair.1), &mut random);
            assert_eq!((seen.planned, seen.longest), ([0, 1], 0));
        }
    }
}
