//! Lanes of a cell on other ports, and lines along which a pallet goes from station to station, empty and
//! loaded.

use crate::generate::{Rows, DO, END, IN, OPERATION, OUT};
use crate::pairs::{Pair, NO_LIMITS};
use crate::random::Random;
use independent::{Cell, MOST_RESOURCES, PHOTOCELLS};
use std::ops::Range;

/// The operations by which a pallet is loaded and unloaded.
const LOAD: u32 = 1;
const UNLOAD: u32 = 2;

/// So many ports there are.
pub const PORTS: u8 = 2 * PHOTOCELLS;

/// Whether a lane on this port won't start empty.
pub fn has_photocell(port: u8) -> bool {
    port < PHOTOCELLS
}

/// The cell with everything on the port of this line on another port.
pub fn on_port(cell: &Cell, line: usize, port: u8) -> Cell {
    let mut moved = cell.clone();
    for n in 0..usize::from(cell.count) {
        let is_transfer = matches!(u32::from(cell.act[n]), IN | OUT);
        if is_transfer && cell.arg[n] == cell.arg[line] {
            moved.arg[n] = port;
        }
    }
    moved
}

/// A line along which one pallet goes. It is loaded at one of its stations, but not at the first, and unloaded
/// there or farther on. Nothing else is done, so that the recipe is realisable exactly if the pallet comes as far.
pub struct PalletLine {
    /// The stations in the order in which the pallet comes to them; it begins at the first.
    stations: Vec<usize>,
    /// For the lane from each station to the next, a port with a photocell and one without, and whether it is on
    /// the first.
    ports: Vec<[u8; 2]>,
    pub photocells: Vec<bool>,
    /// Where in the line it is loaded and unloaded.
    loads: usize,
    unloads: usize,
    /// How many parts it is loaded with.
    parts: u32,
    limits: [u8; MOST_RESOURCES],
    /// Whether each operation is a chapter of its own.
    pub in_chapters: bool,
}

impl PalletLine {
    /// A line of at most so many stations, 2 or more, on any ports, with or without limits.
    pub fn new(most_stations: usize, random: &mut Random) -> PalletLine {
        let count = 2 + random.below(most_stations - 1);
        let mut stations: Vec<usize> = (0..count).collect();
        random.shuffle(&mut stations);
        let [mut guarded, mut free] =
            [0, PHOTOCELLS].map(|first| [0, 1, 2, 3, 30, 31].map(|n| first + n));
        random.shuffle(&mut guarded);
        random.shuffle(&mut free);
        let loads = 1 + random.below(count - 1);
        let mut limits = NO_LIMITS;
        if random.below(3) == 0 {
            limits[..count].fill_with(|| 1 + random.below(3) as u8);
        }
        PalletLine {
            stations,
            ports: (1..count).map(|n| [guarded[n], free[n]]).collect(),
            photocells: (1..count).map(|_| random.coin()).collect(),
            loads,
            unloads: loads + random.below(count - loads),
            parts: 1 + random.number(2),
            limits,
            in_chapters: random.coin(),
        }
    }

    /// The lanes over which the pallet has to go empty.
    pub fn empty_lanes(&self) -> Range<usize> {
        0..self.loads
    }

    /// The lanes over which it has to go loaded.
    pub fn loaded_lanes(&self) -> Range<usize> {
        self.loads..self.unloads
    }

    /// Whether all that the pallet is loaded with has room wherever it comes.
    pub fn has_room(&self) -> bool {
        let mut stations = self.stations[self.loads..=self.unloads].iter();
        stations.all(|&k| u32::from(self.limits[k]) >= self.parts)
    }

    /// Whether the empty pallet comes to where it is loaded.
    pub fn comes_empty(&self) -> bool {
        !self.photocells[self.empty_lanes()].contains(&true)
    }

    /// The line with its recipe.
    pub fn pair(&self) -> Pair {
        Pair {
            cell: self.cell_rows(),
            limits: self.limits,
            recipes: self.recipes(),
        }
    }

    /// The same without the operation that loads.
    pub fn pair_without_loading(&self) -> Pair {
        let mut pair = self.pair();
        pair.cell.retain(|row| row[2..4] != [OPERATION, LOAD]);
        pair
    }

    fn cell_rows(&self) -> Rows {
        let station = |n: usize| self.stations[n] as u32;
        // The first station has the pallet in state 0, each other one in state 1.
        let states = |n: usize| if n == 0 { [0, 1] } else { [1, 0] };
        let mut rows: Rows = vec![];
        for (n, &[guarded, free]) in self.ports.iter().enumerate() {
            let port = if self.photocells[n] { guarded } else { free };
            let [here, gone] = states(n);
            rows.push(vec![station(n), here, OUT, port.into(), gone]);
            rows.push(vec![station(n + 1), 0, IN, port.into(), 1]);
        }
        for (n, operation) in [(self.loads, LOAD), (self.unloads, UNLOAD)] {
            rows.push(vec![station(n), 1, OPERATION, operation, 1]);
        }
        rows
    }

    fn recipes(&self) -> Vec<Rows> {
        let sum = (1 << self.parts) - 1;
        let load = vec![0, DO, LOAD, 0, sum, 1, 0];
        let unload = |point| vec![point, DO, UNLOAD, sum, 0, point + 1, 0];
        let end = |point| vec![point, END, 0, 0, 0, 0, 0];
        match self.in_chapters {
            true => vec![vec![load, end(1)], vec![unload(0), end(1)]],
            false => vec![vec![load, unload(1), end(2)]],
        }
    }
}
