//! Cells with their lanes moved to other ports: to those with a photocell, or to those without.

use crate::cell::{Cell, IN, OUT, PHOTOCELLS};
use std::collections::BTreeSet;

/// The cell with all of its lanes on ports without a photocell, so that empty pallets go everywhere. Nothing
/// else changes: what is one port stays one, and what are two stay two.
pub fn without_photocells(cell: &Cell) -> Cell {
    on_ports_from(cell, PHOTOCELLS)
}

/// The same with all of its lanes on ports with a photocell, so that no empty pallet goes anywhere.
pub fn with_photocells(cell: &Cell) -> Cell {
    on_ports_from(cell, 0)
}

/// The cell with its ports numbered from this one on, in their order. Each has an in and an out, so that there
/// are half as many ports as lines at most, which is as many as have a photocell and as many as have none.
fn on_ports_from(cell: &Cell, first: u8) -> Cell {
    let lines = 0..usize::from(cell.count);
    let transfers = lines.filter(|&n| matches!(cell.act[n], IN | OUT));
    let ports: BTreeSet<u8> = transfers.clone().map(|n| cell.arg[n]).collect();
    let mut moved = cell.clone();
    for n in transfers {
        moved.arg[n] = first + ports.range(..cell.arg[n]).count() as u8;
    }
    moved
}

#[cfg(test)]
mod tests {
    use super::*;
    use crate::cell::check_cell;
    use crate::fixtures::{cell_of, limited};

    #[test]
    fn every_lane_gets_another_port_and_no_two_become_one() {
        let lines = [
            "0,0,3,31,0",
            "1,0,2,31,0",
            "1,0,3,32,0",
            "0,0,2,32,0",
            "0,0,1,31,0",
            "1,0,3,63,0",
            "0,0,2,63,0",
            "1,0,0,5,0",
        ];
        let cell = limited(cell_of(&lines), &[3]);
        for (moved, ports) in [
            (without_photocells(&cell), [32, 33, 34]),
            (with_photocells(&cell), [0, 1, 2]),
        ] {
            let [one, other, third] = ports;
            // An operation's number and internal work's are no ports.
            let args = [one, one, other, other, 31, third, third, 5];
            assert_eq!(moved.arg[..8], args);
            assert_eq!(moved.limits, cell.limits);
            assert_eq!(
                Cell {
                    arg: cell.arg,
                    ..moved
                },
                cell
            );
        }
    }

    #[test]
    fn there_is_a_port_for_every_lane_of_the_greatest_cell() {
        let lines: Vec<String> = (0..64)
            .map(|n| format!("{},0,{},{},0", n % 2, 3 - n % 2, n / 2 * 2 + n / 32 % 2))
            .collect();
        let lines: Vec<&str> = lines.iter().map(String::as_str).collect();
        let cell = cell_of(&lines);
        for (moved, loaded) in [(without_photocells(&cell), 0), (with_photocells(&cell), 32)] {
            assert_eq!(check_cell(&moved).number, 0);
            let lanes = (0..64).filter(|&n| moved.is_loaded_lane(n));
            assert_eq!(lanes.count(), loaded);
        }
    }
}
