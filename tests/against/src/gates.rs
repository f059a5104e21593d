//! Gates in the lines of a cell: good ones, and both ways in which one breaks rule 23.

use crate::generate::cell::{ACT, ARG, FROM, RESOURCE, TO};
use crate::generate::{some_row, Rows, GATE, INTERNAL, OPERATION};
use crate::random::Random;
use crate::{CellFile, Columns};
use independent::MOST_LINES;

/// Whether two rows are of one resource and have the same from and arg.
fn begin_alike(one: &[u32], other: &[u32]) -> bool {
    [RESOURCE, FROM, ARG].iter().all(|&k| one[k] == other[k])
}

/// The first row that breaks rule 23: a gate without an operation row, or one behind another of its kind.
pub fn first_fault(rows: &[Vec<u32>]) -> Option<usize> {
    let alike = |rows: &[Vec<u32>], act: u32, gate: &[u32]| {
        let mut rows = rows.iter().filter(|row| row[ACT] == act);
        rows.any(|row| begin_alike(row, gate))
    };
    (0..rows.len()).find(|&n| {
        let lone = !alike(rows, OPERATION, &rows[n]);
        rows[n][ACT] == GATE && (lone || alike(&rows[..n], GATE, &rows[n]))
    })
}

/// Any number of a column's range.
fn any_number(column: usize, random: &mut Random) -> u32 {
    random.number(CellFile::GREATEST[column] + 1)
}

/// The gate of an operation row, to this state.
fn gate_of(operation: &[u32], to: u32) -> Vec<u32> {
    let mut gate = operation.to_vec();
    (gate[ACT], gate[TO]) = (GATE, to);
    gate
}

/// Adds gates to most of the operations, as far as there is room, each to a state of its resource, of which
/// there are so many: mostly to another than that to which the operation leads.
pub fn add(rows: &mut Rows, states: impl Fn(usize) -> u32, random: &mut Random) {
    for n in 0..rows.len() {
        let is_gate = |row: &Vec<u32>| row[ACT] == GATE && begin_alike(row, &rows[n]);
        let has_room = rows.len() < MOST_LINES && !rows.iter().any(is_gate);
        if rows[n][ACT] == OPERATION && has_room && random.below(8) > 0 {
            let states = states(rows[n][RESOURCE] as usize);
            let others = match random.below(8) {
                0 => 0,
                _ => 1 + random.number(states.max(2) - 1),
            };
            let to = (rows[n][TO] + others) % states;
            rows.push(gate_of(&rows[n], to));
        }
    }
}

/// Drops the gates that have no operation row.
pub fn drop_lone(rows: &mut Rows) {
    let operations: Rows = rows
        .iter()
        .filter(|row| row[ACT] == OPERATION)
        .cloned()
        .collect();
    let is_lone = |gate: &[u32]| !operations.iter().any(|row| begin_alike(row, gate));
    rows.retain(|row| row[ACT] != GATE || !is_lone(row));
}

/// Makes room for so many rows, where there is none and internal work can be left out of a resource that has
/// other rows. Whether there is room.
fn make_room(rows: &mut Rows, wanted: usize, random: &mut Random) -> bool {
    let is_only = |rows: &Rows, row: &[u32]| {
        let same = rows.iter().filter(|other| other[RESOURCE] == row[RESOURCE]);
        same.count() == 1
    };
    while rows.len() + wanted > MOST_LINES {
        let spare = |row: &[u32]| row[ACT] == INTERNAL && !is_only(rows, row);
        match some_row(rows, random, spare) {
            Some(n) => _ = rows.remove(n),
            None => return false,
        }
    }
    true
}

/// Sets a gate among the rows with which none begins alike. Whether there was room for it, and none did.
pub fn add_lone(rows: &mut Rows, random: &mut Random) -> bool {
    let resource = rows[random.below(rows.len())][RESOURCE];
    let [from, arg, to] = [FROM, ARG, TO].map(|k| any_number(k, random));
    let gate = vec![resource, from, GATE, arg, to];
    let is_lone = !rows.iter().any(|row| begin_alike(row, &gate));
    let fits = is_lone && make_room(rows, 1, random);
    if fits {
        rows.insert(random.below(rows.len() + 1), gate);
    }
    fits
}

/// Sets a second gate beside one, before it or behind it. Whether there was room, and an operation row for
/// them.
pub fn add_second(rows: &mut Rows, random: &mut Random) -> bool {
    let Some(n) = some_row(rows, random, |row| row[ACT] == OPERATION) else {
        return false;
    };
    let operation = rows[n].clone();
    let is_gate = |row: &Vec<u32>| row[ACT] == GATE && begin_alike(row, &operation);
    let wanted = if rows.iter().any(is_gate) { 1 } else { 2 };
    let fits = make_room(rows, wanted, random);
    while fits && rows.iter().filter(|row| is_gate(row)).count() < 2 {
        let to = any_number(TO, random);
        rows.insert(random.below(rows.len() + 1), gate_of(&operation, to));
    }
    fits
}

/// Changes numbers so that they mostly break rule 23.
pub(crate) fn break_rule(rows: &mut Rows, random: &mut Random) {
    match random.below(4) {
        0 => _ = add_lone(rows, random),
        1 => _ = add_second(rows, random),
        2 => {
            if let Some(n) = some_row(rows, random, |row| row[ACT] == OPERATION) {
                rows[n][ACT] = GATE;
            }
        }
        _ => {
            // Take the operation rows from a gate, or lead it away from them.
            let Some(n) = some_row(rows, random, |row| row[ACT] == GATE) else {
                return;
            };
            let gate = rows[n].clone();
            if random.coin() {
                let k = random.choose(&[RESOURCE, FROM, ARG]);
                rows[n][k] = any_number(k, random);
                return;
            }
            let operations = rows.iter_mut().filter(|row| row[ACT] == OPERATION);
            operations
                .filter(|row| begin_alike(row, &gate))
                .for_each(|row| row[ACT] = INTERNAL);
        }
    }
}
