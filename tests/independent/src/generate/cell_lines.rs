//! State diagrams in which much can go on.

use super::{CellLine, Extras, Shape, MOST_LINES};
use crate::cell::{GATE, IN, INTERNAL, OPERATION, OUT};
use crate::random::Random;

/// So many lines leave room for gates.
const MOST_FEWER: usize = 48;

/// The value lines of a cell. Each resource goes round through its states, so that it seldom gets
/// stuck; there are some other lines; some lines are made to pairs of an out and an in; and some operations
/// get gates, where these are wanted.
pub(super) fn cell_lines(shape: &Shape, extras: Extras, random: &mut Random) -> Vec<CellLine> {
    // Few numbers, so that several stations have the same operation.
    let numbers = random.choose(&[1, 2, 2, 3, 3, 4, 64]);
    let operations = match shape.wide {
        true => 5,
        false => random.choose(&[1, 2, 3, 3, 4, 4]),
    };
    let mut lines = Vec::new();
    for (k, &states) in shape.states.iter().enumerate() {
        for from in 0..states {
            let (act, arg) = work(operations, numbers, random);
            lines.push([k as u8, from, act, arg, (from + 1) % states]);
        }
    }
    // A wide cell has its lanes beside the operations, so that these are open together.
    let without_lanes = if shape.wide { lines.len() } else { 0 };
    // Gates want room behind the others.
    let most = if extras.gates { MOST_FEWER } else { MOST_LINES };
    let others = match random.below(10) {
        0 => most.saturating_sub(lines.len()),
        _ => random.below(2 * shape.states.len() + 1),
    };
    for _ in 0..others {
        let k = random.below(shape.states.len());
        let states = usize::from(shape.states[k]);
        let (act, arg) = work(operations, numbers, random);
        let (from, to) = (random.below(states) as u8, random.below(states) as u8);
        lines.push([k as u8, from, act, arg, to]);
    }
    add_lanes(&mut lines[without_lanes..], shape, extras, random);
    if extras.gates {
        add_gates(&mut lines, shape, random);
    }
    random.shuffle(&mut lines);
    lines
}

/// An act and its number: an operation so many times in five, else internal work.
fn work(operations: usize, numbers: usize, random: &mut Random) -> (u8, u8) {
    let act = if random.below(5) < operations {
        OPERATION
    } else {
        INTERNAL
    };
    (act, random.below(numbers) as u8)
}

/// Makes pairs of some lines, as often as it happens, and more often where lanes are wanted.
fn add_lanes(lines: &mut [CellLine], shape: &Shape, extras: Extras, random: &mut Random) {
    let stations = shape.states.len();
    let more = if extras.lanes { 2 * stations } else { 0 };
    for _ in 0..more + random.below(3 * stations) {
        add_lane(lines, random);
    }
}

/// Makes two lines of two resources an out and an in on one port. What is a transfer already stays
/// one, so that none loses its partner.
fn add_lane(lines: &mut [CellLine], random: &mut Random) {
    if lines.is_empty() {
        return;
    }
    let (a, b) = (random.below(lines.len()), random.below(lines.len()));
    let transfers = |line: &CellLine| line[2] == IN || line[2] == OUT;
    if lines[a][0] == lines[b][0] || transfers(&lines[a]) || transfers(&lines[b]) {
        return;
    }
    // On both sides of the last port with a photocell.
    let port = random.choose(&[0, 1, 31, 32, 33, 63]);
    (lines[a][2], lines[b][2]) = (OUT, IN);
    (lines[a][3], lines[b][3]) = (port, port);
}

/// Adds gates to most of the operations, as far as there is room. A few of them lead to where the operation
/// leads.
fn add_gates(lines: &mut Vec<CellLine>, shape: &Shape, random: &mut Random) {
    for n in 0..lines.len() {
        let [k, from, act, arg, to] = lines[n];
        let begins_alike = |line: &CellLine| line[..2] == [k, from] && line[2..4] == [GATE, arg];
        let has_room = lines.len() < MOST_LINES && !lines.iter().any(begins_alike);
        if act == OPERATION && has_room && !random.once_in(8) {
            let states = usize::from(shape.states[usize::from(k)]);
            let others = match random.once_in(8) {
                true => 0,
                false => 1 + random.below(states.max(2) - 1),
            };
            let failed = (usize::from(to) + others) % states;
            lines.push([k, from, GATE, arg, failed as u8]);
        }
    }
}
