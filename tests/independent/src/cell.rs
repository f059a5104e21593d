//! The cell file: the lines of each resource's state diagram. Its record also has the most parts that
//! each resource may hold, which another file gives.

use crate::sizes::{MOST_PARTS, MOST_RESOURCES};
use crate::table::{
    leaves_range, read_columns, try_count, try_lines, Columns, Reading, Refusal, MOST_LINES,
};
use std::ops::{Range, RangeInclusive};

/// The names line with its byte 10.
pub const CELL_NAMES: &[u8] = b"resource,from,act,arg,to\n";

/// The length of a cell record in bytes.
pub const CELL_BYTES: usize = LIMITS_AT + MOST_RESOURCES;

/// Where the limits begin in the bytes of a cell record.
const LIMITS_AT: usize = 1 + 5 * MOST_LINES;

/// Each column's range.
const RANGES: [RangeInclusive<u8>; 5] = [0..=5, 0..=7, 0..=4, 0..=63, 0..=7];

/// The range of a limit.
pub(crate) const LIMIT_RANGE: RangeInclusive<u8> = 1..=NO_LIMIT;

/// The limit of a resource to which none was given. There are no more parts than this.
pub const NO_LIMIT: u8 = MOST_PARTS as u8;

pub(crate) const INTERNAL: u8 = 0;
pub(crate) const OPERATION: u8 = 1;
pub(crate) const IN: u8 = 2;
pub(crate) const OUT: u8 = 3;
/// Where a test's outcome 0 ends; its outcome 1, and a do, end where the operation line says.
pub(crate) const GATE: u8 = 4;

/// So many ports, from 0 on, have a photocell: what hands over through them won't start empty.
pub const PHOTOCELLS: u8 = 32;

/// The value lines of a cell file, an array for each column, and the most parts that each resource may
/// hold. What stands past `count` lines counts for nothing.
#[derive(Clone, Debug, PartialEq, Eq)]
pub struct Cell {
    pub count: u8,
    pub resource: [u8; MOST_LINES],
    pub from: [u8; MOST_LINES],
    pub act: [u8; MOST_LINES],
    pub arg: [u8; MOST_LINES],
    pub to: [u8; MOST_LINES],
    pub limits: [u8; MOST_RESOURCES],
}

/// The answer of `read_cell`.
pub type CellReading = Reading<Cell>;

impl Cell {
    /// The record of no lines and without limits.
    pub const EMPTY: Cell = Cell {
        count: 0,
        resource: [0; MOST_LINES],
        from: [0; MOST_LINES],
        act: [0; MOST_LINES],
        arg: [0; MOST_LINES],
        to: [0; MOST_LINES],
        limits: [NO_LIMIT; MOST_RESOURCES],
    };

    /// Line `n` in the order of the columns.
    pub(crate) fn line(&self, n: usize) -> [u8; 5] {
        [
            self.resource[n],
            self.from[n],
            self.act[n],
            self.arg[n],
            self.to[n],
        ]
    }

    /// Puts a line of this number, in the order of the columns.
    pub(crate) fn set_line(&mut self, n: usize, [resource, from, act, arg, to]: [u8; 5]) {
        self.resource[n] = resource;
        self.from[n] = from;
        self.act[n] = act;
        self.arg[n] = arg;
        self.to[n] = to;
    }

    /// Whether two lines are of one resource and have the same from and arg.
    fn begin_alike(&self, one: usize, other: usize) -> bool {
        let begin = |n: usize| (self.resource[n], self.from[n], self.arg[n]);
        begin(one) == begin(other)
    }

    /// Whether a line hands over through a port with a photocell.
    pub fn is_loaded_lane(&self, line: usize) -> bool {
        self.act[line] == OUT && self.arg[line] < PHOTOCELLS
    }

    /// Whether some line of the cell is a gate.
    pub fn has_gates(&self) -> bool {
        self.act[..usize::from(self.count)].contains(&GATE)
    }

    /// The line that outcome 0 follows of a test which this operation line carries: the gate that begins
    /// alike, or the operation line itself if there is none.
    pub fn line_on_failure(&self, operation: usize) -> usize {
        let mut lines = 0..usize::from(self.count);
        let gate = lines.find(|&n| self.act[n] == GATE && self.begin_alike(n, operation));
        gate.unwrap_or(operation)
    }

    /// R, the greatest resource number plus 1, of a cell with lines.
    pub(crate) fn resources(&self) -> usize {
        let resources = &self.resource[..usize::from(self.count)];
        usize::from(resources.iter().copied().max().unwrap_or(0)) + 1
    }
}

/// Reads a cell file by the rules 1 to 6 and 23.
pub fn read_cell(file: &[u8]) -> CellReading {
    match read(file) {
        Ok(record) => Reading {
            refusal: Refusal::NONE,
            record,
        },
        Err(refusal) => Reading {
            refusal,
            record: Cell::EMPTY,
        },
    }
}

fn read(file: &[u8]) -> Result<Cell, Refusal> {
    let Columns { count, columns } = read_columns(file, CELL_NAMES, &RANGES)?;
    let [resource, from, act, arg, to] = columns;
    let cell = Cell {
        count,
        resource,
        from,
        act,
        arg,
        to,
        limits: Cell::EMPTY.limits,
    };
    try_stations(&cell)?;
    try_gates(&cell)?;
    Ok(cell)
}

/// The first of the rules 3 to 6, 20 and 23 that a record breaks.
pub fn check_cell(cell: &Cell) -> Refusal {
    check(cell).err().unwrap_or(Refusal::NONE)
}

fn check(cell: &Cell) -> Result<(), Refusal> {
    let count = usize::from(cell.count);
    try_count(count)?;
    try_lines(4, count, |n| leaves_range(&cell.line(n), &RANGES))?;
    if leaves_range(&cell.limits, &[LIMIT_RANGE; MOST_RESOURCES]) {
        return Err(Refusal::of_whole(4));
    }
    try_stations(cell)?;
    // No resource above the greatest is there to have a limit.
    let not_there = &cell.limits[cell.resources()..];
    if not_there.iter().any(|&most| most != NO_LIMIT) {
        return Err(Refusal::of_whole(20));
    }
    try_gates(cell)
}

/// Rules 5 and 6, for a record that passes the rules 3 and 4.
fn try_stations(cell: &Cell) -> Result<(), Refusal> {
    let count = usize::from(cell.count);
    let has_a_line = |k: usize| cell.resource[..count].contains(&(k as u8));
    if !(0..cell.resources()).all(has_a_line) {
        return Err(Refusal::of_whole(5));
    }

    // For each port, the set of resources that have an in there and the set that have an out: bit k
    // stands for resource k.
    let mut ins = [0u8; 64];
    let mut outs = [0u8; 64];
    for n in 0..count {
        let port = usize::from(cell.arg[n]);
        match cell.act[n] {
            IN => ins[port] |= 1 << cell.resource[n],
            OUT => outs[port] |= 1 << cell.resource[n],
            _ => {}
        }
    }
    try_lines(6, count, |n| {
        let port = usize::from(cell.arg[n]);
        let others = !(1 << cell.resource[n]);
        match cell.act[n] {
            IN => outs[port] & others == 0,
            OUT => ins[port] & others == 0,
            _ => false,
        }
    })
}

/// Rule 23: a gate has an operation line that begins alike, and there is no earlier gate that does.
fn try_gates(cell: &Cell) -> Result<(), Refusal> {
    let count = usize::from(cell.count);
    let alike = |act: u8, lines: Range<usize>, gate: usize| {
        let mut lines = lines.filter(|&n| cell.act[n] == act);
        lines.any(|n| cell.begin_alike(n, gate))
    };
    try_lines(23, count, |n| {
        cell.act[n] == GATE && (!alike(OPERATION, 0..count, n) || alike(GATE, 0..n, n))
    })
}

/// The record as bytes: the line count, then 64 times `resource, from, act, arg, to`, then the limits.
pub fn cell_bytes(cell: &Cell) -> [u8; CELL_BYTES] {
    let mut bytes = [0; CELL_BYTES];
    bytes[0] = cell.count;
    for (n, line) in bytes[1..LIMITS_AT].chunks_exact_mut(5).enumerate() {
        line.copy_from_slice(&cell.line(n));
    }
    bytes[LIMITS_AT..].copy_from_slice(&cell.limits);
    bytes
}

/// The record that the bytes say. Those past its end count for nothing, and too few bytes are a
/// record of no lines and without limits.
pub fn cell_of_bytes(bytes: &[u8]) -> Cell {
    let mut cell = Cell::EMPTY;
    if let Some(bytes) = bytes.get(..CELL_BYTES) {
        cell.count = bytes[0];
        let (lines, _) = bytes[1..LIMITS_AT].as_chunks();
        for (n, &line) in lines.iter().enumerate() {
            cell.set_line(n, line);
        }
        cell.limits.copy_from_slice(&bytes[LIMITS_AT..]);
    }
    cell
}

#[cfg(test)]
mod tests {
    use super::*;
    use crate::fixtures::BENCH_CELL as BENCH;
    use crate::table::tests::file_of;

    fn file(lines: &[&str]) -> Vec<u8> {
        file_of(CELL_NAMES, lines)
    }

    /// Refusal number and line; a refused file's record must be empty.
    fn refusal(file: &[u8]) -> (u8, usize) {
        let reading = read_cell(file);
        if reading.refusal != Refusal::NONE {
            assert_eq!(reading.record, Cell::EMPTY);
        }
        (reading.refusal.number, reading.refusal.line)
    }

    fn refusal_of_lines(lines: &[&str]) -> (u8, usize) {
        refusal(&file(lines))
    }

    fn bench_record() -> Cell {
        read_cell(&file(&BENCH)).record
    }

    #[test]
    fn the_bench_cell_is_accepted() {
        let reading = read_cell(&file(&BENCH));
        assert_eq!(reading.refusal, Refusal::NONE);
        let cell = reading.record;
        assert_eq!(cell.count, 5);
        assert_eq!(cell.resource[..6], [0, 0, 1, 1, 1, 0]);
        assert_eq!(cell.from[..6], [0, 1, 0, 1, 2, 0]);
        assert_eq!(cell.act[..6], [1, 3, 2, 1, 1, 0]);
        assert_eq!(cell.arg[..6], [1, 5, 5, 2, 3, 0]);
        assert_eq!(cell.to[..6], [1, 0, 1, 2, 0, 0]);
        assert_eq!(check_cell(&cell), Refusal::NONE);
    }

    #[test]
    fn bytes_are_the_count_then_line_after_line_and_the_limits_last() {
        let bytes = cell_bytes(&bench_record());
        assert_eq!(bytes[..11], [5, 0, 0, 1, 1, 1, 0, 1, 3, 5, 0]);
        assert_eq!(bytes[21..27], [1, 2, 1, 3, 0, 0]);
        assert!(bytes[26..321].iter().all(|&byte| byte == 0));
        assert_eq!(bytes[321..], [8; 6]);
        let no_lines = cell_bytes(&Cell::EMPTY);
        assert!(no_lines[..321].iter().all(|&byte| byte == 0));
        assert_eq!(no_lines[321..], [8; 6]);
    }

    #[test]
    fn bytes_are_read_back_unless_they_are_too_few() {
        let mut cell = bench_record();
        cell.to[63] = 200;
        cell.limits = [0, 1, 8, 9, 255, 3];
        let mut bytes = cell_bytes(&cell).to_vec();
        assert_eq!(cell_of_bytes(&bytes), cell);
        bytes.extend_from_slice(&[9; 4]);
        assert_eq!(cell_of_bytes(&bytes), cell);
        assert_eq!(cell_of_bytes(&bytes[..CELL_BYTES - 1]), Cell::EMPTY);
        assert_eq!(cell_of_bytes(&[]), Cell::EMPTY);
    }

    #[test]
    fn rule_1_wants_the_names_line_exactly() {
        for names in [
            "",
            "\n",
            "resource,from,act,arg,to",
            "resource,from,act,arg,to\r\n",
            "resource,from,act,arg, to\n",
            "Resource,from,act,arg,to\n",
            "point,kind,op,takes,gives,then,else\n",
        ] {
            assert_eq!(refusal(names.as_bytes()), (1, 1), "{names:?}");
        }
    }

    #[test]
    fn rule_2_names_the_first_line_of_another_form() {
        assert_eq!(refusal_of_lines(&["0,0,1,1"]), (2, 2));
        assert_eq!(refusal_of_lines(&["0,0,1,1,1,1"]), (2, 2));
        assert_eq!(refusal_of_lines(&["0,0,1,1,1", "", "x"]), (2, 3));
        assert_eq!(refusal_of_lines(&["0,0,1,01,1"]), (2, 2));
        assert_eq!(refusal_of_lines(&["0,0,1,100000,1"]), (2, 2));
    }

    #[test]
    fn rule_2_wants_byte_10_after_the_last_line() {
        let mut bench = file(&BENCH);
        bench.pop();
        assert_eq!(refusal(&bench), (2, 6));
        bench.extend_from_slice(b"\n0");
        assert_eq!(refusal(&bench), (2, 7));
    }

    #[test]
    fn rule_2_is_tried_past_line_64_and_before_rule_3() {
        let mut lines = vec!["0,0,1,1,1"; 300];
        assert_eq!(refusal_of_lines(&lines), (3, 0));
        lines[299] = "0,0,1,1,";
        assert_eq!(refusal_of_lines(&lines), (2, 301));
    }

    #[test]
    fn rule_3_wants_1_to_64_lines() {
        assert_eq!(refusal_of_lines(&[]), (3, 0));
        assert_eq!(refusal_of_lines(&["0,0,1,1,1"]), (0, 0));
        assert_eq!(refusal_of_lines(&["0,0,1,1,1"; 64]), (0, 0));
        assert_eq!(refusal_of_lines(&["0,0,1,1,1"; 65]), (3, 0));
        assert_eq!(refusal_of_lines(&["9,0,1,1,1"; 65]), (3, 0));
    }

    #[test]
    fn rule_4_is_judged_on_the_number_as_written() {
        assert_eq!(refusal_of_lines(&["0,7,1,63,7"]), (0, 0));
        for bad in [
            "6,0,1,1,1",
            "0,8,1,1,1",
            "0,0,5,1,1",
            "0,0,1,64,1",
            "0,0,1,1,8",
            "256,0,1,1,1",
            "0,0,1,256,1",
            "0,0,1,65536,1",
            "0,0,1,99999,1",
        ] {
            assert_eq!(refusal_of_lines(&["0,0,1,1,1", bad]), (4, 3), "{bad}");
        }
        assert_eq!(refusal_of_lines(&["8,0,1,1,1", "0,0,1"]), (2, 3));
    }

    #[test]
    fn rule_5_wants_a_line_for_each_resource_below_the_greatest() {
        assert_eq!(refusal_of_lines(&["1,0,1,1,1"]), (5, 0));
        assert_eq!(refusal_of_lines(&["0,0,1,1,1", "2,0,1,1,1"]), (5, 0));
        assert_eq!(
            refusal_of_lines(&["2,0,1,1,1", "1,0,1,1,1", "0,0,1,1,1"]),
            (0, 0)
        );
        assert_eq!(refusal_of_lines(&["1,0,1,1,1", "1,0,2,1,1"]), (5, 0));
    }

    #[test]
    fn rule_6_names_the_first_line_without_a_partner() {
        let mut lines = BENCH;
        lines[2] = "1,0,2,6,1";
        assert_eq!(refusal_of_lines(&lines), (6, 3));
        // The out now has its partner in another line, and only the moved in has none.
        assert_eq!(
            refusal_of_lines(&["0,1,3,5,0", "1,0,2,6,1", "1,0,2,5,1"]),
            (6, 3)
        );
    }

    #[test]
    fn rule_6_wants_another_resource_and_the_other_act() {
        assert_eq!(refusal_of_lines(&["0,0,2,5,0", "0,0,3,5,0"]), (6, 2));
        assert_eq!(refusal_of_lines(&["0,0,2,5,0", "1,0,2,5,0"]), (6, 2));
        assert_eq!(refusal_of_lines(&["0,0,0,5,0", "1,0,2,5,0"]), (6, 3));
        assert_eq!(
            refusal_of_lines(&["0,0,2,5,0", "0,0,3,5,0", "1,0,3,5,0"]),
            (6, 3)
        );
        assert_eq!(refusal_of_lines(&["0,0,2,5,0", "1,0,3,5,0"]), (0, 0));
    }

    /// The refusal of the bench cell with these lines behind its own.
    fn refusal_behind_bench(lines: &[&str]) -> (u8, usize) {
        refusal_of_lines(&[&BENCH[..], lines].concat())
    }

    #[test]
    fn rule_23_wants_an_operation_line_that_begins_as_a_gate_does() {
        assert_eq!(refusal_behind_bench(&["1,1,4,2,2"]), (0, 0));
        assert_eq!(refusal_behind_bench(&["1,1,4,2,7"]), (0, 0));
        // Another operation, from another state, at another station.
        for gate in ["1,1,4,3,0", "1,0,4,2,0", "0,1,4,2,0"] {
            assert_eq!(refusal_behind_bench(&[gate]), (23, 7), "{gate}");
        }
        // Internal work, an in, an out and a gate are no operation.
        for other in [0, 2, 3, 4] {
            let other = format!("0,0,{other},1,0");
            let lines = ["0,0,4,1,0", &other, "1,0,3,1,0", "2,0,2,1,0"];
            assert_eq!(refusal_of_lines(&lines), (23, 2), "{other}");
        }
        // The operation line may stand before the gate or behind it.
        assert_eq!(refusal_of_lines(&["0,0,4,1,0", "0,0,1,1,1"]), (0, 0));
        assert_eq!(refusal_of_lines(&["0,0,1,1,1", "0,0,4,1,0"]), (0, 0));
    }

    #[test]
    fn rule_23_wants_one_gate_for_all_that_begins_alike() {
        let two = ["1,1,4,2,0", "1,1,4,2,1"];
        assert_eq!(refusal_behind_bench(&two), (23, 8));
        assert_eq!(refusal_behind_bench(&["1,1,4,2,0"; 3]), (23, 8));
        // Two operation lines may share a gate, and several gates have an operation line each.
        let shared = ["1,1,1,2,0", "1,1,4,2,0"];
        assert_eq!(refusal_behind_bench(&shared), (0, 0));
        let apart = ["1,2,4,3,1", "1,1,4,2,1", "0,0,4,1,0"];
        assert_eq!(refusal_behind_bench(&apart), (0, 0));
        // Of two faults the first counts, whichever it is.
        let alone = "1,1,4,3,0";
        assert_eq!(refusal_behind_bench(&[two[0], alone, two[1]]), (23, 8));
        assert_eq!(refusal_behind_bench(&[two[0], two[1], alone]), (23, 8));
        assert_eq!(refusal_behind_bench(&[alone, two[0], two[1]]), (23, 7));
    }

    #[test]
    fn gates_count_for_the_rules_3_to_6() {
        // A gate is a line of its resource.
        assert_eq!(refusal_of_lines(&["0,0,1,1,0", "2,0,4,1,0"]), (5, 0));
        assert_eq!(refusal_of_lines(&["0,0,4,1,0", "1,0,1,1,0"]), (23, 2));
        assert_eq!(refusal_of_lines(&["0,0,1,1,0", "1,0,4,1,0"]), (23, 3));
        // It is no partner on a port.
        assert_eq!(refusal_of_lines(&["0,0,2,1,0", "1,0,4,1,0"]), (6, 2));
        let full = [&["0,0,1,1,0"; 63][..], &["0,0,4,1,0"]].concat();
        assert_eq!(refusal_of_lines(&full), (0, 0));
        assert_eq!(refusal_of_lines(&[&full[..], &[full[63]]].concat()), (3, 0));
        assert_eq!(refusal_of_lines(&["0,0,4,64,0"]), (4, 2));
    }

    #[test]
    fn outcome_0_follows_the_gate_that_begins_as_the_operation_line_does() {
        let lines = ["1,1,4,2,0", "1,1,1,2,1", "0,0,4,1,0", "1,2,4,3,0"];
        let cell = read_cell(&file(&[&BENCH[..], &lines].concat())).record;
        assert_eq!([0, 3, 4, 6].map(|n| cell.line_on_failure(n)), [7, 5, 8, 5]);
        let bench = bench_record();
        assert_eq!([0, 3, 4].map(|n| bench.line_on_failure(n)), [0, 3, 4]);
        // What stands past the lines counts for nothing.
        let fewer = Cell { count: 5, ..cell };
        assert_eq!([0, 3, 4].map(|n| fewer.line_on_failure(n)), [0, 3, 4]);
    }

    #[test]
    fn a_record_handed_in_is_judged_by_its_lines_alone() {
        let mut cell = bench_record();
        cell.resource[5] = 9;
        cell.act[63] = 2;
        assert_eq!(check_cell(&cell), Refusal::NONE);
        cell.count = 6;
        assert_eq!(check_cell(&cell), Refusal { number: 4, line: 7 });
        cell.count = 65;
        assert_eq!(check_cell(&cell), Refusal { number: 3, line: 0 });
        cell.count = 0;
        assert_eq!(check_cell(&cell), Refusal { number: 3, line: 0 });
        cell.count = 2;
        assert_eq!(check_cell(&cell), Refusal { number: 6, line: 3 });
        cell.resource[1] = 2;
        assert_eq!(check_cell(&cell), Refusal { number: 5, line: 0 });
    }

    #[test]
    fn a_reader_gives_no_limits() {
        assert_eq!(read_cell(&file(&BENCH)).record.limits, [8; 6]);
        assert_eq!(read_cell(b"").record.limits, [8; 6]);
    }

    /// The refusal of the record of one resource with this limit at a resource.
    fn refusal_with_limit(resource: usize, most: u8) -> (u8, usize) {
        let mut cell = read_cell(&file(&["0,0,1,1,0"])).record;
        cell.limits[resource] = most;
        let Refusal { number, line } = check_cell(&cell);
        (number, line)
    }

    #[test]
    fn rule_4_wants_limits_from_1_to_8() {
        for most in 1..=8 {
            assert_eq!(refusal_with_limit(0, most), (0, 0));
        }
        for (resource, most) in [(0, 0), (0, 9), (0, 255), (5, 0), (5, 9), (1, 255)] {
            assert_eq!(refusal_with_limit(resource, most), (4, 0));
        }
    }

    #[test]
    fn rule_20_wants_no_limit_at_a_resource_that_is_not_there() {
        for most in 1..8 {
            assert_eq!(refusal_with_limit(1, most), (20, 0));
            assert_eq!(refusal_with_limit(5, most), (20, 0));
        }
        assert_eq!(refusal_with_limit(5, 8), (0, 0));
    }

    #[test]
    fn limits_are_tried_after_the_lines_ranges_and_after_rule_6_and_before_23() {
        let mut cell = bench_record();
        let mut expect = |change: fn(&mut Cell), number, line| {
            change(&mut cell);
            assert_eq!(check_cell(&cell), Refusal { number, line });
        };
        // Each change breaks a rule before all those that were broken so far.
        expect(|cell| cell.act[3] = GATE, 23, 5);
        expect(|cell| cell.limits[2] = 7, 20, 0);
        expect(|cell| cell.arg[2] = 6, 6, 3);
        expect(|cell| cell.resource[4] = 3, 5, 0);
        expect(|cell| cell.limits[0] = 9, 4, 0);
        expect(|cell| cell.to[1] = 8, 4, 3);
        expect(|cell| cell.count = 65, 3, 0);
    }
}
