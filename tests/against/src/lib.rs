//! The library's C interface as safe functions: the file formats with the library's reader and the
//! independent one under the same signature, so that one test serves both; and so too the calls on
//! records and runs; and the search for set bytes.

pub mod calls;
pub mod damage;
pub mod gates;
pub mod generate;
pub mod installs;
pub mod lanes;
pub mod lists;
pub mod pairs;
pub mod plans;
pub mod points;
pub mod random;
pub mod rounds;
pub mod scratches;

/// For the benchmark, which depends on this package alone.
pub use independent;

use independent::{
    cell_bytes, cell_of_bytes, read_cell, read_limits, read_recipe, recipe_bytes, Refusal,
    CELL_BYTES, CELL_NAMES, LIMITS_NAMES, MOST_CHAPTERS, MOST_RESOURCES, NO_LIMIT, RECIPE_BYTES,
    RECIPE_NAMES, RUN_BYTES,
};

/// The refusal of a lent buffer that is too short.
pub const TOO_SHORT: u8 = 14;

/// The refusal of a recipe with an unreached point, in calls that plan.
pub const UNREACHED: u8 = 22;

/// The refusal of too few or too many chapters, and of an earlier one whose first point is an end.
pub const BAD_CHAPTERS: u8 = 24;

/// One more than the greatest refusal.
pub const REFUSALS: usize = 25;

/// Why recipes that are refused with 24 are: 0 if there are none, 1 if there are too many, and 2 if an earlier
/// one begins with an end.
pub fn reason_for_24(recipes: &[u8]) -> usize {
    match recipes.len() / RECIPE_BYTES {
        0 => 0,
        1..=MOST_CHAPTERS => 2,
        _ => 1,
    }
}

mod c {
    extern "C" {
        pub fn cellplan_read_cell(
            file: *const u8,
            file_length: usize,
            record: *mut u8,
            record_length: usize,
        ) -> u64;
        pub fn cellplan_read_recipe(
            file: *const u8,
            file_length: usize,
            record: *mut u8,
            record_length: usize,
        ) -> u64;
        pub fn cellplan_read_limits(
            file: *const u8,
            file_length: usize,
            cell: *mut u8,
            cell_length: usize,
        ) -> u64;
        pub fn cellplan_line_start(file: *const u8, file_length: usize, n: usize) -> usize;
        pub fn cellplan_line_length(file: *const u8, file_length: usize, n: usize) -> usize;
        pub fn cellplan_next_set(bytes: *const u8, bytes_length: usize, start: usize) -> usize;
        pub fn cellplan_check(
            cell: *const u8,
            cell_length: usize,
            recipes: *const u8,
            recipes_length: usize,
        ) -> u32;
        pub fn cellplan_plan(
            cell: *const u8,
            cell_length: usize,
            recipes: *const u8,
            recipes_length: usize,
            table: *mut u32,
            table_entries: usize,
            scratch: *mut u8,
            scratch_length: usize,
        ) -> u32;
        pub fn cellplan_install(
            cell: *const u8,
            cell_length: usize,
            recipe: *const u8,
            recipe_length: usize,
            table: *mut u32,
            table_entries: usize,
            scratch: *mut u8,
            scratch_length: usize,
            list: *mut u8,
            list_length: usize,
        ) -> u64;
        pub fn cellplan_fresh(run: *mut u8, run_length: usize) -> u32;
        pub fn cellplan_next_move(
            cell: *const u8,
            cell_length: usize,
            recipes: *const u8,
            recipes_length: usize,
            table: *const u32,
            table_entries: usize,
            run: *const u8,
            run_length: usize,
        ) -> u64;
        pub fn cellplan_report(
            cell: *const u8,
            cell_length: usize,
            recipes: *const u8,
            recipes_length: usize,
            table: *const u32,
            table_entries: usize,
            run: *mut u8,
            run_length: usize,
            outcome: u8,
        ) -> u32;
        pub fn cellplan_report_record(
            cell: *const u8,
            cell_length: usize,
            recipes: *const u8,
            recipes_length: usize,
            table: *const u32,
            table_entries: usize,
            run: *mut crate::RunRecord,
            outcome: u8,
        ) -> u32;
        pub fn cellplan_place(
            cell: *const u8,
            cell_length: usize,
            recipes: *const u8,
            recipes_length: usize,
            run: *const u8,
            run_length: usize,
            part: u8,
        ) -> u32;
    }
}

/// A run record as the C interface has it: `struct cellplan_run`.
#[repr(C)]
#[derive(Clone, Copy, Debug, PartialEq, Eq)]
pub struct RunRecord {
    pub point: u8,
    pub state: [u8; 6],
    pub place: [u8; 8],
    pub chapter: u8,
}

impl RunRecord {
    /// The record whose fields are the first bytes of a run, or none if there are too few.
    pub fn of(run: &[u8]) -> Option<RunRecord> {
        Some(RunRecord {
            point: *run.first()?,
            state: run.get(1..7)?.try_into().ok()?,
            place: run.get(7..15)?.try_into().ok()?,
            chapter: *run.get(15)?,
        })
    }

    /// The fields in order.
    pub fn bytes(&self) -> [u8; RUN_BYTES] {
        let mut bytes = [self.point; RUN_BYTES];
        bytes[1..7].copy_from_slice(&self.state);
        bytes[7..15].copy_from_slice(&self.place);
        bytes[15] = self.chapter;
        bytes
    }
}

/// Where the library says that value line `n` starts.
pub fn line_start(file: &[u8], n: usize) -> usize {
    // SAFETY: the pointer and the length are those of a slice that outlives the call.
    unsafe { c::cellplan_line_start(file.as_ptr(), file.len(), n) }
}

/// How long the library says that value line `n` is.
pub fn line_length(file: &[u8], n: usize) -> usize {
    // SAFETY: the pointer and the length are those of a slice that outlives the call.
    unsafe { c::cellplan_line_length(file.as_ptr(), file.len(), n) }
}

/// Where the library says that the first byte from `start` on is that isn't 0.
pub fn next_set(bytes: &[u8], start: usize) -> usize {
    // SAFETY: the pointer and the length are those of a slice that outlives the call.
    unsafe { c::cellplan_next_set(bytes.as_ptr(), bytes.len(), start) }
}

/// A refusal as the C interface returns it.
pub fn result(refusal: Refusal) -> u64 {
    u64::from(refusal.number) + 256 * refusal.line as u64
}

/// A reader as the C interface has it: the file, the record's bytes and the answer.
type Reader = fn(&[u8], &mut [u8]) -> u64;

/// Reads a file into bytes that begin as `entry`, and wants the library's reader and the independent
/// one to answer the same and to leave the same. The answer and the bytes.
pub fn same_reading(
    file: &[u8],
    entry: &[u8],
    library: Reader,
    independent: Reader,
) -> (u64, Vec<u8>) {
    let [from_library, from_independent] = [library, independent].map(|reader| {
        let mut bytes = entry.to_vec();
        (reader(file, &mut bytes), bytes)
    });
    let shown = |(answer, bytes): &(u64, Vec<u8>)| {
        format!(
            "refusal {}, line {}, record {bytes:?}",
            answer % 256,
            answer / 256
        )
    };
    assert!(
        from_library == from_independent,
        "the file \"{}\"\ninto {entry:?}\nlibrary: {}\nindependent: {}",
        file.escape_ascii(),
        shown(&from_library),
        shown(&from_independent)
    );
    from_library
}

/// The columns of a file.
pub trait Columns {
    /// The names line with its byte 10.
    const NAMES: &'static [u8];
    /// The bottom and the top of each column's range.
    const LEAST: &'static [u32];
    const GREATEST: &'static [u32];
    /// The refusals that a file can get.
    const REFUSALS: &'static [u8];
}

/// A file format of which the reader makes a record.
pub trait Format: Columns {
    /// What stands behind the lines in the reader's record.
    const BEHIND_LINES: &'static [u8];
    /// The length of a record.
    const RECORD_BYTES: usize;

    /// The library's reader, called through its C interface.
    fn library(file: &[u8], record: &mut [u8]) -> u64;

    /// The independent program's reader, for a `record` of exactly the record's length.
    fn reading(file: &[u8], record: &mut [u8]) -> Refusal;

    /// The independent program's reader, called as the library's is.
    fn independent(file: &[u8], record: &mut [u8]) -> u64 {
        match record.get_mut(..Self::RECORD_BYTES) {
            Some(record) => result(Self::reading(file, record)),
            None => u64::from(TOO_SHORT),
        }
    }
}

/// The cell file.
pub struct CellFile;

impl Columns for CellFile {
    const NAMES: &'static [u8] = CELL_NAMES;
    const LEAST: &'static [u32] = &[0; 5];
    const GREATEST: &'static [u32] = &[5, 7, 4, 63, 7];
    const REFUSALS: &'static [u8] = &[1, 2, 3, 4, 5, 6, 23];
}

impl Format for CellFile {
    const BEHIND_LINES: &'static [u8] = &[NO_LIMIT; MOST_RESOURCES];
    const RECORD_BYTES: usize = CELL_BYTES;

    fn library(file: &[u8], record: &mut [u8]) -> u64 {
        // SAFETY: the pointers and lengths are those of two slices that outlive the call, and the
        // one lent for writing overlaps no other.
        unsafe {
            c::cellplan_read_cell(file.as_ptr(), file.len(), record.as_mut_ptr(), record.len())
        }
    }

    fn reading(file: &[u8], record: &mut [u8]) -> Refusal {
        let reading = read_cell(file);
        record.copy_from_slice(&cell_bytes(&reading.record));
        reading.refusal
    }
}

/// The recipe file.
pub struct RecipeFile;

impl Columns for RecipeFile {
    const NAMES: &'static [u8] = RECIPE_NAMES;
    const LEAST: &'static [u32] = &[0; 7];
    const GREATEST: &'static [u32] = &[15, 2, 63, 255, 255, 15, 15];
    const REFUSALS: &'static [u8] = &[1, 2, 3, 4, 7, 8, 9, 10, 11, 12];
}

impl Format for RecipeFile {
    const BEHIND_LINES: &'static [u8] = &[];
    const RECORD_BYTES: usize = RECIPE_BYTES;

    fn library(file: &[u8], record: &mut [u8]) -> u64 {
        // SAFETY: as for the cell file.
        unsafe {
            c::cellplan_read_recipe(file.as_ptr(), file.len(), record.as_mut_ptr(), record.len())
        }
    }

    fn reading(file: &[u8], record: &mut [u8]) -> Refusal {
        let reading = read_recipe(file);
        record.copy_from_slice(&recipe_bytes(&reading.record));
        reading.refusal
    }
}

/// The limits file, which is read for a cell record.
pub struct LimitsFile;

impl Columns for LimitsFile {
    const NAMES: &'static [u8] = LIMITS_NAMES;
    const LEAST: &'static [u32] = &[0, 1];
    const GREATEST: &'static [u32] = &[5, 8];
    const REFUSALS: &'static [u8] = &[1, 2, 3, 4, 20];
}

impl LimitsFile {
    /// The library's reader, called through its C interface.
    pub fn library(file: &[u8], cell: &mut [u8]) -> u64 {
        // SAFETY: as for the cell file.
        unsafe { c::cellplan_read_limits(file.as_ptr(), file.len(), cell.as_mut_ptr(), cell.len()) }
    }

    /// The independent program's reader, called as the library's is.
    pub fn independent(file: &[u8], cell: &mut [u8]) -> u64 {
        let reading = read_limits(file, &cell_of_bytes(cell));
        // Too few bytes are a record of no lines, which is refused.
        if let Some(cell) = cell.get_mut(..CELL_BYTES) {
            cell.copy_from_slice(&cell_bytes(&reading.record));
        }
        result(reading.refusal)
    }
}
