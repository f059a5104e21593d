//! The calls on records and runs, the library's and the independent program's under the same
//! signatures: on the same bytes, with the same results.

use crate::{c, RunRecord};
use independent::{
    cell_of_bytes, chapters_of_bytes, check, install, plan, recipe_of_bytes, run_bytes,
    run_of_bytes, Run, RUN_BYTES,
};

/// How many bytes a line has in the list of an install call.
pub const LISTED_BYTES: usize = 4;

/// The seven calls as the C interface has them. `recipes` are the records of all chapters, one after another;
/// an install call takes one recipe alone.
pub trait Calls {
    /// The first refusal of the rules before 14, or 0.
    fn check(cell: &[u8], recipes: &[u8]) -> u32;

    /// The refusal, or 0; the table is filled if that is 0 or 15.
    fn plan(cell: &[u8], recipes: &[u8], table: &mut [u32], scratch: &mut [u8]) -> u32;

    /// Refusal × 2^32 + count; as many whole lines as fit are put into the list.
    fn install(
        cell: &[u8],
        recipe: &[u8],
        table: &mut [u32],
        scratch: &mut [u8],
        list: &mut [u8],
    ) -> u64;

    /// 14 for a buffer that is too short, or 0 with the fresh run in it.
    fn fresh(run: &mut [u8]) -> u32;

    /// Refusal × 2^32 + entry.
    fn next_move(cell: &[u8], recipes: &[u8], table: &[u32], run: &[u8]) -> u64;

    /// The refusal, or 0 with the next run in the run's place.
    fn report(cell: &[u8], recipes: &[u8], table: &[u32], run: &mut [u8], outcome: u8) -> u32;

    /// Refusal × 256 + place.
    fn place(cell: &[u8], recipes: &[u8], run: &[u8], part: u8) -> u32;
}

/// The library, called through its C interface.
pub struct Library;

impl Library {
    /// The second form of report: the refusal, or 0 with the next run in the record's own storage.
    pub fn report_record(
        cell: &[u8],
        recipes: &[u8],
        table: &[u32],
        run: &mut RunRecord,
        outcome: u8,
    ) -> u32 {
        // SAFETY: as for the calls below, and the record is lent for writing to this call alone.
        unsafe {
            c::cellplan_report_record(
                cell.as_ptr(),
                cell.len(),
                recipes.as_ptr(),
                recipes.len(),
                table.as_ptr(),
                table.len(),
                run,
                outcome,
            )
        }
    }
}

// SAFETY, for every call: the pointers and lengths are those of slices that outlive the call, and
// those lent for writing overlap no other.
impl Calls for Library {
    fn check(cell: &[u8], recipes: &[u8]) -> u32 {
        unsafe { c::cellplan_check(cell.as_ptr(), cell.len(), recipes.as_ptr(), recipes.len()) }
    }

    fn plan(cell: &[u8], recipes: &[u8], table: &mut [u32], scratch: &mut [u8]) -> u32 {
        unsafe {
            c::cellplan_plan(
                cell.as_ptr(),
                cell.len(),
                recipes.as_ptr(),
                recipes.len(),
                table.as_mut_ptr(),
                table.len(),
                scratch.as_mut_ptr(),
                scratch.len(),
            )
        }
    }

    fn install(
        cell: &[u8],
        recipe: &[u8],
        table: &mut [u32],
        scratch: &mut [u8],
        list: &mut [u8],
    ) -> u64 {
        unsafe {
            c::cellplan_install(
                cell.as_ptr(),
                cell.len(),
                recipe.as_ptr(),
                recipe.len(),
                table.as_mut_ptr(),
                table.len(),
                scratch.as_mut_ptr(),
                scratch.len(),
                list.as_mut_ptr(),
                list.len(),
            )
        }
    }

    fn fresh(run: &mut [u8]) -> u32 {
        unsafe { c::cellplan_fresh(run.as_mut_ptr(), run.len()) }
    }

    fn next_move(cell: &[u8], recipes: &[u8], table: &[u32], run: &[u8]) -> u64 {
        unsafe {
            c::cellplan_next_move(
                cell.as_ptr(),
                cell.len(),
                recipes.as_ptr(),
                recipes.len(),
                table.as_ptr(),
                table.len(),
                run.as_ptr(),
                run.len(),
            )
        }
    }

    fn report(cell: &[u8], recipes: &[u8], table: &[u32], run: &mut [u8], outcome: u8) -> u32 {
        unsafe {
            c::cellplan_report(
                cell.as_ptr(),
                cell.len(),
                recipes.as_ptr(),
                recipes.len(),
                table.as_ptr(),
                table.len(),
                run.as_mut_ptr(),
                run.len(),
                outcome,
            )
        }
    }

    fn place(cell: &[u8], recipes: &[u8], run: &[u8], part: u8) -> u32 {
        unsafe {
            c::cellplan_place(
                cell.as_ptr(),
                cell.len(),
                recipes.as_ptr(),
                recipes.len(),
                run.as_ptr(),
                run.len(),
                part,
            )
        }
    }
}

/// The independent program, which reads the records and the run out of the bytes at every call.
pub struct Independent;

impl Calls for Independent {
    fn check(cell: &[u8], recipes: &[u8]) -> u32 {
        check(&cell_of_bytes(cell), &chapters_of_bytes(recipes)).into()
    }

    fn plan(cell: &[u8], recipes: &[u8], table: &mut [u32], scratch: &mut [u8]) -> u32 {
        let (cell, chapters) = (cell_of_bytes(cell), chapters_of_bytes(recipes));
        plan(&cell, &chapters, table, scratch.len()).into()
    }

    fn install(
        cell: &[u8],
        recipe: &[u8],
        table: &mut [u32],
        scratch: &mut [u8],
        list: &mut [u8],
    ) -> u64 {
        let (cell, recipe) = (cell_of_bytes(cell), recipe_of_bytes(recipe));
        let answer = install(&cell, &recipe, table.len(), scratch.len());
        let lines = list.chunks_exact_mut(LISTED_BYTES);
        for (line, process) in lines.zip(&answer.processes) {
            line.copy_from_slice(process);
        }
        (u64::from(answer.refusal) << 32) + answer.processes.len() as u64
    }

    fn fresh(run: &mut [u8]) -> u32 {
        match run.get_mut(..RUN_BYTES) {
            Some(run) => {
                run.copy_from_slice(&run_bytes(&Run::fresh()));
                0
            }
            None => 14,
        }
    }

    fn next_move(cell: &[u8], recipes: &[u8], table: &[u32], run: &[u8]) -> u64 {
        let (cell, chapters) = (cell_of_bytes(cell), chapters_of_bytes(recipes));
        let answer = run_of_bytes(run).next_move(&cell, &chapters, table);
        (u64::from(answer.refusal) << 32) + u64::from(answer.entry)
    }

    fn report(cell: &[u8], recipes: &[u8], table: &[u32], run: &mut [u8], outcome: u8) -> u32 {
        let (cell, chapters) = (cell_of_bytes(cell), chapters_of_bytes(recipes));
        let answer = run_of_bytes(run).report(&cell, &chapters, table, outcome);
        // A run that is too short is refused, and a refused report gives its own run.
        if let Some(run) = run.get_mut(..RUN_BYTES) {
            run.copy_from_slice(&run_bytes(&answer.run));
        }
        answer.refusal.into()
    }

    fn place(cell: &[u8], recipes: &[u8], run: &[u8], part: u8) -> u32 {
        let (cell, chapters) = (cell_of_bytes(cell), chapters_of_bytes(recipes));
        let answer = run_of_bytes(run).place(&cell, &chapters, part);
        u32::from(answer.refusal) * 256 + u32::from(answer.place)
    }
}
