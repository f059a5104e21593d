//! Install calls: what one is handed and what it leaves, held against what the independent program lists.

use crate::calls::{Calls, Library, LISTED_BYTES};
use crate::plans::{Handed, Lent};
use crate::random::Random;
use independent::{cell_of_bytes, install, recipe_of_bytes, Install};
use std::fmt::{Display, Formatter, Result};

/// What an install call is handed, but for the content of what it is lent, which is any at all.
pub struct Installing {
    pub handed: Handed,
    /// The length of the list in bytes.
    pub list: usize,
}

impl Display for Installing {
    fn fmt(&self, f: &mut Formatter) -> Result {
        write!(f, "{}, {} bytes of list", self.handed, self.list)
    }
}

/// What the independent program answers. An install call takes one recipe, and what stands behind its record
/// counts for nothing.
pub fn owed(handed: &Handed) -> Install {
    let (cell, recipe) = (
        cell_of_bytes(&handed.cell),
        recipe_of_bytes(&handed.recipes),
    );
    install(&cell, &recipe, handed.entries, handed.scratch)
}

impl Installing {
    /// Makes the call, and wants what is owed of it: the refusal and the count; if refused, nothing
    /// changed; else as many of the lines as fit, whole ones, and no byte of the list past them changed.
    /// What table and scratch then hold is free.
    pub fn compare(&self, owed: &Install, random: &mut Random) {
        let Handed {
            entries, scratch, ..
        } = self.handed;
        let mut lent_table = Lent::table(entries, random);
        let mut lent_scratch = Lent::bytes(scratch, random);
        let mut list = Lent::bytes(self.list, random);
        let result = self.handed.call(|cell, recipe| {
            let (table, scratch) = (lent_table.content(), lent_scratch.content());
            Library::install(cell, recipe, table, scratch, list.content())
        });

        let Install { refusal, processes } = owed;
        let answer = (result >> 32, result & 0xffff_ffff);
        let expected = (u64::from(*refusal), processes.len() as u64);
        assert_eq!(answer, expected, "the refusal and the count\n{self}");
        let free = |length| if *refusal == 0 { length } else { 0 };
        lent_table.assert_kept("table", free(entries), self);
        lent_scratch.assert_kept("scratch", free(scratch), self);

        let lines = processes.concat();
        let written = lines.len().min(self.list / LISTED_BYTES * LISTED_BYTES);
        list.assert_kept("list", written, self);
        assert_eq!(list.content()[..written], lines[..written], "{self}");
    }
}
