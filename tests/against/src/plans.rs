//! Plan calls: what one is handed and what it leaves, held against what the independent program says
//! that it owes.

use crate::calls::{Calls, Library};
use crate::damage::{ever_more_damaged, seeded_records};
use crate::pairs::Pair;
use crate::random::Random;
use crate::rounds::{accepted, show_records};
use crate::{scratches, TOO_SHORT};
use independent::{
    cell_of_bytes, chapters_of_bytes, check_to_plan, entry_of, judge, judge_planned, plan,
    scratch_bytes, Cell, Joined, Judging, Recipe,
};
use std::fmt::{Display, Formatter, Result};

/// What lies on either side of what is lent, and doesn't belong to it.
const MARGIN: usize = 8;

/// What a plan call is handed, but for the content of its table and scratch, which is any at all.
#[derive(Clone)]
pub struct Handed {
    pub cell: Vec<u8>,
    /// The records of all chapters.
    pub recipes: Vec<u8>,
    /// The length of the table.
    pub entries: usize,
    /// The length of the scratch in bytes.
    pub scratch: usize,
}

impl Display for Handed {
    fn fmt(&self, f: &mut Formatter) -> Result {
        show_records(f, &self.cell, &self.recipes)?;
        let Handed {
            entries, scratch, ..
        } = self;
        write!(f, "{entries} entries, {scratch} bytes of scratch")
    }
}

/// The library's answer, which was the one that it owes, and the table that it left.
pub struct Planned {
    pub refusal: u32,
    pub table: Vec<u32>,
}

impl Planned {
    /// Whether the table was filled, which is so also if 15 is given.
    fn is_filled(&self) -> bool {
        matches!(self.refusal, 0 | 15)
    }
}

impl Handed {
    /// Records that pass the rules before 14, with a table and a scratch that are just long enough.
    pub fn of(cell: Vec<u8>, recipes: Vec<u8>) -> Handed {
        let (_, joined) = accepted(&cell, &recipes).expect("the records are accepted");
        let [entries, scratch] = needed(&joined);
        Handed {
            cell,
            recipes,
            entries,
            scratch,
        }
    }

    /// The records of such a pair, with just enough lent.
    pub fn of_pair(pair: &Pair) -> Handed {
        Handed::of(pair.cell_bytes(), pair.recipes_bytes())
    }

    /// The records of a pair that passes the rules before 14, with a table or a scratch that is too short.
    pub fn too_short(cell: Vec<u8>, recipes: Vec<u8>, random: &mut Random) -> Handed {
        let mut handed = Handed::of(cell, recipes);
        let needed = [handed.entries, handed.scratch];
        [handed.entries, handed.scratch] = scratches::too_short(needed, random);
        handed
    }

    /// The records of a pair after some damage. Those that pass the rules before 14 get what they need, but not
    /// if there are more positions than this.
    pub fn damaged(pair: &Pair, most_positions: usize, random: &mut Random) -> Handed {
        let (cell, recipes) = seeded_records(pair, random);
        let [entries, scratch] = match accepted(&cell, &recipes).map(|(_, joined)| needed(&joined))
        {
            Some(needed) if needed[0] <= most_positions => needed,
            Some(needed) => scratches::too_short(needed, random),
            None => [(); 2].map(|()| random.below(100)),
        };
        // Neither is longer than this, for the content is made up each time.
        Handed {
            cell,
            recipes,
            entries: entries.min(most_positions),
            scratch: scratch.min(most_positions),
        }
    }

    /// The bench example with more and more damage, in all that it is handed. Each step breaks a rule before
    /// all those that were broken so far, which stands beside it.
    pub fn ever_more_damaged(mut self) -> Vec<(Handed, u32)> {
        self.scratch = 11;
        let mut steps = vec![(self.clone(), 14)];
        // Cell lines 1 and 4 end in state 7, and recipe line 3 takes part 7 too.
        self.cell[1 + 5 + 4] = 7;
        self.cell[1 + 4 * 5 + 4] = 7;
        self.recipes[1 + 3 * 7 + 3] = 129;
        steps.push((self.clone(), 13));
        // The test at point 1 leads to point 2 at both outcomes, and so nothing to point 3.
        self.recipes[1 + 7 + 6] = 2;
        steps.push((self.clone(), 22));
        let records = (self.cell.clone(), self.recipes.clone());
        for ((cell, recipes), refusal) in ever_more_damaged(records) {
            let handed = Handed {
                cell,
                recipes,
                ..self
            };
            steps.push((handed, refusal));
        }
        steps
    }

    /// Makes the call, and wants of it all that the independent program can say, but for which of the moves that
    /// lead on a position has: the refusal; if that is neither 0 nor 15, nothing changed; else a table that the judge
    /// allows, and no entry past it changed.
    pub fn plan(&self, random: &mut Random) -> Planned {
        self.plan_by(judge, random)
    }

    /// The same, and wants each entry to be the smallest that begins a shortest way, as the judge of planned tables
    /// does.
    pub fn plan_owed(&self, random: &mut Random) -> Planned {
        self.plan_by(judge_planned, random)
    }

    fn plan_by(&self, judge: Judging, random: &mut Random) -> Planned {
        let planned = self.plan_with(Lent::bytes(self.scratch, random), random);
        if planned.is_filled() {
            let owed = self.judged(judge, &planned.table);
            assert_eq!(planned.refusal, u32::from(owed), "the refusal\n{self}");
        }
        planned
    }

    /// Makes the call, and wants the independent planner's answer and its table, entry for entry. The table isn't
    /// judged beside, so that this is for tables that are too great for that, or too many.
    pub fn plan_alike(&self, random: &mut Random) -> Planned {
        let planned = self.plan_with(Lent::bytes(self.scratch, random), random);
        let mut table = planned.table.clone();
        let (cell, chapters) = self.records();
        let refusal = plan(&cell, &chapters, &mut table, self.scratch);
        assert_eq!(planned.refusal, u32::from(refusal), "the refusal\n{self}");
        let mut entries = planned.table.iter().zip(&table);
        let other = entries.position(|(entry, owed)| entry != owed);
        assert_eq!(other, None, "a position with another entry\n{self}");
        planned
    }

    /// Makes the call that gave `planned` once more, perhaps with a table and a scratch of other lengths, or with
    /// other bytes where nothing counts. The scratch holds `byte` throughout, or anything if that is none. Unless
    /// something is too short, the answer and the entries are wanted as before.
    pub fn plan_again(&self, planned: &Planned, byte: Option<u8>, random: &mut Random) -> u32 {
        let scratch = match byte {
            Some(byte) => Lent::filled(self.scratch, byte),
            None => Lent::bytes(self.scratch, random),
        };
        let again = self.plan_with(scratch, random);
        if again.is_filled() {
            let positions = self.positions();
            let same = again.table[..positions] == planned.table[..positions];
            assert!(
                same,
                "what counts for nothing has changed the table\n{self}"
            );
            assert_eq!(again.refusal, planned.refusal, "the refusal\n{self}");
        }
        again.refusal
    }

    /// Makes the call with this scratch, and wants of it what doesn't depend on the entries: the refusal but
    /// for 15, and what was lent unchanged where it mustn't be written.
    fn plan_with(&self, mut scratch: Lent<u8>, random: &mut Random) -> Planned {
        let mut table = Lent::table(self.entries, random);
        let refusal = self
            .call(|cell, recipes| Library::plan(cell, recipes, table.content(), scratch.content()));

        let refused = self.refused_before_15();
        let before_15 = if refusal == 15 { 0 } else { refusal };
        assert_eq!(before_15, u32::from(refused), "the refusal\n{self}");
        let written = if refused == 0 { self.positions() } else { 0 };
        table.assert_kept("table", written, self);
        let written = if refused == 0 { self.scratch } else { 0 };
        scratch.assert_kept("scratch", written, self);
        let table = table.content().to_vec();
        Planned { refusal, table }
    }

    /// Makes a call on the records, which must leave them as they are.
    pub(crate) fn call<T>(&self, call: impl FnOnce(&[u8], &[u8]) -> T) -> T {
        let (cell, recipes) = (self.cell.clone(), self.recipes.clone());
        let answer = call(&cell, &recipes);
        assert!(
            cell == self.cell && recipes == self.recipes,
            "a record has changed\n{self}"
        );
        answer
    }

    /// The cell and its chapters.
    fn records(&self) -> (Cell, Vec<Recipe>) {
        (cell_of_bytes(&self.cell), chapters_of_bytes(&self.recipes))
    }

    /// The first refusal of the rules before 15, or 0.
    fn refused_before_15(&self) -> u8 {
        let (cell, chapters) = self.records();
        let short = || {
            let [entries, scratch] = needed(&Joined::of(&cell, &chapters));
            self.entries < entries || self.scratch < scratch
        };
        match check_to_plan(&cell, &chapters) {
            0 if short() => TOO_SHORT,
            refusal => refusal,
        }
    }

    /// How many positions there are in all chapters; 0 if the records break one of the rules before 14.
    fn positions(&self) -> usize {
        let records = accepted(&self.cell, &self.recipes);
        records.map_or(0, |(_, joined)| joined.sizes.positions as usize)
    }

    /// The answer that is owed with this table, in which the judge must find no fault.
    fn judged(&self, judge: Judging, table: &[u32]) -> u8 {
        let (cell, chapters) = self.records();
        let joined = Joined::of(&cell, &chapters);
        judge(&cell, &joined, table).unwrap_or_else(|fault| panic!("{fault}\n{self}"))
    }
}

/// How many entries of a table and bytes of a scratch the chapters need: as many as there are positions in all,
/// and a bit for each of the chapter that has most.
pub fn needed(joined: &Joined) -> [usize; 2] {
    let scratch = scratch_bytes(joined.greatest_positions());
    [joined.sizes.positions, scratch].map(|length| length as usize)
}

/// What is lent to a call, with a margin on either side, and a copy of how it was.
pub(crate) struct Lent<T> {
    now: Vec<T>,
    kept: Vec<T>,
}

impl Lent<u32> {
    pub(crate) fn table(entries: usize, random: &mut Random) -> Lent<u32> {
        Lent::of(prior_table(entries + 2 * MARGIN, random))
    }
}

impl Lent<u8> {
    pub(crate) fn bytes(length: usize, random: &mut Random) -> Lent<u8> {
        Lent::of(prior_bytes(length + 2 * MARGIN, random))
    }

    /// The same byte throughout.
    fn filled(length: usize, byte: u8) -> Lent<u8> {
        Lent::of(vec![byte; length + 2 * MARGIN])
    }
}

impl<T: Clone + PartialEq> Lent<T> {
    fn of(content: Vec<T>) -> Lent<T> {
        Lent {
            kept: content.clone(),
            now: content,
        }
    }

    /// The part that is lent.
    pub(crate) fn content(&mut self) -> &mut [T] {
        let end = self.now.len() - MARGIN;
        &mut self.now[MARGIN..end]
    }

    /// Wants what was lent as it was, but for the first part of it that may be written.
    pub(crate) fn assert_kept(&self, name: &str, written: usize, handed: &impl Display) {
        let Lent { now, kept } = self;
        let rest = MARGIN + written;
        let same = now[..MARGIN] == kept[..MARGIN] && now[rest..] == kept[rest..];
        assert!(
            same,
            "{name}: more than the first {written} has changed\n{handed}"
        );
    }
}

/// What a table may hold before it is planned: anything, entries without a plan, bits that no entry
/// has, or the same throughout.
fn prior_table(length: usize, random: &mut Random) -> Vec<u32> {
    let style = random.below(4);
    let same = random.choose(&[0, u32::MAX, 1 << 31, entry_of(4, [0; 4])]);
    let entry = |random: &mut Random| match style {
        0 => random.bits() as u32,
        1 => entry_of(random.number(5), [(); 4].map(|()| random.below(4))),
        2 => random.number(8) << 29 | entry_of(random.number(5), [random.below(8), 0, 0, 0]),
        _ => same,
    };
    (0..length).map(|_| entry(random)).collect()
}

/// What a scratch or a list may hold before: any bytes, bits here and there, or the same throughout.
fn prior_bytes(length: usize, random: &mut Random) -> Vec<u8> {
    let style = random.below(3);
    let same = random.choose(&[0, 1, 128, 255]);
    let byte = |random: &mut Random| match style {
        0 => random.byte(),
        1 => u8::from(random.coin()) << random.below(8),
        _ => same,
    };
    (0..length).map(|_| byte(random)).collect()
}
