//! An independent program for the cell, recipe and limits files, the planner, the search for set bytes, the
//! list of processes to install, the run over a stored table, the book that the run is held against and the
//! program `walk`, written from their description alone; with a judge of planned tables and a generator of
//! cells and recipes. Which entry a planned table has is written a second time in `shortest`, with no planner in
//! it. The planner, the run and the book take recipes in chapters; what takes a single recipe is in `single`. The
//! tests compare the proved library and program with it, and the benchmark measures against it.

mod book;
mod cell;
mod chapters;
mod entry;
#[cfg(test)]
mod fixtures;
mod generate;
mod install;
mod joined;
mod judge;
mod limits;
mod moves;
mod next_set;
mod plan;
mod random;
mod recipe;
mod run;
mod shortest;
mod simulation;
pub mod single;
mod sizes;
mod step;
mod table;
mod walk;

pub use book::Book;
pub use cell::{
    cell_bytes, cell_of_bytes, check_cell, read_cell, Cell, CellReading, CELL_BYTES, CELL_NAMES,
    NO_LIMIT, PHOTOCELLS,
};
pub use chapters::{chapters_bytes, chapters_of_bytes, check, check_to_plan, MOST_CHAPTERS};
pub use entry::{
    carry_of, entry_of, is_open, kind_of, letters_of, CARRY, INTERNAL, STAY, TRANSFER,
};
pub use generate::{
    chain_pair, cut, dense_pair, gap_pair, likely_chapters, likely_pair, limited_chapters,
    limited_pair, long_ways_pair, mixed_pair, odometer_pair, stations_reversed, with_gates,
    with_photocells, without_gates, without_photocells, Cut,
};
pub use install::{
    candidates, install, missing_processes, realisable_by_joint_steps, realisable_by_single_moves,
    Install, Process,
};
pub use joined::Joined;
pub use judge::{judge, judge_planned, longest_way, Fault, Judging, FEW_JOINT_CHOICES};
pub use limits::{is_overfull, read_limits, LIMITS_NAMES};
pub use moves::{open_entries, Move};
pub use next_set::next_set;
pub use plan::{plan, stored_table};
pub use random::Random;
pub use recipe::{
    check_recipe, every_point_is_reached, reached_points, read_recipe, recipe_bytes,
    recipe_of_bytes, Recipe, RecipeReading, RECIPE_BYTES, RECIPE_NAMES,
};
pub use run::{run_bytes, run_of_bytes, NextMove, Place, Report, Run, RUN_BYTES};
pub use shortest::Ways;
pub use simulation::{greatest_simulation, joint_choices};
pub use sizes::{scratch_bytes, Configuration, Sizes, MOST_PARTS, MOST_POSITIONS, MOST_RESOURCES};
pub use step::JointStep;
pub use table::{value_line, value_line_bytes, Reading, Refusal, MOST_LINES};
pub use walk::walk;
