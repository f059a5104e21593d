/*
 * The cell planner's C interface: the readers of the cell file, the limits file and the recipe file, the
 * planner, the list of processes to install, and the run over a table.
 *
 * A slice of bytes is passed as a pointer and a length in bytes, a table as a pointer and its number of
 * entries (elements, not bytes). No pointer may be NULL, also where the length is 0. What a call may
 * write (a reader's record, the table and the scratch of plan and of install, the list of install, the
 * run of fresh, of report and of report_record) must not overlap anything else that it is handed. No call
 * keeps a pointer, and calls from several threads need no lock as long as none writes what another one
 * uses.
 *
 * A cell record has CELLPLAN_CELL_BYTES bytes: byte 0 is the line count, then follow 64 times
 *     resource, from, act, arg, to,
 * and behind them the limits of the resources 0 to 5: the most parts, 1 to 8, that each may hold. A limit
 * of 8 forbids nothing, and a resource that isn't there has 8.
 * A recipe record has CELLPLAN_RECIPE_BYTES bytes: byte 0 is the line count, then follow 64 times
 *     point, kind, op, takes, gives, then, else.
 * Lines stand in file order, one byte a field. The readers of cells and recipes leave 0 in all lines past
 * the line count; in a record handed in these count for nothing. The reader of cells leaves 8 in each
 * limit.
 *
 * A recipe comes in chapters, numbered from 0: what a call is handed as `recipes` are 1 to
 * CELLPLAN_MOST_CHAPTERS recipe records one after another, each of them a recipe by itself. Their number is
 * recipes_length / CELLPLAN_RECIPE_BYTES, and a rest counts for nothing. An end of one chapter leads to point
 * 0 of the next in the same states, with the parts in the same places; an end of the last is the end. A
 * recipe of one file is one chapter. Install alone takes one recipe record and no more.
 *
 * The act of a cell line is 0 internal, 1 operation, 2 in, 3 out or 4 reject gate. A test is carried by an
 * act 1 line. If its resource has an act 4 line with the same from and arg, outcome 0 of the test ends in
 * that line's `to` and outcome 1 in the act 1 line's; else both end in the act 1 line's. Act 1 lines with
 * the same from and arg share the act 4 line. Nothing else takes an act 4 line, and a do follows act 1
 * lines alone. An act 4 line counts as a line of its resource, also for its number of states.
 *
 * The arg of an in and of an out is its port, from 0 to 63. The lanes in ports 0 to 31 are loaded: they have a
 * photocell and won't start empty, so that an out there is taken only if its own resource holds at least one
 * part before the step. Ports 32 to 63 move empty pallets too. What the in's resource holds does not matter.
 *
 * A run has CELLPLAN_RUN_BYTES bytes: the point, the states of the resources 0 to 5, the places of the
 * parts 0 to 7, the chapter, of whose points the point is one. A place is 0 outside the cell and k + 1 at
 * resource k. Resources and parts that aren't there have 0. A run that was kept before there were chapters
 * lacks the last byte; with 0 there it is the same run, and its table the table of one chapter.
 *
 * Of a cell record or a run that is longer, and of a longer recipe of install, the bytes past its end count
 * for nothing and stay as they were. A shorter cell record, and a shorter recipe of install, counts as one of
 * no lines (3), a shorter run as one out of range (16). Recipes shorter than one record are none (24).
 *
 * A table has an entry for each position. With R resources, J the product of their numbers of states,
 * P parts and W = (R+1)^P, the position of a run in its chapter is
 *     (point * J + j) * W + w,
 * j being the sum of each resource's state times the numbers of states of all lower resources
 * multiplied, and w the sum of place n times (R+1)^n. M = N * J * W is the number of a chapter's positions,
 * N being the number of its points; P counts over all chapters. The chapters' tables stand one after another,
 * so that the table of a chapter begins at the sum of the M of those before it. An entry is 0 or
 *     kind * 16777216 + a + 64 * b + 4096 * c + 262144 * d,
 * the letters being numbers of cell lines from 0, and 0 where they are unused:
 *     kind 1  the internal line a;
 *     kind 2  the out line a together with the in line b;
 *     kind 3  carry: of a do, a to d are the cell lines for the point's recipe lines in order; of a test,
 *             a is the act 1 line, and b the line that outcome 0 follows: the act 4 line of a's resource,
 *             from and arg, or a itself if there is none;
 *     kind 4  the run is at an end; no letter is used. A planned table has it at an end of an earlier
 *             chapter exactly if point 0 of the next has an entry other than 0 in the same states and places.
 * A table that was made before there was an act 4 has b = 0 in the entries of tests. For a recipe with
 * tests it must be planned again: such an entry gets 18, unless a is line 0 and has no act 4 line. One that
 * was made before lanes were loaded may have entries of kind 2 that would start a loaded lane empty; these
 * get 18, and all others are as good as before.
 *
 * A reader's result is 0 if the file is accepted, else
 *     refusal + 256 * line.
 * The line counts from 1, the names line being line 1, so that value line n, counted from 0, is line
 * n + 2. It is 0 where the refusal names no line, and where it is one of the cell record that read_limits
 * is handed. A line of 2^56 or more is given modulo 2^56.
 *
 * Refusals, in the order in which they are tried. Each is tried over the whole file before the next;
 * the line is the first that breaks the rule, and of a pair the later one.
 *      1  The names line differs or lacks byte 10.
 *      2  A value line has another count of numbers, another form or no byte 10.
 *     24  Recipes: there are no chapters, or more than CELLPLAN_MOST_CHAPTERS. (See 24 below too.)
 *      3  There are no value lines, or over 64. (No line is named.)
 *      4  A number leaves its range. In a cell record: first one of its lines, then one of its limits.
 *         (A record's limit names no line.)
 *      5  Cell: a resource below the greatest has no line. (No line is named.)
 *      6  Cell: for an in or out line, no line of another resource has the other act on that port.
 *     20  Limits: a resource isn't below R, or isn't greater than that of the line before. In a cell
 *         record: a limit at or above R isn't 8. (A record's limit names no line.)
 *     23  Cell: an act 4 line has no act 1 line of the same resource, from and arg, or an earlier act 4
 *         line has these three. (A cell file has no limits, so that there it comes after 6.)
 *      7  Recipe: the first point isn't 0, or a point is neither its predecessor's nor one more.
 *      8  Recipe: a repeated point isn't kind 1 on both lines, differs in `then`, or comes a fifth
 *         time.
 *      9  Recipe: an unused field isn't 0 (kind 0 all after kind, kind 1 else, kind 2 gives).
 *     10  Recipe: a test takes 0, or a do takes and gives 0.
 *     11  Recipe: two lines of a point take, or give, a common part.
 *     12  Recipe: a do's `then` or a test's `then` or `else` is N or more, N being the number of
 *         points.
 *     22  Plan and install: no chain of `then` and `else` from point 0 reaches some point of the recipe.
 *         The readers, check and the run's calls don't try it, so that such a recipe is read, checked and
 *         followed with a stored table as any other.
 *     24  Recipes: point 0 of a chapter that isn't the last is an end.
 *     13  M exceeds CELLPLAN_MOST_POSITIONS in some chapter.
 *     14  The table has fewer entries than all M together, or the scratch of plan or install fewer than
 *         (M + 7) / 8 bytes, a bit for each position of the chapter that has most. Of read_cell, read_recipe
 *         and fresh: the buffer lent for the record or the run is too short. That is tried before all else,
 *         names no line, and leaves the buffer as it was.
 *     21  Install: the cell has 64 lines already, so that there is no place for another one.
 *     15  Planner: the cell cannot build the recipe, all chapters one after another, so that no resource ever
 *         holds more parts than its limit. The tables of all chapters are filled all the same.
 *     16  Run: a chapter that isn't there, a point of its N or more, a state or place outside its count, or a
 *         number other than 0 for a resource or part that isn't there.
 *     17  Report: the outcome is above 1.
 *     18  Run: the entry isn't a move open here, 0 included, or not in the stated form. A move of kind
 *         1, 2 or 3 is open only if no resource holds more parts than its limit after it; what one held
 *         before doesn't matter. A move of kind 2 through a port from 0 to 31 is open only if the out's
 *         resource holds a part before it.
 *     19  Report: the run is at an end, be it of the last chapter or of an earlier one. A run comes to an
 *         earlier one only if it is handed in there, for what leads to it lands on the next chapter.
 * A call that is handed recipes tries 24 for their number; then the cell's rules from 3 on; then, chapter by
 * chapter, the recipe's from 3 to 12, 22 if it plans, and 24 unless the chapter is the last; then 13 for each
 * chapter; then those from 14 on that are its own. Install tries the cell's from 3 on, the recipe's from 3 to
 * 12, 22, 13, 14 and 21; read_limits the cell's from 3 on, and then its file's from 1 on. A call that refuses
 * changes nothing, but for read_cell and read_recipe, which write a record of no lines, and for the planner
 * where it refuses with 15.
 */
#ifndef CELLPLAN_H
#define CELLPLAN_H

#include <stddef.h>
#include <stdint.h>

#ifdef __cplusplus
extern "C" {
#endif

#define CELLPLAN_CELL_BYTES 327
#define CELLPLAN_RECIPE_BYTES 449
#define CELLPLAN_RUN_BYTES 16

/* The most chapters of a recipe. */
#define CELLPLAN_MOST_CHAPTERS 8

/*
 * The most positions of a chapter that rule 13 lets pass. A table of so many entries is never too short for
 * one chapter, as for install.
 */
#define CELLPLAN_MOST_POSITIONS 1048576

/* The most positions of all chapters together. A table of so many entries is never too short. */
#define CELLPLAN_MOST_ENTRIES 8388608

/* Bytes with a bit for each position of the greatest chapter. A scratch of so many is never too short. */
#define CELLPLAN_MOST_SCRATCH_BYTES ((CELLPLAN_MOST_POSITIONS + 7) / 8)

/*
 * The bytes of a process in the list of an install call, and more processes than there can be: those of
 * six resources, eight states to begin in and to end in, 64 operations. A list of so many is never too
 * short.
 */
#define CELLPLAN_PROCESS_BYTES 4
#define CELLPLAN_MOST_PROCESSES 24576

/* The refusal and the line in a reader's result. */
#define CELLPLAN_REFUSAL(result) ((unsigned)((uint64_t)(result) % 256))
#define CELLPLAN_LINE(result) ((uint64_t)(result) / 256)

/* The refusal and the count in an install call's result. */
#define CELLPLAN_INSTALL_REFUSAL(result) ((unsigned)((uint64_t)(result) >> 32))
#define CELLPLAN_INSTALL_COUNT(result) ((uint32_t)((uint64_t)(result) & 0xffffffff))

/* The refusal and the entry in a next-move call's result. */
#define CELLPLAN_MOVE_REFUSAL(result) ((unsigned)((uint64_t)(result) >> 32))
#define CELLPLAN_MOVE_ENTRY(result) ((uint32_t)((uint64_t)(result) & 0xffffffff))

/* The refusal and the place in a place call's result. */
#define CELLPLAN_PLACE_REFUSAL(result) ((unsigned)((uint32_t)(result) / 256))
#define CELLPLAN_PLACE(result) ((unsigned)((uint32_t)(result) % 256))

/* The kind of an entry, and its letter n: 0 for a to 3 for d. */
#define CELLPLAN_KIND(entry) ((unsigned)((uint32_t)(entry) >> 24))
#define CELLPLAN_LETTER(entry, n) ((unsigned)((uint32_t)(entry) >> (6 * (n)) & 63))

/*
 * Reads a cell file into a record. The record's bytes are written, refused or not: a refused file gives
 * a record of no lines, all bytes 0 but for the limits. These are 8, accepted or refused. Bytes of a
 * longer buffer past the record stay as they were.
 */
uint64_t cellplan_read_cell(const uint8_t *file, size_t file_length,
                            uint8_t *record, size_t record_length);

/* The same for a recipe file, whose record has no limits: a refused file gives all bytes 0. */
uint64_t cellplan_read_recipe(const uint8_t *file, size_t file_length,
                              uint8_t *record, size_t record_length);

/*
 * Reads a limits file into a cell record. The file's first line is exactly `resource,most`; then come 1
 * to 64 value lines in the form of the other files, with a resource, 0 to 5, and the most parts that it
 * may hold, 1 to 8. The lines rise by resource, and each resource is one of the cell's. The record is
 * checked first, by the rules of a cell record handed in; one that is too short gets 3. Accepted, each
 * resource with a line gets that line's limit and every other one 8, whatever they had before; nothing
 * but the six limits changes. Refused, nothing changes.
 */
uint64_t cellplan_read_limits(const uint8_t *file, size_t file_length,
                              uint8_t *cell, size_t cell_length);

/*
 * Where value line n, counted from 0, starts in the file, and how long it is without its byte 10. The
 * file may be of any kind, accepted or not; its first line is never a value line, and only byte 10
 * ends a line. An empty line has its true start and length 0. Where there is no such line, both are 0.
 */
size_t cellplan_line_start(const uint8_t *file, size_t file_length, size_t n);
size_t cellplan_line_length(const uint8_t *file, size_t file_length, size_t n);

/*
 * Checks a cell record and recipe records: the result is the first refusal of the rules 3 to 13, with 20, 23
 * and 24 in their places among them and 22 not, or 0. Which line of which chapter breaks a rule is not said; a
 * reader says that of the file.
 */
uint32_t cellplan_check(const uint8_t *cell, size_t cell_length,
                        const uint8_t *recipes, size_t recipes_length);

/*
 * Plans: fills the tables of all chapters, as many entries as all M together. An entry is other than 0
 * exactly at the positions from which the chapter and all behind it can be followed to the end, or for ever,
 * whatever the outcomes of their tests, while no resource ever holds more parts than its limit, at the
 * position itself and at an end too; it is then the move to make there. An end of an earlier chapter is such
 * a position exactly if point 0 of the next is one.
 *
 * Which move that is, is fixed. At a do or a test take the ways of single moves, some silent ones, perhaps
 * none, and then one that carries the point, whose next positions, those of both outcomes of a test, all have
 * an entry; keep those with the fewest silent moves; the entry is the smallest number that begins one of them.
 * At an end it is 67108864. So two calls on the same records fill in the same entries, wherever they are made
 * and whatever is lent. A table that was written with other moves may still be run.
 *
 * The scratch, a bit for each position of the chapter that has most in (M + 7) / 8 bytes or more, may hold
 * anything before. The result is 0, or the refusal, of which the last are tried in the order 13, 14, 15; it
 * is 15 if entry 0 of the table is 0, and a later chapter that would get 15 by itself is no reason. Accepted,
 * and refused with 15, the entries past all M together keep their content, and what the scratch then holds is
 * free; refused otherwise, both stay as they were.
 */
uint32_t cellplan_plan(const uint8_t *cell, size_t cell_length,
                       const uint8_t *recipes, size_t recipes_length,
                       uint32_t *table, size_t table_entries,
                       uint8_t *scratch, size_t scratch_length);

/*
 * Lists the processes that the cell lacks for one recipe, which has no further chapters: every operation
 * line (act 1) that isn't in the cell and that alone, added behind the cell's lines, makes the cell able to
 * build the recipe within its limits. Such a line has a resource of the cell, states that this resource has
 * already, and the operation of a do or a test of the recipe. If the cell has an act 4 line of that resource,
 * from and operation, a test by the new line has it as its gate; an act 4 line is itself no process, whatever
 * its numbers. Nothing is listed if the cell can build the recipe as it is. The result is
 *     refusal * 2^32 + count,
 * with count 0 if refused. The last refusals are tried in the order 22, 13, 14, 21; 21 is given also if
 * nothing is lacking, and 15 never. Accepted, the list gets, for each process,
 *     resource, from, operation, to,
 * rising by these four numbers in this order, each once, as far as whole ones fit. The bytes of the list
 * past these stay as they were, and the count is that of all processes, those too for which there was no
 * place. Table and scratch have the lengths that plan wants for that one recipe; what they hold afterwards is
 * free. Refused, all three stay as they were.
 */
uint64_t cellplan_install(const uint8_t *cell, size_t cell_length,
                          const uint8_t *recipe, size_t recipe_length,
                          uint32_t *table, size_t table_entries,
                          uint8_t *scratch, size_t scratch_length,
                          uint8_t *list, size_t list_length);

/*
 * Writes the fresh run: point 0 of chapter 0, every resource in state 0, every part outside. The result is 0,
 * or 14 if the buffer is too short. Bytes of a longer buffer past the run stay as they were.
 */
uint32_t cellplan_fresh(uint8_t *run, size_t run_length);

/*
 * The entry at the run's position. The result is
 *     refusal * 2^32 + entry,
 * with entry 0 if refused and refusal 0 if not. The refusals from 13 on are tried in the order 13, 14,
 * 16, 18. At an end, of an earlier chapter too, the entry is 67108864, kind 4.
 */
uint64_t cellplan_next_move(const uint8_t *cell, size_t cell_length,
                            const uint8_t *recipes, size_t recipes_length,
                            const uint32_t *table, size_t table_entries,
                            const uint8_t *run, size_t run_length);

/*
 * Makes the move at the run's position and puts the next run in the run's place. A carried do goes to
 * its point's `then`; a test goes to `then` on outcome 1, its resource following line a, and to `else` on
 * outcome 0, its resource following line b; other moves ignore the outcome. Where that is an end of a
 * chapter that isn't the last, the run goes on to point 0 of the next. The result is 0, or the refusal, and
 * then the run stays. The refusals from 13 on are tried in the order 13, 14, 16, 17, 18, 19.
 */
uint32_t cellplan_report(const uint8_t *cell, size_t cell_length,
                         const uint8_t *recipes, size_t recipes_length,
                         const uint32_t *table, size_t table_entries,
                         uint8_t *run, size_t run_length, uint8_t outcome);

/*
 * The same with the run as a record of the caller's, which is advanced in its own storage. A record has
 * the bytes of a run and no padding.
 */
struct cellplan_run {
    uint8_t point;
    uint8_t state[6];
    uint8_t place[8];
    uint8_t chapter;
};

uint32_t cellplan_report_record(const uint8_t *cell, size_t cell_length,
                                const uint8_t *recipes, size_t recipes_length,
                                const uint32_t *table, size_t table_entries,
                                struct cellplan_run *run, uint8_t outcome);

/*
 * The place of a part. The result is
 *     refusal * 256 + place,
 * with place 255 if refused, and refusal 0 with place 255 for a part number of P or more, P being the
 * greatest part number in any chapter plus 1. The refusals from 13 on are tried in the order 13, 16.
 */
uint32_t cellplan_place(const uint8_t *cell, size_t cell_length,
                        const uint8_t *recipes, size_t recipes_length,
                        const uint8_t *run, size_t run_length, uint8_t part);

/*
 * The search for marks on which planning is built, for tests and benchmarks: the least place at or after
 * the start whose byte isn't 0, or the length if there is none. Any bytes and any start will do; a start
 * past the end gives the length.
 */
size_t cellplan_next_set(const uint8_t *bytes, size_t bytes_length, size_t start);

#ifdef __cplusplus
}
#endif

#endif
