/*
 * Which process to install: reads a cell file and a recipe file, and says which operation a station lacks.
 *
 *     install [-l LIMITS] CELL RECIPE
 *
 * LIMITS is a file of the most parts that stations may hold; one that isn't in it may hold all. Each line
 * that is printed would do by itself. The exit status is 0, or 1 if something is refused.
 */
#include <stdint.h>
#include <stdio.h>
#include <stdlib.h>

#include "cellplan.h"
#include "files.h"

/* The fields of a process. */
enum { RESOURCE, FROM, OPERATION, TO };

/* What the calls are handed and lent, with as many places as they can need. */
struct work {
    uint8_t cell[CELLPLAN_CELL_BYTES];
    uint8_t recipe[CELLPLAN_RECIPE_BYTES];
    uint32_t *table;
    uint8_t *scratch;
    uint8_t list[CELLPLAN_MOST_PROCESSES * CELLPLAN_PROCESS_BYTES];
};

static void lend(struct work *work)
{
    work->table = malloc(CELLPLAN_MOST_POSITIONS * sizeof work->table[0]);
    work->scratch = malloc(CELLPLAN_MOST_SCRATCH_BYTES);
    if (work->table == NULL || work->scratch == NULL)
        fail("install");
}

/* Lists the processes, and gives their number. */
static uint32_t install(struct work *work)
{
    uint64_t result = cellplan_install(work->cell, sizeof work->cell,
                                       work->recipe, sizeof work->recipe,
                                       work->table, CELLPLAN_MOST_POSITIONS,
                                       work->scratch, CELLPLAN_MOST_SCRATCH_BYTES,
                                       work->list, sizeof work->list);

    if (CELLPLAN_INSTALL_REFUSAL(result) != 0)
        refuse("install", CELLPLAN_INSTALL_REFUSAL(result));
    return CELLPLAN_INSTALL_COUNT(result);
}

/* A list of none has two reasons, and a plan tells which. */
static void print_none(struct work *work)
{
    uint32_t refusal = cellplan_plan(work->cell, sizeof work->cell,
                                     work->recipe, sizeof work->recipe,
                                     work->table, CELLPLAN_MOST_POSITIONS,
                                     work->scratch, CELLPLAN_MOST_SCRATCH_BYTES);

    puts(refusal == 0 ? "the recipe can be built as it is" : "no single line would do");
}

static void print_processes(const uint8_t *list, uint32_t count)
{
    uint32_t n;

    for (n = 0; n < count; n++) {
        const uint8_t *process = list + CELLPLAN_PROCESS_BYTES * n;

        printf("%s: install operation %u at station %u, from state %u to state %u\n",
               n == 0 ? "one line would do" : "or",
               process[OPERATION], process[RESOURCE], process[FROM], process[TO]);
    }
}

int main(int argc, char **argv)
{
    static struct work work;
    uint32_t count;
    int n = read_cell(argc, argv, "install [-l LIMITS] CELL RECIPE", work.cell);

    read_chapter(argv[n], 0, 1, work.recipe);
    lend(&work);
    count = install(&work);
    if (count == 0)
        print_none(&work);
    else
        print_processes(work.list, count);
    free(work.scratch);
    free(work.table);
    return EXIT_SUCCESS;
}
