/*
 * Prints a planned table: reads a cell file and the recipe files of one chapter or more, and plans. What is
 * printed is a table file as follow reads it.
 *
 *     plan_table [-l LIMITS] CELL RECIPE ..
 *
 * LIMITS is a file of the most parts that stations may hold; one that isn't in it may hold all. There are up
 * to eight files RECIPE, each of which is a chapter that goes on where the one before ends. Behind the names
 * line comes a line `position,entry` for each entry other than 0, by rising position; the positions of a chapter
 * count on behind those of the chapters before it. Every entry is fixed by the files, so that the tables of two
 * sites can be compared line by line. The exit status is 0, or 1 if something is refused; then there is no table.
 */
#include <stdint.h>
#include <stdio.h>
#include <stdlib.h>

#include "cellplan.h"
#include "files.h"
#include "plans.h"

#define USAGE "plan_table [-l LIMITS] CELL RECIPE .."

/* Lines that can't be written are a failure, for what is left would be taken for another table. */
static void print_table(const uint32_t *table)
{
    unsigned long position;

    puts("position,entry");
    for (position = 0; position < CELLPLAN_MOST_ENTRIES; position++)
        if (table[position] != 0)
            printf("%lu,%lu\n", position, (unsigned long)table[position]);
    if (fflush(stdout) != 0 || ferror(stdout))
        fail("table");
}

int main(int argc, char **argv)
{
    static uint8_t cell[CELLPLAN_CELL_BYTES];
    static uint8_t recipes[CELLPLAN_MOST_CHAPTERS * CELLPLAN_RECIPE_BYTES];
    int first = read_cell(argc, argv, USAGE, cell);
    size_t recipes_length = read_chapters(argv, first, argc, USAGE, recipes);
    uint32_t *table = plan(cell, recipes, recipes_length);

    print_table(table);
    free(table);
    return EXIT_SUCCESS;
}
