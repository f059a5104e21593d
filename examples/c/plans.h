/*
 * What the examples that plan for chapters share: they read these, and plan with as many places as a plan can
 * need.
 */
#ifndef PLANS_H
#define PLANS_H

#include <stdint.h>
#include <stdlib.h>

#include "cellplan.h"
#include "files.h"

/*
 * Reads the recipe files that the arguments from the number `first` up to `end` name, each of which is a chapter,
 * and gives the length of their records.
 */
static size_t read_chapters(char **argv, int first, int end, const char *usage, uint8_t *recipes)
{
    int n;

    if (end - first > CELLPLAN_MOST_CHAPTERS)
        show_usage(usage);
    for (n = first; n < end; n++)
        read_chapter(argv[n], n - first, end - first, recipes);
    return (size_t)(end - first) * CELLPLAN_RECIPE_BYTES;
}

/* Gives a planned table of CELLPLAN_MOST_ENTRIES entries, of which those past the last position are 0. */
static uint32_t *plan(const uint8_t *cell, const uint8_t *recipes, size_t recipes_length)
{
    uint32_t *table = calloc(CELLPLAN_MOST_ENTRIES, sizeof table[0]);
    uint8_t *scratch = malloc(CELLPLAN_MOST_SCRATCH_BYTES);
    uint32_t refusal;

    if (table == NULL || scratch == NULL)
        fail("plan");
    refusal = cellplan_plan(cell, CELLPLAN_CELL_BYTES, recipes, recipes_length,
                            table, CELLPLAN_MOST_ENTRIES, scratch, CELLPLAN_MOST_SCRATCH_BYTES);
    free(scratch);
    if (refusal != 0)
        refuse("plan", refusal);
    return table;
}

#endif
