/*
 * Follows a stored table: reads a cell file and the recipe files of one chapter or more, begins a fresh run and
 * prints each move until an end, a refusal or the last outcome.
 *
 *     follow CELL RECIPE .. TABLE OUTCOMES
 *
 * There are up to eight files RECIPE, each of which is a chapter that goes on where the one before ends. TABLE
 * has a names line and then lines `position,entry`; a position without a line has entry 0, and the positions of
 * a chapter count on behind those of the chapters before it. OUTCOMES has a digit for each report, as in 0010.
 * The exit status is 0, or 1 if something is refused.
 */
#include <stdint.h>
#include <stdio.h>
#include <stdlib.h>

#include "cellplan.h"

/* No file that is accepted is longer, and the start of a longer one is refused too. */
#define FILE_BYTES 8192

/* The fields of a recipe line, and the kind of a test. */
enum { POINT, KIND, OP, TAKES, GIVES, THEN, ELSE, RECIPE_FIELDS };
#define TEST 2

typedef uint64_t reader(const uint8_t *file, size_t file_length,
                        uint8_t *record, size_t record_length);

/* All that the calls on a run are handed. */
struct plan {
    uint8_t cell[CELLPLAN_CELL_BYTES];
    uint8_t recipes[CELLPLAN_MOST_CHAPTERS * CELLPLAN_RECIPE_BYTES];
    size_t recipes_length;
    uint32_t *table;
    size_t entries;
};

/* Where the point and the chapter stand in a run. */
enum { RUN_POINT = 0, RUN_CHAPTER = CELLPLAN_RUN_BYTES - 1 };

static FILE *open_file(const char *path)
{
    FILE *stream = fopen(path, "rb");

    if (stream == NULL) {
        perror(path);
        exit(EXIT_FAILURE);
    }
    return stream;
}

static void refuse(const char *what, unsigned refusal)
{
    printf("%s: refused %u\n", what, refusal);
    exit(EXIT_FAILURE);
}

static void read_record(const char *what, const char *path, reader *read,
                        uint8_t *record, size_t record_length)
{
    uint8_t bytes[FILE_BYTES];
    FILE *stream = open_file(path);
    size_t length = fread(bytes, 1, sizeof bytes, stream);
    uint64_t result = read(bytes, length, record, record_length);

    fclose(stream);
    if (result != 0)
        refuse(what, CELLPLAN_REFUSAL(result));
}

/* Reads a recipe file as the next chapter. */
static void read_chapter(const char *path, struct plan *plan)
{
    read_record("recipe", path, cellplan_read_recipe,
                plan->recipes + plan->recipes_length, CELLPLAN_RECIPE_BYTES);
    plan->recipes_length += CELLPLAN_RECIPE_BYTES;
}

/* Lines of another form end the table, and positions past the greatest are left out. */
static void read_table(const char *path, struct plan *plan)
{
    FILE *stream = open_file(path);
    unsigned long position, entry;

    plan->entries = CELLPLAN_MOST_ENTRIES;
    plan->table = calloc(plan->entries, sizeof plan->table[0]);
    if (plan->table == NULL) {
        perror(path);
        exit(EXIT_FAILURE);
    }
    if (fscanf(stream, "position,entry") == 0)
        while (fscanf(stream, "%lu,%lu", &position, &entry) == 2)
            if (position < plan->entries)
                plan->table[position] = (uint32_t)entry;
    fclose(stream);
}

/* Prints the lines that carry a point, and behind a test's line the one that outcome 0 follows, if another. */
static void print_carry(const uint8_t *recipe, uint8_t point, uint32_t entry)
{
    unsigned n, letter = 0;

    for (n = 0; n < recipe[0]; n++) {
        const uint8_t *line = recipe + 1 + RECIPE_FIELDS * n;

        if (line[POINT] != point)
            continue;
        printf(" line %u", CELLPLAN_LETTER(entry, letter));
        if (line[KIND] == TEST && CELLPLAN_LETTER(entry, 1) != CELLPLAN_LETTER(entry, 0))
            printf(", on outcome 0 line %u", CELLPLAN_LETTER(entry, 1));
        letter++;
    }
}

/* Where there are several chapters, it is said in which one the run is. */
static void print_move(const struct plan *plan, const uint8_t *run, uint32_t entry)
{
    const uint8_t *recipe = plan->recipes + CELLPLAN_RECIPE_BYTES * run[RUN_CHAPTER];

    if (plan->recipes_length > CELLPLAN_RECIPE_BYTES)
        printf("chapter %u, ", run[RUN_CHAPTER]);
    printf("point %u, entry %lu: ", run[RUN_POINT], (unsigned long)entry);
    switch (CELLPLAN_KIND(entry)) {
    case 1:
        printf("internal line %u", CELLPLAN_LETTER(entry, 0));
        break;
    case 2:
        printf("out line %u, in line %u", CELLPLAN_LETTER(entry, 0), CELLPLAN_LETTER(entry, 1));
        break;
    case 3:
        printf("carry by");
        print_carry(recipe, run[RUN_POINT], entry);
        break;
    default:
        printf("end");
    }
    putchar('\n');
}

static void print_parts(const struct plan *plan, const uint8_t *run)
{
    unsigned part;

    for (part = 0; part < 8; part++) {
        uint32_t result = cellplan_place(plan->cell, sizeof plan->cell,
                                         plan->recipes, plan->recipes_length,
                                         run, CELLPLAN_RUN_BYTES, (uint8_t)part);
        unsigned place = CELLPLAN_PLACE(result);

        if (result == 255) /* not refused, but the recipe has no such part */
            break;
        if (place == 0)
            printf("    part %u outside\n", part);
        else
            printf("    part %u at station %u\n", part, place - 1);
    }
}

/* Prints the move at the run and gives whether there is one to report. */
static int show_move(const struct plan *plan, const uint8_t *run)
{
    uint64_t result = cellplan_next_move(plan->cell, sizeof plan->cell,
                                         plan->recipes, plan->recipes_length,
                                         plan->table, plan->entries, run, CELLPLAN_RUN_BYTES);

    if (CELLPLAN_MOVE_REFUSAL(result) != 0)
        refuse("next move", CELLPLAN_MOVE_REFUSAL(result));
    print_move(plan, run, CELLPLAN_MOVE_ENTRY(result));
    return CELLPLAN_KIND(CELLPLAN_MOVE_ENTRY(result)) != 4;
}

static void follow(const struct plan *plan, const char *outcomes)
{
    uint8_t run[CELLPLAN_RUN_BYTES];

    cellplan_fresh(run, sizeof run);
    while (show_move(plan, run) && *outcomes >= '0' && *outcomes <= '9') {
        uint32_t refusal = cellplan_report(plan->cell, sizeof plan->cell,
                                           plan->recipes, plan->recipes_length,
                                           plan->table, plan->entries,
                                           run, sizeof run, (uint8_t)(*outcomes - '0'));
        if (refusal != 0)
            refuse("report", refusal);
        print_parts(plan, run);
        outcomes++;
    }
}

int main(int argc, char **argv)
{
    static struct plan plan;
    uint32_t refusal;
    int n;

    if (argc < 5 || argc > 4 + CELLPLAN_MOST_CHAPTERS) {
        fprintf(stderr, "usage: follow CELL RECIPE .. TABLE OUTCOMES\n");
        return EXIT_FAILURE;
    }
    read_record("cell", argv[1], cellplan_read_cell, plan.cell, sizeof plan.cell);
    for (n = 2; n < argc - 2; n++)
        read_chapter(argv[n], &plan);
    refusal = cellplan_check(plan.cell, sizeof plan.cell, plan.recipes, plan.recipes_length);
    if (refusal != 0)
        refuse("cell and recipe", refusal);
    read_table(argv[n], &plan);
    follow(&plan, argv[n + 1]);
    free(plan.table);
    return EXIT_SUCCESS;
}
