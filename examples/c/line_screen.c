/*
 * A line screen: reads a cell file and the recipe files of one chapter or more, plans, and follows the plan from
 * a fresh run. Each move is printed in words, and after each report where the parts are then; after a test also
 * where its outcome has led the station.
 *
 *     line_screen [-l LIMITS] CELL RECIPE .. [OUTCOME ..]
 *
 * LIMITS is a file of the most parts that stations may hold; one that isn't in it may hold all. There are up
 * to eight files RECIPE, each of which is a chapter that goes on where the one before ends. Each OUTCOME, a
 * number as 0 or 1, is that of one report. The exit status is 0, or 1 if something is refused.
 */
#include <stdint.h>
#include <stdio.h>
#include <stdlib.h>

#include "cellplan.h"
#include "files.h"
#include "plans.h"

/* The fields of a cell line and of a recipe line. */
enum { RESOURCE, FROM, ACT, ARG, TO, CELL_FIELDS };
enum { POINT, KIND, OP, TAKES, GIVES, THEN, ELSE, RECIPE_FIELDS };

/* The kind of a test. */
#define TEST 2

#define USAGE "line_screen [-l LIMITS] CELL RECIPE .. [OUTCOME ..]"

struct screen {
    uint8_t cell[CELLPLAN_CELL_BYTES];
    uint8_t recipes[CELLPLAN_MOST_CHAPTERS * CELLPLAN_RECIPE_BYTES];
    size_t recipes_length;
    uint32_t *table;
    struct cellplan_run run;
};

static const uint8_t *cell_line(const struct screen *screen, unsigned n)
{
    return screen->cell + 1 + CELL_FIELDS * n;
}

/* The recipe of the run's chapter. */
static const uint8_t *recipe(const struct screen *screen)
{
    return screen->recipes + CELLPLAN_RECIPE_BYTES * screen->run.chapter;
}

static const uint8_t *recipe_line(const struct screen *screen, unsigned n)
{
    return recipe(screen) + 1 + RECIPE_FIELDS * n;
}

/* Whether there are several chapters, so that it is said in which one the run is. */
static int has_chapters(const struct screen *screen)
{
    return screen->recipes_length > CELLPLAN_RECIPE_BYTES;
}

/* The first recipe line of the run's point. */
static unsigned first_line(const struct screen *screen)
{
    unsigned n = 0;

    while (recipe_line(screen, n)[POINT] != screen->run.point)
        n++;
    return n;
}

/* Prints the parts of a sum, in which part n counts 2^n. */
static void print_parts_in(const char *words, unsigned sum)
{
    unsigned part;

    for (part = 0; part < 8; part++)
        if (sum >> part & 1)
            printf("%s part %u", words, part);
}

/* Prints what the stations do for each recipe line of the run's point. */
static void print_carry(const struct screen *screen, uint32_t entry)
{
    unsigned first = first_line(screen);
    unsigned n = first;

    for (; n < recipe(screen)[0] && recipe_line(screen, n)[POINT] == screen->run.point; n++) {
        const uint8_t *line = recipe_line(screen, n);
        unsigned station = cell_line(screen, CELLPLAN_LETTER(entry, n - first))[RESOURCE];

        printf("%sstation %u", n > first ? "; " : "", station);
        if (line[KIND] == TEST) {
            printf(" does test %u", line[OP]);
            print_parts_in(" on", line[TAKES]);
        } else {
            printf(" does operation %u", line[OP]);
            print_parts_in(", takes", line[TAKES]);
            print_parts_in(", gives", line[GIVES]);
        }
    }
}

/* Prints the move at the run in words. */
static void print_move(const struct screen *screen, uint32_t entry)
{
    const uint8_t *a = cell_line(screen, CELLPLAN_LETTER(entry, 0));
    const uint8_t *b = cell_line(screen, CELLPLAN_LETTER(entry, 1));

    if (has_chapters(screen))
        printf("chapter %u, ", screen->run.chapter);
    printf("point %u: ", screen->run.point);
    switch (CELLPLAN_KIND(entry)) {
    case 1:
        printf("station %u does internal work %u", a[RESOURCE], a[ARG]);
        break;
    case 2:
        printf("station %u hands over to station %u through port %u",
               a[RESOURCE], b[RESOURCE], a[ARG]);
        break;
    case 3:
        print_carry(screen, entry);
        break;
    default:
        printf("end");
    }
    putchar('\n');
}

static void print_parts(const struct screen *screen)
{
    unsigned part;

    for (part = 0; part < 8; part++) {
        uint32_t result = cellplan_place(screen->cell, sizeof screen->cell,
                                         screen->recipes, screen->recipes_length,
                                         (const uint8_t *)&screen->run, sizeof screen->run,
                                         (uint8_t)part);
        unsigned place = CELLPLAN_PLACE(result);

        if (result == 255) /* not refused, but the recipe has no such part */
            break;
        if (place == 0)
            printf("    part %u is outside\n", part);
        else
            printf("    part %u is at station %u\n", part, place - 1);
    }
}

/* Prints the move at the run and gives its entry. */
static uint32_t show_move(const struct screen *screen)
{
    uint64_t result = cellplan_next_move(screen->cell, sizeof screen->cell,
                                         screen->recipes, screen->recipes_length,
                                         screen->table, CELLPLAN_MOST_ENTRIES,
                                         (const uint8_t *)&screen->run, sizeof screen->run);

    if (CELLPLAN_MOVE_REFUSAL(result) != 0)
        refuse("next move", CELLPLAN_MOVE_REFUSAL(result));
    print_move(screen, CELLPLAN_MOVE_ENTRY(result));
    return CELLPLAN_MOVE_ENTRY(result);
}

/* Whether an argument is a number, and so an outcome and no file. */
static int is_outcome(const char *text)
{
    return text[0] != '\0' && strspn(text, "0123456789") == strlen(text);
}

/* An outcome that no byte holds is refused as any other above 1. */
static uint8_t outcome_of(const char *text)
{
    unsigned long number;

    if (!is_outcome(text)) {
        fprintf(stderr, "%s: no outcome\n", text);
        exit(EXIT_FAILURE);
    }
    number = strtoul(text, NULL, 10);
    return number < 256 ? (uint8_t)number : 255;
}

/*
 * Prints where a test has led its station. Outcome 1 follows the line that carries the test, and so does
 * outcome 0, unless the station has a reject gate for it: then the entry's second letter is another line.
 */
static void print_outcome(const struct screen *screen, uint32_t entry, uint8_t outcome)
{
    unsigned carrying = CELLPLAN_LETTER(entry, 0);
    unsigned followed = outcome == 0 ? CELLPLAN_LETTER(entry, 1) : carrying;
    const uint8_t *line = cell_line(screen, followed);

    printf("    outcome %u: station %u goes to state %u%s\n", outcome, line[RESOURCE], line[TO],
           followed != carrying ? " by its reject gate" : "");
}

/* Reports that the move was made, which advances the screen's own record. */
static void report(struct screen *screen, uint32_t entry, uint8_t outcome)
{
    int is_test = CELLPLAN_KIND(entry) == 3
                  && recipe_line(screen, first_line(screen))[KIND] == TEST;
    uint8_t chapter = screen->run.chapter;
    uint32_t refusal = cellplan_report_record(screen->cell, sizeof screen->cell,
                                              screen->recipes, screen->recipes_length,
                                              screen->table, CELLPLAN_MOST_ENTRIES,
                                              &screen->run, outcome);

    if (refusal != 0)
        refuse("report", refusal);
    if (is_test)
        print_outcome(screen, entry, outcome);
    print_parts(screen);
    if (screen->run.chapter != chapter)
        printf("    chapter %u is over\n", chapter);
}

/*
 * Gives the number of the argument behind the recipe files, which is the first outcome, if there is one. The
 * files begin at the number `first`, and there is one at least.
 */
static int end_of_files(int argc, char **argv, int first)
{
    int end = first + 1;

    while (end < argc && !is_outcome(argv[end]))
        end++;
    return end;
}

int main(int argc, char **argv)
{
    static struct screen screen;
    uint32_t entry;
    int first = read_cell(argc, argv, USAGE, screen.cell);
    int n = end_of_files(argc, argv, first);

    screen.recipes_length = read_chapters(argv, first, n, USAGE, screen.recipes);
    screen.table = plan(screen.cell, screen.recipes, screen.recipes_length);
    cellplan_fresh((uint8_t *)&screen.run, sizeof screen.run);
    entry = show_move(&screen);
    for (; n < argc; n++) {
        report(&screen, entry, outcome_of(argv[n]));
        entry = show_move(&screen);
    }
    free(screen.table);
    return EXIT_SUCCESS;
}
