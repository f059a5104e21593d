/*
 * Reads a cell file, the recipe files of one chapter or more and, if there is one, a file of the most parts that
 * stations may hold, and says of each whether it is accepted; of several chapters also whether they are accepted
 * together.
 *
 *     check_files [-l LIMITS] CELL RECIPE ..
 *
 * A missing file counts as empty. Limits are those of the cell, and aren't judged if it is refused. There are up
 * to eight files RECIPE, each of which is a chapter that goes on where the one before ends. The exit status is 0
 * if all is accepted, else 1.
 */
#include <errno.h>
#include <stdint.h>
#include <stdio.h>
#include <stdlib.h>
#include <string.h>

#include "cellplan.h"

/* A cell record ends with the limits of so many stations. */
#define STATIONS 6

/* No recipe has more parts, so that a station with this limit may hold all. */
#define PARTS 8

struct file {
    uint8_t *bytes; /* never NULL, also where the length is 0 */
    size_t length;
};

typedef uint64_t reader(const uint8_t *file, size_t file_length,
                        uint8_t *record, size_t record_length);

static void fail(const char *path)
{
    perror(path);
    exit(EXIT_FAILURE);
}

static struct file read_whole(const char *path)
{
    size_t room = 4096;
    struct file file = {malloc(room), 0};
    FILE *stream;

    if (file.bytes == NULL)
        fail(path);
    stream = fopen(path, "rb");
    if (stream == NULL) {
        if (errno != ENOENT)
            fail(path);
        return file;
    }
    for (;;) {
        size_t read = fread(file.bytes + file.length, 1, room - file.length, stream);
        file.length += read;
        if (file.length < room)
            break;
        room *= 2;
        file.bytes = realloc(file.bytes, room);
        if (file.bytes == NULL)
            fail(path);
    }
    if (ferror(stream))
        fail(path);
    fclose(stream);
    return file;
}

static const char *base_name(const char *path)
{
    const char *slash = strrchr(path, '/');
    return slash == NULL ? path : slash + 1;
}

/* A damaged line may hold any byte, and some would upset a terminal. */
static void print_line(const uint8_t *line, size_t length)
{
    size_t i;

    printf(": ");
    for (i = 0; i < length; i++)
        putchar(line[i] >= 0x20 && line[i] < 0x7f ? line[i] : '?');
}

/* Prints the verdict on one file, without its line's end, and gives whether it is accepted. */
static int check(const char *path, reader *read, uint8_t *record, size_t record_length)
{
    struct file file = read_whole(path);
    uint64_t result = read(file.bytes, file.length, record, record_length);
    uint64_t line = CELLPLAN_LINE(result);

    printf("%s: ", base_name(path));
    if (result == 0) {
        printf("accepted");
    } else {
        printf("refused %u", CELLPLAN_REFUSAL(result));
        if (line > 0)
            printf(" at line %llu", (unsigned long long)line);
        if (line > 1) {
            size_t n = (size_t)(line - 2);
            size_t start = cellplan_line_start(file.bytes, file.length, n);
            size_t length = cellplan_line_length(file.bytes, file.length, n);
            if (length > 0)
                print_line(file.bytes + start, length);
        }
    }
    free(file.bytes);
    return result == 0;
}

/* Checks a file that becomes a record of its own. */
static int check_lines(const char *path, reader *read, uint8_t *record, size_t record_length)
{
    int accepted = check(path, read, record, record_length);

    if (accepted)
        printf(", %u %s", record[0], record[0] == 1 ? "line" : "lines");
    putchar('\n');
    return accepted;
}

/* Prints the limits of a cell, but for those that let all parts be at one station. */
static void print_limits(const uint8_t *cell)
{
    const uint8_t *limits = cell + CELLPLAN_CELL_BYTES - STATIONS;
    unsigned k;

    for (k = 0; k < STATIONS; k++)
        if (limits[k] < PARTS)
            printf(", at most %u at station %u", limits[k], k);
}

/* Checks a file of limits, which become part of the cell's record. */
static int check_limits(const char *path, uint8_t *cell, size_t cell_length)
{
    int accepted = check(path, cellplan_read_limits, cell, cell_length);

    if (accepted)
        print_limits(cell);
    putchar('\n');
    return accepted;
}

/* Checks a file of limits, unless the cell whose they are is refused. */
static int check_limits_of(const char *path, int cell_accepted, uint8_t *cell, size_t cell_length)
{
    if (cell_accepted)
        return check_limits(path, cell, cell_length);
    printf("%s: not judged, as the cell is refused\n", base_name(path));
    return 0;
}

/* Checks the chapters together, all of whose files are accepted. */
static int check_chapters(const uint8_t *cell, const uint8_t *recipes, size_t count)
{
    uint32_t refusal = cellplan_check(cell, CELLPLAN_CELL_BYTES,
                                      recipes, count * CELLPLAN_RECIPE_BYTES);

    if (refusal == 0)
        printf("together: accepted, %u chapters\n", (unsigned)count);
    else
        printf("together: refused %u\n", (unsigned)refusal);
    return refusal == 0;
}

int main(int argc, char **argv)
{
    uint8_t cell[CELLPLAN_CELL_BYTES];
    uint8_t recipes[CELLPLAN_MOST_CHAPTERS * CELLPLAN_RECIPE_BYTES];
    int has_limits = argc > 2 && strcmp(argv[1], "-l") == 0;
    int first = has_limits ? 3 : 1;
    int n, cell_accepted, accepted;

    if (argc < first + 2 || argc > first + 1 + CELLPLAN_MOST_CHAPTERS) {
        fprintf(stderr, "usage: check_files [-l LIMITS] CELL RECIPE ..\n");
        return EXIT_FAILURE;
    }
    cell_accepted = check_lines(argv[first], cellplan_read_cell, cell, sizeof cell);
    accepted = cell_accepted;
    for (n = first + 1; n < argc; n++)
        accepted &= check_lines(argv[n], cellplan_read_recipe,
                                recipes + (n - first - 1) * CELLPLAN_RECIPE_BYTES,
                                CELLPLAN_RECIPE_BYTES);
    if (has_limits)
        accepted &= check_limits_of(argv[2], cell_accepted, cell, sizeof cell);
    if (accepted && argc > first + 2)
        accepted = check_chapters(cell, recipes, (size_t)(argc - first - 1));
    return accepted ? EXIT_SUCCESS : EXIT_FAILURE;
}
