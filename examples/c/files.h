/*
 * What several of the examples do with files: they read a cell, perhaps its limits, and a recipe or the
 * chapters of one, show what is refused, and end.
 */
#ifndef FILES_H
#define FILES_H

#include <stdint.h>
#include <stdio.h>
#include <stdlib.h>
#include <string.h>

#include "cellplan.h"

/* No file that is accepted is longer, and the start of a longer one is refused too. */
#define FILE_BYTES 8192

typedef uint64_t reader(const uint8_t *file, size_t file_length,
                        uint8_t *record, size_t record_length);

static void fail(const char *what)
{
    perror(what);
    exit(EXIT_FAILURE);
}

static void refuse(const char *what, unsigned refusal)
{
    printf("%s: refused %u\n", what, refusal);
    exit(EXIT_FAILURE);
}

/* A damaged line may hold any byte, and some would upset a terminal. */
static void print_line(const uint8_t *line, size_t length)
{
    size_t i;

    printf(": ");
    for (i = 0; i < length; i++)
        putchar(line[i] >= 0x20 && line[i] < 0x7f ? line[i] : '?');
}

/* Shows a refused file with the line that the refusal names, and ends. */
static void refuse_file(const char *what, uint64_t result, const uint8_t *bytes, size_t length)
{
    uint64_t line = CELLPLAN_LINE(result);

    printf("%s: refused %u", what, CELLPLAN_REFUSAL(result));
    if (line > 0)
        printf(" at line %llu", (unsigned long long)line);
    if (line > 1) {
        size_t n = (size_t)(line - 2);
        size_t start = cellplan_line_start(bytes, length, n);
        size_t line_length = cellplan_line_length(bytes, length, n);
        if (line_length > 0)
            print_line(bytes + start, line_length);
    }
    putchar('\n');
    exit(EXIT_FAILURE);
}

static void read_record(const char *what, const char *path, reader *read,
                        uint8_t *record, size_t record_length)
{
    uint8_t bytes[FILE_BYTES];
    FILE *stream = fopen(path, "rb");
    size_t length;
    uint64_t result;

    if (stream == NULL)
        fail(path);
    length = fread(bytes, 1, sizeof bytes, stream);
    fclose(stream);
    result = read(bytes, length, record, record_length);
    if (result != 0)
        refuse_file(what, result, bytes, length);
}

static void show_usage(const char *usage)
{
    fprintf(stderr, "usage: %s\n", usage);
    exit(EXIT_FAILURE);
}

/*
 * Reads the files that the arguments [-l LIMITS] CELL name into a record; limits become part of it. Gives the
 * number of the first argument behind them, which is there.
 */
static int read_cell(int argc, char **argv, const char *usage, uint8_t *cell)
{
    const char *limits = NULL;
    int n = 1;

    if (argc > 2 && strcmp(argv[1], "-l") == 0) {
        limits = argv[2];
        n = 3;
    }
    if (argc < n + 2)
        show_usage(usage);
    read_record("cell", argv[n], cellplan_read_cell, cell, CELLPLAN_CELL_BYTES);
    if (limits != NULL)
        read_record("limits", limits, cellplan_read_limits, cell, CELLPLAN_CELL_BYTES);
    return n + 1;
}

/* Reads a recipe file as the chapter of this number, of so many, into its place among the chapters' records. */
static void read_chapter(const char *path, int chapter, int count, uint8_t *recipes)
{
    char what[24] = "recipe";

    if (count > 1)
        sprintf(what, "chapter %d", chapter);
    read_record(what, path, cellplan_read_recipe,
                recipes + chapter * CELLPLAN_RECIPE_BYTES, CELLPLAN_RECIPE_BYTES);
}

#endif
