/*
 * Analyses a packed tree and prints the report and the diagnostics.
 *
 *     analyze [FILE]
 *
 * Without a file it takes a small tree of its own. Memory grows where the analyser says that there is too little, up to
 * a cap. Ends with 0 if the tree is accepted, 1 if it is refused, 2 if it can't be read or there is no memory.
 */
#include <errno.h>
#include <inttypes.h>
#include <stdio.h>
#include <stdlib.h>
#include <string.h>

#include "tsilmogar.h"

/* local x = 1, y = x; z: y is not used, x only by y, and z is not defined. */
static const uint8_t built_in[] =
    "JT\0\0\0\0"
    "LO\2\0\0\0"
    "BV\5\0\0\0\11\0\0\0" "TV\1\0\0\0"
    "BV\6\0\0\0\12\0\0\0" "VA\5\0\0\0\13\0\0\0"
    "VA\7\0\0\0\14\0\0\0";

/* What the numbers of the header mean, in its words. */
static const char *const refusals[] = {
    [TSILMOGAR_CUT_SHORT] = "a record's bytes run past the end",
    [TSILMOGAR_WRONG_MARK] = "a mark isn't allowed there",
    [TSILMOGAR_OUT_OF_RANGE] = "a flag, kind, set or visibility is out of range",
    [TSILMOGAR_NESTED_TOO_DEEP] = "an expression is nested deeper than 200",
    [TSILMOGAR_BYTES_LEFT] = "bytes follow the expression",
    [TSILMOGAR_LOCALS_FULL] = "a local beyond the limit of live locals",
    [TSILMOGAR_FRAMES_FULL] = "a frame beyond the limit of open frames",
    [TSILMOGAR_CAPTURES_FULL] = "a capture beyond the limit of captures in open frames",
    [TSILMOGAR_OUTPUT_FULL] = "an output record doesn't fit",
    [TSILMOGAR_DIAGNOSTICS_FULL] = "a diagnostics record doesn't fit",
    [TSILMOGAR_TOO_MANY_LOCALS] = "over 65,535 external names, or a 65,536th local in one frame",
    [TSILMOGAR_TOO_MANY_CAPTURES] = "a 65,537th capture in one frame",
    [TSILMOGAR_TABLE_SHORT] = "a table is shorter than 16 numbers per entry of its limit",
    [TSILMOGAR_TREE_LONG] = "the tree is over 16,777,216 bytes",
    [TSILMOGAR_REFERENCES_FULL] = "a reference beyond the limit of references kept in open frames",
};

static const char *const codes[] = {
    [TSILMOGAR_UNDEFINED] = "the name is not defined",
    [TSILMOGAR_DEFINED_TWICE] = "the name is defined twice in one frame",
    [TSILMOGAR_SELF_OUTSIDE] = "self outside of an object",
    [TSILMOGAR_SUPER_OUTSIDE] = "super outside of an object",
    [TSILMOGAR_DOLLAR_OUTSIDE] = "$ outside of an object",
    [TSILMOGAR_IMPORT_COMPUTED] = "an import's path is not literal",
    [TSILMOGAR_UNUSED] = "the name is not used",
    [TSILMOGAR_USED_BY_UNUSED] = "the name is only used by unused siblings",
    [TSILMOGAR_COULD_BE_HOISTED] = "the name is used but could be hoisted",
    [TSILMOGAR_IDENTITY] = "a function that answers its parameter",
};

/* Memory for the analyser: so many entries of a size in bytes, which may become as many as the cap. */
struct room {
    void *memory;
    uint32_t entries;
    uint32_t cap;
    size_t size;
};

enum { LOCALS, FRAMES, CAPTURES, REFERENCES, OUT, DIAGNOSTICS, ROOMS };

/* Fresh memory for so many entries, in the place of the old; 0 if there is none. One more, so that no size is 0. */
static int take(struct room *room, uint32_t entries)
{
    free(room->memory);
    room->entries = entries;
    room->memory = calloc((size_t)entries + 1, room->size);
    return room->memory != NULL;
}

/* Twice as many entries, or the cap; 0 where it is reached or there is no memory. */
static int grow(struct room *room)
{
    uint32_t twice = room->entries > room->cap / 2 ? room->cap : 2 * room->entries;
    if (room->entries >= room->cap)
        return 0;
    return take(room, twice > 0 ? twice : 1);
}

/* Starts with little, so that growing is seen to work; 0 if there is no memory. */
static int take_all(struct room *rooms)
{
    static const uint32_t caps[ROOMS] = {1 << 20, TSILMOGAR_FRAMES_ENOUGH, 1 << 20, 1 << 20, 1 << 26, 1 << 26};
    int i, there = 1;
    for (i = 0; i < ROOMS; i++) {
        rooms[i].memory = NULL;
        rooms[i].cap = caps[i];
        rooms[i].size = i < OUT ? TSILMOGAR_ENTRY_NUMBERS * sizeof(uint32_t) : 1;
        there = take(&rooms[i], 16) && there;
    }
    return there;
}

static void free_all(struct room *rooms)
{
    int i;
    for (i = 0; i < ROOMS; i++)
        free(rooms[i].memory);
}

/* The room that a refusal says is too small; none for the others. */
static struct room *too_small(struct room *rooms, uint64_t number)
{
    switch (number) {
    case TSILMOGAR_LOCALS_FULL: return &rooms[LOCALS];
    case TSILMOGAR_FRAMES_FULL: return &rooms[FRAMES];
    case TSILMOGAR_CAPTURES_FULL: return &rooms[CAPTURES];
    case TSILMOGAR_REFERENCES_FULL: return &rooms[REFERENCES];
    case TSILMOGAR_OUTPUT_FULL: return &rooms[OUT];
    case TSILMOGAR_DIAGNOSTICS_FULL: return &rooms[DIAGNOSTICS];
    default: return NULL;
    }
}

static size_t numbers(const struct room *table)
{
    return (size_t)table->entries * TSILMOGAR_ENTRY_NUMBERS;
}

static void call(struct room *r, const uint8_t *tree, size_t length, uint64_t *report)
{
    tsilmogar_analyze(
        tree, length,
        r[OUT].memory, r[OUT].entries,
        r[DIAGNOSTICS].memory, r[DIAGNOSTICS].entries,
        r[LOCALS].memory, numbers(&r[LOCALS]),
        r[FRAMES].memory, numbers(&r[FRAMES]),
        r[CAPTURES].memory, numbers(&r[CAPTURES]),
        r[REFERENCES].memory, numbers(&r[REFERENCES]),
        r[LOCALS].entries, r[FRAMES].entries, r[CAPTURES].entries, r[REFERENCES].entries,
        report);
}

/* Calls until nothing is too small any more or a cap is reached; 0 if memory ran out. */
static int call_growing(struct room *rooms, const uint8_t *tree, size_t length, uint64_t *report)
{
    struct room *small;
    do {
        call(rooms, tree, length, report);
        small = too_small(rooms, report[TSILMOGAR_NUMBER]);
    } while (small != NULL && grow(small));
    return small == NULL || small->memory != NULL;
}

/* A number at an offset, lowest byte first. */
static uint32_t number_at(const uint8_t *bytes, size_t at)
{
    return (uint32_t)bytes[at] | (uint32_t)bytes[at + 1] << 8
        | (uint32_t)bytes[at + 2] << 16 | (uint32_t)bytes[at + 3] << 24;
}

static void print_depth(const char *what, uint64_t depth)
{
    if (depth == TSILMOGAR_NO_DEPTH)
        printf("%s none\n", what);
    else
        printf("%s %" PRIu64 "\n", what, depth);
}

/* `DG`, then level, code, name and span; where the code is about no name, 0 stands there. */
static void print_diagnostic(const uint8_t *bytes)
{
    const char *level = number_at(bytes, 2) == TSILMOGAR_ERROR ? "error" : "warning";
    uint32_t code = number_at(bytes, 6);
    printf("%s %" PRIu32 " at span %" PRIu32 ", name %" PRIu32 ": %s\n",
        level, code, number_at(bytes, 14), number_at(bytes, 10), codes[code]);
}

static void print_diagnostics(const uint8_t *bytes, size_t length)
{
    size_t at;
    for (at = 0; at < length; at += TSILMOGAR_DIAGNOSTIC_BYTES)
        print_diagnostic(bytes + at);
}

/* What there is to say about a call, and how the program ends. */
static int print_answer(const struct room *rooms, const uint64_t *report)
{
    uint64_t number = report[TSILMOGAR_NUMBER];
    if (number != TSILMOGAR_ACCEPTED) {
        fprintf(stderr, "refusal %" PRIu64 " at byte %" PRIu64 ": %s\n",
            number, report[TSILMOGAR_PLACE], refusals[number]);
        return 1;
    }
    printf("accepted\n");
    printf("bytes of output %" PRIu64 "\n", report[TSILMOGAR_OUT_LENGTH]);
    printf("bytes of diagnostics %" PRIu64 "\n", report[TSILMOGAR_DIAGNOSTICS_LENGTH]);
    printf("errors %s\n", report[TSILMOGAR_ERRORED] ? "yes" : "no");
    printf("rounds %" PRIu64 "\n", report[TSILMOGAR_ROUNDS]);
    print_depth("object depth", report[TSILMOGAR_OBJECT_DEPTH]);
    print_depth("local depth", report[TSILMOGAR_LOCAL_DEPTH]);
    print_depth("greatest local depth", report[TSILMOGAR_GREATEST_LOCAL_DEPTH]);
    print_diagnostics(rooms[DIAGNOSTICS].memory, report[TSILMOGAR_DIAGNOSTICS_LENGTH]);
    return 0;
}

static int analyze(const uint8_t *tree, size_t length)
{
    struct room rooms[ROOMS];
    uint64_t report[TSILMOGAR_REPORT_NUMBERS];
    int ending = 2;
    if (take_all(rooms) && call_growing(rooms, tree, length, report))
        ending = print_answer(rooms, report);
    else
        fprintf(stderr, "there is not enough memory\n");
    free_all(rooms);
    return ending;
}

/* Reads one byte more than a tree may have, so that a longer file is refused (14). */
static int analyze_file(const char *path)
{
    const size_t most = (size_t)TSILMOGAR_TREE_BYTES + 1;
    uint8_t *tree = malloc(most);
    FILE *file = fopen(path, "rb");
    size_t length = file && tree ? fread(tree, 1, most, file) : 0;
    int ending = 2;
    if (!tree)
        fprintf(stderr, "there is not enough memory\n");
    else if (!file || ferror(file))
        fprintf(stderr, "%s: %s\n", path, strerror(errno));
    else
        ending = analyze(tree, length);
    if (file)
        fclose(file);
    free(tree);
    return ending;
}

int main(int count, char **words)
{
    if (count > 2) {
        fprintf(stderr, "usage: %s [FILE]\n", words[0]);
        return 2;
    }
    if (count == 2)
        return analyze_file(words[1]);
    return analyze(built_in, sizeof built_in - 1);
}
