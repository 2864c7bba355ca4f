/*
 * Tsilmogar's analyser for C and C++: the one function of libanalyze.a (`tools/build.sh analyze` makes it, for x86-64).
 *
 * What it takes and answers is document 01's (01-scope.md): the packed tree, the output's records, the diagnostics,
 * the refusals. For every tree, buffers and limits the report and all six buffers are proved to be those of the
 * document (docs/PROOFS.md). What the proof takes for granted is under "What the caller owes" below.
 */
#ifndef TSILMOGAR_H
#define TSILMOGAR_H

#include <stddef.h>
#include <stdint.h>

#ifdef __cplusplus
extern "C" {
#endif

/* A table has at least so many numbers for each entry of its limit; all four tables alike. */
#define TSILMOGAR_ENTRY_NUMBERS 16

/* A diagnostic has so many bytes: `DG`, then level, code, name and span. */
#define TSILMOGAR_DIAGNOSTIC_BYTES 18

/* The longest tree in bytes, and the deepest nesting of expressions (the root is 1). */
#define TSILMOGAR_TREE_BYTES 16777216
#define TSILMOGAR_NESTING 200

/* So many frames are enough for every tree: a level of nesting opens two at a time at most, and the root is one. */
#define TSILMOGAR_FRAMES_ENOUGH 401

/* The object depth and the local depth where nothing depends on an object or on a local. */
#define TSILMOGAR_NO_DEPTH 4294967295u

/* The report's numbers, in their order. */
enum tsilmogar_report {
    TSILMOGAR_NUMBER = 0,               /* 0, or the number of the refusal; all the rest but the place is then 0 */
    TSILMOGAR_PLACE = 1,                /* the offset in the tree of the record that was refused, else 0 */
    TSILMOGAR_OUT_LENGTH = 2,           /* bytes of output */
    TSILMOGAR_DIAGNOSTICS_LENGTH = 3,   /* bytes of diagnostics */
    TSILMOGAR_ERRORED = 4,              /* 1 if a diagnostic is an error, else 0 */
    TSILMOGAR_ROUNDS = 5,               /* rounds that settling took */
    TSILMOGAR_OBJECT_DEPTH = 6,         /* the root's dependence: least depth of an object, or TSILMOGAR_NO_DEPTH */
    TSILMOGAR_LOCAL_DEPTH = 7,          /* least depth of a local, or TSILMOGAR_NO_DEPTH */
    TSILMOGAR_GREATEST_LOCAL_DEPTH = 8, /* greatest depth of a local */
    TSILMOGAR_REPORT_NUMBERS = 9        /* how many there are */
};

/* Refusals. With more room a call that was refused with 6 to 10 or 17 may be accepted. 15 and 16 are never given. */
enum tsilmogar_refusal {
    TSILMOGAR_ACCEPTED = 0,         /* no refusal */
    TSILMOGAR_CUT_SHORT = 1,        /* a record's bytes run past the end */
    TSILMOGAR_WRONG_MARK = 2,       /* a mark isn't allowed there */
    TSILMOGAR_OUT_OF_RANGE = 3,     /* a flag, kind, set or visibility is out of range */
    TSILMOGAR_NESTED_TOO_DEEP = 4,  /* an expression is nested deeper than 200 */
    TSILMOGAR_BYTES_LEFT = 5,       /* bytes follow the expression */
    TSILMOGAR_LOCALS_FULL = 6,      /* a local beyond the limit of live locals */
    TSILMOGAR_FRAMES_FULL = 7,      /* a frame beyond the limit of open frames */
    TSILMOGAR_CAPTURES_FULL = 8,    /* a capture beyond the limit of captures in open frames */
    TSILMOGAR_OUTPUT_FULL = 9,      /* an output record doesn't fit */
    TSILMOGAR_DIAGNOSTICS_FULL = 10, /* a diagnostics record doesn't fit */
    TSILMOGAR_TOO_MANY_LOCALS = 11, /* over 65,535 external names, or a 65,536th local in one frame */
    TSILMOGAR_TOO_MANY_CAPTURES = 12, /* a 65,537th capture in one frame */
    TSILMOGAR_TABLE_SHORT = 13,     /* a table is shorter than 16 numbers per entry of its limit */
    TSILMOGAR_TREE_LONG = 14,       /* the tree is over 16,777,216 bytes */
    TSILMOGAR_REFERENCES_FULL = 17  /* a reference beyond the limit of references kept in open frames */
};

/* The level of a diagnostic. */
enum tsilmogar_level {
    TSILMOGAR_ERROR = 0,
    TSILMOGAR_WARNING = 1
};

/* The code of a diagnostic: 1 to 6 are errors, 7 to 10 warnings. 3 to 6 and 10 have no name; 0 stands for it. */
enum tsilmogar_code {
    TSILMOGAR_UNDEFINED = 1,        /* the name is not defined */
    TSILMOGAR_DEFINED_TWICE = 2,    /* the name is defined twice in one frame */
    TSILMOGAR_SELF_OUTSIDE = 3,     /* self outside of an object */
    TSILMOGAR_SUPER_OUTSIDE = 4,    /* super outside of an object */
    TSILMOGAR_DOLLAR_OUTSIDE = 5,   /* $ outside of an object */
    TSILMOGAR_IMPORT_COMPUTED = 6,  /* an import's path is not literal */
    TSILMOGAR_UNUSED = 7,           /* the name is not used */
    TSILMOGAR_USED_BY_UNUSED = 8,   /* the name is only used by unused siblings */
    TSILMOGAR_COULD_BE_HOISTED = 9, /* the name is used but could be hoisted */
    TSILMOGAR_IDENTITY = 10         /* a function that answers its parameter */
};

/*
 * Analyses a packed tree.
 *
 * tree         the packed tree; it is only read
 * out          takes the output, records in document 01's form
 * diagnostics  takes the diagnostics, TSILMOGAR_DIAGNOSTIC_BYTES each
 * locals, frames, captures, references
 *              working tables; the length of each is in numbers, and must be at least TSILMOGAR_ENTRY_NUMBERS times
 *              the limit of the same name, else the call is refused with 13
 * max_locals, max_frames, max_captures, max_references
 *              the limits: live locals, open frames, captures in open frames, references kept in open frames
 * report       takes the nine numbers of enum tsilmogar_report
 *
 * What comes back. An accepted call: report[TSILMOGAR_NUMBER] is 0, `out` and `diagnostics` hold as many bytes as the
 * report says and zeros after them, the tables are zero. A refused call: the report has the refusal's number and
 * place and else zeros, and all six buffers are zero from end to end. What the buffers held before makes no
 * difference. Every call writes all six from end to end, so a call costs at least what clearing them does.
 *
 * What the caller owes:
 * - no pointer is null, not even one whose length is 0, and each is aligned for its type;
 * - each points to as many numbers as the length after it says, the report to nine, all of them initialised (calloc);
 * - none of the six buffers overlaps another of them, the tree or the report;
 * - nothing else reads or writes the buffers, or writes the tree, until the call returns;
 * - there is stack: the analyser calls itself for each level of nesting, and no proof bounds that. Of trees nested 200
 *   deep in every form the greediest took 850 KiB, so 1 MiB is enough for those; some systems give threads less.
 *
 * Threads: it keeps no state (the archive has no data that can be written), allocates nothing, and calls nothing but
 * memset. Calls in several threads at once are fine as long as each has buffers and a report of its own; a tree may be
 * shared.
 */
void tsilmogar_analyze(
    const uint8_t *tree, size_t tree_length,
    uint8_t *out, size_t out_length,
    uint8_t *diagnostics, size_t diagnostics_length,
    uint32_t *locals, size_t locals_length,
    uint32_t *frames, size_t frames_length,
    uint32_t *captures, size_t captures_length,
    uint32_t *references, size_t references_length,
    uint32_t max_locals, uint32_t max_frames, uint32_t max_captures, uint32_t max_references,
    uint64_t report[TSILMOGAR_REPORT_NUMBERS]);

#ifdef __cplusplus
}
#endif

#endif
