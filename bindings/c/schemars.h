/* JSON Schema documents from tables of types: the proved programs `schemagen` and `schemalint`, for C.
 *
 * Each call writes into a buffer of the caller's what the program would write to standard output, a
 * newline at its end included. A call keeps nothing, and calls in several threads share nothing.
 */
#ifndef SCHEMARS_H
#define SCHEMARS_H

#include <stddef.h>
#include <stdint.h>

#ifdef __cplusplus
extern "C" {
#endif

enum schemars_dialect {
    SCHEMARS_2020_12 = 0,
    SCHEMARS_2019_09 = 1,
    SCHEMARS_DRAFT_07 = 2,
    SCHEMARS_OPENAPI3 = 3
};

enum schemars_flag {
    SCHEMARS_INLINE = 1,   /* rows are written in place */
    SCHEMARS_SERIALIZE = 2 /* for the values that are written, not for those that are read */
};

/* What a call answers. Those from 1 to 24 are the numbers that `schemagen` prints. */
enum schemars_status {
    SCHEMARS_DONE = 0,             /* the text is at the front of `out` */
    SCHEMARS_OUT_OF_MEMORY = 1,
    SCHEMARS_UNDEFINED_TYPE = 2,   /* a row was reserved and never defined */
    SCHEMARS_REPEATED_NAME = 3,    /* a row's list of fields has a name twice */
    SCHEMARS_DIRECT_CYCLE = 4,     /* a row is on a cycle of rows that are written in place */
    SCHEMARS_EMPTY_CYCLE = 5,      /* a row is on a cycle of rows that have the values of the next */
    SCHEMARS_DEFINITIONS_PATH = 9, /* definitions cannot be placed */
    SCHEMARS_NOT_JSON = 20,
    SCHEMARS_BAD_TABLE = 21,       /* JSON, but no table with a root */
    SCHEMARS_NOT_WHOLE = 22,       /* a whole number of an example has more than 64 bits, or a float is out of range */
    SCHEMARS_WRITE = 24,           /* memory ran out while the text was written */
    SCHEMARS_USAGE = 100,          /* a number that names no dialect or no flags */
    SCHEMARS_NO_ROOM = 101         /* `room` is too small: `needed` says how much there must be */
};

enum schemars_verdict {
    SCHEMARS_REFUSED = 0,
    SCHEMARS_NOT_PLAIN = 1,
    SCHEMARS_PLAIN = 2,
    SCHEMARS_PLAIN_UNDER_READING = 3, /* not plain, but so for the values that are read, in 2020-12 and 2019-09 */
    SCHEMARS_PLAIN_UNDER_WRITING = 4, /* the same for the values that are written */
    SCHEMARS_PLAIN_UNDER_BOTH = 5
};

/* No pointer may be null, also where a length is 0. `out` has room for `room` bytes, and overlaps no
 * other argument. Lengths are below 2^63. The bytes of `out` need no value before. At SCHEMARS_DONE
 * and SCHEMARS_NO_ROOM `needed` is the length of the text, and else 0. At SCHEMARS_DONE `out` beyond
 * the text is as it was, and else all of it. */

/* The document of a table's root, or for OpenAPI its definitions. `flags` is an `or` of schemars_flag. */
uint32_t schemars_types(uint32_t dialect, uint32_t flags, const uint8_t *table, size_t len,
                        uint8_t *out, size_t room, size_t *needed);

/* The document of a schema that is made from an example, and accepts it. */
uint32_t schemars_sample(uint32_t dialect, const uint8_t *example, size_t len,
                         uint8_t *out, size_t room, size_t *needed);

/* What `schemalint` prints on a table, and its verdict: whether the table is plain. The verdict is there at
 * SCHEMARS_NO_ROOM too; where memory ran out, it is SCHEMARS_REFUSED. */
uint32_t schemars_lint(const uint8_t *table, size_t len, uint32_t *verdict,
                       uint8_t *out, size_t room, size_t *needed);

/* A sentence for a status. */
static inline const char *schemars_message(uint32_t status)
{
    switch (status) {
    case SCHEMARS_DONE: return "done";
    case SCHEMARS_OUT_OF_MEMORY: return "out of memory";
    case SCHEMARS_UNDEFINED_TYPE: return "a row was reserved and never defined";
    case SCHEMARS_REPEATED_NAME: return "a row's list of fields has a name twice";
    case SCHEMARS_DIRECT_CYCLE: return "a row is on a cycle of rows that are written in place";
    case SCHEMARS_EMPTY_CYCLE: return "a row is on a cycle of rows that have the values of the next";
    case SCHEMARS_DEFINITIONS_PATH: return "the definitions cannot be placed";
    case SCHEMARS_NOT_JSON: return "the input is not JSON";
    case SCHEMARS_BAD_TABLE: return "the input is JSON, but no table with a root";
    case SCHEMARS_NOT_WHOLE: return "a number of the example is out of range";
    case SCHEMARS_WRITE: return "memory ran out while the text was written";
    case SCHEMARS_USAGE: return "a number names no dialect or no flags";
    case SCHEMARS_NO_ROOM: return "the buffer is too short";
    default: return "unknown status";
    }
}

#ifdef __cplusplus
}
#endif

#endif
