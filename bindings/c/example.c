/* example KIND [DIALECT [FLAGS]] < INPUT: prints a document of a table (`types`) or of an example value
 * (`sample`), or what the linter says of a table (`lint`). It is C and C++. */
#include "schemars.h"

#include <stdio.h>
#include <stdlib.h>
#include <string.h>

static uint8_t *read_all(FILE *from, size_t *len)
{
    size_t room = 65536, used = 0, got;
    uint8_t *all = (uint8_t *)malloc(room);
    while (all && (got = fread(all + used, 1, room - used, from)) > 0) {
        used += got;
        if (used == room) {
            uint8_t *more = (uint8_t *)realloc(all, room *= 2);
            if (!more) free(all);
            all = more;
        }
    }
    *len = used;
    return all;
}

int main(int argc, char **argv)
{
    const char *kind = argc > 1 ? argv[1] : "types";
    uint32_t dialect = argc > 2 ? (uint32_t)atoi(argv[2]) : (uint32_t)SCHEMARS_2020_12;
    uint32_t flags = argc > 3 ? (uint32_t)atoi(argv[3]) : 0;
    uint32_t status, verdict;
    size_t len, needed, room = 16; /* so small that a second call follows */
    uint8_t *input = read_all(stdin, &len), *out = (uint8_t *)malloc(room);
    if (!input || !out) return 1;
    for (;;) {
        if (strcmp(kind, "sample") == 0) status = schemars_sample(dialect, input, len, out, room, &needed);
        else if (strcmp(kind, "lint") == 0) status = schemars_lint(input, len, &verdict, out, room, &needed);
        else status = schemars_types(dialect, flags, input, len, out, room, &needed);
        if (status != SCHEMARS_NO_ROOM) break;
        free(out);
        out = (uint8_t *)malloc(room = needed);
        if (!out) return 1;
    }
    if (status == SCHEMARS_DONE) fwrite(out, 1, needed, stdout);
    else fprintf(stderr, "%u: %s\n", (unsigned)status, schemars_message(status));
    free(out);
    free(input);
    return status != SCHEMARS_DONE;
}
