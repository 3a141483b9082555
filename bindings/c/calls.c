/* calls inputs FILE.tsv..: asks the library about the input of each case, in each dialect, as a table, as an
 *     example and for the linter, with a buffer that is as long as the text and with one that is a byte
 *     shorter, and stops where an answer breaks what the header says.
 * calls memory FILE..: calls each function 10,000 times for each file, and fails where memory grows.
 * calls refused FILE..: refuses each growth of memory of a call in turn, which then has to be told, and leaves nothing.
 * calls time FILE..: prints the processor time of a call. */
#define _GNU_SOURCE
#include "schemars.h"

#include <malloc.h>
#include <stdio.h>
#include <stdlib.h>
#include <string.h>
#include <time.h>

/* The library's heap, with its blocks and its growths counted, of which one may be refused. */
static long blocks, growths, refused_growth;

static void *counted_malloc(size_t size)
{
    void *at = ++growths == refused_growth ? 0 : malloc(size);
    blocks += at != 0;
    return at;
}

static void *counted_realloc(void *old, size_t size)
{
    return ++growths == refused_growth ? 0 : realloc(old, size);
}

static void counted_free(void *at)
{
    blocks -= at != 0;
    free(at);
}

#define malloc counted_malloc
#define realloc counted_realloc
#define free counted_free
#include "heap.c"
#undef malloc
#undef realloc
#undef free

enum { TYPES, SAMPLE, LINT, KINDS };

struct question {
    int kind;
    uint32_t dialect, flags;
    const uint8_t *input;
    size_t len;
};

static void expect(int holds, const struct question *it, const char *what)
{
    if (holds) return;
    fprintf(stderr, "%s: kind %d, dialect %u, flags %u, %.*s\n", what, it->kind, (unsigned)it->dialect,
            (unsigned)it->flags, (int)it->len, (const char *)it->input);
    exit(1);
}

static uint32_t ask(const struct question *it, uint8_t *out, size_t room, size_t *needed)
{
    uint32_t status, verdict = 7;
    switch (it->kind) {
    case TYPES: status = schemars_types(it->dialect, it->flags, it->input, it->len, out, room, needed); break;
    case SAMPLE: status = schemars_sample(it->dialect, it->input, it->len, out, room, needed); break;
    default:
        status = schemars_lint(it->input, it->len, &verdict, out, room, needed);
        expect(verdict <= SCHEMARS_PLAIN_UNDER_BOTH, it, "no verdict");
    }
    expect(blocks == 0, it, "a call left memory");
    return status;
}

static unsigned long documents, refusals;

/* A buffer of exactly the size that is asked for has its text, and a byte less is too little. */
static void try_one(const struct question *it)
{
    uint8_t nothing = 0x5a;
    size_t needed = 7, again = 7;
    uint32_t status = ask(it, &nothing, 0, &needed);
    expect(nothing == 0x5a, it, "a buffer of no bytes was touched");
    if (status != SCHEMARS_NO_ROOM) {
        refusals++;
        expect(status != SCHEMARS_DONE, it, "done without room");
        expect(needed == 0, it, "a refusal needs room");
        return;
    }
    documents++;
    size_t room = needed;
    uint8_t *out = malloc(room + 8);
    if (!out) abort();
    memset(out, 0x5a, room + 8);
    expect(ask(it, out, room - 1, &again) == SCHEMARS_NO_ROOM && again == room, it, "a byte less was enough");
    for (size_t i = 0; i < room + 8; i++) expect(out[i] == 0x5a, it, "touched without room");
    expect(ask(it, out, room + 4, &again) == SCHEMARS_DONE && again == room, it, "not done");
    expect(out[room - 1] == '\n', it, "no newline at the end");
    for (size_t i = room; i < room + 8; i++) expect(out[i] == 0x5a, it, "touched beyond the text");
    free(out);
    uint8_t *exact = malloc(room);
    if (!exact) abort();
    expect(ask(it, exact, room, &again) == SCHEMARS_DONE && again == room, it, "not done in the exact room");
    free(exact);
}

/* Numbers beyond those of dialects and flags are refused as such. */
static void try_numbers(void)
{
    static const uint32_t numbers[] = {0, 1, 2, 3, 4, 5, 255, 256, 1u << 31, 0xffffffff};
    const uint8_t *input = (const uint8_t *)"";
    for (size_t a = 0; a < sizeof numbers / sizeof *numbers; a++)
        for (size_t b = 0; b < sizeof numbers / sizeof *numbers; b++)
            for (int kind = TYPES; kind <= SAMPLE; kind++) {
                struct question it = {kind, numbers[a], numbers[b], input, 0};
                size_t needed = 7;
                uint8_t nothing;
                uint32_t status = ask(&it, &nothing, 0, &needed);
                int wrong = numbers[a] > 3 || (kind == TYPES && numbers[b] > 3);
                expect(status == (wrong ? SCHEMARS_USAGE : SCHEMARS_NOT_JSON) && needed == 0, &it, "numbers");
            }
}

static uint8_t *file_of(const char *name, size_t *len)
{
    FILE *file = fopen(name, "rb");
    if (!file || fseek(file, 0, SEEK_END)) {
        perror(name);
        exit(1);
    }
    long size = ftell(file);
    rewind(file);
    uint8_t *all = malloc((size_t)size + 1);
    if (!all) abort();
    *len = fread(all, 1, (size_t)size, file);
    all[*len] = 0;
    fclose(file);
    return all;
}

/* The lines are a name, words, an input and an answer, with a tab between; those of the linter have no words. */
static void inputs(int count, char **names)
{
    try_numbers();
    unsigned long lines = 0, every = getenv("EVERY") ? strtoul(getenv("EVERY"), 0, 10) : 1;
    for (int n = 0; n < count; n++) {
        size_t len;
        char *all = (char *)file_of(names[n], &len);
        for (char *line = strtok(all, "\n"); line; line = strtok(0, "\n")) {
            char *first = strchr(line, '\t'), *second = first ? strchr(first + 1, '\t') : 0;
            if (!second || lines++ % every) continue;
            char *third = strchr(second + 1, '\t');
            int is_table = first[1] == '{';
            char *from = is_table ? first + 1 : second + 1, *to = is_table ? second : third ? third : second + 1;
            struct question it = {TYPES, 0, 0, (uint8_t *)from, (size_t)(to - from)};
            it.flags = lines % 4;
            for (it.dialect = 0; it.dialect < 4; it.dialect++) try_one(&it);
            it.kind = SAMPLE;
            it.dialect = lines % 4;
            try_one(&it);
            it.kind = LINT;
            try_one(&it);
        }
        free(all);
    }
    printf("library: %lu documents and %lu refusals, in buffers that are long enough and a byte too short\n", documents, refusals);
}

static size_t held(void)
{
    struct mallinfo2 now = mallinfo2();
    return now.uordblks + now.hblkhd;
}

static const char *const words[KINDS] = {"types", "sample", "lint"};

/* Beside the count of blocks after each call, what the C library holds: it keeps lists of small blocks that were
 * freed, and a block takes at least 32 bytes. */
enum { FIRST = 100, CALLS = 10000, LEAST = 30 };

static void memory(int count, char **names)
{
    int wrong = 0;
    size_t room = 1 << 20;
    uint8_t *out = malloc(room);
    if (!out) abort();
    for (int n = 0; n < count; n++) {
        size_t len, needed;
        uint8_t *input = file_of(names[n], &len);
        for (int kind = 0; kind < KINDS; kind++) {
            struct question it = {kind, 0, 0, input, len};
            size_t before = 0;
            for (int i = 0; i < FIRST + CALLS; i++) {
                if (i == FIRST) before = held();
                it.dialect = i % 4;
                if (ask(&it, out, room, &needed) != SCHEMARS_DONE) abort();
            }
            size_t after = held();
            if (after > before + LEAST * (size_t)CALLS) {
                fprintf(stderr, "%s of %s: %zu bytes were held before 10,000 calls, and %zu after\n", words[kind], names[n], before, after);
                wrong = 1;
            }
        }
        free(input);
    }
    free(out);
    if (wrong) exit(1);
    printf("library: 10,000 calls of each function leave nothing in memory\n");
}

/* A call whose growth is refused answers that memory ran out, or has the same text as with ample memory. */
static void refuse_each(const struct question *it, size_t room)
{
    size_t needed, again;
    uint8_t *ample = malloc(room), *out = malloc(room);
    if (!ample || !out) abort();
    refused_growth = growths = 0;
    expect(ask(it, ample, room, &needed) == SCHEMARS_DONE, it, "not done");
    long all = growths;
    for (long n = 1; n <= all; n++) {
        memset(out, 0x5a, room);
        growths = 0;
        refused_growth = n;
        uint32_t status = ask(it, out, room, &again);
        refused_growth = 0;
        if (status == SCHEMARS_DONE) {
            expect(again == needed && memcmp(out, ample, needed) == 0, it, "another text");
            continue;
        }
        expect(status == SCHEMARS_OUT_OF_MEMORY || status == SCHEMARS_WRITE, it, "another refusal");
        expect(again == 0, it, "a refusal needs room");
        for (size_t i = 0; i < room; i++) expect(out[i] == 0x5a, it, "touched by a refused call");
    }
    refusals += (unsigned long)all;
    free(ample);
    free(out);
}

static void refused(int count, char **names)
{
    for (int n = 0; n < count; n++) {
        size_t len;
        uint8_t *input = file_of(names[n], &len);
        struct question it = {TYPES, 0, 0, input, len};
        for (it.dialect = 0; it.dialect < 4; it.dialect++) refuse_each(&it, 16384);
        it.dialect = 0;
        for (it.kind = SAMPLE; it.kind < KINDS; it.kind++) refuse_each(&it, 16384);
        free(input);
    }
    printf("library: %lu growths of memory refused, each told, with nothing touched or left\n", refusals);
}

static void times(int count, char **names)
{
    size_t room = 1 << 22;
    uint8_t *out = malloc(room);
    if (!out) abort();
    for (int n = 0; n < count; n++) {
        size_t len, needed = 0;
        uint8_t *input = file_of(names[n], &len);
        for (int k = 0; k < 6; k++) {
            struct question it = {k < 4 ? TYPES : k - 3, k < 4 ? (uint32_t)k : 0, 0, input, len};
            struct timespec a, b;
            int calls = 1000;
            clock_gettime(CLOCK_PROCESS_CPUTIME_ID, &a);
            for (int i = 0; i < calls; i++) ask(&it, out, room, &needed);
            clock_gettime(CLOCK_PROCESS_CPUTIME_ID, &b);
            double took = (double)(b.tv_sec - a.tv_sec) * 1e6 + (double)(b.tv_nsec - a.tv_nsec) / 1e3;
            printf("%s\t%s %u\t%zu bytes in, %zu out\t%.1f us\n", names[n], words[it.kind], (unsigned)it.dialect, len, needed, took / calls);
        }
        free(input);
    }
    free(out);
}

int main(int argc, char **argv)
{
    const char *kind = argc > 2 ? argv[1] : "";
    if (strcmp(kind, "inputs") == 0) inputs(argc - 2, argv + 2);
    else if (strcmp(kind, "memory") == 0) memory(argc - 2, argv + 2);
    else if (strcmp(kind, "refused") == 0) refused(argc - 2, argv + 2);
    else if (strcmp(kind, "time") == 0) times(argc - 2, argv + 2);
    else return fprintf(stderr, "usage: calls inputs FILE.tsv.. | memory FILE.. | refused FILE.. | time FILE..\n"), 2;
    return 0;
}
