/* The three functions of the heap that the proved code calls, over malloc, realloc and free. */
#include <stdlib.h>
#include <stdint.h>

struct tried { uint64_t ok; void *at; };
static unsigned char nothing;

struct tried rattle_alloc(size_t size, size_t align)
{
    void *at = malloc(size ? size : align);
    return (struct tried){at != 0, at ? at : &nothing};
}

struct tried rattle_realloc(void *old, size_t kept, size_t size, size_t align)
{
    void *at = realloc(old, size ? size : align);
    (void)kept;
    return (struct tried){at != 0, at ? at : &nothing};
}

void rattle_dealloc(void *at) { free(at); }
