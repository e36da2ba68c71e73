/* Counts the growths for which a program asks the C library, and refuses the one whose number REFUSED has. At exit two numbers
   are written to the file that GROWTHS names: that of growths, and that of refused ones. A block that is to become smaller is a
   growth as well, but isn't counted as refused, since it stays as it is. tools/memory.sh and tools/c.sh have a program load
   this. */
#include <errno.h>
#include <stdint.h>
#include <stdio.h>
#include <stdlib.h>

#define MOST (1 << 20)

void *__libc_malloc(size_t size);
void *__libc_calloc(size_t count, size_t size);
void *__libc_realloc(void *old, size_t size);

static long growths, number, refused;

/* The number of bytes for which a program asked at an address, last. */
static struct {
    void *at;
    size_t size;
} blocks[MOST];

static size_t *size_at(void *block) {
    size_t i = (uintptr_t)block / 16 % MOST;
    while (blocks[i].at != NULL && blocks[i].at != block)
        i = (i + 1) % MOST;
    blocks[i].at = block;
    return &blocks[i].size;
}

static void *made(void *block, size_t size) {
    if (block != NULL)
        *size_at(block) = size;
    return block;
}

static int is_refused(int is_smaller) {
    if (growths++ == 0 && getenv("REFUSED"))
        number = atol(getenv("REFUSED"));
    if (growths != number)
        return 0;
    refused += !is_smaller;
    errno = ENOMEM;
    return 1;
}

void *malloc(size_t size) { return is_refused(0) ? NULL : made(__libc_malloc(size), size); }

void *calloc(size_t count, size_t size) { return is_refused(0) ? NULL : made(__libc_calloc(count, size), count * size); }

void *realloc(void *old, size_t size) {
    int is_smaller = old != NULL && size < *size_at(old);
    return is_refused(is_smaller) ? NULL : made(__libc_realloc(old, size), size);
}

__attribute__((destructor)) static void tell(void) {
    long counts[] = {growths, refused};
    FILE *file = getenv("GROWTHS") ? fopen(getenv("GROWTHS"), "w") : NULL;
    if (file != NULL)
        fprintf(file, "%ld %ld\n", counts[0], counts[1]), fclose(file);
}
