/* A preloaded allocator that fails one request. Requests are counted from 1 in the file that HOSTILE_COUNT names, eight
 * bytes in the machine's order, and the request with the number HOSTILE_FAIL finds no memory; without it none fails.
 * Freeing is the C library's. */
#define _GNU_SOURCE
#include <errno.h>
#include <fcntl.h>
#include <stdint.h>
#include <stdlib.h>
#include <sys/mman.h>
#include <unistd.h>

extern void *__libc_malloc(size_t);
extern void *__libc_calloc(size_t, size_t);
extern void *__libc_realloc(void *, size_t);
extern void *__libc_memalign(size_t, size_t);

static uint64_t early, *count = &early, failing;

__attribute__((constructor)) static void begin(void) {
    const char *name = getenv("HOSTILE_COUNT"), *number = getenv("HOSTILE_FAIL");
    failing = number ? strtoull(number, 0, 10) : 0;
    int file = name ? open(name, O_RDWR | O_CREAT, 0600) : -1;
    if (file < 0 || ftruncate(file, sizeof *count))
        return;
    void *place = mmap(0, sizeof *count, PROT_READ | PROT_WRITE, MAP_SHARED, file, 0);
    close(file);
    if (place != MAP_FAILED) {
        *(uint64_t *)place = early;
        count = place;
    }
}

static int fails(void) {
    if (__atomic_add_fetch(count, 1, __ATOMIC_SEQ_CST) != failing)
        return 0;
    errno = ENOMEM;
    return 1;
}

void *malloc(size_t size) { return fails() ? 0 : __libc_malloc(size); }

void *calloc(size_t number, size_t size) { return fails() ? 0 : __libc_calloc(number, size); }

void *realloc(void *block, size_t size) { return fails() ? 0 : __libc_realloc(block, size); }

void *memalign(size_t boundary, size_t size) { return fails() ? 0 : __libc_memalign(boundary, size); }

void *aligned_alloc(size_t boundary, size_t size) { return memalign(boundary, size); }

int posix_memalign(void **block, size_t boundary, size_t size) {
    *block = memalign(boundary, size);
    return *block ? 0 : ENOMEM;
}
