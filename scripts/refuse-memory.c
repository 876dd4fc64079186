// Refuses a program requests for memory: the call of malloc or realloc with the number that the environment names, as REFUSE=7,
// and with COUNT=3 it and the two after it. With FROM=1000 the first call that counts is the first for 1,000 bytes or more. For
// each that it refuses it writes a line to descriptor 3, which says that the program made as many requests. For LD_PRELOAD, over
// the C library of GNU.
#include <stdatomic.h>
#include <stddef.h>
#include <stdlib.h>
#include <unistd.h>

void *__libc_malloc(size_t size);
void *__libc_realloc(void *block, size_t size);

static atomic_ulong requests;
static atomic_int counts;
static unsigned long refused, count, least;

static unsigned long number_of(const char *name, unsigned long otherwise) {
    const char *word = getenv(name);
    return word ? strtoul(word, NULL, 10) : otherwise;
}

__attribute__((constructor)) static void begin(void) {
    refused = number_of("REFUSE", 0);
    count = number_of("COUNT", 1);
    least = number_of("FROM", 0);
    atomic_store(&requests, 0);
    atomic_store(&counts, least == 0);
}

static int is_refused(size_t size) {
    if (size >= least) atomic_store(&counts, 1);
    if (!atomic_load(&counts)) return 0;
    unsigned long number = atomic_fetch_add(&requests, 1) + 1;
    if (refused == 0 || number < refused || number - refused >= count) return 0;
    return write(3, "refused\n", 8) != 0;
}

void *malloc(size_t size) {
    return is_refused(size) ? NULL : __libc_malloc(size);
}

void *realloc(void *block, size_t size) {
    return is_refused(size) ? NULL : __libc_realloc(block, size);
}
