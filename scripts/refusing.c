// Put before the C library by scripts/refused_memory: one call of malloc or realloc finds no memory.
#include <errno.h>
#include <fcntl.h>
#include <stdatomic.h>
#include <stdlib.h>
#include <sys/mman.h>

extern void *__libc_malloc(size_t size);
extern void *__libc_realloc(void *old, size_t size);

static _Atomic long *calls; // how many there were since the program began, in a file that both sides map
static long refused;        // the number of the call that finds no memory, from 1 on; 0 where none does

__attribute__((constructor)) static void begin(void) {
    const char *file = getenv("REFUSED_COUNT"), *number = getenv("REFUSED_CALL");
    int opened = file ? open(file, O_RDWR) : -1;
    if (opened < 0 || !number) abort();
    void *room = mmap(0, sizeof *calls, PROT_READ | PROT_WRITE, MAP_SHARED, opened, 0);
    if (room == MAP_FAILED) abort();
    refused = atol(number);
    calls = room;
}

static int is_refused(void) { return calls && atomic_fetch_add(calls, 1) + 1 == refused; }

static void *none(void) {
    errno = ENOMEM;
    return 0;
}

void *malloc(size_t size) { return is_refused() ? none() : __libc_malloc(size); }

void *realloc(void *old, size_t size) { return is_refused() ? none() : __libc_realloc(old, size); }
