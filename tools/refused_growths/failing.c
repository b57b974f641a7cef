// An allocator whose allocation of a given number fails: FAILS says which, from 1 on; and after it one in EVERY, where
// that is given, which ones is by chance: were it each one whose number EVERY divides, then what takes more of them at
// once would never be done. How many were made is kept as a number of 64 bits in the file that COUNT names, however the
// program ends. It is laid before the C library's by LD_PRELOAD.
#define _GNU_SOURCE
#include <dlfcn.h>
#include <fcntl.h>
#include <stdint.h>
#include <stdlib.h>
#include <sys/mman.h>
#include <unistd.h>

static uint64_t unseen;
static uint64_t *made = &unseen;
static uint64_t failing, every;

static void begin(void) {
    const char *number = getenv("FAILS"), *period = getenv("EVERY"), *name = getenv("COUNT");
    failing = number ? strtoull(number, NULL, 10) : 0;
    every = period ? strtoull(period, NULL, 10) : 0;
    int file = name ? open(name, O_RDWR | O_CLOEXEC) : -1;
    if (file < 0) return;
    void *page = mmap(NULL, sizeof *made, PROT_READ | PROT_WRITE, MAP_SHARED, file, 0);
    if (page != MAP_FAILED) made = page;
    close(file);
}

// A number in the place of another, the same one each time, as if by chance (the last steps of SplitMix64).
static uint64_t scrambled(uint64_t number) {
    number = (number ^ number >> 30) * 0xbf58476d1ce4e5b9;
    number = (number ^ number >> 27) * 0x94d049bb133111eb;
    return number ^ number >> 31;
}

static int fails(void) {
    static int begun;
    if (!begun) {
        begun = 1;
        begin();
    }
    uint64_t at = __atomic_add_fetch(made, 1, __ATOMIC_RELAXED);
    return at == failing || (every && failing && at > failing && scrambled(at) % every == 0);
}

void *malloc(size_t size) {
    static void *(*next)(size_t);
    if (!next) next = (void *(*)(size_t))dlsym(RTLD_NEXT, "malloc");
    return fails() ? NULL : next(size);
}

void *realloc(void *old, size_t size) {
    static void *(*next)(void *, size_t);
    if (!next) next = (void *(*)(void *, size_t))dlsym(RTLD_NEXT, "realloc");
    return fails() ? NULL : next(old, size);
}
