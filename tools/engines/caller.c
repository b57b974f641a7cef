/* Calls the record layer from C over a file of calls, each with the answer that is wanted of it: from eight threads at
   once, with too little room, with each allocation failing in turn, with bytes that are cut off, and with bytes made by
   hand. It is linked so that malloc, realloc and free of the static library come by here. The last line of what it
   prints is 'N passed, M failed'. */
#include <pthread.h>
#include <stdio.h>
#include <stdlib.h>
#include <string.h>

#include "record.h"

enum { THREADS = 8, TURNS = 200, ROOM = 1 << 20, MOST = 4096 };

struct call {
    uint8_t *given, *wanted;
    uint32_t given_len, wanted_len;
};

static struct call calls[MOST];
static size_t count, passed, failed;

/* Of one thread: how many allocations it may still make before one fails, and how many blocks it holds. */
static _Thread_local long left = -1, held;

void *__real_malloc(size_t size);
void *__real_realloc(void *block, size_t size);
void __real_free(void *block);

static int fails(void) { return left >= 0 && left-- == 0; }

void *__wrap_malloc(size_t size) {
    void *made = fails() ? NULL : __real_malloc(size);
    held += made != NULL;
    return made;
}

void *__wrap_realloc(void *block, size_t size) {
    void *made = fails() ? NULL : __real_realloc(block, size);
    held += made != NULL && block == NULL;
    return made;
}

void __wrap_free(void *block) {
    held -= block != NULL;
    __real_free(block);
}

static void note(int is_right, const char *what, size_t place) {
    passed += is_right;
    failed += !is_right;
    if (!is_right)
        printf("FAILED: %s, call %zu\n", what, place);
}

/* Whether a call has the answer that is wanted, and gives back all memory. */
static int answers(const struct call *call, uint8_t *out) {
    size_t written = 7;
    long before = held;
    uint32_t status = record_drive(call->given, call->given_len, out, ROOM, &written);
    return status == RECORD_ANSWERED && written == call->wanted_len && held == before
        && memcmp(out, call->wanted, written) == 0;
}

static void *go_over_all(void *wrong) {
    uint8_t *out = __real_malloc(ROOM);
    for (int turn = 0; turn < TURNS; turn++)
        for (size_t place = 0; place < count; place++)
            *(size_t *)wrong += !answers(&calls[place], out);
    __real_free(out);
    return NULL;
}

static void try_threads(void) {
    pthread_t threads[THREADS];
    size_t wrong[THREADS] = {0};
    for (int it = 0; it < THREADS; it++)
        if (pthread_create(&threads[it], NULL, go_over_all, &wrong[it]))
            exit(2);
    for (int it = 0; it < THREADS; it++) {
        pthread_join(threads[it], NULL);
        note(wrong[it] == 0, "a thread", (size_t)it);
    }
}

static void try_room(uint8_t *out) {
    for (size_t place = 0; place < count; place++) {
        const struct call *call = &calls[place];
        size_t written = 7, again = 7;
        memset(out, 0xaa, ROOM);
        uint32_t few = record_drive(call->given, call->given_len, out, call->wanted_len - 1, &written);
        int untouched = out[0] == 0xaa && out[call->wanted_len] == 0xaa;
        uint32_t enough = record_drive(call->given, call->given_len, out, written, &again);
        note(few == RECORD_TOO_SHORT && written == call->wanted_len && untouched && enough == RECORD_ANSWERED
                 && again == written && memcmp(out, call->wanted, again) == 0, "room", place);
    }
}

/* Each allocation of a call fails in turn, until one call makes fewer than that. */
static void try_memory(uint8_t *out) {
    for (size_t place = 0; place < count; place++) {
        const struct call *call = &calls[place];
        for (long nth = 0;; nth++) {
            size_t written = 7;
            left = nth;
            uint32_t status = record_drive(call->given, call->given_len, out, ROOM, &written);
            int reached = left < 0;
            left = -1;
            if (!reached) {
                note(nth > 0, "no allocation came by here", place);
                break;
            }
            int is_whole = status == RECORD_ANSWERED && written == call->wanted_len
                && memcmp(out, call->wanted, written) == 0;
            note(held == 0 && (is_whole || (status == RECORD_OUT_OF_MEMORY && written == 0)), "memory", place);
        }
        note(answers(call, out), "after want of memory", place);
    }
}

/* What is cut off, or has a byte changed, is answered or refused, and gives back all memory. */
static void try_bad_bytes(uint8_t *out) {
    for (size_t place = 0; place < count && place < 40; place++) {
        const struct call *call = &calls[place];
        uint8_t *copy = __real_malloc(call->given_len);
        memcpy(copy, call->given, call->given_len);
        for (uint32_t at = 0; at < call->given_len; at++) {
            size_t written = 7;
            uint32_t status = record_drive(copy, at, out, ROOM, &written);
            note(held == 0 && (status == RECORD_BAD_FORM || status == RECORD_BAD_COMMAND) && written == 0, "cut", place);
            copy[at] ^= 0x55;
            status = record_drive(copy, call->given_len, out, ROOM, &written);
            note(held == 0 && status <= RECORD_BAD_COMMAND && status != RECORD_OUT_OF_MEMORY, "changed", place);
            copy[at] ^= 0x55;
        }
        __real_free(copy);
    }
}

/* Bytes made by hand, and the status that each has. VERSION is a version, NONE a count of nothing. */
#define VERSION "\0\0\0\0\0\0\0\0"
#define NONE "\0\0\0\0"
#define ONE "\1\0\0\0"
#define STEPS "{\"steps\":[]}"
#define BYTES(text) (const uint8_t *)(text), sizeof(text) - 1

static const struct {
    const char *what;
    uint32_t status;
    const uint8_t *given;
    size_t given_len;
} by_hand[] = {
    {"no bytes", RECORD_BAD_FORM, BYTES("")},
    {"another form", RECORD_BAD_FORM, BYTES("\2" VERSION NONE NONE NONE STEPS)},
    {"no commands", RECORD_ANSWERED, BYTES("\1" VERSION NONE NONE NONE STEPS)},
    {"an empty range", RECORD_ANSWERED, BYTES("\1" VERSION ONE NONE NONE NONE NONE STEPS)},
    {"a range turned", RECORD_BAD_FORM, BYTES("\1" VERSION ONE ONE "b" ONE "a" NONE NONE STEPS)},
    {"a range past all keys", RECORD_BAD_FORM, BYTES("\1" VERSION ONE NONE "\2\0\0\0\377\0" NONE NONE STEPS)},
    {"ranges that aren't there", RECORD_BAD_FORM, BYTES("\1" VERSION "\377\377\377\377" NONE NONE STEPS)},
    {"a pair of no bytes", RECORD_ANSWERED, BYTES("\1" VERSION NONE ONE NONE NONE NONE STEPS)},
    {"a key twice", RECORD_ANSWERED, BYTES("\1" VERSION NONE "\2\0\0\0" ONE "a" NONE ONE "a" NONE NONE STEPS)},
    {"a long value", RECORD_BAD_FORM, BYTES("\1" VERSION NONE ONE NONE "\377\377\377\377" NONE STEPS)},
    {"a set", RECORD_ANSWERED, BYTES("\1" VERSION NONE NONE ONE "\0" NONE NONE STEPS)},
    {"a clear", RECORD_ANSWERED, BYTES("\1" VERSION NONE NONE ONE "\1" NONE NONE STEPS)},
    {"an add", RECORD_ANSWERED, BYTES("\1" VERSION NONE NONE ONE "\2" NONE NONE STEPS)},
    {"a write of no kind", RECORD_BAD_FORM, BYTES("\1" VERSION NONE NONE ONE "\3" NONE NONE STEPS)},
    {"a write past all keys", RECORD_BAD_FORM, BYTES("\1" VERSION NONE NONE ONE "\0" ONE "\377" NONE STEPS)},
    {"the same, and no script", RECORD_BAD_COMMAND, BYTES("\1" VERSION NONE NONE ONE "\0" ONE "\377" NONE)},
    {"no script", RECORD_BAD_COMMAND, BYTES("\1" VERSION NONE NONE NONE "[]")},
    {"no step", RECORD_BAD_COMMAND, BYTES("\1" VERSION NONE NONE NONE "{\"steps\":[[\"load\"]]}")},
    {"no command", RECORD_BAD_COMMAND, BYTES("\1" VERSION NONE NONE NONE "{\"steps\":[[\"commit\",1]]}")},
};

static void try_by_hand(uint8_t *out) {
    for (size_t it = 0; it < sizeof by_hand / sizeof *by_hand; it++) {
        size_t written = 7;
        uint32_t status = record_drive(by_hand[it].given, by_hand[it].given_len, out, ROOM, &written);
        note(status == by_hand[it].status && (written == 0) == (status != RECORD_ANSWERED) && held == 0,
             by_hand[it].what, it);
    }
}

static uint8_t *read_bytes(FILE *file, uint32_t *len) {
    if (fread(len, sizeof *len, 1, file) != 1)
        return NULL;
    uint8_t *bytes = __real_malloc(*len + 1);
    if (fread(bytes, 1, *len, file) != *len)
        exit(2);
    return bytes;
}

int main(int argc, char **argv) {
    FILE *file = argc == 2 ? fopen(argv[1], "rb") : NULL;
    if (!file)
        return 2;
    while (count < MOST && (calls[count].given = read_bytes(file, &calls[count].given_len))) {
        calls[count].wanted = read_bytes(file, &calls[count].wanted_len);
        if (!calls[count++].wanted)
            return 2;
    }
    if (!count || fgetc(file) != EOF)
        return 2;
    fclose(file);
    uint8_t *out = __real_malloc(ROOM);
    held = 0;
    try_room(out);
    try_memory(out);
    try_bad_bytes(out);
    try_by_hand(out);
    try_threads();
    printf("%zu passed, %zu failed\n", passed, failed);
    return failed != 0;
}
