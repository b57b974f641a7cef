/* The record layer as one function over bytes. It reads nothing itself, keeps nothing between two calls, and may be
   called by any threads at once, but not from a signal handler, nor in the child of a process with threads that forked.
   It takes memory by malloc, realloc and free, and gives all of it back. docs/guide/DRIVE.md describes the bytes. */
#ifndef RECORD_H
#define RECORD_H

#include <stddef.h>
#include <stdint.h>

#ifdef __cplusplus
extern "C" {
#endif

/* What record_drive answers. */
enum {
    RECORD_ANSWERED = 0,      /* the answer is in `out` */
    RECORD_TOO_SHORT = 1,     /* the answer has `*written` bytes, for which `out` has no room */
    RECORD_OUT_OF_MEMORY = 2, /* memory ran out */
    RECORD_BAD_FORM = 3,      /* `given` isn't of its form, or what it says was written is no transaction's */
    RECORD_BAD_COMMAND = 4    /* a command isn't of its form */
};

/* Answers what a host tells: which ranges it is to read next, or replies and what to commit. The bytes at `given` are
   only read. The two lengths are how many bytes there are at `given`, and for how many there is room at `out`; `out` and
   `written` overlap nothing else. `*written` is how long the answer is, or 0 where there is none. */
uint32_t record_drive(const uint8_t *given, size_t given_len, uint8_t *out, size_t out_len, size_t *written);

#ifdef __cplusplus
}
#endif

#endif
