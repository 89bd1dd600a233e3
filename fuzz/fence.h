/* Buffers at whose end (or beginning) memory stops.
 *
 * The archive is not instrumented, so in the fuzzing run every buffer that it is lent lies against a page that cannot be read or
 * written: one byte too far, read or written, is a fault. The other side has guard bytes. Compiled with EXACT, every buffer is
 * malloc'ed with its exact size instead, for memcheck and the address sanitizer. */
#ifndef FENCE_H
#define FENCE_H

#include <stdbool.h>
#include <stddef.h>
#include <stdint.h>

enum buffer { CODE, STARTS, CALL, INDEX, OUT, RESULT, BUFFERS };

/* a buffer of so many bytes; at the front of its memory, or at the end */
void *fence_take(enum buffer b, size_t len, bool front);
/* whether the guard bytes beside every buffer taken are as they were */
bool fence_whole(void);
void fence_drop(void);

#endif
