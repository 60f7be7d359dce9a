/* SPDX-License-Identifier: Apache-2.0 */
/* Buffers between two pages that may not be touched. The proved archive is not compiled with a sanitizer, so the
 * machine itself has to catch a read or a write beyond a buffer: one end of each buffer lies right at such a page, and
 * bytes of a known pattern lie at its other end. */
#ifndef FENCED_H
#define FENCED_H

#include <stddef.h>
#include <stdint.h>

/* Pages that can be touched, between two that cannot. */
struct fence {
    uint8_t *pages;
    size_t size;
};

/* A buffer within a fence: `start` has `length` bytes. */
struct buffer {
    uint8_t *start;
    uint64_t length;
    uint8_t *guard;
};

/* The guard bytes at the end of a buffer that does not lie at an untouchable page. */
enum { GUARD_BYTES = 64 };

/* A fence with room for a buffer of so many bytes and its guard. */
struct fence fence_around(size_t most);

/* A buffer of so many bytes: its end at the page after it, or its start at the page before it. */
struct buffer fenced_buffer(struct fence fence, size_t length, int at_the_end);

/* Whether the guard bytes of a buffer are as they were laid. */
int guard_is_whole(struct buffer buffer);

#endif
