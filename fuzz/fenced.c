/* SPDX-License-Identifier: Apache-2.0 */
#include "fenced.h"

#include <stdio.h>
#include <stdlib.h>
#include <string.h>
#include <sys/mman.h>
#include <unistd.h>

enum { GUARD_PATTERN = 0xC3 };

static void stop_if(int failed, const char *what)
{
    if (failed) {
        perror(what);
        exit(1);
    }
}

struct fence fence_around(size_t most)
{
    size_t page = (size_t)sysconf(_SC_PAGESIZE);
    size_t size = (most + GUARD_BYTES + page - 1) / page * page;
    uint8_t *all = mmap(NULL, size + 2 * page, PROT_NONE, MAP_PRIVATE | MAP_ANONYMOUS, -1, 0);
    stop_if(all == MAP_FAILED, "mmap");
    stop_if(mprotect(all + page, size, PROT_READ | PROT_WRITE) != 0, "mprotect");
    return (struct fence){.pages = all + page, .size = size};
}

struct buffer fenced_buffer(struct fence fence, size_t length, int at_the_end)
{
    uint8_t *start = at_the_end ? fence.pages + fence.size - length : fence.pages;
    uint8_t *guard = at_the_end ? start - GUARD_BYTES : start + length;
    memset(guard, GUARD_PATTERN, GUARD_BYTES);
    return (struct buffer){.start = start, .length = length, .guard = guard};
}

int guard_is_whole(struct buffer buffer)
{
    for (int i = 0; i < GUARD_BYTES; i++)
        if (buffer.guard[i] != GUARD_PATTERN)
            return 0;
    return 1;
}
