/* SPDX-License-Identifier: Apache-2.0 */
/*
 * The archive against the second program, which is written apart from it. FRAMES has, each after a
 * length of two bytes, low byte first:
 *
 *   FFFFh        a fresh device with a memory of zeros
 *   0000h        a report: the line "image HEX memory SUM"
 *   any other    so many event bytes: the line "NUMBER COUNT SUM", the sum over the answers
 *
 * LINES has what the second program wrote. They are the files of crates/main_standin.
 */
#include <stdio.h>
#include <string.h>

#include "check.h"
#include "fm3130.h"

enum { ANEW = 0xFFFF, LINE = 256 };

/* What is run, and where it stands in the two files. */
struct bench {
    uint8_t image[FM3130_IMAGE_BYTES];
    uint8_t memory[FM3130_MEMORY_BYTES];
    uint8_t events[ANEW];
    uint8_t answers[ANEW];
    FILE *frames;
    FILE *lines;
    unsigned long line;
    unsigned long count;
};

/* A sum over bytes in their order, below 2^32. */
static unsigned long sum_of(const uint8_t *bytes, size_t length) {
    uint64_t sum = 0;
    for (size_t i = 0; i < length; i++) {
        sum = (sum * 257 + bytes[i]) % UINT64_C(4294967291);
    }
    return (unsigned long)sum;
}

static FILE *open_file(const char *name) {
    FILE *file = fopen(name, "rb");
    if (file == NULL) {
        differ("%s cannot be read", name);
    }
    return file;
}

/* The next line of the second program must be this one. */
static void check_line(struct bench *bench, const char *line) {
    char expected[LINE];
    bench->line++;
    if (fgets(expected, sizeof expected, bench->lines) == NULL) {
        differ("line %lu: the second program has none, the archive: %s", bench->line, line);
    }
    expected[strcspn(expected, "\n")] = '\0';
    if (strcmp(line, expected) != 0) {
        differ("line %lu, after %lu events\n  archive:        %s\n  second program: %s",
               bench->line, bench->count, line, expected);
    }
}

static void report(struct bench *bench) {
    char line[LINE] = "image ";
    size_t at = strlen(line);
    for (size_t i = 0; i < sizeof bench->image; i++) {
        at += (size_t)snprintf(line + at, sizeof line - at, "%02x", bench->image[i]);
    }
    snprintf(line + at, sizeof line - at, " memory %08lx",
             sum_of(bench->memory, sizeof bench->memory));
    check_line(bench, line);
}

static void run_events(struct bench *bench, size_t length) {
    char line[LINE];
    if (fread(bench->events, 1, length, bench->frames) != length) {
        differ("the frames end inside a frame, before line %lu", bench->line + 1);
    }
    struct fm3130_ran ran =
        fm3130_run(bench->image, sizeof bench->image, bench->memory, sizeof bench->memory,
                   bench->events, length, bench->answers, length);
    snprintf(line, sizeof line, "%llu %llu %08lx", (unsigned long long)ran.number,
             (unsigned long long)ran.count, sum_of(bench->answers, ran.count));
    bench->count += (unsigned long)ran.count;
    check_line(bench, line);
}

/* One frame; returns 0 at the end of the file. */
static int run_frame(struct bench *bench) {
    uint8_t head[2];
    size_t got = fread(head, 1, sizeof head, bench->frames);
    if (got != sizeof head) {
        check_equal("bytes after the last frame", got, 0);
        return 0;
    }
    size_t length = head[0] + 256u * head[1];
    if (length == ANEW) {
        memset(bench->memory, 0, sizeof bench->memory);
        check_equal("fresh", fm3130_fresh(bench->image, sizeof bench->image), FM3130_OK);
    } else if (length == 0) {
        report(bench);
    } else {
        run_events(bench, length);
    }
    return 1;
}

unsigned long check_frames(const char *frames, const char *lines) {
    static struct bench bench;
    bench.frames = open_file(frames);
    bench.lines = open_file(lines);
    while (run_frame(&bench)) {
    }
    if (fgetc(bench.lines) != EOF) {
        differ("line %lu: the second program has more lines", bench.line + 1);
    }
    fclose(bench.frames);
    fclose(bench.lines);
    return bench.count;
}
