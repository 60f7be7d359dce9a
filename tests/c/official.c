/* SPDX-License-Identifier: Apache-2.0 */
/*
 * official FRAMES LINES: the archive through include/fm3130.h, as a host calls it. Linked with the
 * official archive for x86-64 (the real artifact) and with the one for this machine.
 *
 * K12's exact run, whole and in pieces; every refusal with untouched buffers; their order; the
 * fresh image; the viewer's number and the inline viewer; one event by itself (step.c); the next line
 * (line.c); images put right (mend.c); many ticks in one call (sleep.c); the master's side (master.c);
 * captures with and without faults (capture.c); the lamps (lamps.c); firmware/pins.c (pins.c); the
 * larger family (family.c), sets of it (set.c); then some 320,000 events against the second program (frames.c), and every
 * trim setting of every error against a plain search (trim.c). The first difference ends it with status 1.
 */
#include <stdarg.h>
#include <stdio.h>
#include <stdlib.h>
#include <string.h>

#include "check.h"
#include "fm3130.h"

enum { FILL = 0xA5, ROOM = FM3130_MEMORY_BYTES + 24 };

/*
 * The four buffers of a call, and their lengths. Each has room past its length and other bytes
 * before it, all of which are compared: a byte written where none may be is seen.
 */
struct call {
    uint64_t image_length, memory_length, events_length, answers_length;
    uint8_t image[ROOM], memory[ROOM], events[ROOM], answers[ROOM];
};

static const uint8_t exact_events[] = {0, 3, 2, 3, 2, 2, 2, 2, 2, 3, 1};
static const uint8_t exact_answers[] = {5, 5, 4, 5, 4, 4, 4, 4, 4, 4, 5};
/* clang-format off */
static const uint8_t fresh_image[FM3130_IMAGE_BYTES] = { /* the rows of docs/IMAGE.md */
    0x90, 0x80, 0, 0, 0, 1, 1, 1, 0, 0, 0, 0, 0, 0, 0, 0,
    0, 0, 1, 1, 1, 0, 0, 0, 0, 0, 0, 0, 0, 0, 0, 0,
    0, 0, 0, 0, 0, 0, 0, 0, 0, 0, 0, 0, 0, 0, 0, 0,
    0, 0, 0, 0, 0, 0, 0, 0, 0, 0, 0, 0, 0, 0x31, 0x30, 0x01};
/* clang-format on */

static struct call call, before;
static unsigned cases;

void differ(const char *format, ...) {
    va_list words;
    va_start(words, format);
    fflush(stdout);
    fputs("ctest: DIFFERENT: ", stderr);
    vfprintf(stderr, format, words);
    fputc('\n', stderr);
    va_end(words);
    exit(1);
}

void check_equal(const char *what, uint64_t is, uint64_t must_be) {
    if (is != must_be) {
        differ("%s is %llu, must be %llu", what, (unsigned long long)is,
               (unsigned long long)must_be);
    }
}

/* A buffer that must hold these bytes. */
static void check_bytes(const char *what, const char *buffer, const uint8_t *are,
                        const uint8_t *must_be, size_t length) {
    for (size_t i = 0; i < length; i++) {
        if (are[i] != must_be[i]) {
            differ("%s: %s: byte %zu is %02Xh, must be %02Xh", what, buffer, i, are[i], must_be[i]);
        }
    }
}

/* Fills the four buffers for K12's run on a fresh device. */
static void begin(void) {
    memset(&call, FILL, sizeof call);
    for (unsigned i = 0; i < FM3130_MEMORY_BYTES; i++) {
        call.memory[i] = (uint8_t)(i * 7 + i / 256);
    }
    call.image_length = FM3130_IMAGE_BYTES;
    call.memory_length = FM3130_MEMORY_BYTES;
    call.events_length = sizeof exact_events;
    call.answers_length = sizeof exact_answers;
    memcpy(call.image, fresh_image, sizeof fresh_image);
    memcpy(call.events, exact_events, sizeof exact_events);
}

static struct fm3130_ran run(void) {
    memcpy(&before, &call, sizeof call);
    cases++;
    return fm3130_run(call.image, call.image_length, call.memory, call.memory_length, call.events,
                      call.events_length, call.answers, call.answers_length);
}

/* All four buffers, with what lies around them, are as before the call. */
static void check_untouched(const char *what) {
    check_bytes(what, "image", call.image, before.image, ROOM);
    check_bytes(what, "memory", call.memory, before.memory, ROOM);
    check_bytes(what, "events", call.events, before.events, ROOM);
    check_bytes(what, "answers", call.answers, before.answers, ROOM);
}

static void check_refused(const char *what, uint64_t number) {
    struct fm3130_ran ran = run();
    check_equal(what, ran.number, number);
    check_equal(what, ran.count, 0);
    check_untouched(what);
}

/* K12: the answers, the count, the fresh image but for the phase, nothing else. */
static void check_exact_run(void) {
    begin();
    call.answers_length = sizeof exact_answers + 5;
    struct fm3130_ran ran = run();
    check_equal("K12: number", ran.number, FM3130_OK);
    check_equal("K12: count", ran.count, sizeof exact_events);
    check_bytes("K12", "answers", call.answers, exact_answers, sizeof exact_answers);
    check_bytes("K12", "image", call.image, fresh_image, sizeof fresh_image);
    memcpy(before.answers, exact_answers, sizeof exact_answers);
    check_untouched("K12");
}

/* The same in pieces of every length from 1 to 11; each piece has its own place in the buffers. */
static void check_pieces(uint64_t piece) {
    begin();
    for (uint64_t at = 0; at < sizeof exact_events; at += piece) {
        uint64_t left = sizeof exact_events - at;
        uint64_t length = left < piece ? left : piece;
        struct fm3130_ran ran =
            fm3130_run(call.image, FM3130_IMAGE_BYTES, call.memory, FM3130_MEMORY_BYTES,
                       call.events + at, length, call.answers + at, length);
        check_equal("pieces: number", ran.number, FM3130_OK);
        check_equal("pieces: count", ran.count, length);
    }
    cases++;
    check_bytes("pieces", "answers", call.answers, exact_answers, sizeof exact_answers);
    check_bytes("pieces", "image", call.image, fresh_image, sizeof fresh_image);
}

/* An empty list is accepted with count 0 and changes nothing, with and without room for answers. */
static void check_empty(void) {
    for (uint64_t room = 0; room <= 3; room++) {
        begin();
        call.events_length = 0;
        call.answers_length = room;
        struct fm3130_ran ran = run();
        check_equal("empty list: number", ran.number, FM3130_OK);
        check_equal("empty list: count", ran.count, 0);
        check_untouched("empty list");
    }
}

/* Numbers 1 and 2 by length. */
static void check_lengths(void) {
    static const uint64_t memories[] = {0, 1, 64, 8191, 8193, 8199};
    static const uint64_t images[] = {0, 1, 15, 63, 65, 127, 8192};
    for (size_t i = 0; i < sizeof memories / sizeof memories[0]; i++) {
        begin();
        call.memory_length = memories[i];
        check_refused("memory of another length", FM3130_WRONG_MEMORY);
    }
    for (size_t i = 0; i < sizeof images / sizeof images[0]; i++) {
        begin();
        call.image_length = images[i];
        check_refused("image of another length", FM3130_WRONG_STATE);
    }
}

/* Number 2 by content: a byte of the image at a place where it cannot stand. */
static void check_images(void) {
    static const uint8_t wrong[][2] = {
        {1, 0xC0},  {2, 0x80},  {4, 0x40},  {5, 0x08}, {6, 0x40},  {7, 0x20},  {11, 0x40},
        {13, 0x20}, {15, 0x80}, {17, 0x40}, {22, 15},  {23, 0x20}, {25, 3},    {26, 9},
        {27, 1},    {28, 1},    {29, 1},    {30, 1},   {60, 0xFF}, {61, 0x30}, {63, 0x02}};
    for (size_t i = 0; i < sizeof wrong / sizeof wrong[0]; i++) {
        begin();
        call.image[wrong[i][0]] = wrong[i][1];
        check_refused("an image that no state writes", FM3130_WRONG_STATE);
    }
    begin();
    memset(call.image, 0, FM3130_IMAGE_BYTES);
    check_refused("an image of zeros", FM3130_WRONG_STATE);
}

/* Numbers 3 and 4, the unknown event at each place of the list. */
static void check_events(void) {
    for (size_t i = 0; i < sizeof exact_events; i++) {
        begin();
        call.events[i] = i % 2 ? 8 : 0xFF;
        check_refused("an unknown event", FM3130_UNKNOWN_EVENT);
    }
    for (uint64_t room = 0; room < sizeof exact_events; room++) {
        begin();
        call.answers_length = room;
        check_refused("short answers", FM3130_SHORT_ANSWERS);
    }
}

/* "Checked in the order of the numbers": all four are wrong, then one after the other is right. */
static void check_order(void) {
    begin();
    call.memory_length = 8191;
    call.image_length = 63;
    call.events[10] = 8;
    call.answers_length = 10;
    check_refused("order: all wrong", FM3130_WRONG_MEMORY);
    call.memory_length = FM3130_MEMORY_BYTES;
    check_refused("order: the image on", FM3130_WRONG_STATE);
    call.image_length = FM3130_IMAGE_BYTES;
    check_refused("order: the events on", FM3130_UNKNOWN_EVENT);
    call.events[10] = FM3130_STOP;
    check_refused("order: the answers", FM3130_SHORT_ANSWERS);
    call.answers_length = 11;
    check_equal("order: nothing wrong", run().number, FM3130_OK);
}

static void check_fresh(void) {
    static const uint64_t lengths[] = {0, 1, 15, 63, 65, 8192};
    for (size_t i = 0; i < sizeof lengths / sizeof lengths[0]; i++) {
        begin();
        memcpy(&before, &call, sizeof call);
        check_equal("fresh: number", fm3130_fresh(call.image, lengths[i]), FM3130_WRONG_STATE);
        check_untouched("fresh, refused");
        cases++;
    }
    begin();
    memset(call.image, FILL, sizeof call.image);
    memcpy(&before, &call, sizeof call);
    check_equal("fresh: number", fm3130_fresh(call.image, FM3130_IMAGE_BYTES), FM3130_OK);
    memcpy(before.image, fresh_image, sizeof fresh_image);
    check_untouched("fresh");
    cases++;
}

/* A view: lengths of image and memory, what is asked, and the number. */
struct view {
    uint64_t image, memory, selector, start, length, number;
};

static const struct view views[] = {
    {64, 8192, 0, 0, 8192, 0},
    {64, 8192, 0, 0, 8193, 6},
    {64, 8192, 0, 8192, 0, 0},
    {64, 8192, 0, 8192, 1, 6},
    {64, 8192, 0, 8193, 0, 6},
    {64, 8192, 0, 0x123, 5, 0},
    {64, 8192, 0, 8191, 1, 0},
    {64, 8192, 1, 0, 15, 0},
    {64, 8192, 1, 0, 16, 6},
    {64, 8192, 1, 14, 1, 0},
    {64, 8192, 1, 15, 0, 0},
    {64, 8192, 1, 16, 0, 6},
    {64, 8192, 1, 5, 3, 0},
    {64, 8192, 2, 0, 0, 5},
    {64, 8192, 256, 0, 0, 5},
    {64, 8192, UINT64_C(1) << 32, 0, 0, 5},
    {64, 8192, UINT64_MAX, 0, 0, 5},
    {64, 8192, 0, UINT64_MAX, 1, 6},
    {64, 8192, 0, 1, UINT64_MAX, 6},
    {64, 8192, 1, UINT64_MAX, UINT64_MAX, 6},
    {64, 8192, 1, UINT64_C(1) << 32, 0, 6},
    {64, 8191, 0, 0, 0, 1},
    {64, 8193, 1, 0, 0, 1},
    {64, 0, 0, 0, 0, 1},
    {63, 8191, 2, 9999, 9999, 1},
    {63, 8192, 0, 0, 0, 2},
    {65, 8192, 1, 0, 0, 2},
    {0, 8192, 2, 9999, 9999, 2},
    {64, 8192, 3, 9999, 9999, 5},
};

/* The inline viewer: a place in the caller's own buffers, or the front of the memory. */
static void check_part(const struct view *view) {
    uint64_t number = 99;
    const uint8_t *part =
        fm3130_view(call.image, call.memory, view->selector, view->start, view->length, &number);
    const uint8_t *place = call.memory;
    if (view->number == FM3130_OK) {
        place = (view->selector == 0 ? call.memory : call.image) + view->start;
    }
    check_equal("view: number", number, view->number);
    if (part != place) {
        differ("view of selector %llu from %llu: it lies elsewhere",
               (unsigned long long)view->selector, (unsigned long long)view->start);
    }
}

static void check_views(void) {
    begin();
    memset(call.image, 0, FM3130_IMAGE_BYTES); /* the viewer tests length only */
    memcpy(&before, &call, sizeof call);
    for (size_t i = 0; i < sizeof views / sizeof views[0]; i++) {
        const struct view *view = &views[i];
        uint64_t number = fm3130_view_number(call.image, view->image, call.memory, view->memory,
                                             view->selector, view->start, view->length);
        if (number != view->number) {
            differ("view %zu of the table: number is %llu, must be %llu", i,
                   (unsigned long long)number, (unsigned long long)view->number);
        }
        if (view->image == FM3130_IMAGE_BYTES && view->memory == FM3130_MEMORY_BYTES) {
            check_part(view);
        }
        cases++;
    }
    check_untouched("views");
}

/* The version's parts and its text agree, and what is returned is at most two words. */
static void check_header(void) {
    char text[32];
    snprintf(text, sizeof text, "%d.%d.%d", FM3130_VERSION_MAJOR, FM3130_VERSION_MINOR,
             FM3130_VERSION_PATCH);
    if (strcmp(text, FM3130_VERSION) != 0) {
        differ("the version is %s, its parts are %s", FM3130_VERSION, text);
    }
    check_equal("bytes of struct fm3130_ran", sizeof(struct fm3130_ran), 16);
    check_equal("bytes of struct fm3130_mended", sizeof(struct fm3130_mended), 16);
    check_equal("bytes of struct fm3130_filled", sizeof(struct fm3130_filled), 16);
}

int main(int count, char **words) {
    if (count != 3) {
        fputs("usage: official FRAMES LINES\n", stderr);
        return 2;
    }
    check_header();
    check_exact_run();
    for (uint64_t piece = 1; piece <= sizeof exact_events; piece++) {
        check_pieces(piece);
    }
    check_empty();
    check_lengths();
    check_images();
    check_events();
    check_order();
    check_fresh();
    check_views();
    check_steps();
    check_line_refusals();
    check_catching_up();
    check_master();
    check_lamps();
    unsigned long events = check_frames(words[1], words[2]);
    unsigned long lines = check_lines(words[1]);
    if (events < 100000) {
        differ("only %lu events in %s, must be at least 100000", events, words[1]);
    }
    unsigned long mended = check_mends();
    unsigned long captures = check_captures();
    unsigned long calls = check_handheld();
    unsigned long clocks = check_pins();
    unsigned long family = check_family();
    check_sets();
    printf("ctest: %s: K12, %u cases of refusals and views, the master's side, %lu events as the second program, "
           "the line asked at %lu, %lu images put right, %lu calls of two masters by plain rules, %lu clocks on two "
           "wires, %lu captures, %lu trim settings as a plain search, the larger family by its page, %lu "
           "comparisons: equal\n",
           words[0], cases, events, lines, mended, calls, clocks, captures, check_trim(), family);
    return 0;
}
