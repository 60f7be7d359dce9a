/* SPDX-License-Identifier: Apache-2.0 */
#include "holding.h"

#include <string.h>

#include "hold.h"

/* A run in pieces does so many events of its middle one by one. */
enum { MOST_STEPS = 64 };

enum { MOST_TOLD = 8 };

static struct fence told_fence;
static struct contents before, after, expected;

void prepare(void)
{
    lay_fences();
    told_fence = fence_around(MOST_TOLD);
}

/* ---- the list run */

static struct fm3130_ran run_part(struct call call, uint64_t from, uint64_t to)
{
    return call.part->run(call.image.start, call.image.length, call.memory.start, call.memory.length,
                          call.events.start + from, to - from, call.answers.start + from, call.answers.length - from);
}

static void hold_piece(struct call call, uint64_t from, uint64_t to)
{
    struct fm3130_ran ran = run_part(call, from, to);
    hold(ran.number == ACCEPTED && ran.count == to - from, "a piece of an accepted run is accepted");
}

/* What the plain program leaves of an accepted call; answers past the events stay as they were. */
static void run_plain(struct call call)
{
    copy(&expected, &before, call);
    call.part->plain(expected.image, expected.memory, expected.events, call.events.length, expected.answers);
}

static void hold_pieces(struct call call)
{
    restore(call, &before);
    hold_piece(call, 0, call.cut);
    hold_piece(call, call.cut, call.events.length);
    hold(holds(call, &after), "a run in two pieces equals the whole run");
    hold_guards(call);
}

static uint64_t do_step(struct call call, uint64_t event, struct buffer told)
{
    return call.part->step(call.image.start, call.image.length, call.memory.start, call.memory.length, event,
                           told.start, told.length);
}

/* One event of an accepted list by itself; its answer goes where the list run puts it. */
static void hold_step(struct call call, uint64_t place, struct buffer told)
{
    uint8_t old_image[IMAGE_BYTES];
    uint8_t event = call.events.start[place];
    memcpy(old_image, call.image.start, IMAGE_BYTES);
    hold(do_step(call, event, told) == ACCEPTED, "a single event of an accepted list is accepted");
    call.answers.start[place] = told.start[0];
    call.part->hold_told(old_image, call.image.start, event, told.start);
}

/* A run whose middle is done event by event. */
static void hold_steps(struct call call, int at_the_end)
{
    uint64_t left = call.events.length - call.cut;
    uint64_t end = call.cut + (left < MOST_STEPS ? left : MOST_STEPS);
    struct buffer told = fenced_buffer(told_fence, call.part->limits->told_bytes, at_the_end);
    restore(call, &before);
    hold_piece(call, 0, call.cut);
    for (uint64_t place = call.cut; place < end; place++)
        hold_step(call, place, told);
    hold_piece(call, end, call.events.length);
    hold(holds(call, &after), "a run with single events in its middle equals the whole run");
    hold_guards(call);
    hold(guard_is_whole(told), "the bytes beside what is told are untouched");
}

static void hold_accepted(struct call call, struct fm3130_ran ran)
{
    hold(ran.count == call.events.length, "the count is the number of events");
    hold(image_is_accepted(call.part->limits, call.image.start, call.image.length), "the image left is accepted again");
    keep(&after, call);
    run_plain(call);
    hold(holds(call, &expected), "answers, image and memory are those of the plain program");
    hold_pieces(call);
    hold_steps(call, call.cut & 1);
    restore(call, &before);
}

static void hold_run(struct call call)
{
    uint64_t number = run_number(call.part->limits, call.image.start, call.image.length, call.memory.length,
                                 call.events.start, call.events.length, call.answers.length);
    keep(&before, call);
    struct fm3130_ran ran = run_part(call, 0, call.events.length);
    hold(ran.number == number, "the run's number is the one of 01's table");
    hold_guards(call);
    if (number == ACCEPTED) {
        hold_accepted(call, ran);
        return;
    }
    hold(ran.count == 0, "a refused list has count 0");
    hold(holds(call, &before), "a refused list writes nothing");
}

/* ---- one event, asked on any buffers */

/* Image, memory and answer are those of the plain program on the list of this one event. */
static void hold_as_a_list(struct call call, uint8_t event, struct buffer told)
{
    uint8_t answer;
    copy(&expected, &before, call);
    call.part->plain(expected.image, expected.memory, &event, 1, &answer);
    hold(told.start[0] == answer, "a single event's answer is that of the list of one");
    hold(holds(call, &expected), "a single event leaves what the list of one leaves");
    call.part->hold_told(before.image, call.image.start, event, told.start);
    for (uint64_t i = call.part->limits->told_bytes; i < told.length; i++)
        hold(told.start[i] == OLD_BYTE, "bytes past what is told stay as they were");
}

static void hold_nothing_told(struct call call, struct buffer told)
{
    hold(holds(call, &before), "a refused single event writes nothing");
    for (uint64_t i = 0; i < told.length; i++)
        hold(told.start[i] == OLD_BYTE, "a refused single event tells nothing");
}

static void hold_single(struct call call, struct choices *choices)
{
    uint8_t way = choose_byte(choices);
    uint64_t event = way & 0x80 ? choose_number(choices) : way % (call.part->limits->highest_event + 3u);
    struct buffer told = fenced_buffer(told_fence, choose_byte(choices) % MOST_TOLD, way & 1);
    memset(told.start, OLD_BYTE, told.length);
    uint64_t number =
        step_number(call.part->limits, call.image.start, call.image.length, call.memory.length, event, told.length);
    keep(&before, call);
    hold(do_step(call, event, told) == number, "a single event's number is the one of the header");
    if (number == ACCEPTED)
        hold_as_a_list(call, (uint8_t)event, told);
    else
        hold_nothing_told(call, told);
    hold_guards(call);
    hold(guard_is_whole(told), "the bytes beside what is told are untouched");
    restore(call, &before);
}

/* ---- the viewer and the fresh image */

static void hold_view(struct call call, struct choices *choices)
{
    uint64_t selector = choose_number(choices);
    uint64_t start = choose_number(choices);
    uint64_t length = choose_number(choices);
    selector = selector % 4 == 3 ? selector : selector % 4;
    keep(&before, call);
    uint64_t number = call.part->view_number(call.image.start, call.image.length, call.memory.start, call.memory.length,
                                             selector, start, length);
    hold(number == view_number(call.part->limits, call.image.length, call.memory.length, selector, start, length),
         "the viewer's number is the one of 01's table");
    hold(holds(call, &before), "the viewer writes nothing");
    hold_guards(call);
}

static void hold_fresh(struct call call)
{
    keep(&before, call);
    uint64_t number = call.part->fresh(call.image.start, call.image.length);
    int fits = call.image.length == IMAGE_BYTES;
    hold(number == (fits ? ACCEPTED : WRONG_STATE), "the fresh image's number");
    hold(!fits || image_is_accepted(call.part->limits, call.image.start, call.image.length),
         "the fresh image is accepted");
    hold(fits || holds(call, &before), "a refused fresh image writes nothing");
    hold_guards(call);
    restore(call, &before);
}

void hold_part(struct call call, struct choices choices)
{
    hold_view(call, &choices);
    hold_single(call, &choices);
    hold_run(call);
    hold_fresh(call);
}
