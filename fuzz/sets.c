/* SPDX-License-Identifier: Apache-2.0 */
/* A libFuzzer target over the proved entries of a set: up to four devices of the larger family on one line. The plain
 * program is family_plain.c, a device at a time, and guides the search. */
#include <string.h>

#include "../include/fm31.h"
#include "family_plain.h"
#include "hold.h"
#include "set_calls.h"

int LLVMFuzzerInitialize(int *count, char ***words);
int LLVMFuzzerTestOneInput(const uint8_t *data, size_t size);

int LLVMFuzzerInitialize(int *count, char ***words)
{
    (void)count;
    (void)words;
    lay_set_fences();
    return 0;
}

/* A list of events on the call's set, with room for these answers. */
static uint64_t run(const struct set_call *call, const uint8_t *events, uint64_t count, uint8_t *answers, uint64_t room)
{
    const struct buffer *memories = call->memories;
    return fm31_set_run(call->plan.start, call->plan.length, call->images.start, call->images.length, memories[0].start,
                        memories[0].length, memories[1].start, memories[1].length, memories[2].start,
                        memories[2].length, memories[3].start, memories[3].length, events, count, answers, room);
}

static uint64_t check(const struct set_call *call)
{
    const struct buffer *memories = call->memories;
    return fm31_set_check(call->plan.start, call->plan.length, call->images.start, call->images.length,
                          memories[0].start, memories[0].length, memories[1].start, memories[1].length,
                          memories[2].start, memories[2].length, memories[3].start, memories[3].length);
}

/* ---- the plain program */

/* Whether the device at a place hears an event byte, and the byte as the device has it. */
static int hears(uint64_t place, uint8_t event) { return event < 8 || event / 2 == place + 4; }

static uint8_t own_byte(uint8_t event) { return event < 8 ? event : 8 + event % 2; }

/* One event on all devices: the line is low if any pulls it low. */
static uint8_t plain_event(const struct set_call *call, struct set_contents *after, uint8_t event)
{
    uint8_t line = 1;
    for (uint64_t place = 0; place < places_of(call); place++) {
        struct limits limits = limits_at(call, place);
        uint8_t own = own_byte(event), answer;
        if (!hears(place, event))
            continue;
        family_run((unsigned)limits.memory_bytes, limits.select, &after->images[IMAGE_BYTES * place],
                   after->memories[place], &own, 1, &answer);
        line &= answer;
    }
    return line;
}

static void plain_run(const struct set_call *call, struct set_contents *after)
{
    for (uint64_t i = 0; i < call->events.length; i++)
        after->answers[i] = plain_event(call, after, call->events.start[i]);
}

/* ---- what is held */

static void hold_check(const struct set_call *call, const struct set_contents *before)
{
    hold(check(call) == check_number(call), "the number of making a set is the table's");
    hold(set_holds(call, before), "making a set writes nothing");
    hold_set_guards(call);
}

static void hold_images(const struct set_call *call)
{
    for (uint64_t place = 0; place < places_of(call); place++) {
        struct limits limits = limits_at(call, place);
        hold(image_is_accepted(&limits, &call->images.start[IMAGE_BYTES * place], IMAGE_BYTES),
             "each image that is left is accepted again");
    }
}

static void hold_pieces(const struct set_call *call, const struct set_contents *before,
                        const struct set_contents *after)
{
    uint64_t rest = call->events.length - call->cut;
    restore_set(call, before);
    hold(run(call, call->events.start, call->cut, call->answers.start, call->cut) == ACCEPTED,
         "the first piece of an accepted run is accepted");
    hold(run(call, &call->events.start[call->cut], rest, &call->answers.start[call->cut], rest) == ACCEPTED,
         "the second piece of an accepted run is accepted");
    hold(set_holds(call, after), "a run in two pieces equals the whole run");
}

static void hold_run(const struct set_call *call, const struct set_contents *before)
{
    static struct set_contents after;
    uint64_t wanted = set_run_number(call);
    uint64_t number = run(call, call->events.start, call->events.length, call->answers.start, call->answers.length);
    hold(number == wanted, "a run's number is the table's");
    hold_set_guards(call);
    if (number != ACCEPTED) {
        hold(set_holds(call, before), "a refused run changes nothing");
        return;
    }
    after = *before;
    plain_run(call, &after);
    hold(set_holds(call, &after), "answers, images and memories are the plain program's");
    hold_images(call);
    hold_pieces(call, before, &after);
}

int LLVMFuzzerTestOneInput(const uint8_t *data, size_t size)
{
    static struct set_contents before;
    struct choices all = {.next = data, .left = size};
    struct set_call call = choose_set_call(&all);
    keep_set(&before, &call);
    hold_check(&call, &before);
    hold_run(&call, &before);
    return 0;
}
