/* SPDX-License-Identifier: Apache-2.0 */
/* A libFuzzer target over the proved entries for what stands beside a device: the proving record of eight lamps, two
 * masters on its bus, and trim settings of another clock. What is held of them stands in lamps.c, turns.c and trims.c;
 * their plain programs and bench/plain.c are compiled with the fuzzer's counters and guide the search. */
#include "fm3130_part.h"
#include "lamp_choices.h"
#include "lamps.h"
#include "trims.h"
#include "turns.h"

int LLVMFuzzerInitialize(int *count, char ***words);
int LLVMFuzzerTestOneInput(const uint8_t *data, size_t size);

enum { MOST_LAMP_CHOICES = 16, MOST_TURN_CHOICES = 64 };

/* The FM3130, with traffic that lamps are about. */
static struct part part;

int LLVMFuzzerInitialize(int *count, char ***words)
{
    (void)count;
    (void)words;
    part = fm3130_part;
    part.add_traffic = add_lamp_traffic;
    lay_fences();
    prepare_lamps();
    prepare_turns();
    hold_range();
    return 0;
}

/* As many of the next bytes as the first of them says, so that also a short input has events. */
static struct choices take_some(struct choices *all, unsigned most)
{
    return take_choices(all, choose_byte(all) % most);
}

static void choose_lamps(struct choices *all)
{
    struct choices lamp_choices = take_some(all, MOST_LAMP_CHOICES);
    struct buffer record = choose_record(all);
    struct call call = choose_call(&part, all);
    liven_lamps(call, &lamp_choices);
    hold_lamps(call, record);
}

static void choose_turns(struct choices *all)
{
    struct choices turn_choices = take_some(all, MOST_TURN_CHOICES);
    hold_turns(choose_call(&part, all), &turn_choices);
}

/* An input is about one of the three, so that it can be short. */
int LLVMFuzzerTestOneInput(const uint8_t *data, size_t size)
{
    struct choices all = {.next = data, .left = size};
    uint8_t about = choose_byte(&all);
    if (about < 0x20)
        hold_trims(&all);
    else if (about < 0x70)
        choose_turns(&all);
    else
        choose_lamps(&all);
    return 0;
}
