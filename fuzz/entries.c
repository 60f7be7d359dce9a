/* SPDX-License-Identifier: Apache-2.0 */
/* A libFuzzer target over the proved entries of the FM3130 at their C boundary. The input chooses the lengths and bytes
 * of all buffers. What is held of a run, a single event, the viewer and the fresh image stands in holding.c, of
 * catching up and mending in images.c, of the master's entries in masters.c. The plain program (bench/plain.c) is
 * compiled with the fuzzer's counters, so what is new in it also guides the search through the archive. */
#include "fm3130_part.h"
#include "holding.h"
#include "images.h"
#include "masters.h"

int LLVMFuzzerInitialize(int *count, char ***words);
int LLVMFuzzerTestOneInput(const uint8_t *data, size_t size);

enum { ASKED_BYTES = 16, IMAGE_CHOICES = 8, MASTER_CHOICES = 48 };

int LLVMFuzzerInitialize(int *count, char ***words)
{
    (void)count;
    (void)words;
    prepare();
    prepare_images();
    prepare_masters();
    return 0;
}

int LLVMFuzzerTestOneInput(const uint8_t *data, size_t size)
{
    struct choices all = {.next = data, .left = size};
    struct choices asked = take_choices(&all, ASKED_BYTES);
    struct choices image_choices = take_choices(&all, IMAGE_CHOICES);
    struct choices master_choices = take_choices(&all, MASTER_CHOICES);
    struct call call = choose_call(&fm3130_part, &all);
    hold_catch_up(call, &image_choices);
    hold_mend(call, &image_choices);
    hold_masters(&master_choices);
    hold_through(call, &master_choices);
    hold_part(call, asked);
    return 0;
}
