/* SPDX-License-Identifier: Apache-2.0 */
/* A libFuzzer target over the proved entries of the larger family, in both sizes. What is held stands in holding.c; the
 * plain program is family_plain.c, which is compiled with the fuzzer's counters and so guides the search. */
#include "family_parts.h"
#include "holding.h"

int LLVMFuzzerInitialize(int *count, char ***words);
int LLVMFuzzerTestOneInput(const uint8_t *data, size_t size);

enum { ASKED_BYTES = 16 };

int LLVMFuzzerInitialize(int *count, char ***words)
{
    (void)count;
    (void)words;
    prepare();
    return 0;
}

int LLVMFuzzerTestOneInput(const uint8_t *data, size_t size)
{
    struct choices all = {.next = data, .left = size};
    struct choices asked = take_choices(&all, ASKED_BYTES);
    const struct part *part = &family_parts[choose_byte(&all) & 1];
    hold_part(choose_call(part, &all), asked);
    return 0;
}
