// SPDX-License-Identifier: Apache-2.0
// The headers in C++: their names link, K12's exact run has its answers, 31 April is put right, error -600 has its
// trim setting, and a part of the larger family counts an edge.
#include "fm31.h"
#include "fm3130.h"

#include "fm31.h" // twice is once
#include "fm3130.h"

#include <cstdio>
#include <cstring>

int main() {
    static uint8_t image[FM3130_IMAGE_BYTES], memory[FM3130_MEMORY_BYTES];
    static const uint8_t events[] = {0, 3, 2, 3, 2, 2, 2, 2, 2, 3, 1};
    static const uint8_t expected[] = {5, 5, 4, 5, 4, 4, 4, 4, 4, 4, 5};
    uint8_t answers[sizeof events];
    uint64_t number = fm3130_fresh(image, sizeof image);
    fm3130_ran ran = fm3130_run(image, sizeof image, memory, sizeof memory, events, sizeof events,
                                answers, sizeof answers);
    const uint8_t *day = fm3130_view(image, memory, FM3130_VIEW_REGISTERS, 5, 1, &number);
    if (ran.number != FM3130_OK || ran.count != sizeof events || number != FM3130_OK ||
        day != image + 5 || std::memcmp(answers, expected, sizeof answers) != 0) {
        std::fputs("ctest: DIFFERENT: K12 in C++\n", stderr);
        return 1;
    }
    static const uint8_t change[FM3130_CHANGE_BYTES] = {0x06, 0x31, 0x30};
    uint8_t changes[FM3130_CHANGES_ROOM];
    image[6] = 0x31;
    image[7] = 0x04;
    fm3130_mended mended = fm3130_mend(image, sizeof image, changes, sizeof changes);
    if (mended.number != FM3130_OK || mended.count != 1 || image[6] != 0x30 ||
        std::memcmp(changes, change, sizeof change) != 0) {
        std::fputs("ctest: DIFFERENT: 31 April put right in C++\n", stderr);
        return 1;
    }
    if (fm3130_trim_propose(-600) != 32 * FM3130_TRIM_PLUS + 1 ||
        fm3130_trim_check(-600, FM3130_TRIM_PLUS, 1) != FM3130_TRIM_ACCEPTED ||
        fm3130_trim_residue(-600, FM3130_TRIM_PLUS, 1) != -88) {
        std::fputs("ctest: DIFFERENT: the trim setting of error -600 in C++\n", stderr);
        return 1;
    }
    static uint8_t larger[FM31256_MEMORY_BYTES];
    uint8_t told[FM31_TOLD_BYTES];
    const uint8_t *counts = larger;
    number = fm31_fresh(image, sizeof image);
    if (number == FM31_OK) {
        number = fm31256_step(image, sizeof image, larger, sizeof larger, FM31_EDGE_1, told,
                              sizeof told);
    }
    if (number == FM31_OK) {
        counts = fm31256_view(image, larger, FM31_VIEW_REGISTERS, FM31_PLACE(FM31_COUNTER_1_LOW), 4,
                              &number);
    }
    if (number != FM31_OK || counts != image + 4 || counts[0] != 1 || told[0] != FM31_ANSWER_LINE) {
        std::fputs("ctest: DIFFERENT: an edge counted in C++\n", stderr);
        return 1;
    }
    return 0;
}
