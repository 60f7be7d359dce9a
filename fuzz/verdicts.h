/* SPDX-License-Identifier: Apache-2.0 */
/* The verdicts of docs/CAPTURE.md, written down once more for the fuzzer. */
#ifndef VERDICTS_H
#define VERDICTS_H

#include <stdint.h>

enum { AGREES, DIFFERS, FAULTY, TOO_LONG };

enum { KIND_IMAGE = 1, KIND_MEMORY, KIND_EVENTS, KIND_ANSWERS };

enum { ENTRY_BYTES = 12, TABLE_BYTES = 48, MOST_FILE = 61440 };

struct verdict {
    uint64_t number;
    uint64_t place;
};

/* The verdict on a file, by the plain program in C. */
struct verdict verdict_on(const uint8_t *file, uint64_t length);

#endif
