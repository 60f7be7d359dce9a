/* SPDX-License-Identifier: Apache-2.0 */
/* The proving record over fm3130.h. No rule of the lamps stands here: the proved archive is asked. */
#include "lamps.h"

#include <stdlib.h>
#include <string.h>

void lamps_begin(struct lamps *lamps) {
    memset(lamps, 0, sizeof *lamps);
}

/* The story asks the device which field of the calendar changed, so the record follows on a copy. */
void lamps_follow(struct lamps *lamps, const struct device *before, uint8_t event) {
    struct device copy = *before;
    uint8_t answer;
    struct fm3130_shown shown =
        fm3130_lamps(copy.image, sizeof copy.image, copy.memory, sizeof copy.memory, &event, 1,
                     &answer, 1, lamps->record, sizeof lamps->record);
    if (shown.number != FM3130_OK) {
        fprintf(stderr, "fm3130-host: a record is refused: %s\n", number_words(shown.number));
        abort();
    }
    lamps->report = (uint8_t)shown.report;
}

void lamps_print(FILE *out, const struct lamps *lamps) {
    fputs("lamps   ", out);
    for (unsigned lamp = 0; lamp < FM3130_LAMPS; lamp++) {
        fputc(lamps->report >> lamp & 1 ? '*' : '.', out);
    }
    fputc('\n', out);
}
