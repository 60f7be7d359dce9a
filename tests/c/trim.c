/* SPDX-License-Identifier: Apache-2.0 */
/*
 * The trim functions through include/fm3130.h, against a plain search that knows nothing of how they
 * work: every error in range with every setting; and what is refused, by which number.
 */
#include <stddef.h>

#include "check.h"
#include "fm3130.h"

enum { LEAST_ERROR = -20000, GREATEST_ERROR = 20000, SIGNS = 2, CODES = 32 };

static unsigned long judged;

/* What a setting leaves, in the request's words. */
static int32_t residue_of(int32_t error, uint64_t sign, uint64_t code) {
    int32_t steps = (int32_t)code;
    return sign == FM3130_TRIM_PLUS ? error + 512 * steps : error - 256 * steps;
}

static int32_t distance_of(int32_t number) {
    return number < 0 ? -number : number;
}

/* The least distance from zero that any setting leaves. */
static int32_t least_distance(int32_t error) {
    int32_t least = distance_of(error);
    for (uint64_t sign = 0; sign < SIGNS; sign++) {
        for (uint64_t code = 0; code < CODES; code++) {
            int32_t distance = distance_of(residue_of(error, sign, code));
            least = distance < least ? distance : least;
        }
    }
    return least;
}

static void check_verdict(int32_t error, uint64_t sign, uint64_t code, uint64_t must_be) {
    uint64_t is = fm3130_trim_check(error, sign, code);
    judged++;
    if (is != must_be) {
        differ("trim: error %ld, sign %llu, code %llu: number is %llu, must be %llu", (long)error,
               (unsigned long long)sign, (unsigned long long)code, (unsigned long long)is,
               (unsigned long long)must_be);
    }
}

static void check_residue(int32_t error, uint64_t sign, uint64_t code, int32_t must_be) {
    int32_t is = fm3130_trim_residue(error, sign, code);
    if (is != must_be) {
        differ("trim: error %ld, sign %llu, code %llu: residue is %ld, must be %ld", (long)error,
               (unsigned long long)sign, (unsigned long long)code, (long)is, (long)must_be);
    }
}

/* All settings of an error in range, and the one that is proposed. */
static void check_error(int32_t error) {
    int32_t least = least_distance(error);
    for (uint64_t sign = 0; sign < SIGNS; sign++) {
        for (uint64_t code = 0; code < CODES; code++) {
            int32_t residue = residue_of(error, sign, code);
            check_verdict(error, sign, code,
                          distance_of(residue) == least ? FM3130_TRIM_ACCEPTED
                                                        : FM3130_TRIM_NOT_NEAREST);
            check_residue(error, sign, code, residue);
        }
    }
    uint64_t proposal = fm3130_trim_propose(error);
    if (proposal >= FM3130_TRIM_REFUSED) {
        differ("trim: error %ld: the proposal is %llu", (long)error, (unsigned long long)proposal);
    }
    check_verdict(error, proposal / CODES, proposal % CODES, FM3130_TRIM_ACCEPTED);
}

static void check_refused(int32_t error, uint64_t sign, uint64_t code, uint64_t number) {
    check_verdict(error, sign, code, number);
    check_residue(error, sign, code, 0);
}

/* The refusals, in the order of their numbers; a number that is cut to a byte would be good. */
static void check_refusals(void) {
    static const int32_t errors[] = {INT32_MIN, INT32_MIN + 1, -65536,   -20001,
                                     20001,     65536,         INT32_MAX};
    static const uint64_t codes[] = {32, 33, 63, 255, 256, UINT64_C(1) << 32, UINT64_MAX};
    static const uint64_t signs[] = {2, 3, 255, 256, 257, UINT64_C(1) << 32, UINT64_MAX};
    for (size_t i = 0; i < sizeof errors / sizeof errors[0]; i++) {
        for (size_t j = 0; j < sizeof codes / sizeof codes[0]; j++) {
            check_refused(errors[i], signs[j], codes[j], FM3130_TRIM_UNKNOWN_SIGN);
            check_refused(errors[i], FM3130_TRIM_PLUS, codes[j], FM3130_TRIM_ERROR_OUT_OF_RANGE);
            check_refused(0, FM3130_TRIM_MINUS, codes[j], FM3130_TRIM_CODE_ABOVE_31);
            check_refused(0, signs[j], 0, FM3130_TRIM_UNKNOWN_SIGN);
        }
        check_refused(errors[i], FM3130_TRIM_MINUS, 0, FM3130_TRIM_ERROR_OUT_OF_RANGE);
        check_equal("trim: a proposal out of range", fm3130_trim_propose(errors[i]),
                    FM3130_TRIM_REFUSED);
    }
}

unsigned long check_trim(void) {
    for (int32_t error = LEAST_ERROR; error <= GREATEST_ERROR; error++) {
        check_error(error);
    }
    check_refusals();
    return judged;
}
