/* SPDX-License-Identifier: Apache-2.0 */
/*
 * The few functions that a compiler may call by itself, and so the proved archive too, for firmware
 * that links no C library. Leave this file out where a library has them. The targets are volatile,
 * so that no compiler takes a loop for what it is and calls the function from within itself.
 */
#include <stddef.h>
#include <stdint.h>

void *memset(void *to, int byte, size_t length);
void *memcpy(void *restrict to, const void *restrict from, size_t length);
void *memmove(void *to, const void *from, size_t length);

void *memset(void *to, int byte, size_t length) {
    volatile uint8_t *at = to;
    while (length-- > 0) {
        *at++ = (uint8_t)byte;
    }
    return to;
}

void *memcpy(void *restrict to, const void *restrict from, size_t length) {
    return memmove(to, from, length);
}

void *memmove(void *to, const void *from, size_t length) {
    volatile uint8_t *target = to;
    const uint8_t *source = from;
    if ((uintptr_t)target <= (uintptr_t)source) {
        while (length-- > 0) {
            *target++ = *source++;
        }
    } else {
        while (length-- > 0) {
            target[length] = source[length];
        }
    }
    return to;
}

#ifdef __arm__
/* The names under which compilers for ARM call them. */
void __aeabi_memclr(void *to, size_t length);
void __aeabi_memclr4(void *to, size_t length);
void __aeabi_memclr8(void *to, size_t length);
void __aeabi_memcpy(void *restrict to, const void *restrict from, size_t length);
void __aeabi_memcpy4(void *restrict to, const void *restrict from, size_t length);
void __aeabi_memcpy8(void *restrict to, const void *restrict from, size_t length);
void __aeabi_memmove(void *to, const void *from, size_t length);
void __aeabi_memset(void *to, size_t length, int byte);

void __aeabi_memclr(void *to, size_t length) {
    memset(to, 0, length);
}

void __aeabi_memclr4(void *to, size_t length) {
    memset(to, 0, length);
}

void __aeabi_memclr8(void *to, size_t length) {
    memset(to, 0, length);
}

void __aeabi_memcpy(void *restrict to, const void *restrict from, size_t length) {
    memmove(to, from, length);
}

void __aeabi_memcpy4(void *restrict to, const void *restrict from, size_t length) {
    memmove(to, from, length);
}

void __aeabi_memcpy8(void *restrict to, const void *restrict from, size_t length) {
    memmove(to, from, length);
}

void __aeabi_memmove(void *to, const void *from, size_t length) {
    memmove(to, from, length);
}

void __aeabi_memset(void *to, size_t length, int byte) {
    memset(to, byte, length);
}
#endif

#if defined __arm__ && !defined __ARM_FEATURE_IDIV
/* Division, on a core that has no instruction for it: the quotient in the low word of what is returned, the remainder in
 * the high one. By 0 both are 0 and the dividend; the archive divides by constants alone. */
uint64_t __aeabi_uidivmod(uint32_t dividend, uint32_t divisor);
uint32_t __aeabi_uidiv(uint32_t dividend, uint32_t divisor);

uint64_t __aeabi_uidivmod(uint32_t dividend, uint32_t divisor) {
    uint32_t quotient = 0;
    uint32_t bit = divisor != 0;
    while (bit != 0 && divisor < dividend && divisor >> 31 == 0) {
        divisor <<= 1;
        bit <<= 1;
    }
    for (; bit != 0; bit >>= 1, divisor >>= 1) {
        if (dividend >= divisor) {
            dividend -= divisor;
            quotient |= bit;
        }
    }
    return (uint64_t)dividend << 32 | quotient;
}

uint32_t __aeabi_uidiv(uint32_t dividend, uint32_t divisor) {
    return (uint32_t)__aeabi_uidivmod(dividend, divisor);
}
#endif
