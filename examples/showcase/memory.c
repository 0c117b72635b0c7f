/* The memory functions that the library wants, for a board without a C library. They copy by blocks of words. */
#include <stdint.h>

typedef __SIZE_TYPE__ size;

struct block {
    uintptr_t words[4];
};

void *memmove(void *to, const void *from, size count) {
    uint8_t *t = to;
    const uint8_t *f = from;

    if (t == f) {
        return to;
    }
    if ((uintptr_t)t - (uintptr_t)f < count) { /* it begins inside what is moved: from the end */
        while (count-- > 0) {
            t[count] = f[count];
        }
        return to;
    }
    if ((((uintptr_t)t | (uintptr_t)f) & (sizeof(uintptr_t) - 1)) == 0) {
        for (; count >= sizeof(struct block);
             count -= sizeof(struct block), t += sizeof(struct block), f += sizeof(struct block)) {
            *(struct block *)t = *(const struct block *)f;
        }
        for (; count >= sizeof(uintptr_t);
             count -= sizeof(uintptr_t), t += sizeof(uintptr_t), f += sizeof(uintptr_t)) {
            *(uintptr_t *)t = *(const uintptr_t *)f;
        }
    }
    while (count-- > 0) {
        *t++ = *f++;
    }
    return to;
}

void *memcpy(void *to, const void *from, size count) { return memmove(to, from, count); }

void *memset(void *to, int value, size count) {
    const uintptr_t word = (uint8_t)value * (~(uintptr_t)0 / 255);
    uint8_t *t = to;

    if (((uintptr_t)t & (sizeof(uintptr_t) - 1)) == 0) {
        for (; count >= sizeof word; count -= sizeof word, t += sizeof word) {
            *(uintptr_t *)t = word;
        }
    }
    while (count-- > 0) {
        *t++ = (uint8_t)value;
    }
    return to;
}

#ifdef __arm__
/* The names of Arm's run-time ABI for them, which compilers call; the digit is an alignment that the caller knows. */
void __aeabi_memcpy(void *to, const void *from, size count) { memmove(to, from, count); }
void __aeabi_memcpy4(void *to, const void *from, size count) { memmove(to, from, count); }
void __aeabi_memcpy8(void *to, const void *from, size count) { memmove(to, from, count); }
void __aeabi_memmove(void *to, const void *from, size count) { memmove(to, from, count); }
void __aeabi_memmove4(void *to, const void *from, size count) { memmove(to, from, count); }
void __aeabi_memmove8(void *to, const void *from, size count) { memmove(to, from, count); }
void __aeabi_memset(void *to, size count, int value) { memset(to, value, count); }
void __aeabi_memset4(void *to, size count, int value) { memset(to, value, count); }
void __aeabi_memset8(void *to, size count, int value) { memset(to, value, count); }
void __aeabi_memclr(void *to, size count) { memset(to, 0, count); }
void __aeabi_memclr4(void *to, size count) { memset(to, 0, count); }
void __aeabi_memclr8(void *to, size count) { memset(to, 0, count); }
#endif
