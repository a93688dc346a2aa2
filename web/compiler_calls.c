// What the compiler calls by name: comparing of bytes, and integers of 128 bits.
#include "integers.h"

int memcmp(const void *one, const void *other, u64 size) {
    const byte *a = one, *b = other;
    for (; size >= 8; size -= 8, a += 8, b += 8) {
        u64 x, y;
        __builtin_memcpy(&x, a, 8);
        __builtin_memcpy(&y, b, 8);
        if (x != y) break;
    }
    for (; size; size--, a++, b++)
        if (*a != *b) return *a < *b ? -1 : 1;
    return 0;
}
int bcmp(const void *one, const void *other, u64 size) { return memcmp(one, other, size); }

// The product of two integers of 128 bits, by their halves; of the lower halves again by halves, so that nothing runs over.
u128 __multi3(u128 a, u128 b) {
    u64 a_low = (u64)a, b_low = (u64)b;
    u64 a0 = (u32)a_low, a1 = a_low >> 32, b0 = (u32)b_low, b1 = b_low >> 32;
    u64 low = a0 * b0;
    u64 middle = a1 * b0 + (low >> 32);
    u64 other_middle = a0 * b1 + (u32)middle;
    u64 high = a1 * b1 + (middle >> 32) + (other_middle >> 32);
    high += (u64)(a >> 64) * b_low + a_low * (u64)(b >> 64);
    return (u128)high << 64 | (other_middle << 32 | (u32)low);
}

union halves {
    u128 whole;
    struct {
        u64 low, high;
    };
};

// A shift by 64 or more takes one half alone. One by 0 would shift the other half by 64, which C does not define, so that goes in two steps.
u128 __ashlti3(u128 number, int by) {
    union halves from = {number}, to;
    if (by & 64) {
        to.low = 0;
        to.high = from.low << (by & 63);
    } else {
        to.low = from.low << (by & 63);
        to.high = from.high << (by & 63) | from.low >> 1 >> (63 - (by & 63));
    }
    return to.whole;
}
u128 __lshrti3(u128 number, int by) {
    union halves from = {number}, to;
    if (by & 64) {
        to.high = 0;
        to.low = from.high >> (by & 63);
    } else {
        to.high = from.high >> (by & 63);
        to.low = from.low >> (by & 63) | from.high << 1 << (63 - (by & 63));
    }
    return to.whole;
}
