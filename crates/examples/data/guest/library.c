/* What compilers call by themselves: RV64I neither multiplies nor divides, and a large copy is a call. build.sh links this after each
   kernel, and the linker drops what is not called. The names are those of libgcc and of C. */
#include "sbi.h"

u64 __muldi3(u64 x, u64 y)
{
    u64 product = 0;
    if (x > y) {
        u64 smaller = y;
        y = x;
        x = smaller;
    }
    for (; x; x >>= 1, y <<= 1)
        if (x & 1)
            product += y;
    return product;
}

/* By 0 the quotient is all ones, and the remainder the number itself, as the instruction DIVU has it. */
static u64 divided(u64 number, u64 by, u64 *remainder)
{
    u64 quotient = 0, rest = 0;
    for (int bit = 63; bit >= 0; bit--) {
        u64 carry = rest >> 63;
        rest = rest << 1 | (number >> bit & 1);
        if (carry || rest >= by) {
            rest -= by;
            quotient |= 1ul << bit;
        }
    }
    *remainder = rest;
    return quotient;
}

u64 __udivdi3(u64 number, u64 by)
{
    u64 remainder;
    return divided(number, by, &remainder);
}

u64 __umoddi3(u64 number, u64 by)
{
    u64 remainder;
    divided(number, by, &remainder);
    return remainder;
}

static u64 size_of(long number)
{
    return number < 0 ? -(u64)number : (u64)number;
}

long __divdi3(long number, long by)
{
    u64 quotient = __udivdi3(size_of(number), size_of(by));
    return (long)((number < 0) != (by < 0) ? -quotient : quotient);
}

long __moddi3(long number, long by)
{
    u64 remainder = __umoddi3(size_of(number), size_of(by));
    return (long)(number < 0 ? -remainder : remainder);
}

/* An empty asm in each loop, else a compiler makes the loop a call of the function that it is. */

void *memcpy(void *to, const void *from, u64 bytes)
{
    for (u64 at = 0; at < bytes; at++) {
        ((char *)to)[at] = ((const char *)from)[at];
        asm volatile("");
    }
    return to;
}

void *memset(void *to, int byte, u64 bytes)
{
    for (u64 at = 0; at < bytes; at++) {
        ((char *)to)[at] = (char)byte;
        asm volatile("");
    }
    return to;
}
