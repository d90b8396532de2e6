/* What the C programs share: printing, and the functions that the compiler may call by itself. */

#include "dash.h"

void put_text(const char *text)
{
    while (*text != 0)
        put((unsigned char)*text++);
}

void put_hex(unsigned value)
{
    for (int shift = 28; shift >= 0; shift -= 4)
        put((unsigned char)"0123456789abcdef"[value >> shift & 15]);
}

/* There is no division in RV32I: each digit is counted by subtraction. */
void put_decimal(int value)
{
    static const unsigned powers[] = {
        1000000000, 100000000, 10000000, 1000000, 100000, 10000, 1000, 100, 10, 1,
    };
    unsigned rest = (unsigned)value;
    int is_begun = 0;

    if (value < 0) {
        put('-');
        rest = -rest;
    }
    for (int i = 0; i < 10; i++) {
        unsigned char digit = '0';
        while (rest >= powers[i]) {
            rest -= powers[i];
            digit++;
        }
        if (digit != '0' || is_begun || i == 9) {
            put(digit);
            is_begun = 1;
        }
    }
}

unsigned times(unsigned a, unsigned b)
{
    unsigned product = 0;

    while (b != 0) {
        if (b & 1)
            product += a;
        a <<= 1;
        b >>= 1;
    }
    return product;
}

#ifdef __riscv
/* The compiler writes a call of this for `*`. */
unsigned __mulsi3(unsigned a, unsigned b)
{
    return times(a, b);
}

void *memcpy(void *to, const void *from, unsigned size)
{
    unsigned char *target = to;
    const unsigned char *source = from;

    while (size-- != 0)
        *target++ = *source++;
    return to;
}

void *memset(void *to, int value, unsigned size)
{
    unsigned char *target = to;

    while (size-- != 0)
        *target++ = (unsigned char)value;
    return to;
}
#endif
