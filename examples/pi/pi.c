/* Prints pi to 50 decimals by the spigot of Rabinowitz and Wagon, which needs small integers alone: each
   digit goes once over all terms with a multiplication, a division and a remainder. */

#include "dash.h"

#define DIGITS 51
/* One more digit is made than is printed: a digit is known once the next one that is not 9 is. */
#define TERMS ((DIGITS + 2) * 10 / 3 + 1)

static unsigned terms[TERMS];
static int printed;

static void put_digit(unsigned digit)
{
    if (printed < DIGITS)
        put((unsigned char)('0' + digit));
    if (printed == 0)
        put('.');
    printed++;
}

/* Multiplies the number that the terms stand for by 10, and takes its whole part away. */
static unsigned next_digit(void)
{
    unsigned carry = 0;

    for (unsigned i = TERMS; i > 1; i--) {
        unsigned sum = terms[i - 1] * 10 + carry * i;
        terms[i - 1] = sum % (2 * i - 1);
        carry = sum / (2 * i - 1);
    }
    carry += terms[0] * 10;
    terms[0] = carry % 10;
    return carry / 10;
}

int main(void)
{
    unsigned held = 0, nines = 0;

    for (unsigned i = 0; i < TERMS; i++)
        terms[i] = 2;
    held = next_digit();
    while (printed < DIGITS) {
        unsigned digit = next_digit();
        if (digit == 9) {
            nines++;
            continue;
        }
        put_digit(digit == 10 ? held + 1 : held);
        for (; nines > 0; nines--)
            put_digit(digit == 10 ? 0 : 9);
        held = digit == 10 ? 0 : digit;
    }
    put('\n');
    return 0;
}
