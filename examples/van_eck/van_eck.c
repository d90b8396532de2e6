/* Van Eck's sequence (A181391 of the On-Line Encyclopedia of Integer Sequences): each term says how long ago the one
   before it was there, or is 0 where it is new. The places of all values that may come are kept in a table of
   960,000 bytes in `.bss`, which is almost all of memory and takes none of the file. The first terms stand in the
   encyclopedia, and the 991st to the 1,000th are those of Rosetta Code. */

#include "dash.h"

#define TERMS 12000
#define VALUES 240000

/* The last place at which a value was, counted from 1, or 0. */
static unsigned place[VALUES];

int main(void)
{
    unsigned term = 0, zeros = 0, greatest = 0;

    for (unsigned n = 1; n <= TERMS; n++) {
        unsigned before = place[term];
        unsigned next = before == 0 ? 0 : n - before;
        if (n <= 20 || (n > 990 && n <= 1000)) {
            put_decimal((int)term);
            put(n == 20 || n == 1000 ? '\n' : ' ');
        }
        zeros += term == 0;
        greatest = term > greatest ? term : greatest;
        place[term] = n;
        term = next;
    }
    put_decimal(TERMS);
    put_text(" terms, zeros: ");
    put_decimal((int)zeros);
    put_text(", greatest: ");
    put_decimal((int)greatest);
    put('\n');
    return 0;
}
