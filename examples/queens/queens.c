/* Counts the ways to set n queens on an n by n board so that none attacks another, for n from 1 to 8. */

#include "dash.h"

/* The ways to fill the rows that are left; the sets have a bit for each column that is attacked. */
static int ways(unsigned all, unsigned columns, unsigned left, unsigned right)
{
    unsigned open = all & ~(columns | left | right);
    int count = 0;

    if (columns == all)
        return 1;
    while (open != 0) {
        unsigned queen = open & -open;
        open -= queen;
        count += ways(all, columns | queen, (left | queen) << 1, (right | queen) >> 1);
    }
    return count;
}

int main(void)
{
    for (int n = 1; n <= 8; n++) {
        put_decimal(n);
        put(' ');
        put_decimal(ways((1u << n) - 1, 0, 0, 0));
        put('\n');
    }
    return 0;
}
