/* All harts add to a counter by ordinary accesses, without a lock: a data race, in which additions are lost. Nothing
 * is promised of the number that is printed. It is what the harts in rotation give: in each turn all of them load
 * the counter before any of them stores, so that one addition of four is left. */

#include "dash.h"

#define TURNS 25

static volatile unsigned counter;
static unsigned finished;

int main(unsigned hart, unsigned harts)
{
    for (int turn = 0; turn < TURNS; turn++)
        counter += 1;
    add_labelled(&finished, 1);
    if (hart == 0) {
        while (load_acquire(&finished) != harts)
            ;
        put_decimal((int)counter);
        put_text(" of 100 additions\n");
    }
    return 0;
}
