/* Two harts that each have a lock word and ask for the other's: both wait for ever, and the run ends with status 12.
 * Where both asked for the words in one order, nobody would wait for ever. */

#include "dash.h"

static unsigned holders;

int main(unsigned hart, unsigned harts)
{
    (void)harts;
    if (hart == 0)
        put_text("each has a lock word, and asks for the other\n");
    lock(hart);
    add_labelled(&holders, 1);
    while (load_acquire(&holders) != 2)
        ;
    lock(1 - hart);
    put_text("never printed\n");
    unlock(1 - hart);
    unlock(hart);
    return 0;
}
