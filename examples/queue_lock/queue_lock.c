/* A lock word of the machine around a shared counter: the harts that wait for it do nothing, and need no loop. */

#include "dash.h"

#define TURNS 20
#define COUNTER_LOCK 0

static unsigned counter;
static unsigned finished;

int main(unsigned hart, unsigned harts)
{
    for (int turn = 0; turn < TURNS; turn++) {
        prefetch_to_write(&counter);
        lock(COUNTER_LOCK);
        counter += hart + 1;
        unlock(COUNTER_LOCK);
    }
    add_labelled(&finished, 1);
    if (hart == 0) {
        while (load_acquire(&finished) != harts)
            ;
        put_text("counter ");
        put_decimal((int)counter);
        put('\n');
    }
    return 0;
}
