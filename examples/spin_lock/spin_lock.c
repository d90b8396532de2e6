/* A lock in a word of memory: 0 is free. A hart takes it by LR and SC, again and again until both saw it free, and
 * gives it back by a release. Under the lock all harts add to one counter. */

#include "dash.h"

#define TURNS 20

static unsigned lock_word;
static unsigned counter;
static unsigned finished;

static void take(void)
{
    do {
        while (load_acquire(&lock_word) != 0)
            ;
    } while (!store_conditional(&lock_word, 1));
}

static void give(void)
{
    store_release(&lock_word, 0);
}

int main(unsigned hart, unsigned harts)
{
    for (int turn = 0; turn < TURNS; turn++) {
        take();
        counter += hart + 1;
        give();
    }
    add_labelled(&finished, 1);
    if (hart == 0) {
        while (load_acquire(&finished) != harts)
            ;
        put_text("counter ");
        put_decimal((int)counter);
        put('\n');
    }
    return 0;
}
