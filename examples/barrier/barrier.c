/* Rows of Pascal's triangle: each hart makes one number of the next row from two of the last one. A barrier
 * between the rows keeps every hart from going on before all have written. */

#include "dash.h"

#define MOST_HARTS 64

static unsigned arrived;
static unsigned phase;
static unsigned rows[2][MOST_HARTS];

/* The last hart that arrives opens the next phase; the others wait for it. */
static void wait_for_all(unsigned harts)
{
    unsigned now = load_acquire(&phase);

    if (add_labelled(&arrived, 1) == harts - 1) {
        store_release(&arrived, 0);
        store_release(&phase, now + 1);
        return;
    }
    while (load_acquire(&phase) == now)
        ;
}

static void show(const unsigned *row, unsigned harts)
{
    for (unsigned i = 0; i < harts; i++) {
        if (i != 0)
            put(' ');
        put_decimal((int)row[i]);
    }
    put('\n');
}

int main(unsigned hart, unsigned harts)
{
    rows[0][hart] = hart == 0;
    wait_for_all(harts);
    for (unsigned turn = 1; turn < harts; turn++) {
        const unsigned *last = rows[(turn - 1) & 1];

        rows[turn & 1][hart] = last[hart] + (hart == 0 ? 0 : last[hart - 1]);
        wait_for_all(harts);
    }
    if (hart == 0)
        show(rows[(harts - 1) & 1], harts);
    return 0;
}
