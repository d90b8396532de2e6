/* Hart 0 writes a message and then a flag, as a release; the others read the flag, as an acquire, until it is set, and
 * so find the whole message. Each answers with its sum in a word of its own. */

#include "dash.h"

#define LENGTH 12
#define MOST_HARTS 64

static unsigned message[LENGTH];
static unsigned is_sent;
static unsigned sums[MOST_HARTS];
static unsigned is_summed[MOST_HARTS];

static void wait_for(const unsigned *flag)
{
    while (load_acquire(flag) == 0)
        ;
}

static void send(void)
{
    unsigned value = 1;

    for (int i = 0; i < LENGTH; i++) {
        message[i] = value;
        value = value * 2 + 1;
    }
    store_release(&is_sent, 1);
}

static unsigned receive(void)
{
    unsigned sum = 0;

    wait_for(&is_sent);
    prefetch_to_read(&message[4]);
    for (int i = 0; i < LENGTH; i++)
        sum += message[i];
    return sum;
}

int main(unsigned hart, unsigned harts)
{
    if (hart != 0) {
        sums[hart] = receive() + hart;
        store_release(&is_summed[hart], 1);
        return 0;
    }
    send();
    for (unsigned other = 1; other < harts; other++) {
        wait_for(&is_summed[other]);
        put_text("hart ");
        put_decimal((int)other);
        put_text(" found ");
        put_decimal((int)sums[other]);
        put('\n');
    }
    return 0;
}
