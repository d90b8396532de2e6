/* Sorts a table of signed numbers in place by heapsort and prints one a line. */

#include "dash.h"

#define COUNT 24

static int numbers[COUNT] = {
    170, -45, 75, 90, 802, 24, 2, 66, -2147483647 - 1, 2147483647, 0, -1,
    1, 75, 31415, -27182, 1000000, 999999, -1000000, 8, 7, 66, -45, 65536,
};

/* Lets the number at `root` sink to its place in the heap of the first `count` numbers. */
static void sink(int root, int count)
{
    for (;;) {
        int child = 2 * root + 1;

        if (child >= count)
            return;
        if (child + 1 < count && numbers[child] < numbers[child + 1])
            child++;
        if (numbers[root] >= numbers[child])
            return;
        int moved = numbers[root];
        numbers[root] = numbers[child];
        numbers[child] = moved;
        root = child;
    }
}

int main(void)
{
    for (int root = COUNT / 2 - 1; root >= 0; root--)
        sink(root, COUNT);
    for (int last = COUNT - 1; last > 0; last--) {
        int greatest = numbers[0];
        numbers[0] = numbers[last];
        numbers[last] = greatest;
        sink(0, last);
    }
    for (int i = 0; i < COUNT; i++) {
        put_decimal(numbers[i]);
        put('\n');
    }
    return 0;
}
