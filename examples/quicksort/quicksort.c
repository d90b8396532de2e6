/* Sorts 400 random numbers by quicksort, which calls itself on both parts, and prints the least, the greatest, the
   one in the middle and how deep the calls went. The random numbers are those of the "minimal standard" generator
   of Park and Miller, whose 10,000th number from the seed 1 was published as 1043618065: it is printed first. The
   other lines are those of the same source built for the computer at hand (`make native`). */

#include "dash.h"

#define COUNT 400

static int numbers[COUNT];
static int seed = 1;
static int depth, deepest;

/* 16807 * seed modulo 2^31 - 1, by Schrage's way round products of more than 31 bits. */
static int next_random(void)
{
    seed = 16807 * (seed % 127773) - 2836 * (seed / 127773);
    if (seed < 0)
        seed += 2147483647;
    return seed;
}

static void exchange(int *a, int *b)
{
    int kept = *a;

    *a = *b;
    *b = kept;
}

/* Sorts numbers[first] to numbers[end - 1]. */
static void sort(int first, int end)
{
    int pivot, border = first;

    if (end - first < 2)
        return;
    depth++;
    if (depth > deepest)
        deepest = depth;
    pivot = numbers[end - 1];
    for (int i = first; i < end - 1; i++)
        if (numbers[i] < pivot)
            exchange(&numbers[i], &numbers[border++]);
    exchange(&numbers[border], &numbers[end - 1]);
    sort(first, border);
    sort(border + 1, end);
    depth--;
}

static int is_sorted(void)
{
    for (int i = 1; i < COUNT; i++)
        if (numbers[i - 1] > numbers[i])
            return 0;
    return 1;
}

static void put_row(const char *name, int value)
{
    put_text(name);
    put(' ');
    put_decimal(value);
    put('\n');
}

int main(void)
{
    for (int i = 0; i < 10000; i++)
        next_random();
    put_row("random number 10000:", seed);
    for (int i = 0; i < COUNT; i++)
        numbers[i] = next_random() % 2000001 - 1000000;
    sort(0, COUNT);
    put_row("sorted:", is_sorted());
    put_row("least:", numbers[0]);
    put_row("middle:", numbers[COUNT / 2]);
    put_row("greatest:", numbers[COUNT - 1]);
    put_row("deepest call:", deepest);
    return 0;
}
