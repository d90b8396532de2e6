/* Products of 4 by 4 matrices, with multiplication by shift and add, since RV32I has none. */

#include "dash.h"

#define SIZE 4

typedef int Matrix[SIZE][SIZE];

static const Matrix square = {
    { 16, 3, 2, 13 },
    { 5, 10, 11, 8 },
    { 9, 6, 7, 12 },
    { 4, 15, 14, 1 },
};

static const Matrix mixed = {
    { 1, -2, 3, -4 },
    { 0, 1000, -1, 5 },
    { -7, 0, 4096, 2 },
    { 6, -6, 6, -6 },
};

static Matrix product;

/* product = a * b; signed products are those of the two's complements. */
static void multiply(const Matrix a, const Matrix b)
{
    for (int row = 0; row < SIZE; row++)
        for (int column = 0; column < SIZE; column++) {
            unsigned sum = 0;
            for (int k = 0; k < SIZE; k++)
                sum += times((unsigned)a[row][k], (unsigned)b[k][column]);
            product[row][column] = (int)sum;
        }
}

static void show(void)
{
    for (int row = 0; row < SIZE; row++)
        for (int column = 0; column < SIZE; column++) {
            put_decimal(product[row][column]);
            put(column + 1 < SIZE ? ' ' : '\n');
        }
    put('\n');
}

int main(void)
{
    multiply(square, square);
    show();
    multiply(square, mixed);
    show();
    multiply(mixed, mixed);
    show();
    return 0;
}
