/* Solves the sudoku of Wikipedia's article "Sudoku" by trying digits cell after cell, a call deeper for each, and
   prints the solution, which stands there too. */

#include "dash.h"

static char grid[] =
    "53..7...."
    "6..195..."
    ".98....6."
    "8...6...3"
    "4..8.3..1"
    "7...2...6"
    ".6....28."
    "...419..5"
    "....8..79";

/* The digits that each row, column and box has, a bit for each. */
static unsigned rows[9], columns[9], boxes[9];

static int tries;

static unsigned box_of(unsigned cell)
{
    return cell / 27 * 3 + cell % 9 / 3;
}

static void turn(unsigned cell, unsigned bit)
{
    rows[cell / 9] ^= bit;
    columns[cell % 9] ^= bit;
    boxes[box_of(cell)] ^= bit;
}

/* Whether the cells from this one on can be filled; then they are. */
static int solve(unsigned cell)
{
    unsigned taken;

    while (cell < 81 && grid[cell] != '.')
        cell++;
    if (cell == 81)
        return 1;
    taken = rows[cell / 9] | columns[cell % 9] | boxes[box_of(cell)];
    for (unsigned digit = 1; digit <= 9; digit++) {
        if (taken >> digit & 1)
            continue;
        tries++;
        grid[cell] = (char)('0' + digit);
        turn(cell, 1u << digit);
        if (solve(cell + 1))
            return 1;
        turn(cell, 1u << digit);
        grid[cell] = '.';
    }
    return 0;
}

int main(void)
{
    for (unsigned cell = 0; cell < 81; cell++)
        if (grid[cell] != '.')
            turn(cell, 1u << (grid[cell] - '0'));
    if (!solve(0))
        return 1;
    for (unsigned cell = 0; cell < 81; cell++) {
        put((unsigned char)grid[cell]);
        if (cell % 9 == 8)
            put('\n');
    }
    put_text("tries: ");
    put_decimal(tries);
    put('\n');
    return 0;
}
