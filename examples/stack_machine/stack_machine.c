/* Interprets the bytecode of a small stack machine, and runs three programs on it. */

#include "dash.h"

enum {
    PUSH,      /* a byte follows: pushes it */
    ADD,       /* a b -> a + b */
    SUB,       /* a b -> a - b */
    MUL,       /* a b -> a * b */
    LESS,      /* a b -> 1 where a < b, else 0 */
    GET,       /* a byte follows: pushes that variable */
    SET,       /* a byte follows: pops into that variable */
    JUMP,      /* a byte follows: goes there */
    JUMP_ZERO, /* a byte follows: pops, and goes there where it was 0 */
    PRINT,     /* pops, and prints it on a line */
    HALT,
};

#define STACK 16
#define VARIABLES 4

/* (6 + 8) * 3 */
static const unsigned char arithmetic[] = {
    PUSH, 6, PUSH, 8, ADD, PUSH, 3, MUL, PRINT, HALT,
};

/* The factorials of 1 to 10: variable 0 counts, variable 1 is the product. */
static const unsigned char factorials[] = {
    /* 0 */ PUSH, 1, SET, 0, PUSH, 1, SET, 1,
    /* 8 */ GET, 0, PUSH, 11, LESS, JUMP_ZERO, 34,
    /* 15 */ GET, 1, GET, 0, MUL, SET, 1, GET, 1, PRINT,
    /* 25 */ GET, 0, PUSH, 1, ADD, SET, 0, JUMP, 8,
    /* 34 */ HALT,
};

/* The greatest common divisor of 252 and 105, by subtraction. */
static const unsigned char divisor[] = {
    /* 0 */ PUSH, 252, SET, 0, PUSH, 105, SET, 1,
    /* 8 */ GET, 0, GET, 1, LESS, JUMP_ZERO, 24,
    /* 15 */ GET, 1, GET, 0, SUB, SET, 1, JUMP, 8,
    /* 24 */ GET, 1, GET, 0, LESS, JUMP_ZERO, 40,
    /* 31 */ GET, 0, GET, 1, SUB, SET, 0, JUMP, 8,
    /* 40 */ GET, 0, PRINT, HALT,
};

static int stack[STACK];
static int variables[VARIABLES];

static void run(const unsigned char *code)
{
    int pc = 0;
    int top = 0; /* how many numbers the stack has */

    for (;;) {
        int right;

        switch (code[pc++]) {
        case PUSH:
            stack[top++] = code[pc++];
            break;
        case ADD:
            right = stack[--top];
            stack[top - 1] += right;
            break;
        case SUB:
            right = stack[--top];
            stack[top - 1] -= right;
            break;
        case MUL:
            right = stack[--top];
            stack[top - 1] = (int)times((unsigned)stack[top - 1], (unsigned)right);
            break;
        case LESS:
            right = stack[--top];
            stack[top - 1] = stack[top - 1] < right;
            break;
        case GET:
            stack[top++] = variables[code[pc++]];
            break;
        case SET:
            variables[code[pc++]] = stack[--top];
            break;
        case JUMP:
            pc = code[pc];
            break;
        case JUMP_ZERO:
            pc = stack[--top] == 0 ? code[pc] : pc + 1;
            break;
        case PRINT:
            put_decimal(stack[--top]);
            put('\n');
            break;
        default: /* HALT */
            return;
        }
    }
}

int main(void)
{
    run(arithmetic);
    run(factorials);
    run(divisor);
    return 0;
}
