/* Arithmetic of 64 bits, which RV32IMA has no instructions for: the compiler calls its library for divisions and
   shifts, and makes multiplications of MUL and MULHU. The hashes and random numbers are those that their authors
   published (FNV-1a of 64 bits; PCG32 with the seed 42 and the stream 54), the factorials are well known, and the
   quotients are those of the same source built for the computer at hand (`make native`). */

#include "dash.h"

typedef unsigned long long u64;
typedef long long i64;

static void put_hex_64(u64 value)
{
    put_hex((unsigned)(value >> 32));
    put_hex((unsigned)value);
}

static void put_decimal_64(u64 value)
{
    if (value >= 10)
        put_decimal_64(value / 10);
    put((unsigned char)('0' + value % 10));
}

static void put_signed_64(i64 value)
{
    if (value < 0)
        put('-');
    put_decimal_64(value < 0 ? -(u64)value : (u64)value);
}

static u64 fnv_1a(const char *text)
{
    u64 hash = 0xcbf29ce484222325;

    for (; *text != 0; text++)
        hash = (hash ^ (unsigned char)*text) * 0x00000100000001b3;
    return hash;
}

static u64 state, stream;

static unsigned next_random(void)
{
    u64 old = state;
    unsigned mixed = (unsigned)((old >> 18 ^ old) >> 27);
    unsigned turn = (unsigned)(old >> 59);

    state = old * 6364136223846793005 + stream;
    return mixed >> turn | mixed << (-turn & 31);
}

static void seed(u64 value, u64 number)
{
    state = 0;
    stream = number << 1 | 1;
    next_random();
    state += value;
    next_random();
}

static void hashes(void)
{
    static const char *const texts[] = { "", "a", "foobar" };

    for (unsigned i = 0; i < sizeof texts / sizeof texts[0]; i++) {
        put_hex_64(fnv_1a(texts[i]));
        put_text("  \"");
        put_text(texts[i]);
        put_text("\"\n");
    }
}

static void random_numbers(void)
{
    seed(42, 54);
    for (int i = 0; i < 6; i++) {
        put_text(i == 0 ? "" : " ");
        put_hex(next_random());
    }
    put('\n');
}

static void factorials(void)
{
    u64 product = 1;

    for (int n = 1; n <= 20; n++) {
        product *= (u64)n;
        if (n % 5 == 0) {
            put_decimal(n);
            put_text("! = ");
            put_decimal_64(product);
            put('\n');
        }
    }
}

/* Division goes toward 0, and the remainder has the sign of what is divided. */
static void quotients(void)
{
    static const i64 numbers[] = { 7000000000000000007, -7000000000000000007, 4294967296, -1 };
    static const i64 divisors[] = { 3000000001, -3000000001, 65536, -7 };

    for (unsigned i = 0; i < 4; i++) {
        for (unsigned k = 0; k < 4; k++) {
            put_signed_64(numbers[i]);
            put_text(" = ");
            put_signed_64(divisors[k]);
            put_text(" * ");
            put_signed_64(numbers[i] / divisors[k]);
            put_text(" + ");
            put_signed_64(numbers[i] % divisors[k]);
            put('\n');
        }
    }
}

int main(void)
{
    hashes();
    random_numbers();
    factorials();
    quotients();
    return 0;
}
