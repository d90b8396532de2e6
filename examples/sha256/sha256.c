/* SHA-256 of FIPS 180-4, of the three texts whose digests are published with it. */

#include "dash.h"

static const unsigned constants[64] = {
    0x428a2f98, 0x71374491, 0xb5c0fbcf, 0xe9b5dba5, 0x3956c25b, 0x59f111f1, 0x923f82a4, 0xab1c5ed5,
    0xd807aa98, 0x12835b01, 0x243185be, 0x550c7dc3, 0x72be5d74, 0x80deb1fe, 0x9bdc06a7, 0xc19bf174,
    0xe49b69c1, 0xefbe4786, 0x0fc19dc6, 0x240ca1cc, 0x2de92c6f, 0x4a7484aa, 0x5cb0a9dc, 0x76f988da,
    0x983e5152, 0xa831c66d, 0xb00327c8, 0xbf597fc7, 0xc6e00bf3, 0xd5a79147, 0x06ca6351, 0x14292967,
    0x27b70a85, 0x2e1b2138, 0x4d2c6dfc, 0x53380d13, 0x650a7354, 0x766a0abb, 0x81c2c92e, 0x92722c85,
    0xa2bfe8a1, 0xa81a664b, 0xc24b8b70, 0xc76c51a3, 0xd192e819, 0xd6990624, 0xf40e3585, 0x106aa070,
    0x19a4c116, 0x1e376c08, 0x2748774c, 0x34b0bcb5, 0x391c0cb3, 0x4ed8aa4a, 0x5b9cca4f, 0x682e6ff3,
    0x748f82ee, 0x78a5636f, 0x84c87814, 0x8cc70208, 0x90befffa, 0xa4506ceb, 0xbef9a3f7, 0xc67178f2,
};

static unsigned state[8];
static unsigned char block[64];

static unsigned rotated(unsigned x, int n)
{
    return x >> n | x << (32 - n);
}

static void begin(void)
{
    static const unsigned start[8] = {
        0x6a09e667, 0xbb67ae85, 0x3c6ef372, 0xa54ff53a, 0x510e527f, 0x9b05688c, 0x1f83d9ab, 0x5be0cd19,
    };

    for (int i = 0; i < 8; i++)
        state[i] = start[i];
}

/* Takes the 64 bytes of the block in. */
static void take_block(void)
{
    unsigned w[64];
    unsigned v[8];

    for (int i = 0; i < 16; i++) {
        const unsigned char *at = block + 4 * i;
        w[i] = (unsigned)at[0] << 24 | (unsigned)at[1] << 16 | (unsigned)at[2] << 8 | at[3];
    }
    for (int i = 16; i < 64; i++) {
        unsigned s0 = rotated(w[i - 15], 7) ^ rotated(w[i - 15], 18) ^ w[i - 15] >> 3;
        unsigned s1 = rotated(w[i - 2], 17) ^ rotated(w[i - 2], 19) ^ w[i - 2] >> 10;
        w[i] = w[i - 16] + s0 + w[i - 7] + s1;
    }
    for (int i = 0; i < 8; i++)
        v[i] = state[i];
    for (int i = 0; i < 64; i++) {
        unsigned s1 = rotated(v[4], 6) ^ rotated(v[4], 11) ^ rotated(v[4], 25);
        unsigned choice = (v[4] & v[5]) ^ (~v[4] & v[6]);
        unsigned first = v[7] + s1 + choice + constants[i] + w[i];
        unsigned s0 = rotated(v[0], 2) ^ rotated(v[0], 13) ^ rotated(v[0], 22);
        unsigned majority = (v[0] & v[1]) ^ (v[0] & v[2]) ^ (v[1] & v[2]);
        for (int k = 7; k > 0; k--)
            v[k] = v[k - 1];
        v[4] += first;
        v[0] = first + s0 + majority;
    }
    for (int i = 0; i < 8; i++)
        state[i] += v[i];
}

static void show(const char *text)
{
    unsigned length = 0;
    int used = 0;

    begin();
    for (; text[length] != 0; length++) {
        block[used++] = (unsigned char)text[length];
        if (used == 64) {
            take_block();
            used = 0;
        }
    }
    block[used++] = 0x80;
    while (used != 56) {
        if (used == 64) {
            take_block();
            used = 0;
        } else {
            block[used++] = 0;
        }
    }
    for (int i = 0; i < 4; i++) {
        block[56 + i] = 0;
        block[60 + i] = (unsigned char)(length << 3 >> (24 - 8 * i));
    }
    take_block();
    for (int i = 0; i < 8; i++)
        put_hex(state[i]);
    put_text("  \"");
    put_text(text);
    put_text("\"\n");
}

int main(void)
{
    show("");
    show("abc");
    show("abcdbcdecdefdefgefghfghighijhijkijkljklmklmnlmnomnopnopq");
    return 0;
}
