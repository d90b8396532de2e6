/* The CRC-32 of ISO 3309 and ITU-T V.42 (reflected, polynomial 0xEDB88320), bit by bit, of a few texts. */

#include "dash.h"

static unsigned crc32(const char *text)
{
    unsigned crc = 0xFFFFFFFF;

    while (*text != 0) {
        crc ^= (unsigned char)*text++;
        for (int bit = 0; bit < 8; bit++)
            crc = crc & 1 ? crc >> 1 ^ 0xEDB88320 : crc >> 1;
    }
    return ~crc;
}

static void show(const char *text)
{
    put_hex(crc32(text));
    put_text("  \"");
    put_text(text);
    put_text("\"\n");
}

int main(void)
{
    show("");
    show("a");
    show("abc");
    show("123456789");
    show("The quick brown fox jumps over the lazy dog");
    return 0;
}
