/* The calls of the simulated machine, decimal and hexadecimal printing on top of them, and what harts need to
 * share memory: labelled accesses, lock words and prefetches. A program that uses those of the atomic
 * instructions is built with ARCH = rv32ia. Its main is `int main(unsigned hart, unsigned harts)`: every hart
 * runs it, with its own number, from 0, and on its own stack. */

#ifndef DASH_H
#define DASH_H

/* Appends a byte to the console: call 1, with the byte in a0. It changes no register. */
#ifdef __riscv
static inline void put(unsigned char byte)
{
    register unsigned a0 __asm__("a0") = byte;
    register unsigned a7 __asm__("a7") = 1;
    __asm__ volatile("ecall" : : "r"(a0), "r"(a7) : "memory");
}
#else
/* The same program for the computer at hand: its output is what the console has to be. */
int putchar(int byte);
#define put(byte) putchar(byte)
#endif

void put_text(const char *text);
void put_hex(unsigned value);     /* eight hexadecimal digits */
void put_decimal(int value);

/* There is no MUL in RV32I: shift and add. */
unsigned times(unsigned a, unsigned b);

/* Labelled accesses. What this hart did before a release has happened for every hart whose later acquire of the
 * same word comes after it. The machine keeps that order because of the label, and the compiler keeps its part
 * of it because of "memory". */

/* Reads a word as an acquire. It also reserves the word for store_conditional. */
static inline unsigned load_acquire(const unsigned *word)
{
    unsigned value;
    __asm__ volatile("lr.w.aq %0, (%1)" : "=r"(value) : "r"(word) : "memory");
    return value;
}

/* Writes a word as a release. */
static inline void store_release(unsigned *word, unsigned value)
{
    __asm__ volatile("amoswap.w.rl zero, %0, (%1)" : : "r"(value), "r"(word) : "memory");
}

/* Writes a word as a release, where this hart still has it reserved; whether it did. */
static inline int store_conditional(unsigned *word, unsigned value)
{
    unsigned failed;
    __asm__ volatile("sc.w.rl %0, %1, (%2)" : "=&r"(failed) : "r"(value), "r"(word) : "memory");
    return failed == 0;
}

/* Adds to a word, as an acquire and a release; what it was before. */
static inline unsigned add_labelled(unsigned *word, unsigned value)
{
    unsigned old;
    __asm__ volatile("amoadd.w.aqrl %0, %1, (%2)" : "=r"(old) : "r"(value), "r"(word) : "memory");
    return old;
}

/* Lock words: they follow memory, and can be used in these two ways alone. */
#define LOCK_WORDS ((unsigned *)0x00100000)
#define LOCK_COUNT 64

/* Waits until a lock word is 0 and makes it 1, as an acquire. A hart that waits does nothing. */
static inline void lock(unsigned number)
{
    __asm__ volatile("amoswap.w.aq zero, %0, (%1)" : : "r"(1), "r"(LOCK_WORDS + number) : "memory");
}

/* Makes a lock word 0, as a release, whoever has it. */
static inline void unlock(unsigned number)
{
    __asm__ volatile("amoswap.w.rl zero, zero, (%0)" : : "r"(LOCK_WORDS + number) : "memory");
}

/* Prefetches: hints that the line of 16 bytes at an address will be read or written. They never trap and change
 * nothing that a program can see. These words are prefetch.r and prefetch.w of the extension Zicbop, written
 * out so that every assembler takes them. */
static inline void prefetch_to_read(const void *address)
{
    __asm__ volatile("ori zero, %0, 1" : : "r"(address));
}

static inline void prefetch_to_write(void *address)
{
    __asm__ volatile("ori zero, %0, 3" : : "r"(address));
}

#endif
