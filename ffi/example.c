/* Runs the host of ffi/README.md, which ffi/check puts before this file, over a scripted register block. The accesses are
 * those of document 01 for a write_read of one byte and two at address 0x50, each to be made once and in this order. */
#include <stdio.h>
#include <stdlib.h>

#define FLAG(bit) (1u << (bit))

static const struct access {
    char way;
    uint32_t offset, word;
} script[] = {
    {'R', I2C_CR2, 0},          /* START is clear */
    {'W', I2C_ISR, FLAG(0)},    /* TXE empties TXDR */
    {'W', I2C_CR2, 0x000120A0}, /* the address, one byte, START */
    {'R', I2C_ISR, 0},          /* no flag yet */
    {'R', I2C_ISR, FLAG(1)},    /* TXIS */
    {'W', I2C_TXDR, 0x40},
    {'R', I2C_ISR, FLAG(6)},    /* TC */
    {'W', I2C_CR2, 0x020224A0}, /* AUTOEND, two bytes, START to read */
    {'R', I2C_ISR, FLAG(2)},    /* RXNE */
    {'R', I2C_RXDR, 0x12},
    {'R', I2C_ISR, 0},
    {'R', I2C_ISR, FLAG(2)},
    {'R', I2C_RXDR, 0x99},
    {'R', I2C_ISR, FLAG(5)},    /* STOPF */
    {'R', I2C_ISR, 0},          /* flush_txdr: no TXIS, */
    {'R', I2C_ISR, 0},          /* no TXE */
    {'W', I2C_ICR, FLAG(5)},
};
static const unsigned accesses = sizeof script / sizeof script[0];
static unsigned made;

static void wrong(const char *what)
{
    printf("access %u: %s\n", made, what);
    exit(1);
}

static const struct access *next_of(char way, uint64_t offset)
{
    if (made == accesses || script[made].way != way || script[made].offset != offset)
        wrong("not the one of the script");
    return &script[made++];
}

uint32_t load(uint64_t offset)
{
    return next_of('R', offset)->word;
}

void store(uint64_t offset, uint32_t word)
{
    if (next_of('W', offset)->word != word)
        wrong("another word");
}

int main(void)
{
    const uint8_t place[1] = {0x40};
    uint8_t price[2] = {0, 0};
    uint64_t out[6];
    if (write_read(0x50, place, 1, price, 2, out) != I2C_DONE)
        wrong("not done");
    if (made != accesses)
        wrong("not the last");
    if (price[0] != 0x12 || price[1] != 0x99)
        wrong("other bytes");
    printf("%u accesses\n", made);
    return 0;
}
