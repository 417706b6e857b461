/* The calls of both drivers. No call touches a device: `words` are what register reads gave, and the accesses to make are
 * written to `log`, two places each: the register's offset, I2C_WRITE more for a write, and the word.
 *
 * `out` gets six numbers: the answer, the words taken, the places of the log filled, and up to three values of the answer,
 * 0 where it has none. A direction is 0 where the ISR word has DIR set, that is where the master that addressed this slave
 * reads, else 1; a master's own transfer ends with 1 where DIR is clear. What each answer leaves behind is in the
 * repository's README.md.
 *
 * No pointer may be null, that of a slice of 0 places neither; behind that one nothing is touched. */
#ifndef I2C_H
#define I2C_H

#include <stdbool.h>
#include <stddef.h>
#include <stdint.h>

#if UINTPTR_MAX != UINT64_MAX
#error "i2c.h and libffi.a are for hosts whose pointers have 64 bits"
#endif

#ifdef __cplusplus
extern "C" {
#endif

/* The answers, and the values of those that have some. The bytes of DATA and BYTES are the first ones of the link's data. */
enum {
    I2C_DONE = 0,
    I2C_PENDING = 1,
    I2C_NACK = 2,
    I2C_BUS_ERROR = 3,
    I2C_ARBITRATION_LOST = 4,
    I2C_INCORRECT_FRAME_SIZE = 5, /* count */
    I2C_BAD_LENGTH = 6,
    I2C_NO_RATE = 7,
    I2C_BAD_FILTER = 8, /* of no function here */
    I2C_OUT_OF_WORDS = 9,
    I2C_LOG_FULL = 10,
    I2C_WRONG_CALL = 11,
    I2C_IMPOSSIBLE_LINK = 12,
    I2C_ADDRESSED = 0x41, /* A: address, direction */
    I2C_DATA = 0x44,      /* D: address, direction, count */
    I2C_ERRORS = 0x45,    /* E: count */
    I2C_BYTES = 0x47,     /* G: count */
    I2C_ADDRESS = 0x4E    /* N: address */
};

/* The registers' offsets, and what a write has more in the log. */
enum {
    I2C_CR1 = 0x00,
    I2C_CR2 = 0x04,
    I2C_OAR1 = 0x08,
    I2C_OAR2 = 0x0C,
    I2C_TIMINGR = 0x10,
    I2C_ISR = 0x18,
    I2C_ICR = 0x1C,
    I2C_RXDR = 0x24,
    I2C_TXDR = 0x28,
    I2C_WRITE = 0x100
};

/* A slice: a pointer and a count of places. */
#define I2C_LENT_WORDS const uint32_t *words, uint64_t words_len
#define I2C_LENT_LOG uint32_t *log, uint64_t log_len
#define I2C_LENT_BYTES const uint8_t *bytes, uint64_t bytes_len
#define I2C_LENT_BUFFER uint8_t *buffer, uint64_t buffer_len

/* The link of the non-blocking driver, in the caller's memory. Zeros are a link as constructed. */
struct i2c_link {
    uint16_t address;
    uint16_t watchdog;
    uint64_t index;
    uint64_t length;
    uint32_t errors;
    uint32_t marks; /* 0 in a link as constructed; no mark is in use yet */
    uint64_t length_write_read;
    uint8_t data[255];
};

/* A configuration: speed set, speed in hertz, timing set, timing word, analog filter, digital filter, own address, whether
 * it is a long one (`address_11bits` of the original; OA1 has ten bits), second address, mask. A number that is not 0 says
 * yes; an address of 0 is none. A number that is too large is cut: the digital filter and the second address count modulo
 * 256, the own address modulo 65536, a mask above 7 is 7 and leaves no bit compared. Of what is left each field of a
 * register takes its low bits. The clock is in hertz. */
#define I2C_CONFIG const uint32_t config[10]

/* What the link held before does not matter here, and stays where this is refused. Every other call wants a link that was
 * constructed: no call leaves an impossible one (`never_impossible`), and one that is impossible all the same is answered
 * I2C_IMPOSSIBLE_LINK. */
void i2c_construct(struct i2c_link *link, I2C_CONFIG, uint32_t clock, I2C_LENT_WORDS, I2C_LENT_LOG, uint64_t out[6]);

void i2c_check_isr_flags(struct i2c_link *link, I2C_LENT_WORDS, I2C_LENT_LOG, uint64_t out[6]);
void i2c_master_write(struct i2c_link *link, uint16_t addr, I2C_LENT_BYTES, I2C_LENT_WORDS, I2C_LENT_LOG, uint64_t out[6]);
void i2c_master_write_read(struct i2c_link *link, uint16_t addr, I2C_LENT_BYTES, uint8_t read_len, I2C_LENT_WORDS, I2C_LENT_LOG,
                           uint64_t out[6]);
void i2c_master_read(struct i2c_link *link, uint16_t addr, uint8_t read_len, I2C_LENT_WORDS, I2C_LENT_LOG, uint64_t out[6]);
void i2c_slave_write(struct i2c_link *link, I2C_LENT_BYTES, I2C_LENT_WORDS, I2C_LENT_LOG, uint64_t out[6]);
void i2c_execute_watchdog(struct i2c_link *link, I2C_LENT_WORDS, I2C_LENT_LOG, uint64_t out[6]);
void i2c_get_errors_reset(struct i2c_link *link, uint64_t out[6]);

/* The master's get_data shows as many bytes as the link's length, the slave's as many as its index. listen and unlisten
 * switch the unit's interrupts on and off, slave_sbc its slave byte control; set_address sets an own address of 7 bits. */
void i2c_master_get_data(const struct i2c_link *link, uint64_t out[6]);
void i2c_slave_get_data(const struct i2c_link *link, uint64_t out[6]);
void i2c_get_address(const struct i2c_link *link, uint64_t out[6]);
void i2c_listen(const struct i2c_link *link, I2C_LENT_WORDS, I2C_LENT_LOG, uint64_t out[6]);
void i2c_unlisten(const struct i2c_link *link, I2C_LENT_WORDS, I2C_LENT_LOG, uint64_t out[6]);
void i2c_slave_sbc(const struct i2c_link *link, bool on, I2C_LENT_WORDS, I2C_LENT_LOG, uint64_t out[6]);
void i2c_set_address(const struct i2c_link *link, uint16_t address, I2C_LENT_WORDS, I2C_LENT_LOG, uint64_t out[6]);

/* A parked call of the blocking driver, kept by the caller: kind, address, length to send, length to receive, phase, the
 * phase's word, count. Zeros stand for no call begun. A call that waits writes it, but where it is answered I2C_BAD_LENGTH
 * or I2C_WRONG_CALL: then the seven numbers stay as they were. Any seven numbers are taken; one that is too large is cut: a
 * kind above 6 is 6, a phase above 30 is 30, the address counts modulo 256, the phase's word modulo 2 to the 32. */
#define I2C_PARKED uint64_t parked[7]

void i2c_blocking_write(I2C_PARKED, uint8_t address, I2C_LENT_BYTES, I2C_LENT_WORDS, I2C_LENT_LOG, uint64_t out[6]);
void i2c_blocking_read(I2C_PARKED, uint8_t address, I2C_LENT_BUFFER, I2C_LENT_WORDS, I2C_LENT_LOG, uint64_t out[6]);
void i2c_blocking_write_read(I2C_PARKED, uint8_t address, I2C_LENT_BYTES, I2C_LENT_BUFFER, I2C_LENT_WORDS, I2C_LENT_LOG,
                             uint64_t out[6]);
void i2c_blocking_slave_write(I2C_PARKED, I2C_LENT_BYTES, I2C_LENT_WORDS, I2C_LENT_LOG, uint64_t out[6]);
void i2c_blocking_slave_read(I2C_PARKED, I2C_LENT_BUFFER, I2C_LENT_WORDS, I2C_LENT_LOG, uint64_t out[6]);
void i2c_blocking_slave_wait_addressed(I2C_PARKED, I2C_LENT_WORDS, I2C_LENT_LOG, uint64_t out[6]);

/* After I2C_OUT_OF_WORDS and I2C_LOG_FULL the call is parked, and this goes on with it. `words` is the whole list, and `taken`
 * how many of it were taken before: out[1] of this call's own last run, since out[1] here counts from the first word too. A
 * begin that is refused with I2C_BAD_LENGTH is no run of the parked call that it leaves, and writes 0 to out[1]. Or only new
 * words are lent, and taken is 0. More taken than there are words leaves none. The slices have the lengths of the begin, 0 for
 * a slice that the call has not; else, and after the call's end, the answer is I2C_WRONG_CALL. */
void i2c_blocking_resume(I2C_PARKED, uint64_t taken, I2C_LENT_BYTES, I2C_LENT_BUFFER, I2C_LENT_WORDS, I2C_LENT_LOG,
                         uint64_t out[6]);

/* Which access a parked call wants: next[0] one of these, next[1] the register's offset, next[2] the word of a write, else
 * 0. It takes the slice to send of the begin, of 0 places where the call has none. It names none only where the call has
 * ended. Where a resume answers I2C_WRONG_CALL for a slice's length, as with seven zeros, it names an access all the same. */
enum {
    I2C_NEXT_NONE = 0, /* the call has ended */
    I2C_NEXT_READ = 1,
    I2C_NEXT_WRITE = 2
};
void i2c_blocking_next(const uint64_t parked[7], I2C_LENT_BYTES, uint64_t next[3]);

/* These never wait: I2C_OUT_OF_WORDS and I2C_LOG_FULL leave everything as it was. */
void i2c_blocking_slave_addressed(I2C_LENT_WORDS, I2C_LENT_LOG, uint64_t out[6]);
void i2c_blocking_slave_sbc(bool on, I2C_LENT_WORDS, I2C_LENT_LOG, uint64_t out[6]);

/* An event: 0 an address match, any other number a byte received. */
void i2c_blocking_listen(uint8_t event, I2C_LENT_WORDS, I2C_LENT_LOG, uint64_t out[6]);
void i2c_blocking_unlisten(uint8_t event, I2C_LENT_WORDS, I2C_LENT_LOG, uint64_t out[6]);
void i2c_blocking_clear_irq(uint8_t event, I2C_LENT_LOG, uint64_t out[6]);

void i2c_blocking_construct(I2C_CONFIG, uint32_t clock, I2C_LENT_WORDS, I2C_LENT_LOG, uint64_t out[6]);

#ifdef __cplusplus
}
#endif

#endif
