/* The layout of the structs, and one call of each kind, from C. */
#include "i2c.h"
#include <stdio.h>
#include <string.h>

_Static_assert(sizeof(struct i2c_link) == 296, "size of a link");
_Static_assert(offsetof(struct i2c_link, watchdog) == 2, "watchdog");
_Static_assert(offsetof(struct i2c_link, index) == 8, "index");
_Static_assert(offsetof(struct i2c_link, length) == 16, "length");
_Static_assert(offsetof(struct i2c_link, errors) == 24, "errors");
_Static_assert(offsetof(struct i2c_link, marks) == 28, "marks");
_Static_assert(offsetof(struct i2c_link, length_write_read) == 32, "length_write_read");
_Static_assert(offsetof(struct i2c_link, data) == 40, "data");

static int failed;

static void same(const char *what, uint64_t got, uint64_t wanted)
{
    if (got != wanted) {
        printf("%s: %llu, not %llu\n", what, (unsigned long long)got, (unsigned long long)wanted);
        failed = 1;
    }
}

/* A write of two bytes to 0x50, TXIS twice, and STOPF. */
static void non_blocking(void)
{
    struct { uint8_t before[8]; struct i2c_link link; uint8_t after[8]; } m;
    uint8_t guard[8], bytes[2] = {0x12, 0x34};
    uint32_t words[3] = {0, 0, 0}, log[16] = {0};
    uint64_t out[6] = {9, 9, 9, 9, 9, 9};
    memset(guard, 0xA5, sizeof guard);
    memset(&m, 0xA5, sizeof m);
    uint32_t config[10] = {1, 100000, 0, 0, 1, 0, 0, 0, 0, 0}, set_up[8] = {0}, set_up_log[64];
    i2c_construct(&m.link, config, 16000000, set_up, 8, set_up_log, 64, out);
    same("constructed", out[0], I2C_DONE);
    same("fresh", m.link.address | m.link.watchdog | m.link.errors | m.link.marks | m.link.data[0] | m.link.data[254], 0);
    i2c_master_write(&m.link, 0x50, bytes, 2, words, 3, log, 16, out);
    same("a start is answered", out[0], I2C_DONE);
    same("its values", out[3] | out[4] | out[5], 0);
    same("its places are pairs", out[2] % 2, 0);
    same("address", m.link.address, 0x50);
    same("watchdog", m.link.watchdog, 10);
    same("index", m.link.index, 0);
    same("length", m.link.length, 2);
    same("errors", m.link.errors, 0);
    same("marks", m.link.marks, 0);
    same("length_write_read", m.link.length_write_read, 0);
    same("first byte", m.link.data[0], 0x12);
    same("second byte", m.link.data[1], 0x34);
    words[0] = 1u << 1;
    i2c_check_isr_flags(&m.link, words, 1, log, 16, out);
    same("TXIS", out[0], I2C_PENDING);
    same("TXDR", log[out[2] - 1], 0x12);
    i2c_check_isr_flags(&m.link, words, 0, log, 16, out);
    same("no words", out[0], I2C_OUT_OF_WORDS);
    i2c_master_get_data(&m.link, out);
    same("bytes shown", out[0], I2C_BYTES);
    same("bytes to come", out[3], 2);
    i2c_slave_get_data(&m.link, out);
    same("bytes moved", out[3], 1);
    i2c_get_address(&m.link, out);
    same("the link's address", out[0], I2C_ADDRESS);
    same("the address", out[3], 0x50);
    i2c_listen(&m.link, words, 1, log, 16, out);
    same("listen", out[0], I2C_DONE);
    i2c_unlisten(&m.link, words, 0, log, 16, out);
    same("unlisten without words", out[0], I2C_OUT_OF_WORDS);
    i2c_slave_sbc(&m.link, true, words, 1, log, 16, out);
    same("sbc", log[out[2] - 1] >> 16 & 1, 1);
    i2c_set_address(&m.link, 0x21, words, 1, log, 16, out);
    same("OAR1", log[out[2] - 1] & 0xFE, 0x42);
    m.link.errors = 3;
    i2c_get_errors_reset(&m.link, out);
    same("error count", out[0], I2C_ERRORS);
    same("errors", out[3], 3);
    same("errors after", m.link.errors, 0);
    m.link.index = 3;
    i2c_execute_watchdog(&m.link, words, 1, log, 16, out);
    same("impossible", out[0], I2C_IMPOSSIBLE_LINK);
    same("before the link", memcmp(m.before, guard, sizeof guard), 0);
    same("after the link", memcmp(m.after, guard, sizeof guard), 0);
}

/* A write of one byte that parks for want of a word, twice, and is resumed to its end; then numbers that no call left. What is
 * refused leaves the numbers. */
static void blocking(void)
{
    uint8_t bytes[1] = {0x77}, none[1];
    uint32_t words[6] = {0, 0, 1u << 1, 1u << 5, 0, 0}, log[16] = {0};
    uint64_t parked[7], kept[7], next[3], out[6];
    i2c_blocking_write(parked, 0x50, bytes, 1, words, 0, log, 16, out);
    same("out of words", out[0], I2C_OUT_OF_WORDS);
    same("kind", parked[0], 0);
    same("address", parked[1], 0x50);
    same("to send", parked[2], 1);
    same("to receive", parked[3], 0);
    same("count", parked[6], 0);
    i2c_blocking_next(parked, bytes, 1, next);
    same("a read", next[0], I2C_NEXT_READ);
    same("of CR2", next[1], I2C_CR2);
    same("no word", next[2], 0);
    memcpy(kept, parked, sizeof kept);
    i2c_blocking_resume(parked, 1000, bytes, 1, none, 0, words, 1, log, 16, out);
    same("no word left", out[0], I2C_OUT_OF_WORDS);
    same("more taken than there are", out[1], 1000);
    same("no access", out[2], 0);
    same("numbers as they were", memcmp(parked, kept, sizeof kept), 0);
    i2c_blocking_read(parked, 0x50, none, 0, words, 3, log, 16, out);
    same("no length", out[0], I2C_BAD_LENGTH);
    i2c_blocking_resume(parked, 0, bytes, 0, none, 0, words, 3, log, 16, out);
    same("wrong slice", out[0], I2C_WRONG_CALL);
    same("numbers kept", memcmp(parked, kept, sizeof kept), 0);
    i2c_blocking_resume(parked, 0, bytes, 1, none, 0, words, 3, log, 14, out);
    same("out of words again", out[0], I2C_OUT_OF_WORDS);
    same("taken", out[1], 3);
    same("sent", parked[6], 1);
    same("TXDR", log[out[2] - 1], 0x77);
    i2c_blocking_resume(parked, out[1], bytes, 1, none, 0, words, 6, log, 6, out);
    same("log full", out[0], I2C_LOG_FULL);
    same("taken from the list's first word", out[1], 6);
    i2c_blocking_next(parked, bytes, 1, next);
    same("a write", next[0], I2C_NEXT_WRITE);
    same("to ICR", next[1], I2C_ICR);
    same("STOPF", next[2], 1u << 5);
    i2c_blocking_resume(parked, out[1], bytes, 1, none, 0, words, 6, log, 16, out);
    same("done", out[0], I2C_DONE);
    same("no word taken", out[1], 6);
    same("one access", out[2], 2);
    i2c_blocking_next(parked, bytes, 1, next);
    same("none next", next[0] | next[1] | next[2], I2C_NEXT_NONE);
    i2c_blocking_resume(parked, out[1], bytes, 1, none, 0, words, 6, log, 16, out);
    same("ended", out[0], I2C_WRONG_CALL);
    parked[4] = 1000;
    i2c_blocking_resume(parked, 1000, bytes, 1, none, 0, words, 3, log, 16, out);
    same("no such phase", out[0], I2C_WRONG_CALL);
    same("taken as it was lent", out[1], 1000);
    same("nothing logged", out[2], 0);
}

static void never_waiting(void)
{
    uint32_t config[10] = {0, 0, 1, 0x10420F13, 1, 0, 0, 0, 0, 0}, words[8] = {0}, log[64] = {0};
    uint64_t out[6];
    i2c_blocking_construct(config, 16000000, words, 8, log, 64, out);
    same("constructed", out[0], I2C_DONE);
    config[2] = 0;
    i2c_blocking_construct(config, 16000000, words, 8, log, 64, out);
    same("no rate", out[0], I2C_NO_RATE);
    i2c_blocking_slave_addressed(words, 8, log, 64, out);
    same("pending", out[0], I2C_PENDING);
    i2c_blocking_slave_sbc(true, words, 8, log, 64, out);
    same("sbc", out[0], I2C_DONE);
    i2c_blocking_listen(0, words, 8, log, 64, out);
    same("listen", log[out[2] - 1], 1u << 3);
    i2c_blocking_unlisten(1, words, 8, log, 1, out);
    same("log full", out[0], I2C_LOG_FULL);
    i2c_blocking_clear_irq(0, log, 64, out);
    same("cleared", log[1], 1u << 3);
}

int main(void)
{
    non_blocking();
    blocking();
    never_waiting();
    puts(failed ? "failed" : "ok");
    return failed;
}
