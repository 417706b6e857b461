/* The header as C++: the layout, constants, and a call that is linked. */
#include "i2c.h"

static_assert(sizeof(i2c_link) == 296, "size of a link");
static_assert(offsetof(i2c_link, data) == 40, "data");

/* A check that finds BERR clears it. */
int main()
{
    i2c_link link = {};
    const uint32_t berr = 1u << 8;
    const uint32_t words[1] = {berr};
    uint32_t log[4] = {};
    uint64_t out[6] = {};
    i2c_check_isr_flags(&link, words, 1, log, 4, out);
    const bool right = out[0] == I2C_BUS_ERROR && out[1] == 1 && out[2] == 4
        && log[0] == I2C_ISR && log[1] == berr && log[2] == I2C_WRITE + I2C_ICR && log[3] == berr;
    return right ? 0 : 1;
}
