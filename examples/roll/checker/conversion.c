#include "conversion.h"

#include <stdbool.h>

/* What no i32 is: it stands for a single that counts as missing. */
static const int64_t outside = INT64_MAX;

static int64_t divided_to_minus_infinity(int64_t value, int64_t divisor)
{
    return value / divisor - (value % divisor < 0 ? 1 : 0);
}

/*
 * "A single is multiplied by 65536 exactly and rounded toward minus infinity, worked out from its bits. A NaN, an infinity or a
 * result outside i32 counts as missing."
 *
 * A single is M × 2^(exponent − 150), so that 65536 times the single is M × 2^(exponent − 134). M is below 2^24: from 2^9 on every
 * product is outside i32, since M is then at least 2^23; below 2^−24 every quotient is 0 or −1, as it is at 2^−24.
 */
static int64_t single_times_65536(uint32_t bits)
{
    const int32_t exponent = (int32_t)((bits >> 23) & 255);
    const int64_t fraction = bits & 0x7fffff;
    const int64_t magnitude = exponent == 0 ? fraction : fraction + 0x800000;
    const int64_t value = bits >> 31 == 1 ? -magnitude : magnitude;
    const int32_t power = (exponent == 0 ? 1 : exponent) - 134;
    if (power >= 9) {
        return outside;
    }
    if (power >= 0) {
        return value * ((int64_t)1 << power);
    }
    return divided_to_minus_infinity(value, (int64_t)1 << (power < -24 ? 24 : -power));
}

/* "A count goes to the law unchanged." */
static int64_t count_of(uint32_t bits)
{
    return bits <= INT32_MAX ? (int64_t)bits : (int64_t)bits - 4294967296;
}

static int64_t converted(enum Kind kind, uint32_t bits)
{
    switch (kind) {
    case KIND_COUNT:
        return count_of(bits);
    case KIND_SINGLE:
        return single_times_65536(bits);
    default:
        return outside;
    }
}

void convert_reading(struct Readings *readings, int32_t j, enum Kind kind, uint32_t bits)
{
    const int64_t value = converted(kind, bits);
    const bool present = value >= INT32_MIN && value <= INT32_MAX;
    readings->present[j] = present ? 1 : 0;
    readings->y[j] = present ? (int32_t)value : 0;
}
