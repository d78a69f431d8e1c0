#include "command.h"

#include <stdio.h>
#include <string.h>

static uint8_t digit_of(char digit)
{
    return (uint8_t)(digit <= '9' ? digit - '0' : digit - 'a' + 10);
}

uint8_t byte_of(const char *hex, int32_t place)
{
    return (uint8_t)(digit_of(hex[2 * place]) * 16 + digit_of(hex[2 * place + 1]));
}

/*
 * "Command: byte 0 is 5, byte 1 is p, bytes 2 and 3 zero, period at 4, p i32 values from 8. No sender." Since document 02, L7,
 * byte 2 is 0 or 1; which of them is the law's to say, and no question of layout.
 */
bool is_command(const char *hex, int32_t p)
{
    if (strlen(hex) != 2 * (8 + 4 * (size_t)p)) {
        return false;
    }
    return byte_of(hex, 0) == 5 && byte_of(hex, 1) == p && byte_of(hex, 2) <= 1 && byte_of(hex, 3) == 0;
}

/* "Frame numbers are little-endian" */
uint32_t period_of_command(const char *hex)
{
    uint32_t period = 0;
    for (int32_t place = 7; place >= 4; place--) {
        period = period * 256 + byte_of(hex, place);
    }
    return period;
}

/* "Frame numbers are little-endian; i32 is two's complement." */
static void write_number(char *hex, uint32_t number)
{
    snprintf(hex, 9, "%02x%02x%02x%02x", number & 255, number >> 8 & 255, number >> 16 & 255, number >> 24);
}

/* "Byte 2 of the command is 1 if that occurred in the update or the command it comes from, otherwise 0." (document 02, L7) */
static uint32_t byte_2_of(const struct Settings *settings, const struct Updated *updated)
{
    bool occurred = updated->clamped;
    for (int32_t j = 0; j < settings->p; j++) {
        occurred = occurred || command_value(settings, &updated->state, j).changed;
    }
    return occurred ? 1 : 0;
}

void command_of(const struct Settings *settings, uint32_t period, const struct Updated *updated, char hex[COMMAND_HEX])
{
    write_number(hex, 5 + 256 * (uint32_t)settings->p + 65536 * byte_2_of(settings, updated));
    write_number(hex + 8, period);
    for (int32_t j = 0; j < settings->p; j++) {
        write_number(hex + 16 + 8 * j, (uint32_t)command_value(settings, &updated->state, j).value);
    }
}
