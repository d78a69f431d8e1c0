/*
 * The bytes of a command, as document 01 lays them out under "Frames", with byte 2 of document 02, L7. They are held as the logs
 * have them: HEX, two digits a byte.
 */
#ifndef CHECKER_COMMAND_H
#define CHECKER_COMMAND_H

#include <stdbool.h>
#include <stdint.h>

#include "law.h"

enum { COMMAND_BYTES = 8 + 4 * MOST_COMMANDS, COMMAND_HEX = 2 * COMMAND_BYTES + 1 };

/* Byte number place of these bytes, which are longer than that. */
uint8_t byte_of(const char *hex, int32_t place);

/* Whether the bytes are laid out as a command of p values, to the exact length. */
bool is_command(const char *hex, int32_t p);

/* The period of bytes that are laid out as a command. */
uint32_t period_of_command(const char *hex);

/*
 * The bytes of the law's command of what this update gave, for this period. It is asked for an update and not for a state, since
 * byte 2 is no function of the state alone: two updates may give one state, one of them clamped.
 */
void command_of(const struct Settings *settings, uint32_t period, const struct Updated *updated, char hex[COMMAND_HEX]);

#endif
