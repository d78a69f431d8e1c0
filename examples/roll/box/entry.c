#define _POSIX_C_SOURCE 200809L
#include "entry.h"

#include <inttypes.h>
#include <stdio.h>
#include <string.h>
#include <unistd.h>

#include "process.h"

static void put_text(struct Entry *entry, const char *text, size_t length)
{
    need(entry->length + length < LONGEST_ENTRY, "a line of the log is too long");
    memcpy(entry->text + entry->length, text, length);
    entry->length += length;
}

struct Entry entry_with(const char *first)
{
    struct Entry entry = {.length = 0};
    put_text(&entry, first, strlen(first));
    return entry;
}

void entry_word(struct Entry *entry, const char *word)
{
    put_text(entry, " ", 1);
    put_text(entry, word, strlen(word));
}

void entry_number(struct Entry *entry, int64_t number)
{
    char word[24];
    snprintf(word, sizeof word, "%" PRId64, number);
    entry_word(entry, word);
}

void entry_bytes(struct Entry *entry, const uint8_t *bytes, size_t length)
{
    static const char digits[] = "0123456789abcdef";
    put_text(entry, length == 0 ? " -" : " ", length == 0 ? 2 : 1);
    for (size_t i = 0; i < length; i++) {
        const char two[] = {digits[bytes[i] >> 4], digits[bytes[i] & 15]};
        put_text(entry, two, 2);
    }
}

void entry_write(struct Entry *entry, int file)
{
    put_text(entry, " .\n", 3);
    need(write(file, entry->text, entry->length) == (ssize_t)entry->length, "a line of the log was not written");
}
