/* A line of a log, word by word: words are parted by spaces, and the last one is a full stop. */
#ifndef ENTRY_H
#define ENTRY_H

#include <stddef.h>
#include <stdint.h>

enum { LONGEST_ENTRY = 2048 };

struct Entry {
    size_t length;
    char text[LONGEST_ENTRY];
};

struct Entry entry_with(const char *first);

void entry_word(struct Entry *entry, const char *word);
void entry_number(struct Entry *entry, int64_t number);

/* Two hexadecimal digits for each byte; a hyphen where there is none. */
void entry_bytes(struct Entry *entry, const uint8_t *bytes, size_t length);

/* Ends the line and writes it, by one call. */
void entry_write(struct Entry *entry, int file);

#endif
