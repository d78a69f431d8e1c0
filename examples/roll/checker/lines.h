/*
 * A log as lines of words (docs/ROLL.md): words are parted by single spaces, a line ends with " ." and a line feed. The words of a line
 * are taken one after the other; a word that is not of the form asked for makes the log unreadable, and the program ends with
 * status 2 and a message that names file and line.
 */
#ifndef CHECKER_LINES_H
#define CHECKER_LINES_H

#include <stddef.h>
#include <stdint.h>

enum { MOST_WORDS = 512, MOST_PATH = 4096 };

struct Log {
    char path[MOST_PATH];
    char *text;
    size_t length;
    size_t next;
    unsigned long line;
    char *word[MOST_WORDS];
    size_t words;
    size_t taken;
};

enum Line { LINE_NONE, LINE_CUT, LINE_WHOLE };

/* The log of this name in the folder, before its first line. */
void log_open(struct Log *log, const char *folder, const char *name);

/* The next line becomes the current one. LINE_CUT: it is empty or does not end with " ." and a line feed, and has no words. */
enum Line log_next_line(struct Log *log);

/* The next word of the current line. It stays where it is until the program ends. */
const char *log_word(struct Log *log);

/* The next word as a decimal number from low to high. */
int64_t log_number(struct Log *log, int64_t low, int64_t high);

/* The next word as a decimal number that may have a point. */
double log_decimal(struct Log *log);

/* The next word as HEX: at least one byte, two digits of 0 to 9 and a to f each. */
const char *log_bytes(struct Log *log);

/* The next word as HEX, or NULL where it is `-`. */
const char *log_bytes_or_none(struct Log *log);

/* The next word must be this one. */
void log_expect(struct Log *log, const char *word);

/* The current line must have no further word. */
void log_no_more(const struct Log *log);

_Noreturn void log_unreadable(const struct Log *log, const char *what);

#endif
