#include "lines.h"

#include <stdbool.h>
#include <stdio.h>
#include <stdlib.h>
#include <string.h>

#include "memory.h"

_Noreturn void log_unreadable(const struct Log *log, const char *what)
{
    if (log->line == 0) {
        fprintf(stderr, "checker: %s: %s\n", log->path, what);
    } else {
        fprintf(stderr, "checker: %s, line %lu: %s\n", log->path, log->line, what);
    }
    exit(2);
}

static long size_of_file(FILE *file)
{
    if (fseek(file, 0, SEEK_END) != 0) {
        return -1;
    }
    const long size = ftell(file);
    rewind(file);
    return size;
}

void log_open(struct Log *log, const char *folder, const char *name)
{
    memset(log, 0, sizeof *log);
    if (snprintf(log->path, sizeof log->path, "%s/%s", folder, name) >= MOST_PATH) {
        log_unreadable(log, "the name of the folder is too long");
    }
    FILE *file = fopen(log->path, "rb");
    const long size = file == NULL ? -1 : size_of_file(file);
    if (size < 0) {
        log_unreadable(log, "the file cannot be read");
    }
    log->length = (size_t)size;
    log->text = memory_of(log->length + 1, 1);
    if (fread(log->text, 1, log->length, file) != log->length) {
        log_unreadable(log, "the file cannot be read to its end");
    }
    fclose(file);
}

static void part_words(struct Log *log, char *line)
{
    char *word = line;
    while (word != NULL) {
        if (log->words == MOST_WORDS) {
            log_unreadable(log, "too many words");
        }
        log->word[log->words++] = word;
        word = strchr(word, ' ');
        if (word != NULL) {
            *word++ = '\0';
        }
    }
}

/* A line feed is part of a whole line's end: without it the box was stopped before the line was written to its end. */
static bool is_whole(const char *line, size_t length, bool has_line_feed)
{
    return has_line_feed && length >= 2 && line[length - 2] == ' ' && line[length - 1] == '.';
}

enum Line log_next_line(struct Log *log)
{
    log->words = 0;
    log->taken = 0;
    if (log->next == log->length) {
        return LINE_NONE;
    }
    log->line++;
    char *line = log->text + log->next;
    char *line_feed = memchr(line, '\n', log->length - log->next);
    const size_t length = line_feed == NULL ? log->length - log->next : (size_t)(line_feed - line);
    log->next += length + (line_feed != NULL);
    if (!is_whole(line, length, line_feed != NULL)) {
        return LINE_CUT;
    }
    line[length - 2] = '\0';
    if (strlen(line) != length - 2) {
        log_unreadable(log, "a byte 0 in a line");
    }
    part_words(log, line);
    return LINE_WHOLE;
}

const char *log_word(struct Log *log)
{
    if (log->taken == log->words) {
        log_unreadable(log, "too few words");
    }
    return log->word[log->taken++];
}

int64_t log_number(struct Log *log, int64_t low, int64_t high)
{
    const char *word = log_word(log);
    const char *digits = word[0] == '-' ? word + 1 : word;
    const size_t length = strspn(digits, "0123456789");
    /* Ten digits hold every number of 32 bits, and strtoll every number of ten digits. */
    if (length < 1 || length > 10 || digits[length] != '\0') {
        log_unreadable(log, "a word that should be a number is none");
    }
    const int64_t number = strtoll(word, NULL, 10);
    if (number < low || number > high) {
        log_unreadable(log, "a number is outside its range");
    }
    return number;
}

double log_decimal(struct Log *log)
{
    const char *word = log_word(log);
    char *end = NULL;
    const double decimal = strtod(word, &end);
    if (strspn(word, "-.0123456789") != strlen(word) || end == word || *end != '\0') {
        log_unreadable(log, "a word that should be a decimal number is none");
    }
    return decimal;
}

const char *log_bytes(struct Log *log)
{
    const char *word = log_word(log);
    const size_t length = strspn(word, "0123456789abcdef");
    if (length < 2 || length % 2 != 0 || word[length] != '\0') {
        log_unreadable(log, "a word that should be bytes is none");
    }
    return word;
}

const char *log_bytes_or_none(struct Log *log)
{
    if (log->taken < log->words && strcmp(log->word[log->taken], "-") == 0) {
        log->taken++;
        return NULL;
    }
    return log_bytes(log);
}

void log_expect(struct Log *log, const char *word)
{
    if (strcmp(log_word(log), word) != 0) {
        log_unreadable(log, "a word is not the one of this place");
    }
}

void log_no_more(const struct Log *log)
{
    if (log->taken != log->words) {
        log_unreadable(log, "too many words");
    }
}
