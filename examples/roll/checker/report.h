/*
 * The violations found: the first ones in words, and how many there were.
 */
#ifndef CHECKER_REPORT_H
#define CHECKER_REPORT_H

#include <stddef.h>

enum { MOST_SHOWN = 10, MOST_TEXT = 2048 };

struct Report {
    size_t violations;
    char *shown[MOST_SHOWN];
};

__attribute__((format(printf, 2, 3))) void violation(struct Report *report, const char *format, ...);

void print_violations(const struct Report *report);

#endif
