#include "report.h"

#include <stdarg.h>
#include <stdio.h>

#include "memory.h"

void violation(struct Report *report, const char *format, ...)
{
    if (report->violations < MOST_SHOWN) {
        char *text = memory_of(MOST_TEXT, 1);
        va_list values;
        va_start(values, format);
        vsnprintf(text, MOST_TEXT, format, values);
        va_end(values);
        report->shown[report->violations] = text;
    }
    report->violations++;
}

void print_violations(const struct Report *report)
{
    for (size_t i = 0; i < report->violations && i < MOST_SHOWN; i++) {
        printf("checker: VIOLATION: %s\n", report->shown[i]);
    }
    if (report->violations > MOST_SHOWN) {
        printf("checker: and %zu more violations\n", report->violations - MOST_SHOWN);
    }
}
