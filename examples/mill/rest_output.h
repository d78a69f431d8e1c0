/* A web at rest, as the law held it before its divisions went to the nearest whole number and as it holds it now. */
#ifndef REST_OUTPUT_H
#define REST_OUTPUT_H

#include <stdbool.h>

/* Writes where webs that start around the setpoint come to rest. False, and a line to standard error, where a call is refused or gives other
 * commands than the law written out. */
bool write_rest_table(void);

/* Writes the first seconds of a web that starts at the setpoint. */
bool write_rest_picture(void);

#endif
