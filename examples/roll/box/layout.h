/* Where things stand in a record: docs/RECORD.md. */
#ifndef LAYOUT_H
#define LAYOUT_H

enum {
    STATES_AT = 4,   /* n */
    READINGS_AT = 5, /* m */
    PERIOD_AT = 496,
    VIEW_AT = 500,
    STATE_AT = 524, /* of the estimate */
    MARKS_AT = 548,
    VALUES_AT = 549
};

#endif
