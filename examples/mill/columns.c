#include "columns.h"

double time_of(const struct Row *row)
{
    return row->time;
}

double length_of(const struct Row *row)
{
    return row->length;
}

double setpoint_of(const struct Row *row)
{
    return row->setpoint;
}

double tension_of(const struct Row *row)
{
    return row->tension;
}

double reading_of(const struct Row *row)
{
    return row->reading;
}

double command_of(const struct Row *row)
{
    return row->command;
}

double limited_of(const struct Row *row)
{
    return row->limited ? 1.0 : 0.0;
}
