/* Columns of the record: what a curve takes of a row. */
#ifndef COLUMNS_H
#define COLUMNS_H

#include "record.h"

typedef double (*Column)(const struct Row *row);

double time_of(const struct Row *row);
double length_of(const struct Row *row);
double setpoint_of(const struct Row *row);
double tension_of(const struct Row *row);
double reading_of(const struct Row *row);
double command_of(const struct Row *row);

/* 1 where the command is limited, else 0. */
double limited_of(const struct Row *row);

#endif
