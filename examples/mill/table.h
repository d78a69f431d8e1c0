/* The record as a table: values parted by commas, a header line first. */
#ifndef TABLE_H
#define TABLE_H

#include "record.h"

void write_table(const struct Record *record);

#endif
