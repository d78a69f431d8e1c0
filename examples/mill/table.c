#include "table.h"

#include <stdio.h>

/* Metres, seconds and newtons. */
static void write_quantities(const struct Row *row)
{
    printf("%.2f,%.2f,%.5f,%.3f,%.2f,%.2f,%.2f,%d,%d,%.2f", row->time, row->length, row->radius, row->speed, row->setpoint, row->tension,
           row->reading, row->splice, row->present, row->command);
}

/* Readings and command as they are sent, to the last digit, and the command's mark. */
static void write_sent(const struct Row *row)
{
    printf(",%08lx,%ld,%ld,%d\n", (unsigned long)row->sent.tension, (long)row->sent.setpoint, (long)row->command_count, row->limited);
}

void write_table(const struct Record *record)
{
    printf("time_s,length_m,radius_m,speed_m_s,setpoint_n,tension_n,reading_n,splice,present,command_n,"
           "reading_bits,setpoint_count,command_count,limited\n");
    for (size_t i = 0; i < record->count; i++) {
        write_quantities(&record->rows[i]);
        write_sent(&record->rows[i]);
    }
}
