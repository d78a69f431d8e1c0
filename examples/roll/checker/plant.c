#include "plant.h"

#include "lines.h"

static void add_tension(struct Plant *plant, double diameter, double off)
{
    const double magnitude = off < 0 ? -off : off;
    plant->squares += off * off;
    if (plant->period_of_most == 0 || magnitude > plant->most) {
        plant->most = magnitude;
        plant->period_of_most = plant->periods;
        plant->diameter_of_most = diameter;
    }
}

static void read_period(struct Plant *plant, struct Log *log)
{
    plant->periods++;
    if (log_number(log, 1, UINT32_MAX) != plant->periods) {
        log_unreadable(log, "the periods do not follow each other from 1 on");
    }
    log_decimal(log); /* time */
    const double diameter = log_decimal(log);
    log_decimal(log); /* speed */
    const double setpoint = log_decimal(log);
    const double tension = log_decimal(log);
    log_decimal(log); /* command */
    log_number(log, 0, UINT32_MAX);
    log_no_more(log);
    if (plant->periods > FIRST_PERIODS) {
        add_tension(plant, diameter, tension - setpoint);
    }
}

void read_plant(struct Plant *plant, const char *folder)
{
    struct Log log;
    log_open(&log, folder, "plant.log");
    /* The line of names. Were it left out, the line of period 1 would be taken for it, and the periods would not begin with 1. */
    log_next_line(&log);
    enum Line line = log_next_line(&log);
    while (line == LINE_WHOLE) {
        read_period(plant, &log);
        line = log_next_line(&log);
    }
    if (line == LINE_CUT) {
        log_unreadable(&log, "a line of the plant's log does not end as it should");
    }
}
