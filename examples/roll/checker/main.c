/*
 * The checker of a test roll: reads the logs of all boxes, of the plant and of the drive, and says whether what the group did is
 * what document 01 promises under "The history of demand 3", with document 02's L1, L2, L4, L6 and L7.
 *
 * checker FOLDER: status 0, nothing found; 1, a violation was found; 2, the logs cannot be read.
 */
#include <stdio.h>

#include "alike.h"
#include "box.h"
#include "drive.h"
#include "figures.h"
#include "frames.h"
#include "history.h"
#include "plant.h"
#include "report.h"
#include "rows.h"

static void read_boxes(struct History *history, struct Report *report, const char *folder)
{
    history_begin(history);
    for (int32_t box = 1; box <= BOXES; box++) {
        read_box(history, report, folder, box);
    }
}

static void print_commands(const struct History *history, const struct Drive *drive, bool alike)
{
    printf("checker: %zu commands of %zu periods, %zu at the drive%s\n", history->commands, history->decided_periods, drive->count,
           alike ? ": alike in each period" : "");
}

static void check(struct History *history, const struct Drive *drive, struct Report *report)
{
    check_settings(history, report);
    check_frames(history, report);
    check_layout(history, report);
    const bool alike = commands_are_alike(history, drive, report);
    const bool found = one_choice_of_rows(history, report);
    check_taken(drive, history->settings[0].p, report);
    print_early_records(history);
    print_violations(report);
    print_commands(history, drive, alike);
    if (found) {
        printf("checker: one choice of rows for all decided periods: found\n");
    }
    if (report->violations == 0) {
        printf("checker: nothing found\n");
    } else {
        printf("checker: %zu violation%s\n", report->violations, report->violations == 1 ? "" : "s");
    }
}

int main(int argc, char **argv)
{
    if (argc != 2) {
        fprintf(stderr, "checker FOLDER\n");
        return 2;
    }
    struct History history;
    struct Plant plant = {0};
    struct Drive drive = {0};
    struct Report report = {0};
    read_boxes(&history, &report, argv[1]);
    read_plant(&plant, argv[1]);
    read_drive(&drive, argv[1]);
    print_figures(&history, &plant);
    check(&history, &drive, &report);
    return report.violations == 0 ? 0 : 1;
}
