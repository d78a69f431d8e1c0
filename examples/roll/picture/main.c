/* picture FOLDER: writes the picture of a test roll, by the logs in a folder, to standard output. */
#include <stdio.h>

#include "draw.h"
#include "logs.h"
#include "process.h"

int main(int argc, char **argv)
{
    static struct Logs logs;
    need(argc == 2, "usage: picture FOLDER");
    read_logs(argv[1], &logs);
    draw_roll(&logs);
    need(!ferror(stdout) && fflush(stdout) == 0, "the picture is not complete");
    return 0;
}
