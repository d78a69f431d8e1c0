/* The last record of each box, in a file of a folder that was opened; in memory where the folder is -1. Each call says whether it was done. */
#include "winder.h"

int store(int folder, int own, const uint8_t record[WINDER_RECORD]);
int load(int folder, int own, uint8_t record[WINDER_RECORD]);
