#include "rig_line.h"

#include <stdio.h>

/* The places of a table that are in use, row by row. */
static void write_table_of(const int32_t *table, size_t rows, size_t columns, size_t stride)
{
    for (size_t i = 0; i < rows; i++) {
        for (size_t j = 0; j < columns; j++) {
            printf(" %ld", (long)table[i * stride + j]);
        }
    }
}

void write_rig_line(int boxes, const struct winder_settings *law, const int32_t state[WINDER_STATES_MAX])
{
    printf("rig %d %zu %zu %zu", boxes, law->n, law->m, law->p);
    write_table_of(law->a, law->n, law->n, WINDER_STATES_MAX);
    write_table_of(law->l, law->n, law->m, WINDER_READINGS_MAX);
    write_table_of(law->c, law->m, law->n, WINDER_STATES_MAX);
    write_table_of(law->k, law->p, law->n, WINDER_STATES_MAX);
    write_table_of(law->low, 1, law->p, WINDER_COMMANDS_MAX);
    write_table_of(law->high, 1, law->p, WINDER_COMMANDS_MAX);
    write_table_of(state, 1, law->n, WINDER_STATES_MAX);
    printf("\n");
}
