#define _POSIX_C_SOURCE 200809L
#include "journal.h"

#include <fcntl.h>
#include <unistd.h>

#include "layout.h"
#include "entry.h"
#include "word.h"

int journal_opened(const char *path)
{
    int log = open(path, O_WRONLY | O_CREAT | O_APPEND, 0644);
    need(log >= 0 && write(log, "\n", 1) == 1, "the log cannot be written");
    return log;
}

/* The first `columns` values of each of the first `rows` rows. */
static void put_table(struct Entry *entry, const int32_t *table, size_t stride, size_t rows, size_t columns)
{
    for (size_t place = 0; place < rows * columns; place++) {
        entry_number(entry, table[place / columns * stride + place % columns]);
    }
}

void journal_made(const struct Box *box, const struct winder_settings *law, const int32_t start[WINDER_STATES_MAX])
{
    struct Entry entry = entry_with("made");
    entry_number(&entry, box->own);
    entry_number(&entry, BOXES);
    entry_number(&entry, (int64_t)law->n);
    entry_number(&entry, (int64_t)law->m);
    entry_number(&entry, (int64_t)law->p);
    put_table(&entry, law->a, 6, law->n, law->n);
    put_table(&entry, law->l, 4, law->n, law->m);
    put_table(&entry, law->c, 6, law->m, law->n);
    put_table(&entry, law->k, 6, law->p, law->n);
    put_table(&entry, law->low, 4, 1, law->p);
    put_table(&entry, law->high, 4, 1, law->p);
    put_table(&entry, start, 6, 1, law->n);
    entry_write(&entry, box->log);
}

/* Period, view and estimate of a record. */
static void put_held(struct Entry *entry, const uint8_t *record)
{
    entry_number(entry, word_at(record + PERIOD_AT));
    entry_number(entry, word_at(record + VIEW_AT));
    for (size_t i = 0; i < record[STATES_AT]; i++) {
        entry_number(entry, (int32_t)word_at(record + STATE_AT + 4 * i));
    }
    for (size_t j = 0; j < record[READINGS_AT]; j++) {
        entry_number(entry, record[MARKS_AT] >> j & 1);
        entry_number(entry, (int32_t)word_at(record + VALUES_AT + 4 * j));
    }
}

void journal_returned(const struct Box *box, const uint8_t record[WINDER_RECORD], uint32_t missed)
{
    struct Entry entry = entry_with("returned");
    put_held(&entry, record);
    entry_word(&entry, "missed");
    entry_number(&entry, missed);
    entry_write(&entry, box->log);
}

void journal_tick(const struct Box *box, const struct Sample *sample)
{
    struct Entry entry = entry_with("tick");
    for (size_t j = 0; j < box->replica[READINGS_AT]; j++) {
        entry_number(&entry, sample->kinds[j]);
        entry_number(&entry, sample->bits[j]);
    }
    entry_write(&entry, box->log);
}

void journal_arrive(const struct Box *box, const struct Arrived *arrived)
{
    struct Entry entry = entry_with("arrive");
    entry_bytes(&entry, arrived->bytes, arrived->length);
    entry_write(&entry, box->log);
}

void journal_give_up(const struct Box *box)
{
    struct Entry entry = entry_with("give-up");
    entry_write(&entry, box->log);
}

void journal_committed(const struct Box *box)
{
    struct Entry entry = entry_with("committed");
    entry_bytes(&entry, box->frame, box->lengths[0]);
    entry_bytes(&entry, box->command, box->lengths[1]);
    put_held(&entry, box->replica);
    entry_write(&entry, box->log);
}

void journal_refused(const struct Box *box, uint32_t number)
{
    struct Entry entry = entry_with("refused");
    entry_number(&entry, number);
    entry_write(&entry, box->log);
}

void journal_unstored(const struct Box *box)
{
    struct Entry entry = entry_with("unstored");
    entry_write(&entry, box->log);
}
