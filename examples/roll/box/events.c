#include "events.h"

#include "journal.h"
#include "layout.h"
#include "outbox.h"
#include "store.h"
#include "timer.h"
#include "word.h"

/* How long a coordinator may be silent: half a period, so that the next one has the other half. */
#define SILENCE(box) ((box)->clock.period / 2)

/* A host that sends first stores when it finds the time. Here that is once in so many periods. */
#define STORED_LATE 500

uint32_t box_period(const struct Box *box)
{
    return word_at(box->replica + PERIOD_AT);
}

/* Whether the ask is worth going on with. Ignored is no fault, and leaves no line. */
static bool was_answered(const struct Box *box, uint32_t answer)
{
    if (answer != 0 && answer != WINDER_IGNORED) {
        journal_refused(box, answer);
    }
    return answer == 0;
}

static bool store_record(const struct Box *box)
{
    return store(box->folder, box->own, box->record);
}

/* What follows an ask that was answered: store, commit, send. Whether the event has occurred. */
static bool finish(struct Box *box)
{
    if (!box->sends_first && !store_record(box)) {
        journal_unstored(box);
        return false;
    }
    need(winder_commit(ASKED_OF(box), box->ticket[0]) == 0, "a ticket was not committed");
    journal_committed(box);
    send_frame(box);
    send_command(box);
    if (box->sends_first && box_period(box) % STORED_LATE == 0) {
        need(store_record(box), "a record was not stored");
    }
    return true;
}

/* The sample of the period that begins, or none where it has not come. */
static struct Sample sample_for(const struct Box *box, uint32_t period)
{
    return box->sample.period == period ? box->sample : (struct Sample){.period = period};
}

static bool tick(struct Box *box)
{
    struct Sample sample = sample_for(box, box_period(box) + 1);
    if (!was_answered(box, winder_ask_tick(ASKED_OF(box), sample.kinds, sample.bits, LENT_BY(box)))) {
        return false;
    }
    journal_tick(box, &sample);
    return finish(box);
}

static void early_frames_arrive(struct Box *box)
{
    struct Early early = box->early;
    box->early.count = 0;
    for (size_t i = 0; i < early.count; i++) {
        arrives(box, &early.frames[i]);
    }
}

void ticks(struct Box *box)
{
    int64_t now = clock_now();
    while (box_period(box) < ticks_due(&box->clock, now) && tick(box)) {
    }
    timer_set(box->tick_timer, ticked_at(&box->clock, ticks_due(&box->clock, now) + 1));
    timer_set(box->give_up_timer, now + SILENCE(box));
    early_frames_arrive(box);
}

void arrives(struct Box *box, const struct Arrived *arrived)
{
    if (is_early(arrived, box_period(box))) {
        keep_early(&box->early, arrived);
        return;
    }
    if (!was_answered(box, winder_ask_arrive(ASKED_OF(box), arrived->bytes, arrived->length, LENT_BY(box)))) {
        return;
    }
    journal_arrive(box, arrived);
    bool is_from_coordinator = arrived->bytes[0] == WINDER_PROPOSE || arrived->bytes[0] == WINDER_DECIDE;
    if (finish(box) && is_from_coordinator) {
        timer_stop(box->give_up_timer);
    }
}

void gives_up(struct Box *box)
{
    if (!was_answered(box, winder_ask_give_up(ASKED_OF(box), LENT_BY(box)))) {
        return;
    }
    journal_give_up(box);
    finish(box);
    timer_set(box->give_up_timer, clock_now() + SILENCE(box));
}
