#include "outbox.h"

#include "word.h"

enum { FRAME_VIEW_AT = 8 };

static bool is_for_all(const uint8_t *frame)
{
    return frame[0] == WINDER_PROPOSE || frame[0] == WINDER_DECIDE;
}

/* An Ack and an Estimate are for the coordinator of the frame's view. */
static bool is_for(const uint8_t *frame, uint32_t other)
{
    return is_for_all(frame) || other == word_at(frame + FRAME_VIEW_AT) % BOXES + 1;
}

void send_frame(const struct Box *box)
{
    for (uint32_t other = 1; other <= BOXES && box->lengths[0] > 0; other++) {
        if (other != box->own && is_for(box->frame, other)) {
            send_datagram(box->frames, &box->boxes[other], box->frame, box->lengths[0]);
        }
    }
}

void send_command(const struct Box *box)
{
    if (box->lengths[1] > 0) {
        send_datagram(box->frames, &box->drive, box->command, box->lengths[1]);
    }
}
