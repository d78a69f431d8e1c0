/* What leaves a box. */
#ifndef OUTBOX_H
#define OUTBOX_H

#include "box.h"

/* The frame that the latest ask gave, to the boxes that it is for; nothing where it gave none. */
void send_frame(const struct Box *box);

/* The command that it gave, to the drive. */
void send_command(const struct Box *box);

#endif
