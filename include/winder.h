/*
 * The controller law of a winder in fixed point, the conversion of readings for it, the frames that its boxes send each other, their
 * commands, the shift page of what they did, and the replica that runs in a box: crate winder as a static library.
 *
 * Sizes. A controller has n states (1 to 6), m readings and p commands (each 1 to 4). Every area is as long as its prototype says,
 * whatever n, m and p are; places beyond n, m and p are not looked at.
 *
 * Tables. Coefficients are whole numbers in units of 1/65536, from -16,777,216 to 16,777,216. Rows and columns are counted from 0:
 * A(i,j) is a[i * 6 + j], L(i,j) is l[i * 4 + j], C(j,i) is c[j * 6 + i] and K(j,i) is k[j * 6 + i].
 *
 * A row of readings. present[j] is 0 where reading j is absent, and anything else where it is present; values[j] is its value. A count
 * goes there as it is; winder_convert_single makes mark and value of a single in newtons.
 *
 * Limited. The mark that goes with an update, a command and what a box issues: 1 where it is not what the gains alone would give, since
 * clamping or limits changed a value, else 0. A value at its limit is not changed by it.
 *
 * A replica is its record: WINDER_RECORD bytes, laid out as docs/RECORD.md says, that a host keeps, lends to each call, and stores. No call
 * keeps anything else of it. A host that asks what a step would give before the step is made keeps a replica with tickets instead:
 * WINDER_TICKETED bytes, the record and the tickets behind it. It stores records alone. Each call takes one of the two, and refuses the
 * other by 15.
 *
 * Results. Each call but winder_version and winder_convert_single returns 0, or the number of a refusal (enum winder_refusal); the lowest
 * number comes first, but for 15, which comes first of all where a call is lent a replica, and for 18, which comes after 4. A step of a
 * replica may also return WINDER_IGNORED, and so may an ask. Refused or ignored, every area holds what it held; but for the lengths that a
 * step or an ask has written, which are then 0, and for the tickets of an ask (see there).
 *
 * Asked of the caller: no pointer is null, not even one with the length 0; and an area that a call writes overlaps no other area of
 * that call. Nothing else is asked: any numbers may stand in the areas. The functions keep nothing between calls, and of the C library
 * they call memcpy and memset alone.
 */
#ifndef WINDER_H
#define WINDER_H

#include <stddef.h>
#include <stdint.h>

/*
 * The version: major version times 100, and minor version. A further call makes a new minor version; a call that is gone or means
 * something else makes a new major one. winder_version says for which version the archive was made.
 */
#define WINDER_VERSION 300
#define WINDER_VERSION_TEXT "3.0"

/* The most states, readings and commands; the least of each is 1. */
#define WINDER_STATES_MAX 6
#define WINDER_READINGS_MAX 4
#define WINDER_COMMANDS_MAX 4

/* The largest coefficient; the lowest is its negative. */
#define WINDER_COEFFICIENT_MAX 16777216

/* The longest frame, which a frame area must have room for whatever the length of the frame; and the longest command. */
#define WINDER_FRAME_AREA 69
#define WINDER_COMMAND_AREA 24

/* The words of an entry of a shift page, the most lines, and the longest page, which a page area must have room for whatever the page has. */
#define WINDER_ENTRY_WORDS 7
#define WINDER_PAGE_LINES 60
#define WINDER_PAGE_AREA 4380

/* The length of a record, and the most periods that a box may have missed. */
#define WINDER_RECORD 616
#define WINDER_MISSED_MAX 10000

/* The length of a replica with tickets. */
#define WINDER_TICKETED 752

/* What a step or an ask returns where the event was ignored. */
#define WINDER_IGNORED 256

/* The kinds of readings that a tick takes; a kind of any other number is a missing reading too. */
enum winder_reading {
    WINDER_MISSING = 0,
    WINDER_COUNT = 1, /* the bits are a count, an int32_t cast to uint32_t */
    WINDER_SINGLE = 2 /* the bits are those of an IEEE 754 single, in newtons */
};

/* The kinds of frames. */
enum winder_kind {
    WINDER_PROPOSE = 1,
    WINDER_ACK = 2,
    WINDER_DECIDE = 3,
    WINDER_ESTIMATE = 4
};

enum winder_refusal {
    WINDER_REFUSED_GROUP = 1,       /* N not 3 to 9, or the own number not 1 to N */
    WINDER_REFUSED_SIZES = 2,       /* n, m or p outside its range */
    WINDER_REFUSED_COEFFICIENT = 3, /* a coefficient outside its range */
    WINDER_REFUSED_LIMITS = 4,      /* a lower limit above its upper */
    WINDER_REFUSED_AREA = 5,        /* an area under 69 bytes for a frame, 24 for a command, 616 for a record, 752 with tickets */
    WINDER_REFUSED_LAST_PERIOD = 6, /* a tick in period 4,294,967,295 */
    WINDER_REFUSED_MARK = 7,        /* a reading present in a place at or above m */
    WINDER_REFUSED_FRAME = 8,       /* no frame: length, kind, part count, byte 3, pairs, marks or absent values; or no command */
    WINDER_REFUSED_SENDER = 9,      /* a sender that is not 1 to N, or the box itself */
    WINDER_REFUSED_PLACE = 10,      /* Propose or Decide not from its view's coordinator; Ack or Estimate at a box that isn't */
    WINDER_REFUSED_BASE = 11,       /* base fields that the kind of frame does not have */
    WINDER_REFUSED_LAST_VIEW = 12,  /* a view to be raised that is 4,294,967,295 */
    WINDER_REFUSED_PAGE_AREA = 13,  /* a page area under 4,380 bytes */
    WINDER_REFUSED_PERIODS = 14,    /* more than 60 distinct periods */
    WINDER_REFUSED_RECORD = 15,     /* no record, or no replica with tickets: docs/RECORD.md has the conditions */
    WINDER_REFUSED_MISSED = 16,     /* more than 10,000 missed periods, or a period or view that would pass its largest value */
    WINDER_REFUSED_TICKET = 17,     /* a ticket not the latest ask's, void or committed, or that ask ignored or refused */
    WINDER_REFUSED_QUORUMS = 18     /* a or b, the quorums, not 2 to N, or a + b not above N */
};

/* What the law is given once: sizes, tables and limits. */
struct winder_settings {
    size_t n;
    size_t m;
    size_t p;
    int32_t a[36];
    int32_t l[24];
    int32_t c[24];
    int32_t k[24];
    int32_t low[4];
    int32_t high[4];
};

#ifdef __cplusplus
extern "C" {
#endif

/* The version of the archive: WINDER_VERSION of the header that it was made with. */
uint32_t winder_version(void);

/*
 * Converts a reading that is an IEEE 754 single in newtons. bits is the single's 32 bits as a number: 0x3fc00000 is 1.5.
 *
 * The value is the single times 65536, exactly, rounded toward minus infinity: 1.5 gives 98304, -0.0 gives 0, and a negative single
 * closer to zero than 1/65536 gives -1. A NaN, an infinity or a value outside the int32_t range counts as missing: -32768.0 gives
 * -2147483648, 32768.0 is missing.
 *
 * Returns the present mark, 1 or 0. *value: out, the value, and 0 where the reading is missing. So a row is filled by
 * present[j] = winder_convert_single(bits, &values[j]).
 *
 * Refuses nothing.
 */
uint8_t winder_convert_single(uint32_t bits, int32_t *value);

/*
 * Update: the state after one period with these readings.
 *
 *   e(j)  = clamp(y(j) - (sum over i of C(j,i) * x(i)) / 65536) for a present reading, and 0 for an absent one
 *   x'(i) = clamp((sum of A(i,j) * x(j) + sum of L(i,j) * e(j)) / 65536), one division for both sums
 *
 * Clamp means: into the int32_t range. Division goes to the nearest whole number, ties to the even one. state: in, the state x; out, the
 * state x', and 0 in the places beyond n. *limited: out, 1 where clamping changed e(j) of a present reading or x'(i), else 0. k, low and high
 * are looked at for refusals alone.
 *
 * Refuses by 2, 3 and 4.
 */
uint32_t winder_update(
    size_t n,
    size_t m,
    size_t p,
    const int32_t a[36],
    const int32_t l[24],
    const int32_t c[24],
    const int32_t k[24],
    const int32_t low[4],
    const int32_t high[4],
    const uint8_t present[4],
    const int32_t values[4],
    int32_t state[6],
    uint8_t *limited);

/* The same, with settings from a struct. */
static inline uint32_t winder_update_with(
    const struct winder_settings *settings,
    const uint8_t present[4],
    const int32_t values[4],
    int32_t state[6],
    uint8_t *limited)
{
    return winder_update(
        settings->n,
        settings->m,
        settings->p,
        settings->a,
        settings->l,
        settings->c,
        settings->k,
        settings->low,
        settings->high,
        present,
        values,
        state,
        limited);
}

/*
 * The commands of a state.
 *
 *   command j = (sum over i of K(j,i) * x(i)) / 65536, brought into its own limits low[j] and high[j]
 *
 * Division goes to the nearest whole number, ties to the even one. commands: out, the commands, and 0 in the places beyond p. *limited: out,
 * 1 where its limits changed a command, else 0. a, l and c are looked at for refusals alone.
 *
 * Refuses by 2, 3 and 4.
 */
uint32_t winder_command(
    size_t n,
    size_t m,
    size_t p,
    const int32_t a[36],
    const int32_t l[24],
    const int32_t c[24],
    const int32_t k[24],
    const int32_t low[4],
    const int32_t high[4],
    const int32_t state[6],
    int32_t commands[4],
    uint8_t *limited);

/* The same, with settings from a struct. */
static inline uint32_t winder_command_with(
    const struct winder_settings *settings,
    const int32_t state[6],
    int32_t commands[4],
    uint8_t *limited)
{
    return winder_command(
        settings->n,
        settings->m,
        settings->p,
        settings->a,
        settings->l,
        settings->c,
        settings->k,
        settings->low,
        settings->high,
        state,
        commands,
        limited);
}

/*
 * Reads a frame of n states and m readings. bytes is the whole frame, bytes_length its length.
 *
 * Out: kind_and_sender holds the kind (enum winder_kind), then the sender; counters holds period, view, base view and base period; state
 * holds the state, and 0 in the places beyond n; present holds 1 for a present reading, else 0; values holds the readings, and 0 where
 * absent and in the places beyond m. An Ack has neither state nor readings: there all three are 0 in every place.
 *
 * Refuses by 2 for n and m, then by 8. Whether the sender, the view's coordinator and the base fields are right is not looked at.
 */
uint32_t winder_read_frame(
    size_t n,
    size_t m,
    const uint8_t *bytes,
    size_t bytes_length,
    uint8_t kind_and_sender[2],
    uint32_t counters[4],
    int32_t state[6],
    uint8_t present[4],
    int32_t values[4]);

/*
 * Writes a frame of n states and m readings to the start of an area. kind_and_sender, counters, state, present and values are laid out
 * as winder_read_frame gives them; an Ack takes nothing of state, present and values.
 *
 * Out: area starts with the frame, and bytes after it keep what they held; *length is the frame's length.
 *
 * Refuses by 2 for n and m, then by 5 for an area_length under 69, then by 8: a kind that is not 1 to 4, a present mark at or above m,
 * or a value that is not 0 under an absent mark.
 */
uint32_t winder_write_frame(
    size_t n,
    size_t m,
    const uint8_t kind_and_sender[2],
    const uint32_t counters[4],
    const int32_t state[6],
    const uint8_t present[4],
    const int32_t values[4],
    uint8_t *area,
    size_t area_length,
    size_t *length);

/*
 * Reads a command of p values, which a box writes where it decides. bytes is the whole command, bytes_length its length.
 *
 * Out: *period is the period that the command was decided for; commands holds its values, and 0 in the places beyond p; *limited is its byte
 * 2: 1 where clamping or limits changed a value in the update or the command that it comes from, else 0.
 *
 * Refuses by 2 for p, then by 8: a length that is not 8 + 4 * p, byte 0 not 5, byte 1 not p, byte 2 above 1, or byte 3 not 0.
 */
uint32_t winder_read_command(
    size_t p,
    const uint8_t *bytes,
    size_t bytes_length,
    uint32_t *period,
    int32_t commands[4],
    uint8_t *limited);

/*
 * Writes a shift page to the start of an area: a line for each period, in rising order, of 72 bytes and a line feed. Columns from 0: the
 * period right-aligned in 0 to 9, the view in 11 to 20, command j in 22 + 12 * j to 33 + 12 * j, spaces elsewhere. A period without a
 * command has a hyphen in column 33.
 *
 * entries holds WINDER_ENTRY_WORDS words for each entry, in the order given: period, view, 0 where there is no command and anything else
 * where there is one, then four values, each an int32_t cast to uint32_t, of which the first p count. entries_length is the number of
 * words; words that are left over are no entry. Any number of entries is taken. Of the entries of one period the first with a command
 * stands on the page, else the first.
 *
 * Out: area starts with the page, and bytes after it keep what they held; *length is the page's length, 73 for each line.
 *
 * Refuses by 2 for p, then by 13 for an area_length under 4,380, then by 14 for more than 60 distinct periods.
 */
uint32_t winder_write_page(
    size_t p,
    const uint32_t *entries,
    size_t entries_length,
    uint8_t *area,
    size_t area_length,
    size_t *length);

/*
 * Makes a fresh replica of box `own` in a group of `boxes`: period and view 0, the starting state, no reading, no box heard. start is the
 * starting state; of it and of the tables the replica keeps all places as they are given.
 *
 * to_decide is a, the boxes needed to decide; to_propose is b, the boxes heard before a new coordinator proposes: each 2 to N, with a + b
 * above N. The coordinator is one of them both times. All boxes of a group have the same two; a majority, N / 2 + 1, will do for both.
 *
 * Out: replica starts with its record, and bytes after it keep what they held. The steps take the record's WINDER_RECORD bytes alone.
 *
 * Refuses by 1, 2, 3, 4 and 18, then by 5 for a replica_length under 616.
 */
uint32_t winder_make(
    size_t n,
    size_t m,
    size_t p,
    const int32_t a[36],
    const int32_t l[24],
    const int32_t c[24],
    const int32_t k[24],
    const int32_t low[4],
    const int32_t high[4],
    const int32_t start[6],
    uint8_t boxes,
    uint8_t own,
    uint8_t to_decide,
    uint8_t to_propose,
    uint8_t *replica,
    size_t replica_length);

/* The same, with settings from a struct. */
static inline uint32_t winder_make_with(
    const struct winder_settings *settings,
    const int32_t start[6],
    uint8_t boxes,
    uint8_t own,
    uint8_t to_decide,
    uint8_t to_propose,
    uint8_t *replica,
    size_t replica_length)
{
    return winder_make(
        settings->n,
        settings->m,
        settings->p,
        settings->a,
        settings->l,
        settings->c,
        settings->k,
        settings->low,
        settings->high,
        start,
        boxes,
        own,
        to_decide,
        to_propose,
        replica,
        replica_length);
}

/*
 * The three steps of a replica: a tick with readings, a view given up, and bytes that arrived as a frame. replica: in, its record; out, the
 * record after the step. replica_length is 616, else the step is refused by 15.
 *
 * Out: frame starts with the frame that the step sends, command with the command that it issues, and bytes after them keep what they held.
 * lengths holds the length written to each, 0 where nothing was: it is written whatever the answer is. To whom a frame goes: Propose and
 * Decide to all other boxes, an Ack and an Estimate to the coordinator of the frame's view, which is box (view mod N) + 1.
 *
 * kinds[j] and bits[j] are reading j: its kind (enum winder_reading), and its 32 bits.
 *
 * Each refuses by 15, then by 5 for a frame_length under 69 or a command_length under 24. Then a tick by 6, 7 and 12, a view given up by 12,
 * bytes that arrived by 8, 9, 10 and 11. A tick is never ignored.
 */
uint32_t winder_tick(
    uint8_t *replica,
    size_t replica_length,
    const uint8_t kinds[4],
    const uint32_t bits[4],
    uint8_t *frame,
    size_t frame_length,
    uint8_t *command,
    size_t command_length,
    size_t lengths[2]);

uint32_t winder_give_up(
    uint8_t *replica,
    size_t replica_length,
    uint8_t *frame,
    size_t frame_length,
    uint8_t *command,
    size_t command_length,
    size_t lengths[2]);

uint32_t winder_arrive(
    uint8_t *replica,
    size_t replica_length,
    const uint8_t *bytes,
    size_t bytes_length,
    uint8_t *frame,
    size_t frame_length,
    uint8_t *command,
    size_t command_length,
    size_t lengths[2]);

/*
 * Records a replica: its record at the start of another area. Bytes after it keep what they held.
 *
 * Refuses by 15, then by 5 for an area_length under 616.
 */
uint32_t winder_record(
    const uint8_t *replica,
    size_t replica_length,
    uint8_t *area,
    size_t area_length);

/*
 * Returns from a record after a power cycle: the replica that a box would be which stayed up, was handed no reading in so many missed
 * periods and lost every frame. stored is the record that the box stored last.
 *
 * Out: replica starts with its record, and bytes after it keep what they held.
 *
 * Refuses by 15, then by 5 for a replica_length under 616, then by 16.
 */
uint32_t winder_return(
    const uint8_t *stored,
    size_t stored_length,
    uint32_t missed,
    uint8_t *replica,
    size_t replica_length);

/*
 * Puts tickets beside a replica that was made or has returned: none was given yet. replica is the record that winder_make or winder_return
 * wrote.
 *
 * Out: area starts with the replica with tickets, and bytes after it keep what they held. The calls below take its WINDER_TICKETED bytes
 * alone.
 *
 * Refuses by 15, then by 5 for an area_length under 752.
 */
uint32_t winder_tickets(
    const uint8_t *replica,
    size_t replica_length,
    uint8_t *area,
    size_t area_length);

/*
 * The three asks: what a step would give, without the step. replica is a replica with tickets, of which the record stays as it is.
 * replica_length is 752, else the ask is refused by 15.
 *
 * Out: where the answer is 0, area starts with the record of the replica after the step, frame with the frame that it would send, command
 * with the command that it would issue, and bytes after them keep what they held. lengths holds the length written to frame and to command,
 * ticket the ticket of this ask: both are written whatever the answer is. Nothing is to be sent before the ticket is committed.
 *
 * Tickets count from 1. An ask of any answer but 15 takes the next one and voids the one before; its own can be committed where the answer
 * is 0. After ticket 18,446,744,073,709,551,615 an ask is ignored whatever else is wrong, but for 15: it voids that ticket, and its own is 0.
 * Refused by 15, an ask leaves the tickets as they were, and its own is 0.
 *
 * Each refuses by 15, then by 5 for an area_length under 616, a frame_length under 69 or a command_length under 24, then as its step does.
 */
uint32_t winder_ask_tick(
    uint8_t *replica,
    size_t replica_length,
    const uint8_t kinds[4],
    const uint32_t bits[4],
    uint8_t *area,
    size_t area_length,
    uint8_t *frame,
    size_t frame_length,
    uint8_t *command,
    size_t command_length,
    size_t lengths[2],
    uint64_t ticket[1]);

uint32_t winder_ask_give_up(
    uint8_t *replica,
    size_t replica_length,
    uint8_t *area,
    size_t area_length,
    uint8_t *frame,
    size_t frame_length,
    uint8_t *command,
    size_t command_length,
    size_t lengths[2],
    uint64_t ticket[1]);

uint32_t winder_ask_arrive(
    uint8_t *replica,
    size_t replica_length,
    const uint8_t *bytes,
    size_t bytes_length,
    uint8_t *area,
    size_t area_length,
    uint8_t *frame,
    size_t frame_length,
    uint8_t *command,
    size_t command_length,
    size_t lengths[2],
    uint64_t ticket[1]);

/*
 * Commits a ticket: makes the very step that its ask was for. To be called once the record that the ask gave is stored; what it wrote to
 * frame and command may be sent after that, and is not written again. replica: in, a replica with tickets; out, the same after the step. The
 * ticket cannot be committed again.
 *
 * Refuses by 15, then by 17.
 */
uint32_t winder_commit(
    uint8_t *replica,
    size_t replica_length,
    uint64_t ticket);

/*
 * The three steps of a replica with tickets, without an ask: as winder_tick, winder_give_up and winder_arrive. replica_length is 752, else
 * the step is refused by 15. Where the answer is 0 the latest ticket is void; where it is not, the tickets are as they were.
 *
 * Each refuses by 15, then by 5 for a frame_length under 69 or a command_length under 24, then as the step without tickets does.
 */
uint32_t winder_ticketed_tick(
    uint8_t *replica,
    size_t replica_length,
    const uint8_t kinds[4],
    const uint32_t bits[4],
    uint8_t *frame,
    size_t frame_length,
    uint8_t *command,
    size_t command_length,
    size_t lengths[2]);

uint32_t winder_ticketed_give_up(
    uint8_t *replica,
    size_t replica_length,
    uint8_t *frame,
    size_t frame_length,
    uint8_t *command,
    size_t command_length,
    size_t lengths[2]);

uint32_t winder_ticketed_arrive(
    uint8_t *replica,
    size_t replica_length,
    const uint8_t *bytes,
    size_t bytes_length,
    uint8_t *frame,
    size_t frame_length,
    uint8_t *command,
    size_t command_length,
    size_t lengths[2]);

#ifdef __cplusplus
}
#endif

#endif
