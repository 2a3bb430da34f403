/*
 * Hasfandur: proved link software for C.
 *
 * `make install` puts it where `pkg-config hasfandur` finds it; or link with libhasfandur.a. No other library and no flag is
 * needed. docs/C.md has a short example of each call.
 * Each function is proved to meet its contract in crates/hasfandur and the crates whose names begin with hasfandur_, for every
 * argument that a C program can pass as its comment says: a pointer to `length` octets, or to as many records as is said, that are the
 * caller's, and that no other argument overlaps where they are written. That this header says of them what is proved is compared and
 * tested (numbers, types, every call), not proved.
 * No function allocates, keeps a pointer, or fails: what it can't do it refuses by a number, and a refusal changes nothing
 * that it was lent.
 * A pointer with length 0 is not read, and may be null.
 */
#ifndef HASFANDUR_H
#define HASFANDUR_H

#include <stdbool.h>
#include <stddef.h>
#include <stdint.h>

#ifdef __cplusplus
extern "C" {
#endif

/* The version, and the same as one number to compare: 10000 for the first part, 100 for the second. */
/* begin version: written by include/numbers */
#define HASFANDUR_VERSION "0.10.0"
#define HASFANDUR_VERSION_NUMBER 1000
/* end version */

/* On calls that give a state or a link back: who drops it goes on with the old one. */
#if defined(__GNUC__)
#define HASFANDUR_MUST_USE __attribute__((warn_unused_result))
#else
#define HASFANDUR_MUST_USE
#endif

/* The numbers given back. Where several refusals apply the first is given: QAFT writer 6, 7, 1, 2, 3; QAFT reader 6, 7, 4, 5; KISS
 * writer 1, 2, 64; KISS reader 4, 5; conversions 6, then 64 to KISS and 3 to QAFT; fresh link 28; link 27, 26, 23, 21, 20, 22, 24;
 * AFP reader 30 upward; AFP next receiver 30, 34, 36, 35, 37; AFP writer 33, 35, 36, 38, 34, 40, 41;
 * line sheet 6, 50, 51. */
/* begin numbers: written by include/numbers */
enum hasfandur_number {
    HASFANDUR_DONE = 0, /* done */
    HASFANDUR_QAFT_NO_DATA = 1, /* QAFT writer, KISS too: no data */
    HASFANDUR_QAFT_DATA_TOO_LONG = 2, /* QAFT writer, KISS too: over 2,560 data octets */
    HASFANDUR_QAFT_OUT_TOO_SMALL = 3, /* QAFT writer and conversion to QAFT: `out` is shorter than this very frame or line */
    HASFANDUR_QAFT_BUFFER_TOO_SMALL = 4, /* QAFT reader, KISS too: `buffer` is under 2,561 octets, with the check sequence 2,562 */
    HASFANDUR_QAFT_BAD_STATE = 5, /* QAFT reader, KISS too: a state that is not well formed */
    HASFANDUR_QAFT_BAD_LEVEL = 6, /* QAFT writer, reader, conversions and line sheet: level not 0 or 1 */
    HASFANDUR_QAFT_BAD_KIND = 7, /* QAFT writer and reader: check kind not 0 or 1 */
    HASFANDUR_QAFT_FRAME = 10, /* QAFT reader's report, KISS too, no refusal: a frame */
    HASFANDUR_QAFT_ABORTED = 11, /* QAFT reader's report, no refusal: a 7D stands before the flag */
    HASFANDUR_QAFT_LONG = 12, /* QAFT reader's report, no refusal: over 2,561 octets, with the check sequence 2,562 */
    HASFANDUR_QAFT_SHORT = 13, /* QAFT reader's report, no refusal: a single octet, with the check sequence one or two */
    HASFANDUR_QAFT_BAD_CHECK = 14, /* QAFT reader's report, no refusal: the sum is not 0, or the check sequence is another */
    HASFANDUR_QAFT_USED_UP = 15, /* QAFT reader, KISS too, no refusal: the chunk is used up without a report */
    HASFANDUR_QAFT_BAD_PAIR = 16, /* QAFT reader's report, no refusal: 7D before an octet that stands for none that the level escapes */
    HASFANDUR_DLC_NOT_OPEN = 20, /* DLC payload: the link is not open */
    HASFANDUR_DLC_PAYLOAD_TOO_LONG = 21, /* DLC payload: over 256 octets */
    HASFANDUR_DLC_QUEUE_FULL = 22, /* DLC payload: the queue is full */
    HASFANDUR_DLC_BAD_PACKET = 23, /* DLC arrival: what arrived is no packet */
    HASFANDUR_DLC_NO_ENTRY = 24, /* DLC every event: no entry in this state, or a DACK of none or of more than are queued */
    HASFANDUR_DLC_OTHER_NUMBER = 25, /* DLC arrival, no refusal: DATA with another number than the expected one; a DACK is sent */
    HASFANDUR_DLC_REPLY_TOO_SMALL = 26, /* DLC every event: `reply` is under 3,855 octets */
    HASFANDUR_DLC_BAD_LINK = 27, /* DLC every event: the link is not well formed */
    HASFANDUR_DLC_BAD_EDITION = 28, /* DLC fresh link: edition not 1 or 2 */
    HASFANDUR_AFP_BAD_LENGTH = 30, /* AFP reader and next receiver: frame not of 14 to 2,560 octets */
    HASFANDUR_AFP_BAD_CHECK = 31, /* AFP reader: check sequence */
    HASFANDUR_AFP_BAD_VERSION = 32, /* AFP reader: version not 1 */
    HASFANDUR_AFP_BAD_PROTOCOL = 33, /* AFP reader and writer: protocol FE or FF */
    HASFANDUR_AFP_BAD_OFFSET = 34, /* AFP reader, writer and next receiver: header not of 12 to 254 octets, or longer than the frame */
    HASFANDUR_AFP_BAD_STATIONS = 35, /* AFP reader, writer and next receiver: station fields */
    HASFANDUR_AFP_BAD_NEXT = 36, /* AFP reader, writer and next receiver: next station */
    HASFANDUR_AFP_BAD_NEXT_SUM = 37, /* AFP reader and next receiver: sum of the next station's field */
    HASFANDUR_AFP_BAD_SUPPLEMENTARY = 38, /* AFP reader and writer: supplementary header */
    HASFANDUR_AFP_BAD_HEADER_SUM = 39, /* AFP reader: header sum */
    HASFANDUR_AFP_BAD_DATA = 40, /* AFP reader and writer: over 2,304 data octets */
    HASFANDUR_AFP_OUT_TOO_SMALL = 41, /* AFP writer: `out` is shorter than this very frame */
    HASFANDUR_SHEET_NO_LINE = 50, /* line sheet: line number of 64 or more, or past the table */
    HASFANDUR_SHEET_COUNT_TOO_LARGE = 51, /* line sheet: a count of the line's record would pass 32 bits */
    HASFANDUR_KISS_BAD_ESCAPE = 60, /* KISS reader's report, no refusal: DB before anything but DC or DD */
    HASFANDUR_KISS_SHORT = 61, /* KISS reader's report, no refusal: a type octet and no payload */
    HASFANDUR_KISS_LONG = 62, /* KISS reader's report, no refusal: over 2,561 octets */
    HASFANDUR_KISS_SKIPPED = 63, /* KISS reader's report, no refusal: a frame of another port or command */
    HASFANDUR_KISS_OUT_TOO_SMALL = 64 /* KISS writer and conversion to KISS: `out` is shorter than this very frame or line */
};
/* end numbers */

/* The kinds of check that frames on the serial line have. Since 0.9.0 writer and reader take one: HASFANDUR_QAFT_SUM is what they did
 * before. Listing, line sheet and conversions know QAFT alone. */
/* begin checks: written by include/numbers */
enum hasfandur_qaft_check_kind {
    HASFANDUR_QAFT_SUM = 0, /* one check octet, by the sum of the data: QAFT */
    HASFANDUR_QAFT_FCS = 1 /* the two octets of the check sequence of ISO 3309: AFT with the longer check */
};
/* end checks */

/* Sizes, in octets but for slots, lines and counts. */
/* begin sizes: written by include/numbers */
#define HASFANDUR_QAFT_MAX_DATA 2560 /* data of a QAFT frame, at least 1 */
#define HASFANDUR_QAFT_MAX_SEGMENT 2561 /* the QAFT reader's `buffer`, at least: data and check of the longest frame */
#define HASFANDUR_QAFT_MAX_FRAME 5124 /* an `out` that has room for every QAFT frame */
#define HASFANDUR_QAFT_FCS_MAX_SEGMENT 2562 /* the reader's `buffer`, at least, with the check sequence; it will do for either check */
#define HASFANDUR_QAFT_FCS_MAX_FRAME 5126 /* an `out` that has room for every frame with the check sequence */
#define HASFANDUR_KISS_MAX_SEGMENT 2561 /* the KISS reader's `buffer`, at least: type octet and the longest payload */
#define HASFANDUR_KISS_MAX_FRAME 5123 /* an `out` that has room for every KISS frame */
#define HASFANDUR_DLC_MAX_PAYLOAD 256 /* a DLC payload, which may be empty */
#define HASFANDUR_DLC_MAX_PACKET 257 /* a DLC packet */
#define HASFANDUR_DLC_SLOTS 15 /* payloads that a link's queue holds */
#define HASFANDUR_DLC_REPLY_SIZE 3855 /* the link's `reply`, at least: a whole queue of the longest packets */
#define HASFANDUR_AFP_MIN_FRAME 14 /* the shortest AFP frame */
#define HASFANDUR_AFP_MAX_FRAME 2560 /* the longest; an `out` that has room for every AFP frame */
#define HASFANDUR_AFP_MIN_HEADER 12 /* the shortest AFP header */
#define HASFANDUR_AFP_MAX_HEADER 254 /* the longest */
#define HASFANDUR_AFP_MAX_DATA 2304 /* data of an AFP frame, which may be none */
#define HASFANDUR_SHEET_LINES 64 /* lines of a sheet: a line number is below this */
#define HASFANDUR_SHEET_COUNTS 14 /* counts of a line */
#define HASFANDUR_SHEET_MAX_LINE 357 /* the line printer's `out`, at least: room for every printed line */
/* end sizes */

/* An `out` of this size has room for the QAFT frame of n data octets, whatever they are; one for the frame of them with the check
 * sequence; one for the KISS frame of n payload octets; one for a DLC packet in a QAFT frame;
 * the size of the DLC packet of n payload octets; and of the AFP frame of so many octets of stations, supplementary header and
 * data, which is its very length. */
#define HASFANDUR_QAFT_FRAME_SIZE(n) (2 * ((n) + 1) + 2)
#define HASFANDUR_QAFT_FCS_FRAME_SIZE(n) (2 * ((n) + 2) + 2)
#define HASFANDUR_KISS_FRAME_SIZE(n) (2 * (n) + 3)
#define HASFANDUR_QAFT_PACKET_FRAME HASFANDUR_QAFT_FRAME_SIZE(HASFANDUR_DLC_MAX_PACKET)
#define HASFANDUR_DLC_PACKET_SIZE(n) ((n) + 1)
#define HASFANDUR_AFP_FRAME_SIZE(stations, supplementary, data) (6 + (stations) + (supplementary) + (data) + 2)

/* A writer's answer: a number, and how many octets stand at the front of the out buffer (0 on a refusal). */
typedef struct hasfandur_written {
    uint8_t number;
    size_t length;
} hasfandur_written;

/*
 * The QAFT check octet of a frame's data: the two's complement of their sum modulo 256, so that data and check sum to 0.
 * No octets: 0.
 */
uint8_t hasfandur_qaft_check(const uint8_t *octets, size_t length);

/*
 * Writes one frame to the front of `out`: a flag (unless `at_flag` says that the line stands at one), data and check with their
 * escapes, a flag. Level 0 escapes 7E and 7D, level 1 also 11 and 13, which its reader skips where they stand raw. `check_kind`:
 * HASFANDUR_QAFT_SUM for QAFT, whose check is hasfandur_qaft_check of the data; HASFANDUR_QAFT_FCS for AFT with the longer check,
 * hasfandur_check_sequence of the data, low octet first.
 *
 * Refusals, the first that applies: HASFANDUR_QAFT_BAD_LEVEL (level over 1), _BAD_KIND (check kind over 1), _NO_DATA,
 * _DATA_TOO_LONG, _OUT_TOO_SMALL (by the length of this very frame). A refusal writes nothing. Otherwise HASFANDUR_DONE, with the
 * frame's length; octets of `out` behind the frame are as before.
 */
hasfandur_written hasfandur_qaft_write(uint8_t level, uint8_t check_kind, bool at_flag, const uint8_t *data, size_t data_length,
                                       uint8_t *out, size_t out_length);

/*
 * The reader's state, which goes from call to call by value: level; kind of check; whether a flag has come; whether a 7D waits for
 * its partner; whether a bad pair came in the segment; the running check of the segment's octets, escapes undone, which is their sum
 * modulo 256, or with HASFANDUR_QAFT_FCS the register before the complement, FFFF at a count of 0; how many they are, 2,562 for all
 * above, with HASFANDUR_QAFT_FCS 2,563. In `synced`, `pending` and `bad_pair` any number but 0 stands for true; a call that is not refused
 * gives 0 or 1 back.
 */
typedef struct hasfandur_qaft_reader {
    uint8_t level;
    uint8_t check_kind;
    uint8_t synced;
    uint8_t pending;
    uint8_t bad_pair;
    uint16_t check;
    size_t count;
} hasfandur_qaft_reader;

/* The reader's answer: report or refusal; octets of the chunk taken; data octets at the front of the buffer (0 unless the
 * report is HASFANDUR_QAFT_FRAME); the state for the next call. */
typedef struct hasfandur_qaft_answer {
    uint8_t number;
    size_t taken;
    size_t length;
    hasfandur_qaft_reader reader;
} hasfandur_qaft_answer;

/* The state before any flag, for lines of a level whose frames have the check of a kind. */
HASFANDUR_MUST_USE hasfandur_qaft_reader hasfandur_qaft_fresh(uint8_t level, uint8_t check_kind);

/*
 * Reads a chunk of a line up to its first report. Hand the rest of the chunk, from `taken` on, to the next call, with the
 * state that came back and the same buffer; after HASFANDUR_QAFT_USED_UP go on with the next chunk. Octets are stored in the
 * buffer as they come, escapes undone; the reader judges by its state alone. At level 1 a raw 11 or 13 is flow control: it is taken
 * and changes nothing, also between 7D and its partner, so that two flags with nothing else between them give no report.
 *
 * A pair is good only if it stands for an octet that the level escapes: 7D 5D and 7D 5E, at level 1 also 7D 31 and 7D 33. The octet of a
 * bad pair is counted, checked and stored like any other, and the segment is reported as HASFANDUR_QAFT_BAD_PAIR, unless a 7D stands before
 * its flag. So, from a fresh state on and with the buffer left alone between calls, what stands between the flags of a reported frame is, raw
 * flow control aside, octet for octet what hasfandur_qaft_write puts between the flags for its data, with the same kind of check.
 *
 * Refusals, the first that applies: HASFANDUR_QAFT_BAD_LEVEL, _BAD_KIND, _BUFFER_TOO_SMALL (under HASFANDUR_QAFT_MAX_SEGMENT octets,
 * with HASFANDUR_QAFT_FCS under HASFANDUR_QAFT_FCS_MAX_SEGMENT), _BAD_STATE (a count over the one that stands for all above; with
 * HASFANDUR_QAFT_SUM a check over 255; at a count of 0 another check than there is before any octet, or a bad pair; before any flag a
 * count or a waiting 7D). A refusal takes nothing, writes nothing, and gives the very state back that came.
 */
HASFANDUR_MUST_USE hasfandur_qaft_answer hasfandur_qaft_read(hasfandur_qaft_reader reader, const uint8_t *chunk,
                                                             size_t chunk_length, uint8_t *buffer, size_t buffer_length);

/*
 * Writes one KISS data frame of port 0 to the front of `out`: a flag (unless `at_flag` says that the line stands at one), the type
 * octet 00 and the payload with their escapes, a flag.
 *
 * Refusals, the first that applies: HASFANDUR_QAFT_NO_DATA, HASFANDUR_QAFT_DATA_TOO_LONG, HASFANDUR_KISS_OUT_TOO_SMALL (by the
 * length of this very frame). A refusal writes nothing. Otherwise HASFANDUR_DONE, with the frame's length; octets of `out`
 * behind the frame are as before.
 */
hasfandur_written hasfandur_kiss_write(bool at_flag, const uint8_t *payload, size_t payload_length, uint8_t *out, size_t out_length);

/*
 * The KISS reader's state, which goes from call to call by value: whether a flag has come; whether a DB waits for its octet; octets
 * of the segment so far, escapes undone, 2,562 for all above; the first of them; whether an escape was bad. In `synced`, `pending`
 * and `bad_escape` any number but 0 stands for true; a call that is not refused gives 0 or 1 back.
 */
typedef struct hasfandur_kiss_reader {
    uint8_t synced;
    uint8_t pending;
    size_t count;
    uint8_t type_octet;
    uint8_t bad_escape;
} hasfandur_kiss_reader;

/* The reader's answer: report or refusal; octets of the chunk taken; payload octets, which stand in the buffer from index 1 on,
 * behind the type octet (0 unless the report is HASFANDUR_QAFT_FRAME); the state for the next call. */
typedef struct hasfandur_kiss_answer {
    uint8_t number;
    size_t taken;
    size_t length;
    hasfandur_kiss_reader reader;
} hasfandur_kiss_answer;

/* The state before any flag. */
HASFANDUR_MUST_USE hasfandur_kiss_reader hasfandur_kiss_fresh(void);

/*
 * Reads a chunk of a KISS line up to its first report, as hasfandur_qaft_read does for QAFT. Data frames of port 0 are reported as
 * HASFANDUR_QAFT_FRAME, frames of another port or command as HASFANDUR_KISS_SKIPPED; a chunk used up as HASFANDUR_QAFT_USED_UP.
 *
 * Refusals, the first that applies: HASFANDUR_QAFT_BUFFER_TOO_SMALL (under HASFANDUR_KISS_MAX_SEGMENT octets),
 * HASFANDUR_QAFT_BAD_STATE (a state that is not well formed). A refusal takes nothing, writes nothing, and gives the very state back
 * that came.
 */
HASFANDUR_MUST_USE hasfandur_kiss_answer hasfandur_kiss_read(hasfandur_kiss_reader state, const uint8_t *chunk, size_t chunk_length,
                                                             uint8_t *buffer, size_t buffer_length);

/* A conversion's answer: a number; the octets at the front of the out buffer; frames, frames of another port or command, and
 * other reports of the capture. All but the number are 0 on a refusal. */
typedef struct hasfandur_conversion {
    uint8_t number;
    size_t length;
    uint64_t frames;
    uint64_t skipped;
    uint64_t others;
} hasfandur_conversion;

/*
 * A whole QAFT capture as a KISS line at the front of `out`, and a whole KISS capture as a QAFT line of a level: one flag, then each
 * frame of the capture and a flag; nothing where it has none.
 *
 * Refusals, the first that applies: HASFANDUR_QAFT_BAD_LEVEL; HASFANDUR_KISS_OUT_TOO_SMALL to KISS and HASFANDUR_QAFT_OUT_TOO_SMALL
 * to QAFT, by the length of this very line. A refusal writes nothing.
 */
hasfandur_conversion hasfandur_qaft_to_kiss(uint8_t level, const uint8_t *capture, size_t capture_length, uint8_t *out, size_t out_length);
hasfandur_conversion hasfandur_kiss_to_qaft(uint8_t level, const uint8_t *capture, size_t capture_length, uint8_t *out, size_t out_length);

/* The editions of the supplier's firmware, which read the number x of a DACK in two ways. Both ends of a link must use the same. */
/* begin editions: written by include/numbers */
enum hasfandur_dlc_edition {
    HASFANDUR_DLC_EDITION_1 = 1, /* DACK x acknowledges through x-1 */
    HASFANDUR_DLC_EDITION_2 = 2 /* DACK x acknowledges through x */
};
/* end editions */

/* A DLC link's states. */
/* begin states: written by include/numbers */
enum hasfandur_dlc_state {
    HASFANDUR_DLC_STATE_IDLE = 0, /* DLIDLE */
    HASFANDUR_DLC_STATE_RESET = 1, /* DLRESET */
    HASFANDUR_DLC_STATE_DATA = 2, /* DLDATA */
    HASFANDUR_DLC_STATE_WAIT = 3 /* DLDWAIT */
};
/* end states */

/* A DLC packet's first octet. */
/* begin kinds: written by include/numbers */
enum hasfandur_dlc_kind {
    HASFANDUR_DLC_RESET = 0x10, /* RESET */
    HASFANDUR_DLC_RESET_ACK = 0x20, /* RESET_ACK */
    HASFANDUR_DLC_DATA = 0x40, /* DATA, to which its number is added */
    HASFANDUR_DLC_DACK = 0x50 /* DACK, likewise */
};
/* end kinds */

/* A slot of the queue: a payload stands in the first `length` octets. */
typedef struct hasfandur_dlc_queued {
    size_t length;
    uint8_t octets[HASFANDUR_DLC_MAX_PAYLOAD];
} hasfandur_dlc_queued;

/* The queue: the payloads of the first `count` slots, oldest first. The other slots are free. */
typedef struct hasfandur_dlc_queue {
    size_t count;
    hasfandur_dlc_queued slots[HASFANDUR_DLC_SLOTS];
} hasfandur_dlc_queue;

/*
 * One end of a DLC link, which goes from call to call by value: a hasfandur_dlc_state; the payloads that the other end has
 * not acknowledged; the oldest one's number (the next to be given where there is none); the number expected next; the
 * hasfandur_dlc_edition, which no event changes, RESET neither.
 *
 * It is well formed where the state is one of the four, the count at most HASFANDUR_DLC_SLOTS, each of the first `count` lengths
 * at most HASFANDUR_DLC_MAX_PAYLOAD, both numbers at most 15, the edition one of the two, the state HASFANDUR_DLC_STATE_WAIT
 * exactly where the queue is not empty, and both numbers 0 in HASFANDUR_DLC_STATE_IDLE and HASFANDUR_DLC_STATE_RESET. A fresh link
 * is so, and what an event gives back for such a link. A link of zeros is not: it has no edition.
 *
 * No answer depends on what free slots hold, or a slot's octets behind its payload. After a refusal they are as they came;
 * after any other answer nothing is promised of them.
 */
typedef struct hasfandur_dlc_link {
    uint8_t state;
    hasfandur_dlc_queue queue;
    uint8_t base;
    uint8_t expected;
    uint8_t edition;
} hasfandur_dlc_link;

/*
 * The answer to an event: its number; whether the upper layer is told to reset; whether a payload is delivered, which is
 * all of the packet that arrived behind its first octet; how many packets are sent, and their lengths (the unused ones 0).
 * On a refusal every field but the number is 0 or false.
 */
typedef struct hasfandur_dlc_answer {
    uint8_t number;
    bool upper_reset;
    bool delivered;
    size_t sent;
    size_t lengths[HASFANDUR_DLC_SLOTS];
} hasfandur_dlc_answer;

/* What is given back where a link is made, and by every event: the link for the next call, and the answer. */
typedef struct hasfandur_dlc_outcome {
    hasfandur_dlc_link link;
    hasfandur_dlc_answer answer;
} hasfandur_dlc_outcome;

/*
 * A link of an edition before any event: HASFANDUR_DLC_STATE_IDLE, queue empty, numbers 0. Of the answer only the number may be other
 * than 0: HASFANDUR_DONE; or HASFANDUR_DLC_BAD_EDITION where the edition is neither of the two, with a fresh link of
 * HASFANDUR_DLC_EDITION_1 beside it.
 */
HASFANDUR_MUST_USE hasfandur_dlc_outcome hasfandur_dlc_fresh(uint8_t edition);

/*
 * The four events. Each takes the link that the last call at this end gave back, and gives the next one back. Packets to be
 * sent stand one after another at the front of `reply`; its other octets are as before. `reply` is lent to every event.
 *
 * Refusals, the first that applies: HASFANDUR_DLC_BAD_LINK (not well formed), HASFANDUR_DLC_REPLY_TOO_SMALL (under
 * HASFANDUR_DLC_REPLY_SIZE octets, also where nothing is sent), then those named at each event. A refusal gives the very link
 * back that came, sends nothing and writes nothing. Otherwise HASFANDUR_DONE, or in one case HASFANDUR_DLC_OTHER_NUMBER.
 *
 * Start: HASFANDUR_DLC_STATE_IDLE goes to HASFANDUR_DLC_STATE_RESET; nothing is sent before the timer. HASFANDUR_DLC_NO_ENTRY
 * in every other state.
 */
HASFANDUR_MUST_USE hasfandur_dlc_outcome hasfandur_dlc_start(hasfandur_dlc_link link, uint8_t *reply, size_t reply_length);

/*
 * The timer ran out: HASFANDUR_DLC_STATE_RESET sends RESET (10); HASFANDUR_DLC_STATE_WAIT sends every queued payload as DATA
 * (4x, x its number), oldest first, and removes none. The link is as before. HASFANDUR_DLC_NO_ENTRY in the other states.
 */
HASFANDUR_MUST_USE hasfandur_dlc_outcome hasfandur_dlc_timer(hasfandur_dlc_link link, uint8_t *reply, size_t reply_length);

/*
 * A payload to be sent, which may be empty: it is queued, the state is HASFANDUR_DLC_STATE_WAIT, and it is sent at once as DATA
 * (4x, x its number: `base` and the payloads queued before it, modulo 16), one packet. The timer sends it again, with the others.
 * HASFANDUR_DLC_PAYLOAD_TOO_LONG; HASFANDUR_DLC_NOT_OPEN (in HASFANDUR_DLC_STATE_IDLE and HASFANDUR_DLC_STATE_RESET);
 * HASFANDUR_DLC_QUEUE_FULL.
 */
HASFANDUR_MUST_USE hasfandur_dlc_outcome hasfandur_dlc_payload(hasfandur_dlc_link link, const uint8_t *payload,
                                                               size_t payload_length, uint8_t *reply, size_t reply_length);

/*
 * A packet arrived. HASFANDUR_DLC_BAD_PACKET in every state: it is empty, of no kind below, over HASFANDUR_DLC_MAX_PACKET
 * octets, or not DATA and longer than one; in RESET and RESET_ACK the low four bits are not 0. Otherwise by its kind:
 *
 * RESET (10), in every state: queue emptied, numbers 0, the edition kept, the upper layer told to reset, RESET_ACK sent, to
 * HASFANDUR_DLC_STATE_DATA.
 * RESET_ACK (20): HASFANDUR_DLC_STATE_RESET goes to HASFANDUR_DLC_STATE_DATA. HASFANDUR_DLC_NO_ENTRY in every other state.
 * DATA (4x), in HASFANDUR_DLC_STATE_DATA and HASFANDUR_DLC_STATE_WAIT: where x is the expected number its payload is delivered
 * and the expected number counts on, modulo 16; otherwise the answer is HASFANDUR_DLC_OTHER_NUMBER and nothing is delivered.
 * Either way DACK (5x) is sent with the number now expected; under HASFANDUR_DLC_EDITION_2 with that less 1, modulo 16: 15 at the
 * start, where 0 is expected. HASFANDUR_DLC_NO_ENTRY in the other states.
 * DACK (5x), in HASFANDUR_DLC_STATE_WAIT: x less `base`, modulo 16, is how many of the oldest payloads are removed, under
 * HASFANDUR_DLC_EDITION_2 x plus 1 less `base`; `base` counts on by as many, modulo 16; an emptied queue goes to
 * HASFANDUR_DLC_STATE_DATA. HASFANDUR_DLC_NO_ENTRY where that is none or more than are queued, and in the other states.
 */
HASFANDUR_MUST_USE hasfandur_dlc_outcome hasfandur_dlc_arrival(hasfandur_dlc_link link, const uint8_t *packet,
                                                               size_t packet_length, uint8_t *reply, size_t reply_length);

/*
 * AFP's sum of octets: eight bits with end-around carry, from 0. And the two forms in which a header holds sums: of the
 * next station's field, length octet included (FF is written as 0), and of the header octets before it (0 as FF).
 */
uint8_t hasfandur_afp_sum(const uint8_t *octets, size_t length);
uint8_t hasfandur_afp_next_station_sum(const uint8_t *field, size_t length);
uint8_t hasfandur_afp_header_sum(const uint8_t *octets, size_t length);

/*
 * The check sequence of ISO 3309, as AFP uses it: preset ones, complemented. The low octet of the value goes on the line
 * first. "123456789": 906E.
 */
uint16_t hasfandur_check_sequence(const uint8_t *octets, size_t length);

/* A part of an AFP frame: where it begins, and how many octets it has. */
typedef struct hasfandur_part {
    size_t place;
    size_t size;
} hasfandur_part;

/*
 * What stands where in an AFP frame. On a refusal every field but the number is 0.
 * stations: the station fields with their closing 0; ids: how many IDs; next: the next ID's number, the source being 1,
 * 0 for a broadcast; supplementary: with its length octet, size 0 where it is absent (its place is then that of the header
 * sum) and 1 where it is present and empty;
 * payload: the data; unchecked: the header sum was 0, "not calculated".
 */
typedef struct hasfandur_reading {
    uint8_t number;
    uint8_t protocol;
    hasfandur_part stations;
    size_t ids;
    size_t next;
    hasfandur_part supplementary;
    hasfandur_part payload;
    bool unchecked;
} hasfandur_reading;

/*
 * Reads an AFP frame. Refusals in rising order, HASFANDUR_AFP_BAD_LENGTH to HASFANDUR_AFP_BAD_DATA. Otherwise HASFANDUR_DONE, and
 * every part lies within the frame.
 */
hasfandur_reading hasfandur_afp_read(const uint8_t *frame, size_t length);

/*
 * Who an AFP frame is for next. number: a refusal, or HASFANDUR_DONE; field: where the next station's field stands in the frame, and
 * how many octets it has, its length octet included. Place and size are 0 in a broadcast, and on a refusal.
 */
typedef struct hasfandur_receiver {
    uint8_t number;
    hasfandur_part field;
} hasfandur_receiver;

/*
 * Says who an AFP frame is for next, from its length, octets 0, 3 and 4 and the one station field that octet 4 points at: for a relay
 * that need not read a frame for somebody else. Its time does not grow with the frame. No other octet is looked at, so the frame may
 * still be refused by hasfandur_afp_read; where that accepts it, both name the same station, or both say broadcast.
 *
 * Refusals, the first that applies: HASFANDUR_AFP_BAD_LENGTH, _BAD_OFFSET, _BAD_NEXT (octet 4 is neither 0 nor a place from 7 to two
 * before the data offset), _BAD_STATIONS (the field breaks the ID rule, or its last octet stands later than three before the data
 * offset), _BAD_NEXT_SUM (octet 0 is not the field's sum; not FF in a broadcast).
 */
hasfandur_receiver hasfandur_afp_next_receiver(const uint8_t *frame, size_t length);

/* The AFP writer's answer: a number, and how many octets stand at the front of the out buffer (0 on a refusal). */
typedef hasfandur_written hasfandur_afp_written;

/*
 * Writes an AFP frame to the front of `out`: station fields as in a frame, with their closing 0; `next` the next ID's number,
 * the source being 1, or 0 for a broadcast; the supplementary header with its length octet, no octets for none; data. The
 * sums and the check sequence are calculated.
 *
 * Refusals, the first that applies: HASFANDUR_AFP_BAD_PROTOCOL (FE or FF), _BAD_STATIONS, _BAD_NEXT, _BAD_SUPPLEMENTARY,
 * _BAD_OFFSET (the header would not have 12 to 254 octets), _BAD_DATA, _OUT_TOO_SMALL (by the length of this very frame).
 * A refusal writes nothing; octets of `out` behind the frame are as before.
 */
hasfandur_afp_written hasfandur_afp_write(uint8_t protocol, const uint8_t *stations, size_t stations_length, size_t next,
                                          const uint8_t *supplementary, size_t supplementary_length, const uint8_t *data,
                                          size_t data_length, uint8_t *out, size_t out_length);

/*
 * The monthly line sheet: what captures of QAFT lines count, added up line by line.
 *
 * The counts stand in this order, in which they are printed, in what a capture counts and in a line's record. Octets are those of the
 * line, escapes not undone, so what a capture adds to the five octet counts adds up to its length. Raw 11 and 13 at level 1 are skipped:
 * between two flags they are counted apart, and before the first flag and after the last as every octet there. A segment of nothing else
 * is empty, as is one of no octets, and gives no report. DATA and DACK are frames whose data is such a packet, and would not be refused
 * on arrival by HASFANDUR_DLC_BAD_PACKET. A repeat is a DATA whose number equals that of the DATA before it in the same capture, whatever
 * was reported between them.
 */
/* begin counts: written by include/numbers */
enum hasfandur_sheet_place {
    HASFANDUR_SHEET_BEFORE = 0, /* octets before the first flag; all where there is none */
    HASFANDUR_SHEET_FLAGS = 1, /* flags */
    HASFANDUR_SHEET_IN_SEGMENTS = 2, /* octets in reported segments, without skipped ones */
    HASFANDUR_SHEET_AFTER = 3, /* octets after the last flag */
    HASFANDUR_SHEET_SKIPPED = 4, /* skipped octets between two flags, in reported segments and in empty ones */
    HASFANDUR_SHEET_FRAMES = 5, /* reports HASFANDUR_QAFT_FRAME */
    HASFANDUR_SHEET_ABORTED = 6, /* reports HASFANDUR_QAFT_ABORTED */
    HASFANDUR_SHEET_LONG = 7, /* reports HASFANDUR_QAFT_LONG */
    HASFANDUR_SHEET_SHORT = 8, /* reports HASFANDUR_QAFT_SHORT */
    HASFANDUR_SHEET_BAD_CHECKS = 9, /* reports HASFANDUR_QAFT_BAD_CHECK */
    HASFANDUR_SHEET_BAD_PAIRS = 10, /* reports HASFANDUR_QAFT_BAD_PAIR */
    HASFANDUR_SHEET_DATA = 11, /* DATA packets */
    HASFANDUR_SHEET_DACK = 12, /* DACK packets */
    HASFANDUR_SHEET_REPEATS = 13 /* DATA packets with the number of the DATA before them */
};
/* end counts */

/* What a capture counts: HASFANDUR_DONE and the counts, each of which stops at 2^32, since that is too large for every record. On a
 * refusal every count is 0. */
typedef struct hasfandur_counts {
    uint8_t number;
    uint64_t counts[HASFANDUR_SHEET_COUNTS];
} hasfandur_counts;

/* A line's record: the counts of all captures that were added to it. Zeroed before the first. */
typedef struct hasfandur_tally {
    uint32_t counts[HASFANDUR_SHEET_COUNTS];
} hasfandur_tally;

/* Counts a whole capture at a level. Refusal: HASFANDUR_QAFT_BAD_LEVEL. */
hasfandur_counts hasfandur_sheet_count(uint8_t level, const uint8_t *capture, size_t capture_length);

/*
 * Counts a whole capture and adds it to record number `line`, from 0, of a table of `lines` records. The table may be shorter than
 * HASFANDUR_SHEET_LINES records, or longer: those past number 63 are never changed.
 *
 * Refusals, the first that applies: HASFANDUR_QAFT_BAD_LEVEL; HASFANDUR_SHEET_NO_LINE (`line` is not under HASFANDUR_SHEET_LINES, or
 * not under `lines`); HASFANDUR_SHEET_COUNT_TOO_LARGE (a count of the record would pass 4,294,967,295). A refusal changes no record
 * (the line's may be written as it was). Otherwise HASFANDUR_DONE, and every record but the line's is as before.
 */
uint8_t hasfandur_sheet_tally(uint8_t level, const uint8_t *capture, size_t capture_length, size_t line, hasfandur_tally *table,
                              size_t lines);

/*
 * Puts a record as it is printed at the front of `out`, and gives back how many octets that are: the line's number, whatever it is, the
 * counts, and the share of bad checks in all reports as two numbers in lowest terms ("0/1" where there is no bad check), each in
 * decimal with one space between; a newline, and no 0 behind it. Octets of `out` behind the line are as before.
 * Where `out` has under HASFANDUR_SHEET_MAX_LINE octets 0 is given back and nothing is written, whatever the line's length.
 */
size_t hasfandur_sheet_line(size_t line, hasfandur_tally tally, uint8_t *out, size_t out_length);

/* Whether a number given back is a reader's report on a segment, of QAFT or of KISS: no refusal, and no chunk used up. A loop over a
 * chunk goes on while it is. */
/* begin reports: written by include/numbers */
static inline bool hasfandur_is_report(uint8_t number)
{
    switch (number) {
    case HASFANDUR_QAFT_FRAME:
    case HASFANDUR_QAFT_ABORTED:
    case HASFANDUR_QAFT_LONG:
    case HASFANDUR_QAFT_SHORT:
    case HASFANDUR_QAFT_BAD_CHECK:
    case HASFANDUR_QAFT_BAD_PAIR:
    case HASFANDUR_KISS_BAD_ESCAPE:
    case HASFANDUR_KISS_SHORT:
    case HASFANDUR_KISS_LONG:
    case HASFANDUR_KISS_SKIPPED:
        return true;
    default:
        return false;
    }
}
/* end reports */

/* The name of a number given back, for logs: what stands behind HASFANDUR_. */
/* begin names: written by include/numbers */
static inline const char *hasfandur_number_name(uint8_t number)
{
    switch (number) {
    case HASFANDUR_DONE:
        return "DONE";
    case HASFANDUR_QAFT_NO_DATA:
        return "QAFT_NO_DATA";
    case HASFANDUR_QAFT_DATA_TOO_LONG:
        return "QAFT_DATA_TOO_LONG";
    case HASFANDUR_QAFT_OUT_TOO_SMALL:
        return "QAFT_OUT_TOO_SMALL";
    case HASFANDUR_QAFT_BUFFER_TOO_SMALL:
        return "QAFT_BUFFER_TOO_SMALL";
    case HASFANDUR_QAFT_BAD_STATE:
        return "QAFT_BAD_STATE";
    case HASFANDUR_QAFT_BAD_LEVEL:
        return "QAFT_BAD_LEVEL";
    case HASFANDUR_QAFT_BAD_KIND:
        return "QAFT_BAD_KIND";
    case HASFANDUR_QAFT_FRAME:
        return "QAFT_FRAME";
    case HASFANDUR_QAFT_ABORTED:
        return "QAFT_ABORTED";
    case HASFANDUR_QAFT_LONG:
        return "QAFT_LONG";
    case HASFANDUR_QAFT_SHORT:
        return "QAFT_SHORT";
    case HASFANDUR_QAFT_BAD_CHECK:
        return "QAFT_BAD_CHECK";
    case HASFANDUR_QAFT_USED_UP:
        return "QAFT_USED_UP";
    case HASFANDUR_QAFT_BAD_PAIR:
        return "QAFT_BAD_PAIR";
    case HASFANDUR_DLC_NOT_OPEN:
        return "DLC_NOT_OPEN";
    case HASFANDUR_DLC_PAYLOAD_TOO_LONG:
        return "DLC_PAYLOAD_TOO_LONG";
    case HASFANDUR_DLC_QUEUE_FULL:
        return "DLC_QUEUE_FULL";
    case HASFANDUR_DLC_BAD_PACKET:
        return "DLC_BAD_PACKET";
    case HASFANDUR_DLC_NO_ENTRY:
        return "DLC_NO_ENTRY";
    case HASFANDUR_DLC_OTHER_NUMBER:
        return "DLC_OTHER_NUMBER";
    case HASFANDUR_DLC_REPLY_TOO_SMALL:
        return "DLC_REPLY_TOO_SMALL";
    case HASFANDUR_DLC_BAD_LINK:
        return "DLC_BAD_LINK";
    case HASFANDUR_DLC_BAD_EDITION:
        return "DLC_BAD_EDITION";
    case HASFANDUR_AFP_BAD_LENGTH:
        return "AFP_BAD_LENGTH";
    case HASFANDUR_AFP_BAD_CHECK:
        return "AFP_BAD_CHECK";
    case HASFANDUR_AFP_BAD_VERSION:
        return "AFP_BAD_VERSION";
    case HASFANDUR_AFP_BAD_PROTOCOL:
        return "AFP_BAD_PROTOCOL";
    case HASFANDUR_AFP_BAD_OFFSET:
        return "AFP_BAD_OFFSET";
    case HASFANDUR_AFP_BAD_STATIONS:
        return "AFP_BAD_STATIONS";
    case HASFANDUR_AFP_BAD_NEXT:
        return "AFP_BAD_NEXT";
    case HASFANDUR_AFP_BAD_NEXT_SUM:
        return "AFP_BAD_NEXT_SUM";
    case HASFANDUR_AFP_BAD_SUPPLEMENTARY:
        return "AFP_BAD_SUPPLEMENTARY";
    case HASFANDUR_AFP_BAD_HEADER_SUM:
        return "AFP_BAD_HEADER_SUM";
    case HASFANDUR_AFP_BAD_DATA:
        return "AFP_BAD_DATA";
    case HASFANDUR_AFP_OUT_TOO_SMALL:
        return "AFP_OUT_TOO_SMALL";
    case HASFANDUR_SHEET_NO_LINE:
        return "SHEET_NO_LINE";
    case HASFANDUR_SHEET_COUNT_TOO_LARGE:
        return "SHEET_COUNT_TOO_LARGE";
    case HASFANDUR_KISS_BAD_ESCAPE:
        return "KISS_BAD_ESCAPE";
    case HASFANDUR_KISS_SHORT:
        return "KISS_SHORT";
    case HASFANDUR_KISS_LONG:
        return "KISS_LONG";
    case HASFANDUR_KISS_SKIPPED:
        return "KISS_SKIPPED";
    case HASFANDUR_KISS_OUT_TOO_SMALL:
        return "KISS_OUT_TOO_SMALL";
    default:
        return "no number of hasfandur";
    }
}
/* end names */

#ifdef __cplusplus
}
#endif

#endif
