/*
 * Sizes and offsets of the header's structs on a machine with 64-bit size_t, as the crates' structs have them, and what the size
 * macros come to. It is built as C and as C++, and does nothing. Written by include/numbers.
 */
#include "hasfandur.h"

#include <assert.h>
#include <stddef.h>

#define FIELD(type, field, at, size) \
    static_assert(offsetof(type, field) == (at) && sizeof(((type *)0)->field) == (size), #type "." #field)

static_assert(sizeof(hasfandur_written) == 16, "hasfandur_written");
FIELD(hasfandur_written, number, 0, 1);
FIELD(hasfandur_written, length, 8, 8);

static_assert(sizeof(hasfandur_qaft_reader) == 16, "hasfandur_qaft_reader");
FIELD(hasfandur_qaft_reader, level, 0, 1);
FIELD(hasfandur_qaft_reader, check_kind, 1, 1);
FIELD(hasfandur_qaft_reader, synced, 2, 1);
FIELD(hasfandur_qaft_reader, pending, 3, 1);
FIELD(hasfandur_qaft_reader, bad_pair, 4, 1);
FIELD(hasfandur_qaft_reader, check, 6, 2);
FIELD(hasfandur_qaft_reader, count, 8, 8);

static_assert(sizeof(hasfandur_qaft_answer) == 40, "hasfandur_qaft_answer");
FIELD(hasfandur_qaft_answer, number, 0, 1);
FIELD(hasfandur_qaft_answer, taken, 8, 8);
FIELD(hasfandur_qaft_answer, length, 16, 8);
FIELD(hasfandur_qaft_answer, reader, 24, 16);

static_assert(sizeof(hasfandur_kiss_reader) == 24, "hasfandur_kiss_reader");
FIELD(hasfandur_kiss_reader, synced, 0, 1);
FIELD(hasfandur_kiss_reader, pending, 1, 1);
FIELD(hasfandur_kiss_reader, count, 8, 8);
FIELD(hasfandur_kiss_reader, type_octet, 16, 1);
FIELD(hasfandur_kiss_reader, bad_escape, 17, 1);

static_assert(sizeof(hasfandur_kiss_answer) == 48, "hasfandur_kiss_answer");
FIELD(hasfandur_kiss_answer, number, 0, 1);
FIELD(hasfandur_kiss_answer, taken, 8, 8);
FIELD(hasfandur_kiss_answer, length, 16, 8);
FIELD(hasfandur_kiss_answer, reader, 24, 24);

static_assert(sizeof(hasfandur_conversion) == 40, "hasfandur_conversion");
FIELD(hasfandur_conversion, number, 0, 1);
FIELD(hasfandur_conversion, length, 8, 8);
FIELD(hasfandur_conversion, frames, 16, 8);
FIELD(hasfandur_conversion, skipped, 24, 8);
FIELD(hasfandur_conversion, others, 32, 8);

static_assert(sizeof(hasfandur_dlc_queued) == 264, "hasfandur_dlc_queued");
FIELD(hasfandur_dlc_queued, length, 0, 8);
FIELD(hasfandur_dlc_queued, octets, 8, 256);

static_assert(sizeof(hasfandur_dlc_queue) == 3968, "hasfandur_dlc_queue");
FIELD(hasfandur_dlc_queue, count, 0, 8);
FIELD(hasfandur_dlc_queue, slots, 8, 3960);

static_assert(sizeof(hasfandur_dlc_link) == 3984, "hasfandur_dlc_link");
FIELD(hasfandur_dlc_link, state, 0, 1);
FIELD(hasfandur_dlc_link, queue, 8, 3968);
FIELD(hasfandur_dlc_link, base, 3976, 1);
FIELD(hasfandur_dlc_link, expected, 3977, 1);
FIELD(hasfandur_dlc_link, edition, 3978, 1);

static_assert(sizeof(hasfandur_dlc_answer) == 136, "hasfandur_dlc_answer");
FIELD(hasfandur_dlc_answer, number, 0, 1);
FIELD(hasfandur_dlc_answer, upper_reset, 1, 1);
FIELD(hasfandur_dlc_answer, delivered, 2, 1);
FIELD(hasfandur_dlc_answer, sent, 8, 8);
FIELD(hasfandur_dlc_answer, lengths, 16, 120);

static_assert(sizeof(hasfandur_dlc_outcome) == 4120, "hasfandur_dlc_outcome");
FIELD(hasfandur_dlc_outcome, link, 0, 3984);
FIELD(hasfandur_dlc_outcome, answer, 3984, 136);

static_assert(sizeof(hasfandur_part) == 16, "hasfandur_part");
FIELD(hasfandur_part, place, 0, 8);
FIELD(hasfandur_part, size, 8, 8);

static_assert(sizeof(hasfandur_reading) == 80, "hasfandur_reading");
FIELD(hasfandur_reading, number, 0, 1);
FIELD(hasfandur_reading, protocol, 1, 1);
FIELD(hasfandur_reading, stations, 8, 16);
FIELD(hasfandur_reading, ids, 24, 8);
FIELD(hasfandur_reading, next, 32, 8);
FIELD(hasfandur_reading, supplementary, 40, 16);
FIELD(hasfandur_reading, payload, 56, 16);
FIELD(hasfandur_reading, unchecked, 72, 1);

static_assert(sizeof(hasfandur_receiver) == 24, "hasfandur_receiver");
FIELD(hasfandur_receiver, number, 0, 1);
FIELD(hasfandur_receiver, field, 8, 16);

static_assert(sizeof(hasfandur_counts) == 120, "hasfandur_counts");
FIELD(hasfandur_counts, number, 0, 1);
FIELD(hasfandur_counts, counts, 8, 112);

static_assert(sizeof(hasfandur_tally) == 56, "hasfandur_tally");
FIELD(hasfandur_tally, counts, 0, 56);

static_assert(HASFANDUR_QAFT_FRAME_SIZE(HASFANDUR_QAFT_MAX_DATA) == HASFANDUR_QAFT_MAX_FRAME, "longest QAFT frame");
static_assert(HASFANDUR_QAFT_FCS_FRAME_SIZE(HASFANDUR_QAFT_MAX_DATA) == HASFANDUR_QAFT_FCS_MAX_FRAME, "longest frame with the check sequence");
static_assert(HASFANDUR_KISS_FRAME_SIZE(HASFANDUR_QAFT_MAX_DATA) == HASFANDUR_KISS_MAX_FRAME, "longest KISS frame");
static_assert(HASFANDUR_DLC_PACKET_SIZE(HASFANDUR_DLC_MAX_PAYLOAD) == HASFANDUR_DLC_MAX_PACKET, "longest packet");
static_assert(HASFANDUR_DLC_SLOTS * HASFANDUR_DLC_MAX_PACKET == HASFANDUR_DLC_REPLY_SIZE, "reply");
static_assert(HASFANDUR_AFP_FRAME_SIZE(HASFANDUR_AFP_MIN_HEADER - 6, 0, 0) == HASFANDUR_AFP_MIN_FRAME, "shortest AFP frame");
static_assert(HASFANDUR_SHEET_REPEATS + 1 == HASFANDUR_SHEET_COUNTS, "counts of a line");

int main(void)
{
    return 0;
}
