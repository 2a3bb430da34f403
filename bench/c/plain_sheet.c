/* What a capture counts for the line sheet, in plain C, by the header's types: octet by octet, in one pass. Counts don't stop.
 * The level is trusted. */
#include "plain.h"

enum { FLAG = 0x7E, ESCAPE = 0x7D, MASK = 0x20, LONGEST = HASFANDUR_QAFT_MAX_SEGMENT, NONE = 16 };

/* The segment so far: its octets on the line, those of them that are skipped, and what a reader knows of it. */
struct segment {
    size_t raw;
    size_t skipped;
    size_t count;
    bool pending;
    bool bad_pair;
    uint8_t sum;
};

/* The place of a segment's report. */
static int judge(const struct segment *s)
{
    if (s->pending)
        return HASFANDUR_SHEET_ABORTED;
    if (s->bad_pair)
        return HASFANDUR_SHEET_BAD_PAIRS;
    if (s->count > LONGEST)
        return HASFANDUR_SHEET_LONG;
    if (s->count == 1)
        return HASFANDUR_SHEET_SHORT;
    return s->sum == 0 ? HASFANDUR_SHEET_FRAMES : HASFANDUR_SHEET_BAD_CHECKS;
}

/* A frame of so much data; `last` is the number of the DATA before. Only the first octet is looked at. */
static void add_packet(hasfandur_counts *c, uint8_t first, size_t length, uint8_t *last)
{
    uint8_t kind = first & 0xF0, number = first & 0x0F;
    if (kind == HASFANDUR_DLC_DATA && length <= HASFANDUR_DLC_MAX_PACKET) {
        c->counts[HASFANDUR_SHEET_DATA]++;
        c->counts[HASFANDUR_SHEET_REPEATS] += number == *last;
        *last = number;
    } else if (kind == HASFANDUR_DLC_DACK && length == 1) {
        c->counts[HASFANDUR_SHEET_DACK]++;
    }
}

/* A segment between two flags. */
static void add_segment(hasfandur_counts *c, const struct segment *s, uint8_t first, uint8_t *last)
{
    int report;
    c->counts[HASFANDUR_SHEET_SKIPPED] += s->skipped;
    if (s->raw == s->skipped)
        return;
    report = judge(s);
    c->counts[HASFANDUR_SHEET_IN_SEGMENTS] += s->raw - s->skipped;
    c->counts[report]++;
    if (report == HASFANDUR_SHEET_FRAMES)
        add_packet(c, first, s->count - 1, last);
}

hasfandur_counts plain_sheet_count(uint8_t level, const uint8_t *capture, size_t length)
{
    hasfandur_counts c = {0};
    struct segment s = {0};
    uint8_t first = 0, last = NONE;
    for (size_t i = 0; i < length; i++) {
        uint8_t x = capture[i];
        if (x == FLAG) {
            if (c.counts[HASFANDUR_SHEET_FLAGS]++ == 0)
                c.counts[HASFANDUR_SHEET_BEFORE] = s.raw;
            else
                add_segment(&c, &s, first, &last);
            s = (struct segment){0};
            continue;
        }
        s.raw++;
        if (plain_flow_control(level, x)) {
            s.skipped++;
            continue;
        }
        if (s.pending) {
            x ^= MASK;
            s.pending = false;
            s.bad_pair |= !plain_escaped(level, x);
        } else if (x == ESCAPE) {
            s.pending = true;
            continue;
        }
        if (s.count++ == 0)
            first = x;
        s.sum = (uint8_t)(s.sum + x);
    }
    c.counts[c.counts[HASFANDUR_SHEET_FLAGS] == 0 ? HASFANDUR_SHEET_BEFORE : HASFANDUR_SHEET_AFTER] = s.raw;
    return c;
}
