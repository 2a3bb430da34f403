/* Lines that are ours and PPP's at once: see lines.h. Raw 11 and 13 are put into those of level 1 alone. */
#include "lines.h"

#include <stdio.h>
#include <stdlib.h>
#include <string.h>

totals total;

/* What lwIP takes octets for ---------------------------------------------------------------------------------------------------------- */

/* Where the protocol begins: FF before it is an address, 03 a control field. */
static size_t protocol_at(const uint8_t *octets, size_t length)
{
    size_t i = length != 0 && octets[0] == 0xFF;
    return i + (i < length && octets[i] == 0x03);
}

/* Where the information begins: a protocol has two octets, or one that is odd. Beyond the octets where they are too few. */
static size_t information_at(const uint8_t *octets, size_t length)
{
    size_t i = protocol_at(octets, length);
    return i + (i < length && (octets[i] & 1) == 1 ? 1 : 2);
}

/* A good frame is handed on as its protocol, in two octets, and information; `length` is without the check sequence. */
static void append_handed(octets *o, const uint8_t *frame, size_t length)
{
    static uint8_t handed[HASFANDUR_QAFT_MAX_DATA + 1];
    size_t protocol = protocol_at(frame, length), one = information_at(frame, length) - protocol == 1;
    handed[0] = 0;
    memcpy(handed + one, frame + protocol, length - protocol);
    append_frame(o, handed, one + length - protocol);
}

/* Of a frame that is not good it counts that the check is bad, or where even the protocol is not whole that the length is; of no octets
 * nothing. */
static void count_dropped(lwip_counts *drops, const uint8_t *octets, size_t length)
{
    bool whole = information_at(octets, length) <= length;
    drops->chkerr += whole;
    drops->lenerr += !whole && length != 0;
}

/* A line under way -------------------------------------------------------------------------------------------------------------------- */

typedef struct drawing {
    drawn *to;
    uint8_t level, check_kind;
    beside reader;
    size_t thick;         /* of 256 draws so many put a raw 11 or 13 in */
    bool flagged, closed; /* whether the first flag has come, and the last */
    uint8_t last;         /* the last octet that was not put in */
} drawing;

/* A frame of both, and its length: every 256th the longest, of the others most are short. With QAFT's check, and half of those with the
 * longer one, begin with FF 03 and a protocol of two octets; the others with anything of which lwIP does not die. */
static size_t draw_frame(const drawing *g, uint8_t *frame)
{
    bool headed = g->check_kind == HASFANDUR_QAFT_SUM || draw(2) == 0;
    size_t from = headed ? 2 : 0, least = headed ? SHORTEST : 3, most = longest(g->check_kind);
    size_t size = draw(256), mixture = draw(3), length = size == 0 ? most : least + draw(size < 8 ? most - least : 60);
    do {
        frame[0] = 0xFF;
        frame[1] = 0x03;
        draw_octets(mixture, frame + from, length - from);
        if (headed) {
            frame[2] &= 0xFE;
            frame[3] |= 0x01;
        }
    } while (g->reader == LWIP && information_at(frame, length - 2) > length - 2);
    complete(g->check_kind, frame, length, draw(1 << 16));
    return length;
}

/* An octet for the line, where raw 11 and 13 may be put in before it. */
static void put(drawing *g, uint8_t octet)
{
    bool empty = g->last == FLAG && octet == FLAG, behind = g->last == ESCAPE;
    uint64_t *inside = empty ? &total.alone : behind ? &total.behind : &total.within;
    uint64_t *place = !g->flagged ? &total.before : g->closed ? &total.after : inside, before = *place;
    while (g->level == 1 && draw(256) < g->thick) {
        append(&g->to->line, draw(2) == 0 ? 0x11 : 0x13);
        ++*place;
    }
    total.empty += empty;
    total.skipped += empty && before != *place;
    append(&g->to->line, octet);
    g->last = octet;
    g->flagged |= octet == FLAG;
}

static void put_escaped(drawing *g, const uint8_t *octets, size_t length)
{
    for (size_t i = 0; i < length; i++) {
        uint8_t x = octets[i];
        if (x == FLAG || x == ESCAPE || (g->level == 1 && (x == 0x11 || x == 0x13))) {
            put(g, ESCAPE);
            x ^= 0x20;
        }
        put(g, x);
    }
}

/* Whether lwIP writes the same for a frame: as it stands, and where it begins with FF 03 and an even octet also by its protocol and
 * information. `length` is without the check sequence. */
static bool lwip_agrees(bool at_flag, const uint8_t *frame, size_t length, const uint8_t *line, size_t line_length)
{
    static uint8_t theirs[HASFANDUR_QAFT_FCS_MAX_FRAME];
    bool headed = length >= 4 && frame[0] == 0xFF && frame[1] == 0x03 && (frame[2] & 1) == 0;
    size_t n = lwip_write(at_flag, frame, length, theirs);
    bool same = n == line_length && memcmp(line, theirs, n) == 0;
    if (headed) {
        n = lwip_write_packet(at_flag, (uint16_t)(frame[2] << 8 | frame[3]), frame + 4, length - 4, theirs);
        same &= n == line_length && memcmp(line, theirs, n) == 0;
    }
    return same;
}

/* A good frame, as both writers put it on the line: at a flag, or with a flag of its own. */
static void put_good(drawing *g, const uint8_t *frame, size_t length)
{
    static uint8_t ours[HASFANDUR_QAFT_FCS_MAX_FRAME];
    bool at_flag = draw(2) == 0;
    size_t data_length = length - check_length(g->check_kind);
    hasfandur_written w = hasfandur_qaft_write(g->level, g->check_kind, at_flag, frame, data_length, ours, sizeof ours);
    if (w.number != HASFANDUR_DONE || !lwip_agrees(at_flag, frame, length - 2, ours, w.length)) {
        printf("the writers differ on a frame of %zu octets\n", length);
        exit(1);
    }
    for (size_t i = 0; i < w.length; i++) {
        put(g, ours[i]);
    }
    append_frame(&g->to->frames, frame, length);
    append(&g->to->numbers, HASFANDUR_QAFT_FRAME);
    if (g->reader == LWIP) {
        append_handed(&g->to->handed, frame, length - 2);
    }
    total.frames++;
    total.longest += length == longest(g->check_kind);
}

/* A segment that is no frame for either: by its check, or too short for ours. */
static void put_bad(drawing *g, const uint8_t *octets, size_t length)
{
    bool is_short = length <= check_length(g->check_kind);
    put_escaped(g, octets, length);
    put(g, FLAG);
    append(&g->to->numbers, is_short ? HASFANDUR_QAFT_SHORT : HASFANDUR_QAFT_BAD_CHECK);
    count_dropped(&g->to->drops, octets, length);
    total.shorts += is_short;
    total.spoiled += !is_short;
}

/* A frame with an octet changed, lost, doubled or put in, such that the checks of both are bad. */
static void put_spoiled(drawing *g, const uint8_t *frame, size_t length)
{
    static uint8_t bad[HASFANDUR_QAFT_FCS_MAX_SEGMENT + 1];
    size_t n;
    do {
        size_t i = draw(length), kind = draw(4), to = kind == 1 ? i : i + 1, from = kind <= 1 ? i + 1 : i;
        n = to + length - from;
        memcpy(bad, frame, i);
        bad[i] = kind == 2 ? frame[i] : (uint8_t)draw(256);
        memcpy(bad + to, frame + from, length - from);
    } while (n > longest(g->check_kind) || sequence_of(bad, n) == GOOD || (g->check_kind == HASFANDUR_QAFT_SUM && sum_of(bad, n) == 0));
    put_bad(g, bad, n);
}

/* The first octet of a frame, or two, which are not to be the check sequence of no octets. */
static void put_short(drawing *g, const uint8_t *frame, size_t length)
{
    size_t n = 1 + draw(2);
    (void)length;
    put_bad(g, frame, sequence_of(frame, n) == GOOD ? 1 : n);
}

/* The front of a frame, and 7D before the flag. lwIP does not ask for the 7D, so that the check sequence is not to be good by chance. */
static void put_cut(drawing *g, const uint8_t *frame, size_t length)
{
    size_t n = draw(draw(2) == 0 && length > SHORTEST ? SHORTEST : length);
    n += n == 0 && g->reader == PPPDUMP;
    while (n > 1 && sequence_of(frame, n) == GOOD) {
        n--;
    }
    put_escaped(g, frame, n);
    put(g, ESCAPE);
    put(g, FLAG);
    append(&g->to->numbers, HASFANDUR_QAFT_ABORTED);
    count_dropped(&g->to->drops, frame, n);
    total.cut++;
}

/* One of the segments between flags; those that are short with the longer check alone. */
static void put_segment(drawing *g, const uint8_t *frame, size_t length)
{
    switch (draw(8)) {
    case 0:
        put(g, FLAG);
        break;
    case 1:
        put_spoiled(g, frame, length);
        break;
    case 2:
        put_cut(g, frame, length);
        break;
    case 3:
        (g->check_kind == HASFANDUR_QAFT_FCS ? put_short : put_good)(g, frame, length);
        break;
    default:
        put_good(g, frame, length);
    }
}

/* Rubbish with no FF, with which a frame begins for lwIP even before a flag; a flag; segments; and a frame that no flag ends. */
void draw_line(uint8_t level, uint8_t check_kind, beside reader, drawn *d)
{
    static const uint8_t rubbish[] = {0x00, 0x03, 0x41, 0x5E, 0x7D}, thick[] = {0, 2, 20, 100, 200};
    static uint8_t frame[HASFANDUR_QAFT_FCS_MAX_SEGMENT];
    drawing g = {.to = d, .level = level, .check_kind = check_kind, .reader = reader};
    g.thick = reader == LWIP ? thick[draw(sizeof thick)] : 0;
    d->line.length = d->frames.length = d->numbers.length = d->handed.length = 0;
    d->drops = (lwip_counts){0};
    for (size_t n = reader == LWIP ? draw(5) : 0; n != 0; n--) {
        put(&g, rubbish[draw(sizeof rubbish)]);
    }
    put(&g, FLAG);
    size_t length = 0;
    for (size_t n = 1 + draw(6); n != 0; n--) {
        length = draw_frame(&g, frame);
        put_segment(&g, frame, length);
    }
    g.closed = true;
    if (reader == LWIP) {
        put_escaped(&g, frame, draw(length < SHORTEST ? length : SHORTEST));
    }
    total.octets += d->line.length;
}
