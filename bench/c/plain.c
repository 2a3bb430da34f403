#include "plain.h"
#include <string.h>

enum { FLAG = 0x7E, ESCAPE = 0x7D, MASK = 0x20, SUM = HASFANDUR_QAFT_SUM, FCS = HASFANDUR_QAFT_FCS, GOOD_FCS = 0xF0B8 };

/* What the two checks share has the kind as an argument, and is compiled for each of them with the kind as a constant. */
#define BY_KIND static inline __attribute__((always_inline))

static uint16_t table[256];

static inline unsigned by_table(unsigned c, uint8_t x) { return table[(c ^ x) & 0xFF] ^ (c >> 8); }

/* The octets of a check; the running check before any octet, after one more, and whether it is that of a good frame. The running sum
 * is not cut to eight bits before it is asked for. */
BY_KIND size_t check_size(uint8_t kind) { return kind == SUM ? 1 : 2; }
BY_KIND unsigned preset(uint8_t kind) { return kind == SUM ? 0 : 0xFFFF; }
BY_KIND unsigned after(uint8_t kind, unsigned check, uint8_t x) { return kind == SUM ? check + x : by_table(check, x); }
BY_KIND bool good(uint8_t kind, unsigned check) { return kind == SUM ? (uint8_t)check == 0 : check == GOOD_FCS; }

static uint8_t *put(uint8_t level, uint8_t x, uint8_t *to)
{
    if (plain_escaped(level, x)) {
        *to++ = ESCAPE;
        x ^= MASK;
    }
    *to++ = x;
    return to;
}

BY_KIND uint8_t *put_check(uint8_t kind, uint8_t level, unsigned check, uint8_t *to)
{
    if (kind == SUM)
        return put(level, (uint8_t)-check, to);
    to = put(level, (uint8_t)~check, to);
    return put(level, (uint8_t)(~check >> 8), to);
}

BY_KIND size_t write_by(uint8_t kind, uint8_t level, bool at_flag, const uint8_t *octets, size_t length, uint8_t *out, size_t room)
{
    unsigned check = preset(kind);
    uint8_t *to = out;
    if (level > 1 || length == 0 || length > HASFANDUR_QAFT_MAX_DATA || room < 2 * (length + check_size(kind)) + 2)
        return 0;
    if (!at_flag)
        *to++ = FLAG;
    for (size_t i = 0; i < length; i++) {
        check = after(kind, check, octets[i]);
        to = put(level, octets[i], to);
    }
    to = put_check(kind, level, check, to);
    *to++ = FLAG;
    return (size_t)(to - out);
}

/* The frame's length, or 0 for every refusal. Room is asked for the longest frame of so much data. */
size_t plain_qaft_write(uint8_t level, bool at_flag, const uint8_t *octets, size_t length, uint8_t *out, size_t room)
{
    return write_by(SUM, level, at_flag, octets, length, out, room);
}

size_t plain_aft_write(uint8_t level, bool at_flag, const uint8_t *octets, size_t length, uint8_t *out, size_t room)
{
    return write_by(FCS, level, at_flag, octets, length, out, room);
}

BY_KIND uint8_t judge(uint8_t kind, const struct plain_reader *r)
{
    if (r->pending)
        return 11;
    if (r->count == 0)
        return 0;
    if (r->bad_pair)
        return 16;
    if (r->count > HASFANDUR_QAFT_MAX_DATA + check_size(kind))
        return 12;
    if (r->count <= check_size(kind))
        return 13;
    return good(kind, r->check) ? 10 : 14;
}

BY_KIND struct plain_reader fresh(uint8_t kind, uint8_t level, bool flag)
{
    return (struct plain_reader){.level = level, .flag = flag, .check = preset(kind)};
}

/* gcc is told that few octets stand behind an escape: without it, it moved the usual octet out of the loop's way here. */
BY_KIND struct plain_answer read_by(uint8_t kind, struct plain_reader r, const uint8_t *chunk, size_t length, uint8_t *store)
{
    const size_t longest = HASFANDUR_QAFT_MAX_DATA + check_size(kind);
    for (size_t i = 0; i < length; i++) {
        uint8_t x = chunk[i];
        if (x == FLAG) {
            uint8_t number = judge(kind, &r);
            size_t data = number == 10 ? r.count - check_size(kind) : 0;
            r = fresh(kind, r.level, true);
            if (number != 0)
                return (struct plain_answer){number, i + 1, data, r};
        } else if (r.flag && !plain_flow_control(r.level, x)) {
            if (__builtin_expect(r.pending, false)) {
                x ^= MASK;
                r.pending = false;
                r.bad_pair |= !plain_escaped(r.level, x);
            } else if (x == ESCAPE) {
                r.pending = true;
                continue;
            }
            if (r.count < longest)
                store[r.count] = x;
            if (r.count <= longest)
                r.count++;
            r.check = after(kind, r.check, x);
        }
    }
    return (struct plain_answer){15, length, 0, r};
}

struct plain_reader plain_qaft_fresh(uint8_t level) { return fresh(SUM, level, false); }

struct plain_reader plain_aft_fresh(uint8_t level) { return fresh(FCS, level, false); }

/* The state and the store are trusted. */
struct plain_answer plain_qaft_read(struct plain_reader r, const uint8_t *chunk, size_t length, uint8_t *store)
{
    return read_by(SUM, r, chunk, length, store);
}

struct plain_answer plain_aft_read(struct plain_reader r, const uint8_t *chunk, size_t length, uint8_t *store)
{
    return read_by(FCS, r, chunk, length, store);
}

/* The link's timer with something queued, by the header's types; the link is trusted. */
hasfandur_dlc_outcome plain_dlc_timer(hasfandur_dlc_link link, uint8_t *reply, size_t reply_length)
{
    hasfandur_dlc_outcome outcome = {.link = link};
    if (reply_length < HASFANDUR_DLC_REPLY_SIZE) {
        outcome.answer.number = HASFANDUR_DLC_REPLY_TOO_SMALL;
        return outcome;
    }
    for (size_t i = 0; i < link.queue.count; i++) {
        const hasfandur_dlc_queued *slot = &link.queue.slots[i];
        *reply = (uint8_t)(0x40 | ((link.base + i) & 0x0F));
        memcpy(reply + 1, slot->octets, slot->length);
        reply += 1 + slot->length;
        outcome.answer.lengths[i] = 1 + slot->length;
    }
    outcome.answer.sent = link.queue.count;
    return outcome;
}

/* The link's payload, by the header's types; the link is trusted. */
hasfandur_dlc_outcome plain_dlc_payload(hasfandur_dlc_link link, const uint8_t *payload, size_t length, uint8_t *reply, size_t reply_length)
{
    hasfandur_dlc_outcome outcome = {.link = link};
    const size_t count = link.queue.count;
    if (reply_length < HASFANDUR_DLC_REPLY_SIZE) {
        outcome.answer.number = HASFANDUR_DLC_REPLY_TOO_SMALL;
    } else if (length > HASFANDUR_DLC_MAX_PAYLOAD) {
        outcome.answer.number = HASFANDUR_DLC_PAYLOAD_TOO_LONG;
    } else if (link.state < HASFANDUR_DLC_STATE_DATA) {
        outcome.answer.number = HASFANDUR_DLC_NOT_OPEN;
    } else if (count == HASFANDUR_DLC_SLOTS) {
        outcome.answer.number = HASFANDUR_DLC_QUEUE_FULL;
    } else {
        outcome.link.state = HASFANDUR_DLC_STATE_WAIT;
        outcome.link.queue.count = count + 1;
        outcome.link.queue.slots[count].length = length;
        memcpy(outcome.link.queue.slots[count].octets, payload, length);
        reply[0] = (uint8_t)(0x40 | ((link.base + count) & 0x0F));
        memcpy(reply + 1, payload, length);
        outcome.answer.sent = 1;
        outcome.answer.lengths[0] = 1 + length;
    }
    return outcome;
}

/* the carry added in again after each octet */
uint8_t plain_sum_by_octets(const uint8_t *octets, size_t length)
{
    unsigned sum = 0;
    for (size_t i = 0; i < length; i++) {
        sum += octets[i];
        sum = (sum & 0xFF) + (sum >> 8);
    }
    return (uint8_t)sum;
}

/* the carries added in at the end; good for less than 16 MB */
uint8_t plain_sum_at_end(const uint8_t *octets, size_t length)
{
    uint32_t sum = 0;
    for (size_t i = 0; i < length; i++)
        sum += octets[i];
    while (sum > 0xFF)
        sum = (sum & 0xFF) + (sum >> 8);
    return (uint8_t)sum;
}

void plain_make_table(void)
{
    for (unsigned k = 0; k < 256; k++) {
        unsigned c = k;
        for (int bit = 0; bit < 8; bit++)
            c = c & 1 ? (c >> 1) ^ 0x8408 : c >> 1;
        table[k] = (uint16_t)c;
    }
}

/* the usual byte table */
uint16_t plain_check_by_table(const uint8_t *octets, size_t length)
{
    unsigned c = 0xFFFF;
    for (size_t i = 0; i < length; i++)
        c = by_table(c, octets[i]);
    return (uint16_t)~c;
}

uint16_t plain_check_by_bits(const uint8_t *octets, size_t length)
{
    unsigned c = 0xFFFF;
    for (size_t i = 0; i < length; i++) {
        c ^= octets[i];
        for (int bit = 0; bit < 8; bit++)
            c = c & 1 ? (c >> 1) ^ 0x8408 : c >> 1;
    }
    return (uint16_t)~c;
}
