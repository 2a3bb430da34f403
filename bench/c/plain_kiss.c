/* KISS frames in plain C, by the header's types: octet by octet. The reader trusts its state and its store. */
#include "plain.h"

enum { FEND = 0xC0, FESC = 0xDB, TFEND = 0xDC, TFESC = 0xDD, LONGEST = HASFANDUR_KISS_MAX_SEGMENT };

/* The frame's length, or 0 for every refusal. Room is asked for the longest frame of so much payload. */
size_t plain_kiss_write(bool at_flag, const uint8_t *payload, size_t length, uint8_t *out, size_t room)
{
    uint8_t *to = out;
    if (length == 0 || length >= LONGEST || room < HASFANDUR_KISS_FRAME_SIZE(length))
        return 0;
    if (!at_flag)
        *to++ = FEND;
    *to++ = 0x00;
    for (size_t i = 0; i < length; i++) {
        if (payload[i] == FEND) {
            *to++ = FESC;
            *to++ = TFEND;
        } else if (payload[i] == FESC) {
            *to++ = FESC;
            *to++ = TFESC;
        } else {
            *to++ = payload[i];
        }
    }
    *to++ = FEND;
    return (size_t)(to - out);
}

static uint8_t judge(const hasfandur_kiss_reader *r)
{
    if (r->pending || r->bad_escape)
        return HASFANDUR_KISS_BAD_ESCAPE;
    if (r->count == 0)
        return 0;
    if (r->count == 1)
        return HASFANDUR_KISS_SHORT;
    if (r->count > LONGEST)
        return HASFANDUR_KISS_LONG;
    return r->type_octet == 0 ? HASFANDUR_QAFT_FRAME : HASFANDUR_KISS_SKIPPED;
}

static void store_octet(hasfandur_kiss_reader *r, uint8_t x, uint8_t *store)
{
    if (r->count == 0)
        r->type_octet = x;
    if (r->count < LONGEST)
        store[r->count] = x;
    if (r->count <= LONGEST)
        r->count++;
}

hasfandur_kiss_answer plain_kiss_read(hasfandur_kiss_reader r, const uint8_t *chunk, size_t length, uint8_t *store)
{
    for (size_t i = 0; i < length; i++) {
        uint8_t x = chunk[i];
        if (x == FEND) {
            uint8_t number = judge(&r);
            size_t payload = number == HASFANDUR_QAFT_FRAME ? r.count - 1 : 0;
            r = (hasfandur_kiss_reader){.synced = 1};
            if (number != 0)
                return (hasfandur_kiss_answer){number, i + 1, payload, r};
        } else if (r.synced) {
            if (r.pending) {
                r.pending = 0;
                if (x == TFEND)
                    x = FEND;
                else if (x == TFESC)
                    x = FESC;
                else
                    r.bad_escape = 1;
            } else if (x == FESC) {
                r.pending = 1;
                continue;
            }
            store_octet(&r, x, store);
        }
    }
    return (hasfandur_kiss_answer){HASFANDUR_QAFT_USED_UP, length, 0, r};
}
