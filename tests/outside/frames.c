/* Frames that are drawn: see frames.h. */
#include "frames.h"

#include <stdlib.h>
#include <string.h>

#define SEED 202602u

void append(octets *o, uint8_t octet)
{
    if (o->length == sizeof o->at) {
        abort();
    }
    o->at[o->length++] = octet;
}

void append_frame(octets *o, const uint8_t *frame, size_t length)
{
    append(o, (uint8_t)(length >> 8));
    append(o, (uint8_t)length);
    for (size_t i = 0; i < length; i++) {
        append(o, frame[i]);
    }
}

bool same(const octets *a, const octets *b)
{
    return a->length == b->length && memcmp(a->at, b->at, a->length) == 0;
}

size_t draw(size_t limit)
{
    static uint64_t state = SEED;
    uint64_t z = state += UINT64_C(0x9E3779B97F4A7C15);
    z = (z ^ (z >> 30)) * UINT64_C(0xBF58476D1CE4E5B9);
    z = (z ^ (z >> 27)) * UINT64_C(0x94D049BB133111EB);
    return (size_t)((z ^ (z >> 31)) % limit);
}

size_t draw_portion(size_t most, size_t left)
{
    size_t portion = 1 + draw(most);
    return portion < left ? portion : left;
}

void draw_octets(size_t mixture, uint8_t *octets, size_t length)
{
    static const uint8_t special[] = {0x7E, 0x7D, 0x11, 0x13, 0x5E, 0x5D, 0x31, 0x33, 0xFF, 0x03};
    for (size_t i = 0; i < length; i++) {
        octets[i] = mixture == 0 || (mixture == 1 && draw(2) == 0) ? special[draw(sizeof special)] : (uint8_t)draw(256);
    }
}

static uint16_t sequence_step(uint16_t sequence, uint8_t octet)
{
    sequence ^= octet;
    for (int bit = 0; bit < 8; bit++) {
        sequence = (uint16_t)(sequence >> 1 ^ (sequence & 1 ? 0x8408 : 0));
    }
    return sequence;
}

uint16_t sequence_of(const uint8_t *octets, size_t length)
{
    uint16_t sequence = 0xFFFF;
    for (size_t i = 0; i < length; i++) {
        sequence = sequence_step(sequence, octets[i]);
    }
    return sequence;
}

uint8_t sum_of(const uint8_t *octets, size_t length)
{
    unsigned sum = 0;
    for (size_t i = 0; i < length; i++) {
        sum += octets[i];
    }
    return (uint8_t)sum;
}

size_t check_length(uint8_t check_kind)
{
    return check_kind == HASFANDUR_QAFT_FCS ? 2 : 1;
}

size_t longest(uint8_t check_kind)
{
    return HASFANDUR_QAFT_MAX_DATA + check_length(check_kind);
}

/* Fills in the check sequence behind a frame's other octets, where `sequence` is that of these. */
static void put_sequence(uint8_t *behind, uint16_t sequence)
{
    behind[0] = (uint8_t)~sequence;
    behind[1] = (uint8_t)(~sequence >> 8);
}

void complete(uint8_t check_kind, uint8_t *frame, size_t length, size_t varied)
{
    uint8_t *last = frame + length - 4;
    if (check_kind == HASFANDUR_QAFT_FCS) {
        put_sequence(frame + length - 2, sequence_of(frame, length - 2));
        return;
    }
    uint16_t before = sequence_of(frame, length - 4);
    uint8_t sum = sum_of(frame, length - 4);
    do {
        varied++;
        last[0] = (uint8_t)(varied >> 8);
        last[1] = (uint8_t)varied;
        put_sequence(last + 2, sequence_step(sequence_step(before, last[0]), last[1]));
    } while ((frame[2] & 1) == 1 || (frame[3] & 1) == 0 || (uint8_t)(sum + sum_of(last, 4)) != 0);
}
