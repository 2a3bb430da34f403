/*
 * What a lost flag does: 600,000 frames of 4 to 32 random octets over a line that loses one octet in 1,000, or one flag in 1,000
 * and nothing else. Written with `at_flag`, so that two frames share a flag, and with flags of their own. Two frames whose flag is
 * lost are one segment, whose octets sum to 0 as each one's did: a frame, and wrong. With the check sequence they are a bad check.
 * The gate compares what it prints with flags.expected.
 */
#include "hasfandur.h"

#include <stdio.h>
#include <string.h>

#define FRAMES 600000
#define MAX_LENGTH 32
#define FLAG 0x7E

/* Frames as they were sent, the last few: what is read must be one of them. */
typedef struct sent {
    uint8_t octets[4][MAX_LENGTH];
    size_t lengths[4];
} sent;

static uint64_t state;

/* xorshift, so that every run is the same */
static uint32_t random_number(void)
{
    state ^= state << 13;
    state ^= state >> 7;
    state ^= state << 17;
    return (uint32_t)(state >> 32);
}

/* The line behind a loss; its length. */
static size_t pass(const uint8_t *octets, size_t length, bool flags_only, uint8_t *line)
{
    size_t n = 0;
    for (size_t i = 0; i < length; i++) {
        const bool may_be_lost = !flags_only || octets[i] == FLAG;
        if (!may_be_lost || random_number() % 1000 != 0) {
            line[n++] = octets[i];
        }
    }
    return n;
}

static bool was_sent(const sent *frames, const uint8_t *octets, size_t length)
{
    for (size_t i = 0; i < 4; i++) {
        if (frames->lengths[i] == length && memcmp(frames->octets[i], octets, length) == 0) {
            return true;
        }
    }
    return false;
}

/* Reads what came through, and counts frames that were sent and frames that never were. */
static void receive(hasfandur_qaft_reader *reader, const uint8_t *line, size_t length, const sent *frames, unsigned *counts)
{
    static uint8_t buffer[HASFANDUR_QAFT_FCS_MAX_SEGMENT];
    size_t at = 0;
    hasfandur_qaft_answer a;
    do {
        a = hasfandur_qaft_read(*reader, line + at, length - at, buffer, sizeof buffer);
        *reader = a.reader;
        at += a.taken;
        if (a.number == HASFANDUR_QAFT_FRAME) {
            counts[was_sent(frames, buffer, a.length)]++;
        }
    } while (hasfandur_is_report(a.number));
}

static void run(const char *name, uint8_t check_kind, bool shared, bool flags_only)
{
    sent frames;
    unsigned counts[2] = {0, 0};
    hasfandur_qaft_reader reader = hasfandur_qaft_fresh(0, check_kind);
    memset(&frames, 0, sizeof frames);
    state = 88172645463325252u;
    for (size_t k = 0; k < FRAMES; k++) {
        uint8_t out[HASFANDUR_QAFT_FCS_FRAME_SIZE(MAX_LENGTH)], line[sizeof out];
        uint8_t *data = frames.octets[k % 4];
        const size_t length = frames.lengths[k % 4] = 4 + random_number() % (MAX_LENGTH - 3);
        for (size_t i = 0; i < length; i++) {
            data[i] = (uint8_t)random_number();
        }
        const hasfandur_written w = hasfandur_qaft_write(0, check_kind, shared && k != 0, data, length, out, sizeof out);
        receive(&reader, line, pass(out, w.length, flags_only, line), &frames, counts);
    }
    printf("%s: %u as they were sent, %u wrong\n", name, counts[1], counts[0]);
}

int main(void)
{
    static const char *const checks[] = {"sum", "check sequence"};
    for (uint8_t kind = HASFANDUR_QAFT_SUM; kind <= HASFANDUR_QAFT_FCS; kind++) {
        printf("%s\n", checks[kind]);
        run("  one octet in 1,000 lost, flags shared", kind, true, false);
        run("  one octet in 1,000 lost, flags of their own", kind, false, false);
        run("  one flag in 1,000 lost, flags shared", kind, true, true);
        run("  one flag in 1,000 lost, flags of their own", kind, false, true);
    }
    return 0;
}
