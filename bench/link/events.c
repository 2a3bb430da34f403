/*
 * Times the events of a DLC link, ns of CPU an event, the best of ROUNDS rounds: events [ROUNDS]
 * bench/link/run builds it against the header and the archive of each tree that is compared. A round is one turn of each event;
 * what a turn starts from is made before its time is taken.
 */
#include "hasfandur.h"

#include <assert.h>
#include <stdio.h>
#include <stdlib.h>
#include <string.h>
#include <time.h>

enum { TURNS = 64, EVENTS = TURNS * HASFANDUR_DLC_SLOTS };

static uint8_t reply[HASFANDUR_DLC_REPLY_SIZE];
static uint8_t payload[HASFANDUR_DLC_MAX_PAYLOAD];
/* a link that RESET has opened, and one whose queue is full of the longest payloads */
static hasfandur_dlc_link opened, full;

/* Links have an edition since 0.10.0; trees before it are timed too. */
static hasfandur_dlc_link fresh(void)
{
#if HASFANDUR_VERSION_NUMBER >= 1000
    return hasfandur_dlc_fresh(HASFANDUR_DLC_EDITION_1).link;
#else
    return hasfandur_dlc_fresh();
#endif
}

static void timer(void)
{
    hasfandur_dlc_link link = full;
    for (int i = 0; i < EVENTS; i++) {
        link = hasfandur_dlc_timer(link, reply, sizeof reply).link;
    }
    assert(link.queue.count == HASFANDUR_DLC_SLOTS);
}

static void payloads(void)
{
    for (int turn = 0; turn < TURNS; turn++) {
        hasfandur_dlc_link link = opened;
        for (int i = 0; i < HASFANDUR_DLC_SLOTS; i++) {
            link = hasfandur_dlc_payload(link, payload, sizeof payload, reply, sizeof reply).link;
        }
        assert(link.queue.count == HASFANDUR_DLC_SLOTS);
    }
}

static void dacks(void)
{
    for (int turn = 0; turn < TURNS; turn++) {
        hasfandur_dlc_link link = full;
        for (int i = 1; i <= HASFANDUR_DLC_SLOTS; i++) {
            const uint8_t dack = (uint8_t)(HASFANDUR_DLC_DACK + i % 16);
            link = hasfandur_dlc_arrival(link, &dack, 1, reply, sizeof reply).link;
        }
        assert(link.queue.count == 0);
    }
}

static void data(void)
{
    uint8_t packet[HASFANDUR_DLC_PACKET_SIZE(sizeof payload)];
    memcpy(packet + 1, payload, sizeof payload);
    hasfandur_dlc_link link = opened;
    for (int i = 0; i < EVENTS; i++) {
        packet[0] = (uint8_t)(HASFANDUR_DLC_DATA + i % 16);
        link = hasfandur_dlc_arrival(link, packet, sizeof packet, reply, sizeof reply).link;
    }
    assert(link.expected == EVENTS % 16);
}

static void reset(void)
{
    static const uint8_t packet[] = {HASFANDUR_DLC_RESET};
    hasfandur_dlc_link link = full;
    for (int i = 0; i < EVENTS; i++) {
        link = hasfandur_dlc_arrival(link, packet, sizeof packet, reply, sizeof reply).link;
    }
    assert(link.queue.count == 0);
}

static const struct {
    const char *name;
    void (*turn)(void);
} rows[] = {
    {"timer, a full queue", timer},
    {"payload of 256", payloads},
    {"DACK of one", dacks},
    {"DATA of 256, expected", data},
    {"RESET", reset},
};
enum { ROWS = sizeof rows / sizeof rows[0] };

static double now(void)
{
    struct timespec t;
    clock_gettime(CLOCK_PROCESS_CPUTIME_ID, &t);
    return (double)t.tv_sec * 1e9 + (double)t.tv_nsec;
}

int main(int argc, char **argv)
{
    static const uint8_t packet[] = {HASFANDUR_DLC_RESET};
    const int rounds = argc > 1 ? atoi(argv[1]) : 200;
    double best[ROWS];
    memset(payload, 0x5A, sizeof payload);
    opened = hasfandur_dlc_arrival(fresh(), packet, sizeof packet, reply, sizeof reply).link;
    full = opened;
    for (int i = 0; i < HASFANDUR_DLC_SLOTS; i++) {
        full = hasfandur_dlc_payload(full, payload, sizeof payload, reply, sizeof reply).link;
    }
    for (int round = 0; round < rounds; round++) {
        for (int row = 0; row < ROWS; row++) {
            const double before = now();
            rows[row].turn();
            const double took = (now() - before) / EVENTS;
            best[row] = round == 0 || took < best[row] ? took : best[row];
        }
    }
    for (int row = 0; row < ROWS; row++) {
        printf("%s\t%.0f\n", rows[row].name, best[row]);
    }
    return 0;
}
