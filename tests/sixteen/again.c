/*
 * Plays the run of docs/SIXTEEN.md with the link that it is built against, of as many slots as its header says, and prints each event:
 * a queue is filled and delivered, every DACK is lost, the timer sends all again, and the first of these packets arrives.
 * Exit status: 0 where each payload was delivered once, 3 where one was delivered twice.
 */
#include "hasfandur.h"

#include <stdio.h>

enum { SLOTS = HASFANDUR_DLC_SLOTS };

/* One end: its link, and what its last call sent. */
typedef struct end {
    const char *name;
    hasfandur_dlc_link link;
    uint8_t reply[HASFANDUR_DLC_REPLY_SIZE];
} end;

static unsigned events, delivered;

static void print_packet(const uint8_t *packet)
{
    printf("%s %u", packet[0] < HASFANDUR_DLC_DACK ? "DATA" : "DACK", packet[0] % 16u);
}

/* Takes what a call gave back: its number and what it sends, the first and the last of several. */
static void take(end *e, hasfandur_dlc_outcome outcome)
{
    const hasfandur_dlc_answer *answer = &outcome.answer;
    size_t last = 0;
    printf("%u", (unsigned)answer->number);
    for (size_t i = 0; i + 1 < answer->sent; i++) {
        last += answer->lengths[i];
    }
    if (answer->sent > 0) {
        printf(", sends ");
        print_packet(e->reply);
    }
    if (answer->sent > 1) {
        printf(" to ");
        print_packet(e->reply + last);
    }
    e->link = outcome.link;
}

/* RESET opens an end; it is no event of the run. */
static end opened(const char *name)
{
    static const uint8_t reset[] = {HASFANDUR_DLC_RESET};
    end e = {name, {0}, {0}};
    e.link = hasfandur_dlc_arrival(hasfandur_dlc_fresh(HASFANDUR_DLC_EDITION_1).link, reset, sizeof reset, e.reply, sizeof e.reply).link;
    return e;
}

static void arrival(end *e, const uint8_t *packet, size_t length)
{
    printf("%3u  %s: ", ++events, e->name);
    print_packet(packet);
    printf(" arrives: ");
    hasfandur_dlc_outcome outcome = hasfandur_dlc_arrival(e->link, packet, length, e->reply, sizeof e->reply);
    take(e, outcome);
    delivered += outcome.answer.delivered;
    if (outcome.answer.delivered) {
        printf(", delivers payload %u", packet[1]);
    }
    printf(", then expects %u\n", (unsigned)e->link.expected);
}

int main(void)
{
    end here = opened("here"), there = opened("there");
    uint8_t line[SLOTS][HASFANDUR_DLC_PACKET_SIZE(1)], dacks[SLOTS];
    printf("%d slots\n", SLOTS);
    for (unsigned i = 0; i < SLOTS; i++) {
        const uint8_t payload[] = {(uint8_t)(i + 1)};
        printf("%3u  here: payload %u: ", ++events, i + 1);
        take(&here, hasfandur_dlc_payload(here.link, payload, sizeof payload, here.reply, sizeof here.reply));
        printf("\n");
        line[i][0] = here.reply[0];
        line[i][1] = here.reply[1];
    }
    for (unsigned i = 0; i < SLOTS; i++) {
        arrival(&there, line[i], sizeof line[i]);
        dacks[i] = there.reply[0];
    }
    for (unsigned i = 0; i < SLOTS; i++) {
        printf("%3u  lost: ", ++events);
        print_packet(&dacks[i]);
        printf("\n");
    }
    printf("%3u  here: timer: ", ++events);
    take(&here, hasfandur_dlc_timer(here.link, here.reply, sizeof here.reply));
    printf("\n");
    arrival(&there, here.reply, sizeof line[0]);
    printf("accepted %d, delivered %u\n", SLOTS, delivered);
    return delivered == SLOTS ? 0 : 3;
}
