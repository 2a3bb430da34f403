/*
 * Calls the functions of include/hasfandur.h for the DLC link: two ends of either edition that open a link and exchange payloads,
 * then limits and refusals. The gate builds it against the archive as C and as C++, runs it, and compares what it prints with
 * link.expected.
 */
#include "hasfandur.h"
#include "show.h"

#include <string.h>

static const uint8_t reset[] = {HASFANDUR_DLC_RESET}, octet[] = {'x'};

/* One end: its link goes into each call and comes back out of it. */
typedef struct end {
    const char *name;
    hasfandur_dlc_link link;
    uint8_t reply[HASFANDUR_DLC_REPLY_SIZE + 1];
} end;

/* What a link holds, free slots left out. */
static void print_link(const hasfandur_dlc_link *link)
{
    static const char *const states[] = {"DLIDLE", "DLRESET", "DLDATA", "DLDWAIT"};
    const size_t shown = link->queue.count <= HASFANDUR_DLC_SLOTS ? link->queue.count : 0;
    printf("%s, %zu queued", link->state <= HASFANDUR_DLC_STATE_WAIT ? states[link->state] : "no state", link->queue.count);
    for (size_t i = 0; i < shown; i++) {
        printf(" (%zu)", link->queue.slots[i].length);
    }
    printf(", base %u, expected %u, edition %u", (unsigned)link->base, (unsigned)link->expected, (unsigned)link->edition);
}

/* The packets in the reply buffer, the first octets of each; and whether what lies behind them is as before. */
static void print_packets(const hasfandur_dlc_answer *answer, const uint8_t *reply)
{
    size_t at = 0;
    for (size_t i = 0; i < answer->sent; i++) {
        const size_t length = answer->lengths[i];
        printf(", sends");
        print_octets(reply + at, length < 4 ? length : 4);
        if (length > 4) {
            printf(" .. (%zu)", length);
        }
        at += length;
    }
    for (size_t i = answer->sent; i < HASFANDUR_DLC_SLOTS; i++) {
        printf("%s", answer->lengths[i] == 0 ? "" : ", A LENGTH TOO MANY");
    }
    printf(", the rest %s", untouched(reply, at, HASFANDUR_DLC_REPLY_SIZE + 1) ? "as before" : "CHANGED");
}

/* Takes what an event or the maker gave back, and prints it. */
static void take(end *e, const char *event, hasfandur_dlc_outcome outcome)
{
    printf("%s, %s: %u, ", e->name, event, (unsigned)outcome.answer.number);
    print_link(&outcome.link);
    print_packets(&outcome.answer, e->reply);
    printf("%s", outcome.answer.upper_reset ? ", upper layer resets" : "");
    printf("%s\n", outcome.answer.delivered ? ", delivered" : "");
    e->link = outcome.link;
}

static void start(end *e)
{
    memset(e->reply, UNTOUCHED, sizeof e->reply);
    take(e, "start", hasfandur_dlc_start(e->link, e->reply, HASFANDUR_DLC_REPLY_SIZE));
}

static void timer(end *e)
{
    memset(e->reply, UNTOUCHED, sizeof e->reply);
    take(e, "timer", hasfandur_dlc_timer(e->link, e->reply, HASFANDUR_DLC_REPLY_SIZE));
}

static void payload(end *e, const uint8_t *octets, size_t length)
{
    memset(e->reply, UNTOUCHED, sizeof e->reply);
    take(e, "payload", hasfandur_dlc_payload(e->link, octets, length, e->reply, HASFANDUR_DLC_REPLY_SIZE));
}

static void arrival(end *e, const uint8_t *packet, size_t length)
{
    char event[] = "arrival of none";
    if (length > 0) {
        snprintf(event, sizeof event, "arrival of %02X", packet[0]);
    }
    memset(e->reply, UNTOUCHED, sizeof e->reply);
    take(e, event, hasfandur_dlc_arrival(e->link, packet, length, e->reply, HASFANDUR_DLC_REPLY_SIZE));
}

/* The maker answers as the events do, and is lent no reply buffer: the one that is printed is as before. */
static end fresh(const char *name, uint8_t edition)
{
    end e;
    memset(&e, 0, sizeof e);
    e.name = name;
    memset(e.reply, UNTOUCHED, sizeof e.reply);
    take(&e, "fresh", hasfandur_dlc_fresh(edition));
    return e;
}

/* Start, RESET there and RESET_ACK back: both ends are open. */
static void open_link(end *here, end *there)
{
    start(here);
    timer(here);
    arrival(there, here->reply, 1);
    arrival(here, there->reply, 1);
}

/* Two payloads, each sent as it is queued; the second is lost, and the timer sends it again. The DACKs go back as they come. */
static void exchange(end *here, end *there)
{
    static const uint8_t first[] = {'h', 'i'};
    payload(here, first, sizeof first);
    arrival(there, here->reply, 3);
    payload(here, first, 0);
    arrival(here, there->reply, 1);
    timer(here);
    arrival(there, here->reply, 1);
    arrival(there, here->reply, 1);
    arrival(here, there->reply, 1);
    arrival(here, there->reply, 1);
}

/* RESET arrives at both ends, where one has a payload queued: the queue is empty, numbers are 0, and the edition is as before. */
static void open_again(end *here, end *there)
{
    payload(here, octet, sizeof octet);
    arrival(here, reset, sizeof reset);
    arrival(there, reset, sizeof reset);
}

/* Two payloads from number 0 on, of which the first is lost. The second is answered by 25 with the DACK of none, DACK 0 under edition 1 and
 * DACK 15 under edition 2, which removes nothing. The timer sends both again, and the DACK of the second removes both. */
static void first_lost(end *here, end *there)
{
    payload(here, octet, sizeof octet);
    payload(here, octet, sizeof octet);
    arrival(there, here->reply, 2);
    arrival(here, there->reply, 1);
    timer(here);
    arrival(there, here->reply, 2);
    arrival(there, here->reply + 2, 2);
    arrival(here, there->reply, 1);
}

/* Both ends use one edition. */
static void two_ends(uint8_t edition)
{
    end here = fresh("here", edition), there = fresh("there", edition);
    open_link(&here, &there);
    exchange(&here, &there);
    open_again(&here, &there);
    first_lost(&here, &there);
}

/* As many payloads are queued and sent as there are slots, from number 2 on, and one more is not; 256 octets pass, 257 do not; the timer sends
 * all again and fills the reply buffer; RESET empties the queue. */
static void limits(void)
{
    static uint8_t big[HASFANDUR_DLC_MAX_PAYLOAD + 1];
    end e = fresh("limits", HASFANDUR_DLC_EDITION_1);
    e.link.state = HASFANDUR_DLC_STATE_DATA;
    e.link.base = 2;
    memset(big, 0x5A, sizeof big);
    payload(&e, big, sizeof big);
    for (size_t i = 0; i <= HASFANDUR_DLC_SLOTS; i++) {
        payload(&e, big, HASFANDUR_DLC_MAX_PAYLOAD);
    }
    timer(&e);
    arrival(&e, reset, sizeof reset);
}

/* The DACK of a number and all before it: edition 1 sends the number behind it, edition 2 the number itself. */
static uint8_t dack(uint8_t edition, unsigned number)
{
    return (uint8_t)(HASFANDUR_DLC_DACK + (edition == HASFANDUR_DLC_EDITION_1 ? number + 1 : number) % 16);
}

/* Numbers 14 and 15 are queued: the DACK of 13 and that of 0 are refused, and that of 15 empties the queue. Of edition 1 the last two are
 * worked on paper, DACK 1 and DACK 0; under edition 2 they are DACK 0 and DACK 15. One payload more is sent with the number 0, and then it is
 * the DACK of 0 that empties the queue. */
static void restart(uint8_t edition)
{
    const uint8_t of_13[] = {dack(edition, 13)}, of_15[] = {dack(edition, 15)}, of_0[] = {dack(edition, 0)};
    static const uint8_t data_15[] = {HASFANDUR_DLC_DATA + 15};
    end e = fresh("14 and 15 queued", edition);
    e.link.state = HASFANDUR_DLC_STATE_WAIT;
    e.link.queue.count = 2;
    e.link.queue.slots[0].length = 1;
    e.link.queue.slots[1].length = 1;
    e.link.base = 14;
    e.link.expected = 15;
    end more = e;
    more.name = "14, 15 and one more";
    arrival(&e, of_13, 1);
    arrival(&e, of_0, 1);
    arrival(&e, of_15, 1);
    arrival(&e, data_15, 1);
    arrival(&e, data_15, 1);
    payload(&more, octet, sizeof octet);
    arrival(&more, of_0, 1);
}

/* A number that is no edition: 28 from the maker, with edition 1's fresh link beside it, which starts as every other. */
static void unknown_made(void)
{
    fresh("made with 0", 0);
    fresh("made with 3", 3);
    end e = fresh("made with 255", UINT8_MAX);
    start(&e);
}

/* Each event at an ill-formed link with a small reply buffer, then with that buffer alone, then without either. */
static void refusals(void)
{
    static const uint8_t long_payload[HASFANDUR_DLC_MAX_PAYLOAD + 1] = {0};
    const size_t small = HASFANDUR_DLC_REPLY_SIZE - 1;
    end e = fresh("refused", HASFANDUR_DLC_EDITION_1);
    const hasfandur_dlc_link idle = e.link;
    memset(e.reply, UNTOUCHED, sizeof e.reply);
    e.link.state = HASFANDUR_DLC_STATE_WAIT + 1;
    take(&e, "start", hasfandur_dlc_start(e.link, e.reply, small));
    e.link.state = HASFANDUR_DLC_STATE_WAIT;
    take(&e, "timer", hasfandur_dlc_timer(e.link, e.reply, small));
    e.link = idle;
    e.link.queue.count = HASFANDUR_DLC_SLOTS + 1;
    take(&e, "payload", hasfandur_dlc_payload(e.link, long_payload, sizeof long_payload, e.reply, small));
    e.link = idle;
    e.link.expected = 16;
    take(&e, "arrival of none", hasfandur_dlc_arrival(e.link, long_payload, 0, e.reply, small));
    e.link = idle;
    take(&e, "start", hasfandur_dlc_start(e.link, e.reply, small));
    take(&e, "timer", hasfandur_dlc_timer(e.link, e.reply, small));
    take(&e, "payload", hasfandur_dlc_payload(e.link, long_payload, sizeof long_payload, e.reply, small));
    take(&e, "arrival of none", hasfandur_dlc_arrival(e.link, long_payload, 0, e.reply, small));
    arrival(&e, long_payload, 0);
    arrival(&e, long_payload, 1);
    payload(&e, long_payload, sizeof long_payload);
    payload(&e, long_payload, 1);
    timer(&e);
}

/* The four events, RESET arriving among them. */
static void every_event(end *e)
{
    start(e);
    timer(e);
    payload(e, octet, sizeof octet);
    arrival(e, reset, sizeof reset);
}

/* A link whose edition is unknown answers 27 to every event, an open one too: RESET does not mend it. */
static void unknown_edition(void)
{
    end e = fresh("unknown", HASFANDUR_DLC_EDITION_2);
    arrival(&e, reset, sizeof reset);
    payload(&e, octet, sizeof octet);
    e.link.edition = 3;
    every_event(&e);
}

/* A zeroed link is no fresh one: its edition is 0, which is unknown. Once an edition is put in, it is; no octets may have no place. */
static void zeroed(void)
{
    end e = fresh("zeroed", HASFANDUR_DLC_EDITION_1);
    memset(&e.link, 0, sizeof e.link);
    every_event(&e);
    e.link.edition = HASFANDUR_DLC_EDITION_2;
    arrival(&e, NULL, 0);
    start(&e);
    timer(&e);
    arrival(&e, reset, sizeof reset);
    payload(&e, NULL, 0);
    memset(e.reply, UNTOUCHED, sizeof e.reply);
    take(&e, "timer", hasfandur_dlc_timer(e.link, NULL, 0));
}

int main(void)
{
    two_ends(HASFANDUR_DLC_EDITION_1);
    two_ends(HASFANDUR_DLC_EDITION_2);
    limits();
    restart(HASFANDUR_DLC_EDITION_1);
    restart(HASFANDUR_DLC_EDITION_2);
    unknown_made();
    refusals();
    unknown_edition();
    zeroed();
    return 0;
}
