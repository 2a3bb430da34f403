/*
 * Plays with the functions for C what happens where the two ends of a link use different editions, and prints each event: "here" sends and
 * "there" receives, both opened by RESET from links made with their editions. Every payload is one octet, its count.
 *
 * - One payload, nothing lost: it is delivered, but its DACK is refused, and the timer sends it again each time, over the bound of demand 3.
 * - Two payloads, the first lost: the DACK that answers the second removes the first, which was never delivered, and the timer sends the
 *   second again each time, which the other end does not expect.
 * - Fifteen payloads, the first lost: the DACK that answers the second removes all of them, and the seventeenth is delivered as if it were
 *   the first. The same with one edition at both ends: no DACK removes anything, and the timer sends the first again.
 *
 * docs/EDITIONS.md tells these runs; on the step table they are proved in crates/dlc_worked/proofs/Editions.
 */
#include "hasfandur.h"

#include <stdio.h>
#include <string.h>

enum { MOST = 64 }; /* more packets and payloads than a run has */

typedef struct packet {
    uint8_t octets[HASFANDUR_DLC_PACKET_SIZE(1)];
    size_t length;
} packet;

/* One end: its link, and the packets on the line to it, from the first that has not left the line. */
typedef struct end {
    hasfandur_dlc_link link;
    packet line[MOST];
    size_t first, behind;
} end;

/* Payloads by their counts, in order. */
typedef struct payloads {
    uint8_t counts[MOST];
    size_t number;
} payloads;

/* A run: its ends, the payloads that were accepted here and delivered there, and what the bound of demand 3 counts. */
static end here, there;
static payloads accepted, delivered;
static unsigned events, offered, data_sent, lost;

static void add(payloads *some, uint8_t count)
{
    some->counts[some->number++] = count;
}

static bool among(const payloads *some, uint8_t count)
{
    return memchr(some->counts, count, some->number) != NULL;
}

static void print_packet(const uint8_t *octets)
{
    printf("%s %u", octets[0] < HASFANDUR_DLC_DACK ? "DATA" : "DACK", octets[0] % 16u);
}

/* Of several that count up, the first and the last. */
static void print_payloads(const char *what, const payloads *some)
{
    printf("%s", what);
    for (size_t i = 0; i < some->number; i++) {
        const size_t from = i;
        while (i + 1 < some->number && some->counts[i + 1] == some->counts[i] + 1) {
            i++;
        }
        printf(" %u", (unsigned)some->counts[from]);
        if (i > from) {
            printf(" to %u", (unsigned)some->counts[i]);
        }
    }
    printf("%s", some->number == 0 ? " none" : "");
}

static payloads queued_here(void)
{
    payloads queued = {{0}, 0};
    for (size_t i = 0; i < here.link.queue.count; i++) {
        add(&queued, here.link.queue.slots[i].octets[0]);
    }
    return queued;
}

/* Accepted, and neither delivered nor queued nor in DATA on the line. */
static payloads gone(void)
{
    payloads kept = queued_here(), missing = {{0}, 0};
    for (size_t i = there.first; i < there.behind; i++) {
        add(&kept, there.line[i].octets[1]);
    }
    for (size_t i = 0; i < accepted.number; i++) {
        if (!among(&kept, accepted.counts[i]) && !among(&delivered, accepted.counts[i])) {
            add(&missing, accepted.counts[i]);
        }
    }
    return missing;
}

/* What demand 3 speaks of, and what has become of the payloads. */
static void tally(void)
{
    const payloads missing = gone();
    const size_t bound = accepted.number + HASFANDUR_DLC_SLOTS * lost;
    const bool initial = delivered.number <= accepted.number && memcmp(delivered.counts, accepted.counts, delivered.number) == 0;
    print_payloads("     accepted", &accepted);
    print_payloads("; delivered", &delivered);
    print_payloads(initial ? ", an initial part; gone" : ", NO INITIAL PART; gone", &missing);
    printf("; DATA sent %u, lost %u: %s %zu\n", data_sent, lost, data_sent <= bound ? "within the bound" : "OVER THE BOUND", bound);
}

/* Takes what a call gave back: its number is printed, and what it sends, the first and the last of several, joins the line to the other end. */
static void take(end *from, end *to, const hasfandur_dlc_outcome *outcome, const uint8_t *reply)
{
    const hasfandur_dlc_answer *answer = &outcome->answer;
    printf("%u", (unsigned)answer->number);
    for (size_t i = 0; i < answer->sent; i++) {
        packet *next = &to->line[to->behind++];
        next->length = answer->lengths[i];
        memcpy(next->octets, reply, next->length);
        reply += next->length;
        data_sent += next->octets[0] < HASFANDUR_DLC_DACK;
        if (i == 0 || i + 1 == answer->sent) {
            printf("%s", i == 0 ? ", sends " : " to ");
            print_packet(next->octets);
        }
    }
    from->link = outcome->link;
}

static void payload(void)
{
    uint8_t reply[HASFANDUR_DLC_REPLY_SIZE];
    const uint8_t count = (uint8_t)++offered;
    printf("%3u  here: payload %u: ", ++events, offered);
    const hasfandur_dlc_outcome outcome = hasfandur_dlc_payload(here.link, &count, 1, reply, sizeof reply);
    take(&here, &there, &outcome, reply);
    if (outcome.answer.number == HASFANDUR_DONE) {
        add(&accepted, count);
    }
    printf("\n");
}

/* The bound asks that the timer waits: it says so where nothing is on the line. */
static void timer(void)
{
    uint8_t reply[HASFANDUR_DLC_REPLY_SIZE];
    const bool waited = here.first == here.behind && there.first == there.behind;
    printf("%3u  here: timer%s: ", ++events, waited ? ", nothing on the line" : "");
    const hasfandur_dlc_outcome outcome = hasfandur_dlc_timer(here.link, reply, sizeof reply);
    take(&here, &there, &outcome, reply);
    printf("\n");
}

/* The first packet on the line to an end leaves it, and is lent to a call there. */
static void arrival(end *at, end *other)
{
    uint8_t reply[HASFANDUR_DLC_REPLY_SIZE];
    const packet *front = &at->line[at->first++];
    printf("%3u  %s: ", ++events, at == &here ? "here" : "there");
    print_packet(front->octets);
    printf(" arrives: ");
    const hasfandur_dlc_outcome outcome = hasfandur_dlc_arrival(at->link, front->octets, front->length, reply, sizeof reply);
    take(at, other, &outcome, reply);
    if (outcome.answer.delivered) {
        add(&delivered, front->octets[1]);
        printf(", delivers payload %u", (unsigned)front->octets[1]);
    }
}

static void data_arrives(void)
{
    arrival(&there, &here);
    printf(", then expects %u\n", (unsigned)there.link.expected);
}

static void dack_arrives(void)
{
    arrival(&here, &there);
    const payloads queued = queued_here();
    print_payloads(", then queued:", &queued);
    printf("\n");
}

static void data_lost(void)
{
    printf("%3u  lost: ", ++events);
    print_packet(there.line[there.first++].octets);
    printf("\n");
    lost++;
}

/* RESET opens an end; it is no event of the run. */
static void open_end(end *e, uint8_t edition)
{
    static const uint8_t reset[] = {HASFANDUR_DLC_RESET};
    uint8_t reply[HASFANDUR_DLC_REPLY_SIZE];
    e->link = hasfandur_dlc_arrival(hasfandur_dlc_fresh(edition).link, reset, sizeof reset, reply, sizeof reply).link;
    e->first = e->behind = 0;
}

static void begin(const char *run, uint8_t edition_here, uint8_t edition_there)
{
    open_end(&here, edition_here);
    open_end(&there, edition_there);
    accepted.number = delivered.number = 0;
    events = offered = data_sent = lost = 0;
    printf("%s: edition %u here, edition %u there\n", run, (unsigned)here.link.edition, (unsigned)there.link.edition);
}

/* Whether two links hold the same; no call can tell them apart then. */
static bool same(const hasfandur_dlc_link *one, const hasfandur_dlc_link *other)
{
    const hasfandur_dlc_queue *left = &one->queue, *right = &other->queue;
    bool alike = one->state == other->state && one->base == other->base && one->expected == other->expected &&
                 one->edition == other->edition && left->count == right->count;
    for (size_t i = 0; alike && i < left->count; i++) {
        alike = left->slots[i].length == right->slots[i].length &&
                memcmp(left->slots[i].octets, right->slots[i].octets, left->slots[i].length) == 0;
    }
    return alike;
}

/* The DATA that the timer sent arrives, then its DACK, and the timer sends again. Where both links are then as they were, the same events lead
 * there again. */
static void repeat(void)
{
    const hasfandur_dlc_link before_here = here.link, before_there = there.link;
    const unsigned after = events;
    data_arrives();
    dack_arrives();
    timer();
    if (same(&before_here, &here.link) && same(&before_there, &there.link)) {
        printf("     both links as after event %u\n", after);
    }
}

static void one_payload(uint8_t edition_here, uint8_t edition_there)
{
    begin("one payload", edition_here, edition_there);
    payload();
    data_arrives();
    dack_arrives();
    timer();
    tally();
    repeat();
    repeat();
    tally();
}

static void two_payloads(uint8_t edition_here, uint8_t edition_there)
{
    begin("two payloads", edition_here, edition_there);
    payload();
    payload();
    data_lost();
    data_arrives();
    dack_arrives();
    tally();
    timer();
    repeat();
    repeat();
    tally();
}

/* Fifteen payloads and two more. */
static void fifteen_payloads(uint8_t edition_here, uint8_t edition_there)
{
    begin("fifteen payloads", edition_here, edition_there);
    while (offered < HASFANDUR_DLC_SLOTS) {
        payload();
    }
    data_lost();
    data_arrives();
    dack_arrives();
    payload();
    payload();
    while (there.first < there.behind) {
        data_arrives();
    }
    tally();
}

/* The same with one edition: when the DACKs have arrived too, the timer sends the first payload again. */
static void fifteen_by_one(uint8_t edition)
{
    fifteen_payloads(edition, edition);
    while (here.first < here.behind) {
        dack_arrives();
    }
    timer();
    data_arrives();
    tally();
}

int main(void)
{
    one_payload(HASFANDUR_DLC_EDITION_1, HASFANDUR_DLC_EDITION_2);
    one_payload(HASFANDUR_DLC_EDITION_2, HASFANDUR_DLC_EDITION_1);
    two_payloads(HASFANDUR_DLC_EDITION_2, HASFANDUR_DLC_EDITION_1);
    fifteen_payloads(HASFANDUR_DLC_EDITION_1, HASFANDUR_DLC_EDITION_2);
    fifteen_by_one(HASFANDUR_DLC_EDITION_1);
    fifteen_by_one(HASFANDUR_DLC_EDITION_2);
    return 0;
}
