/*
 * Octets, and frames that are ours and PPP's at once, drawn from a fixed seed.
 *
 * A frame of PPP is FF 03, protocol, information, check sequence (low octet first). With QAFT's check it is a frame of ours as well where
 * all its octets sum to 0, its last octet being the check. With the longer check it always is, and one that begins otherwise too.
 */
#include "hasfandur.h"

#define FLAG 0x7E
#define ESCAPE 0x7D
#define SHORTEST 6  /* a frame of PPP without information */
#define GOOD 0xF0B8 /* PPP's check sequence over a frame together with its own, by RFC 1662 */

/* Octets one after another; of frames, each with its length before it. */
typedef struct octets {
    size_t length;
    uint8_t at[1 << 20];
} octets;

void append(octets *o, uint8_t octet);
void append_frame(octets *o, const uint8_t *frame, size_t length);
bool same(const octets *a, const octets *b);

/* splitmix64: the next number, under `limit`. */
size_t draw(size_t limit);

/* The length of the next portion of a line: up to `most` octets, of so many that are left. */
size_t draw_portion(size_t most, size_t left);

/* So many octets: those that readers ask for (mixture 0), octets of any value (2), or of both (1). */
void draw_octets(size_t mixture, uint8_t *octets, size_t length);

/* PPP's check sequence over octets, before the complement; and their sum. */
uint16_t sequence_of(const uint8_t *octets, size_t length);
uint8_t sum_of(const uint8_t *octets, size_t length);

/* Octets of a check, and of the longest frame with it. */
size_t check_length(uint8_t check_kind);
size_t longest(uint8_t check_kind);

/* Makes a frame of so many octets one that both readers are to take: fills in PPP's check sequence. With QAFT's check the two octets before
 * it are counted on from `varied` until the sum is 0. A protocol is an even octet and an odd one, as RFC 1661 has it. */
void complete(uint8_t check_kind, uint8_t *frame, size_t length, size_t varied);
