/* Plain C: what a C programmer would write without more thought, compiled with gcc -O3; the next receiver is the fastest of four forms.
 * Not a packaged library. */
#ifndef PLAIN_H
#define PLAIN_H

#include "../../include/hasfandur.h"
#include <stdbool.h>
#include <stddef.h>
#include <stdint.h>

/* An octet that is escaped at level 1 and, where it stands raw on such a line, skipped. */
static inline bool plain_flow_control(uint8_t level, uint8_t x) { return level == 1 && (x == 0x11 || x == 0x13); }

/* An octet that a level escapes; a pair that stands for no such octet is bad. */
static inline bool plain_escaped(uint8_t level, uint8_t x) { return x == 0x7E || x == 0x7D || plain_flow_control(level, x); }

struct plain_reader {
    uint8_t level;
    bool flag;
    bool pending;
    size_t count;
    unsigned check;
    bool bad_pair;
};

struct plain_answer {
    uint8_t number;
    size_t taken;
    size_t length;
    struct plain_reader reader;
};

/* QAFT, and AFT: the same with the two-octet check sequence, by a byte table. Each has functions of its own, so nobody asks for the
 * kind at run time. */
size_t plain_qaft_write(uint8_t level, bool at_flag, const uint8_t *octets, size_t length, uint8_t *out, size_t room);
size_t plain_aft_write(uint8_t level, bool at_flag, const uint8_t *octets, size_t length, uint8_t *out, size_t room);
struct plain_reader plain_qaft_fresh(uint8_t level);
struct plain_reader plain_aft_fresh(uint8_t level);
struct plain_answer plain_qaft_read(struct plain_reader reader, const uint8_t *chunk, size_t length, uint8_t *store);
struct plain_answer plain_aft_read(struct plain_reader reader, const uint8_t *chunk, size_t length, uint8_t *store);
size_t plain_kiss_write(bool at_flag, const uint8_t *payload, size_t length, uint8_t *out, size_t room);
hasfandur_kiss_answer plain_kiss_read(hasfandur_kiss_reader reader, const uint8_t *chunk, size_t length, uint8_t *store);
hasfandur_counts plain_sheet_count(uint8_t level, const uint8_t *capture, size_t length);
hasfandur_dlc_outcome plain_dlc_timer(hasfandur_dlc_link link, uint8_t *reply, size_t reply_length);
hasfandur_dlc_outcome plain_dlc_payload(hasfandur_dlc_link link, const uint8_t *payload, size_t length, uint8_t *reply, size_t reply_length);
hasfandur_reading plain_afp_read(const uint8_t *frame, size_t length);
hasfandur_receiver plain_afp_next_receiver(const uint8_t *frame, size_t length);
hasfandur_written plain_afp_write(uint8_t protocol, const uint8_t *stations, size_t stations_length, size_t next,
                                  const uint8_t *supplementary, size_t supplementary_length, const uint8_t *octets,
                                  size_t length, uint8_t *out, size_t room);
uint8_t plain_sum_by_octets(const uint8_t *octets, size_t length);
uint8_t plain_sum_at_end(const uint8_t *octets, size_t length);
void plain_make_table(void);
uint16_t plain_check_by_table(const uint8_t *octets, size_t length);
uint16_t plain_check_by_bits(const uint8_t *octets, size_t length);

#endif
