/*
 * lwIP's PPP on a serial line (pppos), reader and writer, by its control character map (ACCM). Nothing of ours is called here.
 */
#include <stddef.h>
#include <stdint.h>

/* What lwIP counts of the frames that it drops, by its own names. */
typedef struct lwip_counts {
    unsigned chkerr, lenerr, memerr, drop;
} lwip_counts;

/* A new line, both ways with this map, counts 0; `frame` gets what lwIP hands on of a frame: protocol and information. */
void lwip_open(uint32_t accm, void (*frame)(const uint8_t *octets, size_t length));

/* Octets from the line. */
void lwip_read(const uint8_t *chunk, size_t length);

/* What was dropped since the line was opened. */
lwip_counts lwip_dropped(void);

/* A frame as lwIP puts it on the line, a flag before it unless the line stands at one; its length. `out` has room. By all its octets but
 * the check sequence, or by protocol and information, where lwIP puts FF 03 before them. */
size_t lwip_write(int at_flag, const uint8_t *octets, size_t length, uint8_t *out);
size_t lwip_write_packet(int at_flag, uint16_t protocol, const uint8_t *information, size_t length, uint8_t *out);
