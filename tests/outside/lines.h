/*
 * Lines of frames that are ours and PPP's at once (frames.h), drawn from the same seed.
 */
#include "frames.h"
#include "lwip_end.h"

/* Who reads a line beside ours. What it reads otherwise is left out: for lwIP, FF before the first flag, and good frames whose data end
 * before the protocol does; for pppdump, octets before the first flag, raw 11 and 13, 7D alone between flags. For pppdump nothing stands
 * after the last flag, so that line can follow line. */
typedef enum beside { LWIP, PPPDUMP } beside;

/* A line, and what it is to give: the frames and numbers of ours; of lwIP what it hands on (protocol in two octets, information) and what
 * it counts. */
typedef struct drawn {
    octets line, frames, numbers, handed;
    lwip_counts drops;
} drawn;

/* What all lines had so far. Segments: frames and the longest among them, spoiled ones, those that are too short, those cut by 7D, empty
 * ones and those of raw 11 and 13 among them. Raw 11 and 13 that were put in: before the first flag, behind 7D, elsewhere in segments, in
 * empty ones, after the last flag. */
typedef struct totals {
    uint64_t octets, frames, longest, spoiled, shorts, cut, empty, skipped;
    uint64_t before, behind, within, alone, after;
} totals;
extern totals total;

/* The next line of a level and check kind, for readers that are fresh; lwIP's writer stands on the line that was opened last. */
void draw_line(uint8_t level, uint8_t check_kind, beside reader, drawn *d);
