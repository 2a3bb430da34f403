/*
 * Lines that are ours and PPP's at once (lines.h), read by the library and by lwIP (lwip_end.h), which skips what its map (ACCM) names.
 *
 *   accm KIND lines LEVEL ACCM COUNT   draws so many lines and hands each to both: prints what they had, or the first one of which
 *                                      something else came than went in
 *   accm KIND frame LENGTH             a frame of so many octets, 8 or more, good for both, as lwIP writes it with the map of level 1
 *   accm KIND ours LEVEL LINE          what ours reports of a line in hexadecimal digits; a good frame stands behind it and is not told
 *   accm KIND lwip ACCM LINE           what lwIP hands on of the same (no address, control and check sequence), and what it counts
 *   accm KIND version                  of the library
 *
 * KIND is the check kind of ours, for all that is done.
 */
#include "lines.h"

#include <inttypes.h>
#include <stdio.h>
#include <stdlib.h>
#include <string.h>

static uint8_t check_kind;

/* What gets our reports: of a frame its data and check. */
typedef void reported(uint8_t number, const uint8_t *frame, size_t length);

/* Hands a line to our reader in portions of up to `most` octets; how many they were. */
static size_t read_ours(uint8_t level, const octets *line, size_t most, reported *report)
{
    static uint8_t buffer[HASFANDUR_QAFT_FCS_MAX_SEGMENT];
    hasfandur_qaft_reader reader = hasfandur_qaft_fresh(level, check_kind);
    size_t portions = 0;
    for (size_t at = 0, end = 0; at < line->length;) {
        if (at == end) {
            end += draw_portion(most, line->length - at);
            portions++;
        }
        hasfandur_qaft_answer a = hasfandur_qaft_read(reader, line->at + at, end - at, buffer, sizeof buffer);
        reader = a.reader;
        at += a.taken;
        if (a.number != HASFANDUR_QAFT_USED_UP) {
            report(a.number, buffer, a.number == HASFANDUR_QAFT_FRAME ? a.length + check_length(check_kind) : 0);
        }
        if (a.number < HASFANDUR_QAFT_FRAME) {
            break;
        }
    }
    return portions;
}

/* The same for lwIP, whose line is open. */
static size_t read_theirs(const octets *line, size_t most)
{
    size_t portions = 0;
    for (size_t at = 0; at < line->length; portions++) {
        size_t portion = draw_portion(most, line->length - at);
        lwip_read(line->at + at, portion);
        at += portion;
    }
    return portions;
}

/* Lines that are drawn ---------------------------------------------------------------------------------------------------------------- */

static drawn put_in;
static octets our_frames, our_numbers, their_frames;

static void keep_ours(uint8_t number, const uint8_t *frame, size_t length)
{
    append(&our_numbers, number);
    if (number == HASFANDUR_QAFT_FRAME) {
        append_frame(&our_frames, frame, length);
    }
}

static void keep_theirs(const uint8_t *octets, size_t length)
{
    append_frame(&their_frames, octets, length);
}

/* What of a line is not as it was to be; nothing where all is. */
static const char *other(lwip_counts got, lwip_counts wanted)
{
    return !same(&our_numbers, &put_in.numbers)   ? "reports of ours"
           : !same(&our_frames, &put_in.frames)   ? "frames of ours"
           : !same(&their_frames, &put_in.handed) ? "frames of lwIP"
           : got.chkerr != wanted.chkerr || got.lenerr != wanted.lenerr || got.memerr != 0 || got.drop != wanted.chkerr + wanted.lenerr
               ? "counts of lwIP"
               : NULL;
}

static void print_line(size_t number, const char *what)
{
    printf("line %zu gave other %s than it was to:\n ", number, what);
    for (size_t i = 0; i < put_in.line.length && i < 100; i++) {
        printf(" %02X", put_in.line.at[i]);
    }
    printf(" (%zu octets)\n", put_in.line.length);
}

static void print_totals(uint8_t level, lwip_counts all)
{
    const totals *t = &total;
    uint64_t refused = t->spoiled + t->shorts + t->cut;
    printf("  frames that both took: %" PRIu64 ", of which %" PRIu64 " have %zu octets\n", t->frames, t->longest, longest(check_kind));
    printf("  segments that both refused: %" PRIu64 " spoiled (ours 14), %" PRIu64 " short (ours 13), %" PRIu64 " cut by 7D (ours 11)\n",
           t->spoiled, t->shorts, t->cut);
    printf("  lwIP counts of these: chkerr %u, lenerr %u, nothing %" PRIu64 "\n", all.chkerr, all.lenerr, refused - all.drop);
    printf("  segments of which neither says anything: %" PRIu64 ", of which %" PRIu64 " are raw 11 and 13 alone\n", t->empty, t->skipped);
    if (level == 1) {
        printf("  raw 11 and 13 put in before the first flag: %" PRIu64 ", behind 7D: %" PRIu64 ", elsewhere in segments: %" PRIu64
               ", in such of nothing else: %" PRIu64 ", after the last flag: %" PRIu64 "\n",
               t->before, t->behind, t->within, t->alone, t->after);
    }
}

static int compare_lines(uint8_t level, uint32_t accm, size_t count)
{
    static const size_t most[] = {1, 3, 40, 5000};
    size_t ours = 0, theirs = 0;
    lwip_counts all = {0};
    for (size_t i = 1; i <= count; i++) {
        our_frames.length = our_numbers.length = their_frames.length = 0;
        lwip_open(accm, keep_theirs);
        draw_line(level, check_kind, LWIP, &put_in);
        ours += read_ours(level, &put_in.line, most[draw(4)], keep_ours);
        theirs += read_theirs(&put_in.line, most[draw(4)]);
        lwip_counts dropped = lwip_dropped();
        const char *what = other(dropped, put_in.drops);
        if (what != NULL) {
            print_line(i, what);
            return 1;
        }
        all.chkerr += dropped.chkerr;
        all.lenerr += dropped.lenerr;
        all.drop += dropped.drop;
    }
    printf("%zu lines, %" PRIu64 " octets, in %zu portions to ours and %zu to lwIP\n", count, total.octets, ours, theirs);
    print_totals(level, all);
    return 0;
}

/* Single lines ------------------------------------------------------------------------------------------------------------------------ */

/* the good frame that stands behind each: protocol C021, information "END" and FD */
static const uint8_t marker[] = {0xFF, 0x03, 0xC0, 0x21, 0x45, 0x4E, 0x44, 0xFD, 0x73, 0xD6};
static const char *between = "";
static bool marked;

static void tell(const char *words)
{
    printf("%s%s", between, words);
    between = "; ";
}

/* A frame by its octets, or by its length; the marker, which has so many octets here from a place on, is not told. */
static void tell_frame(const uint8_t *octets, size_t length, const uint8_t *mark, size_t mark_length)
{
    char words[100] = "frame", *end = words + 5;
    if (length == mark_length && memcmp(octets, mark, length) == 0) {
        marked = true;
        return;
    }
    if (length > 24) {
        sprintf(words, "a frame of %zu octets", length);
    }
    for (size_t i = 0; length <= 24 && i < length; i++) {
        end += sprintf(end, " %02X", octets[i]);
    }
    tell(words);
}

static void tell_ours(uint8_t number, const uint8_t *frame, size_t length)
{
    char words[100];
    if (number == HASFANDUR_QAFT_FRAME) {
        tell_frame(frame, length, marker, sizeof marker);
    } else {
        sprintf(words, "%u %s", (unsigned)number, hasfandur_number_name(number));
        tell(words);
    }
}

static void tell_theirs(const uint8_t *octets, size_t length)
{
    tell_frame(octets, length, marker + 2, sizeof marker - 4);
}

static void tell_count(const char *name, unsigned count)
{
    char words[100];
    if (count != 0) {
        sprintf(words, "counts %s %u", name, count);
        tell(words);
    }
}

/* A line of hexadecimal digits, and the good frame behind it. */
static const octets *single(const char *digits)
{
    static octets line;
    for (unsigned octet; sscanf(digits, "%2x", &octet) == 1; digits += 2) {
        append(&line, (uint8_t)octet);
    }
    append(&line, FLAG);
    for (size_t i = 0; i < sizeof marker; i++) {
        append(&line, marker[i]);
    }
    append(&line, FLAG);
    return &line;
}

/* Protocol C021, and information of 41 but for what makes it a frame of both. */
static void print_frame(size_t length)
{
    static uint8_t frame[1 << 15], line[1 << 16];
    memset(frame, 0x41, sizeof frame);
    memcpy(frame, marker, 4);
    complete(check_kind, frame, length, 0x4141);
    lwip_open(0x000A0000, NULL);
    length = lwip_write(false, frame, length - 2, line);
    for (size_t i = 0; i < length; i++) {
        printf("%02X", line[i]);
    }
    printf("\n");
}

static void tell_line(bool ours, unsigned long number, const char *digits)
{
    const octets *line = single(digits);
    setvbuf(stdout, NULL, _IONBF, 0); /* lwIP may die */
    if (ours) {
        read_ours((uint8_t)number, line, line->length, tell_ours);
    } else {
        lwip_open((uint32_t)number, tell_theirs);
        read_theirs(line, line->length);
        lwip_counts d = lwip_dropped();
        tell_count("chkerr", d.chkerr);
        tell_count("lenerr", d.lenerr);
        tell_count("memerr", d.memerr);
        tell_count("drop", d.drop);
    }
    if (!marked) {
        tell("NOT the frame that follows");
    }
    printf("%s\n", *between == '\0' ? "nothing" : "");
}

int main(int argc, char **argv)
{
    const char *what = argc < 3 ? "" : argv[2];
    check_kind = (uint8_t)(argc < 2 ? 0 : atoi(argv[1]));
    if (argc == 3 && strcmp(what, "version") == 0) {
        printf("%s\n", HASFANDUR_VERSION);
    } else if (argc == 6 && strcmp(what, "lines") == 0) {
        return compare_lines((uint8_t)atoi(argv[3]), (uint32_t)strtoul(argv[4], NULL, 16), strtoul(argv[5], NULL, 10));
    } else if (argc == 4 && strcmp(what, "frame") == 0) {
        print_frame(strtoul(argv[3], NULL, 10));
    } else if (argc == 5 && (strcmp(what, "ours") == 0 || strcmp(what, "lwip") == 0)) {
        tell_line(*what == 'o', strtoul(argv[3], NULL, 16), argv[4]);
    } else {
        fprintf(stderr, "usage: accm KIND lines LEVEL ACCM COUNT | frame LENGTH | ours LEVEL LINE | lwip ACCM LINE | version\n");
        return 2;
    }
    return 0;
}
