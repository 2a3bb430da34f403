/*
 * Calls the functions of include/hasfandur.h for frames: QAFT and AFP (link.c has those of the DLC link). The gate builds it
 * against the archive as C and as C++, runs it, and compares what it prints with desk.expected.
 */
#include "hasfandur.h"
#include "show.h"

#include <string.h>

/* the kinds of check */
enum { SUM = HASFANDUR_QAFT_SUM, FCS = HASFANDUR_QAFT_FCS };

/* One frame into a buffer with `room` octets. */
static void write_case(const char *name, uint8_t level, uint8_t kind, bool at_flag, const uint8_t *data, size_t length, size_t room)
{
    static uint8_t out[HASFANDUR_QAFT_FCS_MAX_FRAME + 1];
    memset(out, UNTOUCHED, sizeof out);
    hasfandur_written w = hasfandur_qaft_write(level, kind, at_flag, data, length, out, room);
    printf("%s: %u, %zu octets", name, (unsigned)w.number, w.length);
    if (w.length != 0 && w.length <= 8) {
        printf(":");
        print_octets(out, w.length);
    }
    printf(", the rest %s\n", untouched(out, w.length, sizeof out) ? "as before" : "CHANGED");
}

static void write_cases(void)
{
    static const uint8_t a[] = {0x41}, flag[] = {0x7E}, check[] = {0x82}, zero[] = {0x00}, xon[] = {0x11}, ed[] = {0xED};
    static uint8_t big[HASFANDUR_QAFT_MAX_DATA + 1];

    /* worked on paper */
    write_case("write 41", 0, SUM, false, a, 1, HASFANDUR_QAFT_MAX_FRAME);
    write_case("write 7E", 0, SUM, false, flag, 1, HASFANDUR_QAFT_MAX_FRAME);
    write_case("write 82", 0, SUM, false, check, 1, HASFANDUR_QAFT_MAX_FRAME);
    write_case("write 00", 0, SUM, false, zero, 1, HASFANDUR_QAFT_MAX_FRAME);
    write_case("write 11", 0, SUM, false, xon, 1, HASFANDUR_QAFT_MAX_FRAME);
    write_case("write 11 at level 1", 1, SUM, false, xon, 1, HASFANDUR_QAFT_MAX_FRAME);
    write_case("write ED at level 1", 1, SUM, false, ed, 1, HASFANDUR_QAFT_MAX_FRAME);
    write_case("write 41 at a flag", 0, SUM, true, a, 1, HASFANDUR_QAFT_MAX_FRAME);

    /* the longest frame: each octet of data and the check octet escaped */
    memset(big, 0x7D, sizeof big);
    memset(big, 0x7E, 130);
    write_case("write 2560", 0, SUM, false, big, HASFANDUR_QAFT_MAX_DATA, HASFANDUR_QAFT_MAX_FRAME);

    /* room for this very frame, and one octet less */
    write_case("room 4", 0, SUM, false, a, 1, 4);
    write_case("room 3", 0, SUM, false, a, 1, 3);
    write_case("room 3 at a flag", 0, SUM, true, a, 1, 3);
    write_case("room 5123", 0, SUM, false, big, HASFANDUR_QAFT_MAX_DATA, HASFANDUR_QAFT_MAX_FRAME - 1);

    /* refusals, and each pair of neighbours in the order 6, 7, 1, 2, 3 */
    write_case("level 2", 2, SUM, false, a, 1, HASFANDUR_QAFT_MAX_FRAME);
    write_case("kind 2", 0, 2, false, a, 1, HASFANDUR_QAFT_MAX_FRAME);
    write_case("level 2, kind 2", 2, 2, false, a, 1, HASFANDUR_QAFT_MAX_FRAME);
    write_case("kind 255, no data", 0, 255, false, a, 0, HASFANDUR_QAFT_MAX_FRAME);
    write_case("no data", 1, SUM, false, a, 0, HASFANDUR_QAFT_MAX_FRAME);
    write_case("2561 octets", 0, SUM, false, big, HASFANDUR_QAFT_MAX_DATA + 1, HASFANDUR_QAFT_MAX_FRAME);
    write_case("level 2, no data", 2, SUM, false, a, 0, HASFANDUR_QAFT_MAX_FRAME);
    write_case("level 255, 2561 octets", 255, SUM, false, big, HASFANDUR_QAFT_MAX_DATA + 1, HASFANDUR_QAFT_MAX_FRAME);
    write_case("no data, no room", 0, SUM, false, a, 0, 0);
    write_case("2561 octets, no room", 0, SUM, false, big, HASFANDUR_QAFT_MAX_DATA + 1, 0);

    /* a frame whose octets are all escaped, the check octet 7E too, fills the size that the header says */
    memset(big, 0x7D, sizeof big);
    memset(big, 0x7E, 136);
    write_case("258 octets in their size", 0, SUM, false, big, 258, HASFANDUR_QAFT_FRAME_SIZE(258));
    write_case("258 octets in one less", 0, SUM, false, big, 258, HASFANDUR_QAFT_FRAME_SIZE(258) - 1);
}

/* The same with the check sequence. */
static void write_fcs_cases(void)
{
    /* worked on paper: 7388, low octet first; check octets 7E 7E, and at level 1 7E 11 */
    static const uint8_t paper[] = {0x21, 0x04}, flags[] = {0x1B, 0x00}, xon[] = {0x2E, 0x82};
    /* the end of the longest frame's data: behind flags, its check is 7D 7D */
    static const uint8_t end[] = {0x7D, 0x7D, 0x7D, 0x7E, 0x7D, 0x7E, 0x7D, 0x7E, 0x7D, 0x7E, 0x7E, 0x7E, 0x7D};
    static uint8_t big[HASFANDUR_QAFT_MAX_DATA];
    write_case("check sequence, 21 04", 0, FCS, false, paper, 2, HASFANDUR_QAFT_FCS_MAX_FRAME);
    write_case("check sequence, 1B 00", 0, FCS, false, flags, 2, HASFANDUR_QAFT_FCS_FRAME_SIZE(2));
    write_case("check sequence, 2E 82 at level 1, at a flag", 1, FCS, true, xon, 2, HASFANDUR_QAFT_FCS_FRAME_SIZE(2));
    memset(big, 0x7E, sizeof big);
    memcpy(big + sizeof big - sizeof end, end, sizeof end);
    write_case("check sequence, 2560", 0, FCS, false, big, sizeof big, HASFANDUR_QAFT_FCS_MAX_FRAME);
    write_case("check sequence, room 5125", 0, FCS, false, big, sizeof big, HASFANDUR_QAFT_FCS_MAX_FRAME - 1);
    write_case("check sequence, room 5", 0, FCS, false, paper, 2, 5);
}

static void check_cases(void)
{
    static const uint8_t octets[] = {0x40, 0x41, 0x7E, 0xFF};
    for (size_t n = 0; n <= sizeof octets; n++) {
        printf("check");
        print_octets(octets, n);
        printf(": %02X\n", hasfandur_qaft_check(octets, n));
    }
}

static void print_answer(hasfandur_qaft_answer a, const uint8_t *buffer)
{
    printf("  %u, took %zu, state %d %d %zu %02X %d", (unsigned)a.number, a.taken, a.reader.synced, a.reader.pending,
           a.reader.count, (unsigned)a.reader.check, a.reader.bad_pair);
    if (a.number == HASFANDUR_QAFT_FRAME) {
        printf(", data");
        print_octets(buffer, a.length);
    }
    printf("\n");
}

/* Reads a line in two chunks, handing on the rest of each after a report. */
static void read_case(const char *name, uint8_t level, uint8_t kind, const uint8_t *line, size_t cut, size_t length)
{
    static uint8_t buffer[HASFANDUR_QAFT_FCS_MAX_SEGMENT];
    const size_t ends[] = {cut, length};
    hasfandur_qaft_reader state = hasfandur_qaft_fresh(level, kind);
    size_t at = 0;
    printf("%s\n", name);
    for (size_t k = 0; k < 2; k++) {
        hasfandur_qaft_answer a;
        do {
            a = hasfandur_qaft_read(state, line + at, ends[k] - at, buffer, sizeof buffer);
            state = a.reader;
            at += a.taken;
            print_answer(a, buffer);
        } while (hasfandur_is_report(a.number));
    }
}

static void read_cases(void)
{
    /* the paper's example, cut behind a 7D */
    static const uint8_t line[] = {0xAA, 0x7E, 0x40, 0x41, 0x7F, 0x7E, 0x10, 0x7D, 0x7E, 0x7E, 0x05, 0x7E, 0x33};
    static const uint8_t pair[] = {0x7E, 0x7D, 0x5E, 0x82, 0x7E, 0x41, 0xBE, 0x7E};
    /* 13 and 11 behind a flag, between 7D and its partner, and alone between two flags */
    static const uint8_t strewn[] = {0x7E, 0x13, 0x7D, 0x11, 0x31, 0xEF, 0x7E, 0x11, 0x7E};
    /* 7D 41 for 61, cut behind 7D, as a splitter box made it; 7D 31, which is good at level 1 alone; 7D 41 and a 7D left over */
    static const uint8_t odd[] = {0x7E, 0x7D, 0x41, 0x9F, 0x7E, 0x7D, 0x31, 0xEF, 0x7E, 0x7D, 0x41, 0x7D, 0x7E};
    static uint8_t buffer[HASFANDUR_QAFT_MAX_SEGMENT];
    read_case("read the paper's line", 0, SUM, line, 8, sizeof line);
    read_case("read 7D 5E 82, cut behind 7D", 1, SUM, pair, 2, sizeof pair);
    read_case("read 11 at level 1, flow control put in", 1, SUM, strewn, 4, sizeof strewn);
    read_case("the same octets at level 0", 0, SUM, strewn, 4, sizeof strewn);
    read_case("read odd pairs at level 0", 0, SUM, odd, 2, sizeof odd);
    read_case("the same octets at level 1", 1, SUM, odd, 3, sizeof odd);

    /* refusals 6, 7, 4, 5, in this order */
    printf("read refused\n");
    hasfandur_qaft_reader bad = {2, 2, 0, 1, 0, 7, 3};
    print_answer(hasfandur_qaft_read(bad, line, sizeof line, buffer, 2560), buffer);
    bad.level = 1;
    print_answer(hasfandur_qaft_read(bad, line, sizeof line, buffer, 2560), buffer);
    bad.check_kind = SUM;
    print_answer(hasfandur_qaft_read(bad, line, sizeof line, buffer, 2560), buffer);
    print_answer(hasfandur_qaft_read(bad, line, sizeof line, buffer, sizeof buffer), buffer);
    /* a bad pair of no octets, behind a flag and before any; any number but 0 says that one came */
    hasfandur_qaft_reader marked = {1, SUM, 1, 0, 2, 0, 0};
    print_answer(hasfandur_qaft_read(marked, line, sizeof line, buffer, sizeof buffer), buffer);
    marked.synced = 0;
    print_answer(hasfandur_qaft_read(marked, line, sizeof line, buffer, sizeof buffer), buffer);
}

static void read_fcs_cases(void)
{
    /* a frame, cut between its check octets; these swapped; two octets; a QAFT frame. At level 1 a frame with check octets 7E 11 */
    static const uint8_t line[] = {0x7E, 0x21, 0x04, 0x88, 0x73, 0x7E, 0x21, 0x04, 0x73,
                                   0x88, 0x7E, 0x00, 0x00, 0x7E, 0x41, 0xBF, 0x7E};
    static const uint8_t xon[] = {0x7E, 0x2E, 0x82, 0x7D, 0x5E, 0x7D, 0x13, 0x31, 0x7E};
    static uint8_t buffer[HASFANDUR_QAFT_FCS_MAX_SEGMENT];
    read_case("read with the check sequence", 0, FCS, line, 4, sizeof line);
    read_case("the same octets with the sum", 0, SUM, line, 4, sizeof line);
    read_case("read 2E 82 at level 1", 1, FCS, xon, 6, sizeof xon);

    /* a buffer for the sum is too small; a register that is not all ones at count 0, behind a flag and before any; a sum of 256 */
    printf("read with the check sequence refused\n");
    hasfandur_qaft_reader state = hasfandur_qaft_fresh(0, FCS);
    print_answer(hasfandur_qaft_read(state, line, sizeof line, buffer, HASFANDUR_QAFT_MAX_SEGMENT), buffer);
    state.check = 0;
    print_answer(hasfandur_qaft_read(state, line, sizeof line, buffer, sizeof buffer), buffer);
    state.synced = 1;
    print_answer(hasfandur_qaft_read(state, line, sizeof line, buffer, sizeof buffer), buffer);
    const hasfandur_qaft_reader over = {0, SUM, 1, 0, 0, 256, 2};
    print_answer(hasfandur_qaft_read(over, line, sizeof line, buffer, sizeof buffer), buffer);
}

static void sum_cases(void)
{
    /* worked on paper: FB; and sums that are FF and 0 */
    static const uint8_t worked[] = {0x04, 0x41, 0x42, 0x31, 0x43}, ones[] = {0xF0, 0x0F}, none[] = {0x00};
    printf("sums 04 41 42 31 43: %02X, %02X, %02X\n", hasfandur_afp_sum(worked, 5), hasfandur_afp_next_station_sum(worked, 5),
           hasfandur_afp_header_sum(worked, 5));
    printf("sums F0 0F: %02X, %02X, %02X\n", hasfandur_afp_sum(ones, 2), hasfandur_afp_next_station_sum(ones, 2),
           hasfandur_afp_header_sum(ones, 2));
    printf("sums 00: %02X, %02X, %02X\n", hasfandur_afp_sum(none, 1), hasfandur_afp_next_station_sum(none, 1),
           hasfandur_afp_header_sum(none, 1));
    printf("check sequence of 123456789: %04X\n", (unsigned)hasfandur_check_sequence((const uint8_t *)"123456789", 9));
}

/* What an answer shows of a frame. */
static void print_reading(const char *name, const uint8_t *frame, hasfandur_reading r)
{
    printf("%s: %u", name, (unsigned)r.number);
    if (r.number == HASFANDUR_DONE) {
        printf(", protocol %02X, %zu IDs, next %zu, stations", r.protocol, r.ids, r.next);
        print_octets(frame + r.stations.place, r.stations.size);
        printf(", supplementary");
        print_octets(frame + r.supplementary.place, r.supplementary.size);
        printf(", data");
        print_octets(frame + r.payload.place, r.payload.size);
        printf("%s", r.unchecked ? ", unchecked" : "");
    }
    printf("\n");
}

/* Writes a frame into `room` octets, prints it, and reads it again. */
static void afp_case(const char *name, uint8_t protocol, const char *stations, size_t stations_length, size_t next,
                     const char *supplementary, size_t supplementary_length, const char *data, size_t room)
{
    uint8_t out[64];
    memset(out, UNTOUCHED, sizeof out);
    hasfandur_afp_written w =
        hasfandur_afp_write(protocol, (const uint8_t *)stations, stations_length, next, (const uint8_t *)supplementary,
                            supplementary_length, (const uint8_t *)data, strlen(data), out, room);
    printf("%s: %u, %zu octets", name, (unsigned)w.number, w.length);
    if (w.length != 0) {
        printf(":");
        print_octets(out, w.length);
    }
    printf(", the rest %s\n", untouched(out, w.length, sizeof out) ? "as before" : "CHANGED");
    if (w.number == HASFANDUR_DONE) {
        print_reading("  read", out, hasfandur_afp_read(out, w.length));
        out[2] ^= 0x01;
        print_reading("  read with one bit changed", out, hasfandur_afp_read(out, w.length));
    }
}

static void afp_cases(void)
{
    /* worked on paper: a broadcast by AB1C, protocol F0 */
    afp_case("afp broadcast", 0xF0, "\004AB1C", 6, 0, "", 0, "", 64);
    afp_case("afp to the second ID", 0xF0, "\004AB1C\003X/9", 10, 2, "\000", 1, "hi", 64);
    afp_case("afp without room", 0xF0, "\004AB1C", 6, 0, "", 0, "", 13);
    afp_case("afp protocol FE", 0xFE, "\004ab1c", 6, 0, "", 0, "", 64);
    afp_case("afp lower case", 0xF0, "\004ab1c", 6, 1, "", 0, "", 64);
    afp_case("afp next 1", 0xF0, "\004AB1C", 6, 1, "\002", 1, "", 64);
    afp_case("afp options missing", 0xF0, "\001A", 3, 0, "\002", 1, "", 64);
    afp_case("afp short header", 0xF0, "\001A", 3, 0, "", 0, "", 0);
    static const uint8_t nothing[1] = {0};
    print_reading("afp no frame", nothing, hasfandur_afp_read(nothing, 0));
}

/* No octets, and no place for them. */
static void null_cases(void)
{
    static const uint8_t stations[] = {4, 'A', 'B', '1', 'C', 0};
    static uint8_t buffer[HASFANDUR_QAFT_MAX_SEGMENT], out[64];
    const hasfandur_qaft_reader fresh = hasfandur_qaft_fresh(0, SUM);
    printf("null\n");
    printf("  check %02X, sums %02X %02X %02X, check sequence %04X\n", hasfandur_qaft_check(NULL, 0), hasfandur_afp_sum(NULL, 0),
           hasfandur_afp_next_station_sum(NULL, 0), hasfandur_afp_header_sum(NULL, 0),
           (unsigned)hasfandur_check_sequence(NULL, 0));
    print_answer(hasfandur_qaft_read(fresh, NULL, 0, NULL, 0), buffer);
    print_answer(hasfandur_qaft_read(fresh, NULL, 0, buffer, sizeof buffer), buffer);
    printf("  write %u, %u\n", hasfandur_qaft_write(0, SUM, false, NULL, 0, NULL, 0).number,
           hasfandur_qaft_write(0, SUM, false, out, 1, NULL, 0).number);
    printf("  afp write %u, %u, %u\n", hasfandur_afp_write(0xF0, NULL, 0, 0, NULL, 0, NULL, 0, NULL, 0).number,
           hasfandur_afp_write(0xF0, stations, sizeof stations, 0, NULL, 0, NULL, 0, NULL, 0).number,
           hasfandur_afp_write(0xF0, stations, sizeof stations, 0, NULL, 0, NULL, 0, out, sizeof out).number);
    printf("  afp read %u\n", hasfandur_afp_read(NULL, 0).number);
}

/* Any number but 0 in the state's bools stands for true, and is given back so only where the call is refused. */
static void number_cases(void)
{
    static const uint8_t line[] = {0x5E, 0x82, 0x7E};
    static uint8_t buffer[HASFANDUR_QAFT_MAX_SEGMENT];
    const hasfandur_qaft_reader waiting = {0, SUM, 3, 128, 0, 0, 0}, nowhere = {0, SUM, 0, 255, 0, 0, 0};
    printf("state 3 128, then 0 255\n");
    print_answer(hasfandur_qaft_read(waiting, line, sizeof line, buffer, sizeof buffer), buffer);
    print_answer(hasfandur_qaft_read(nowhere, line, sizeof line, buffer, sizeof buffer), buffer);
}

static void name_cases(void)
{
    printf("version %s, %d\n", HASFANDUR_VERSION, HASFANDUR_VERSION_NUMBER);
    for (unsigned n = 0; n <= 42; n++) {
        printf("%u %s\n", n, hasfandur_number_name((uint8_t)n));
    }
}

int main(void)
{
    write_cases();
    write_fcs_cases();
    check_cases();
    read_cases();
    read_fcs_cases();
    number_cases();
    sum_cases();
    afp_cases();
    null_cases();
    name_cases();
    return 0;
}
