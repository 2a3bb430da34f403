/*
 * Calls the functions of include/hasfandur.h for the line sheet. The gate builds it against the archive as C and as C++, runs it, and
 * compares what it prints with sheet.expected.
 */
#include "hasfandur.h"
#include "show.h"

#include <string.h>

/* the capture that the scope paper works out; and DATA 0, a DACK, DATA 0 again, a bad check and an empty segment */
static const uint8_t paper[] = {0xAA, 0x7E, 0x40, 0x41, 0x7F, 0x7E, 0x10, 0x7D, 0x7E, 0x7E, 0x05, 0x7E, 0x33};
static const uint8_t packets[] = {0x7E, 0x40, 0xC0, 0x7E, 0x51, 0xAF, 0x7E, 0x40, 0xC0, 0x7E, 0x7E, 0x41, 0xBE, 0x7E};

/* 11 and 13 before the first flag, in a DATA and between 7D and its partner there, alone, behind a 7D, and after the last flag */
static const uint8_t flow_control[] = {0x11, 0x41, 0x7E, 0x13, 0x40, 0x7D, 0x11, 0x33, 0xAD,
                                       0x7E, 0x11, 0x13, 0x7E, 0x7D, 0x13, 0x7E, 0x05, 0x13};

/* DATA 0; DATA 0 with 61 written as 7D 41, which is a bad pair and no DATA; DATA 0 again, a repeat of the first */
static const uint8_t odd_pair[] = {0x7E, 0x40, 0xC0, 0x7E, 0x40, 0x7D, 0x41, 0x5F, 0x7E, 0x40, 0xC0, 0x7E};

static void count_case(const char *name, uint8_t level, const uint8_t *capture, size_t length)
{
    hasfandur_counts c = hasfandur_sheet_count(level, capture, length);
    printf("%s", name);
    print_octets(capture, length);
    printf(": %u, counts", (unsigned)c.number);
    for (size_t i = 0; i < HASFANDUR_SHEET_COUNTS; i++) {
        printf(" %llu", (unsigned long long)c.counts[i]);
    }
    printf("\n");
}

static void count_cases(void)
{
    count_case("the paper's capture", 0, paper, sizeof paper);
    count_case("packets", 1, packets, sizeof packets);
    count_case("flow control", 1, flow_control, sizeof flow_control);
    count_case("the same at level 0", 0, flow_control, sizeof flow_control);
    count_case("an odd pair", 0, odd_pair, sizeof odd_pair);
    count_case("no flag", 0, paper + 2, 3);
    count_case("nothing", 0, NULL, 0);
    count_case("level 2", 2, paper, sizeof paper);
}

/* The printed line of a record, into a buffer with `room` octets. */
static void print_line(size_t line, hasfandur_tally tally, size_t room)
{
    uint8_t out[HASFANDUR_SHEET_MAX_LINE + 1];
    memset(out, UNTOUCHED, sizeof out);
    size_t length = hasfandur_sheet_line(line, tally, out, room);
    printf("  %zu octets, the rest %s: ", length, untouched(out, length, sizeof out) ? "as before" : "CHANGED");
    printf("%.*s", (int)length, (const char *)out);
    if (length == 0) {
        printf("\n");
    }
}

static void tally_case(const char *name, uint8_t level, const uint8_t *capture, size_t length, size_t line, hasfandur_tally *table,
                       size_t lines)
{
    uint8_t number = hasfandur_sheet_tally(level, capture, length, line, table, lines);
    printf("%s: %u %s\n", name, (unsigned)number, hasfandur_number_name(number));
}

static void tally_cases(void)
{
    static hasfandur_tally table[HASFANDUR_SHEET_LINES + 1];
    const size_t all = HASFANDUR_SHEET_LINES + 1;

    /* two captures on one line, and one on the last */
    tally_case("line 1", 0, paper, sizeof paper, 1, table, 3);
    tally_case("line 1 again", 0, packets, sizeof packets, 1, table, 3);
    tally_case("line 63", 0, packets, sizeof packets, 63, table, all);
    tally_case("line 63 again", 1, flow_control, sizeof flow_control, 63, table, all);
    tally_case("line 63 once more", 0, odd_pair, sizeof odd_pair, 63, table, all);

    /* no such record; a record that is past the lines */
    tally_case("line 3 of 3", 0, paper, sizeof paper, 3, table, 3);
    tally_case("line 64 of 65", 0, paper, sizeof paper, 64, table, all);
    tally_case("no table", 0, paper, sizeof paper, 0, NULL, 0);

    /* the capture has five flags: up to the largest count, and one above */
    table[2].counts[HASFANDUR_SHEET_FLAGS] = UINT32_MAX - 5;
    tally_case("line 2, nearly full", 0, paper, sizeof paper, 2, table, 3);
    tally_case("line 2, full", 0, paper, sizeof paper, 2, table, 3);
    tally_case("line 2, no octets", 0, NULL, 0, 2, table, 3);

    /* each pair of neighbours in the order 6, 50, 51 */
    tally_case("level 2, line 64", 2, paper, sizeof paper, 64, table, all);
    table[64] = table[2];
    tally_case("line 64, full", 0, paper, sizeof paper, 64, table, all);

    for (size_t i = 0; i < 3; i++) {
        print_line(i, table[i], HASFANDUR_SHEET_MAX_LINE);
    }
    print_line(63, table[63], HASFANDUR_SHEET_MAX_LINE + 1);
}

static void line_cases(void)
{
    hasfandur_tally full;
    memset(&full, 0xFF, sizeof full);
    full.counts[HASFANDUR_SHEET_FRAMES]--;
    printf("the longest line, and no room\n");
    print_line(SIZE_MAX, full, HASFANDUR_SHEET_MAX_LINE);
    print_line(SIZE_MAX, full, HASFANDUR_SHEET_MAX_LINE - 1);
    print_line(0, full, 0);
}

int main(void)
{
    count_cases();
    tally_cases();
    line_cases();
    return 0;
}
