/*
 * The longer check beside pppdump and beside a calculation of others: what the library writes and reads, in forms that others read.
 *
 *   ppp dump LEVEL COUNT RECORD LISTING   draws so many lines (lines.h), one behind another, and writes them as a record of pppd to the one
 *                                         file, what ours reads of them as pppdump -p prints it to the other: prints what they had, or the
 *                                         first one of which ours gave something else than went in
 *   ppp checks COUNT                      draws so many lists of data, and prints of each in hexadecimal digits: data, check sequence, the
 *                                         frames of level 0 and 1; of no data "-", and no frames
 */
#include "lines.h"

#include <inttypes.h>
#include <stdio.h>
#include <stdlib.h>
#include <string.h>

#define KIND HASFANDUR_QAFT_FCS
#define SENT 1 /* pppd's mark of octets that were sent; their number follows in two octets */

/* Octets and frames of the lines ------------------------------------------------------------------------------------------------------ */

static drawn put_in;
static octets our_frames, our_numbers;

static void record(FILE *to, const octets *line, size_t most)
{
    for (size_t at = 0, portion; at < line->length; at += portion) {
        portion = draw_portion(most, line->length - at);
        fprintf(to, "%c%c%c", SENT, (int)(portion >> 8), (int)(portion & 0xFF));
        fwrite(line->at + at, 1, portion, to);
    }
}

/* Sixteen octets to a row, and their characters. */
static void list_rows(FILE *to, const char *label, const uint8_t *octets, size_t length)
{
    for (size_t at = 0; at < length; at += 16, label = "    ") {
        fprintf(to, "%s ", label);
        for (size_t i = at; i < at + 16; i++) {
            fprintf(to, i < length ? " %.2x" : "   ", i < length ? octets[i] : 0);
        }
        fprintf(to, "  ");
        for (size_t i = at; i < at + 16 && i < length; i++) {
            fputc(' ' <= octets[i] && octets[i] <= '~' ? octets[i] : '.', to);
        }
        fprintf(to, "\n");
    }
}

/* A segment as pppdump prints it, by our report, the buffer, and our state before the flag: so its count and check are compared too. */
static void list_segment(FILE *to, uint8_t number, const uint8_t *segment, const hasfandur_qaft_reader *before)
{
    const char *label = "sent";
    bool aborted = number == HASFANDUR_QAFT_ABORTED;
    size_t count = before->count;
    if (aborted) {
        fprintf(to, "sent aborted packet:\n     ");
        label = "    ";
    }
    if (number == HASFANDUR_QAFT_SHORT || (aborted && count <= 2)) {
        fprintf(to, "%s short packet [%zu bytes]:", label, count);
        for (size_t i = 0; i < count; i++) {
            fprintf(to, " %.2x", segment[i]);
        }
        fprintf(to, "\n");
    } else if (aborted || number == HASFANDUR_QAFT_FRAME || number == HASFANDUR_QAFT_BAD_CHECK) {
        list_rows(to, label, segment, count - 2);
        if (number == HASFANDUR_QAFT_BAD_CHECK || (aborted && before->check != GOOD)) {
            fprintf(to, "     BAD FCS: (residue = %x)\n", (unsigned)before->check);
        }
    } else {
        fprintf(to, "%u %s\n", (unsigned)number, hasfandur_number_name(number));
    }
}

/* Hands a line to our reader in portions, each a flag or none in it, so that the state before a flag is seen; the state behind the line. */
static hasfandur_qaft_reader list(FILE *to, hasfandur_qaft_reader reader, const octets *line, size_t most)
{
    static uint8_t buffer[HASFANDUR_QAFT_FCS_MAX_SEGMENT];
    for (size_t at = 0, portion; at < line->length; at += portion) {
        portion = draw_portion(most, line->length - at);
        const uint8_t *chunk = line->at + at, *flag = memchr(chunk, FLAG, portion);
        portion = flag == NULL ? portion : flag == chunk ? 1 : (size_t)(flag - chunk);
        hasfandur_qaft_answer a = hasfandur_qaft_read(reader, chunk, portion, buffer, sizeof buffer);
        if (a.taken != portion) {
            fprintf(to, "%zu octets taken of %zu\n", a.taken, portion);
        }
        if (a.number != HASFANDUR_QAFT_USED_UP) {
            list_segment(to, a.number, buffer, &reader);
            append(&our_numbers, a.number);
        }
        if (a.number == HASFANDUR_QAFT_FRAME) {
            append_frame(&our_frames, buffer, a.length + check_length(KIND));
        }
        reader = a.reader;
    }
    return reader;
}

static int dump_lines(uint8_t level, size_t count, FILE *to_record, FILE *to_listing)
{
    static const size_t most[] = {1, 3, 40, 5000};
    hasfandur_qaft_reader reader = hasfandur_qaft_fresh(level, KIND);
    lwip_open(level == 1 ? 0x000A0000 : 0, NULL);
    for (size_t i = 1; i <= count; i++) {
        our_frames.length = our_numbers.length = 0;
        draw_line(level, KIND, PPPDUMP, &put_in);
        record(to_record, &put_in.line, most[draw(4)]);
        reader = list(to_listing, reader, &put_in.line, most[draw(4)]);
        if (!same(&our_numbers, &put_in.numbers) || !same(&our_frames, &put_in.frames)) {
            printf("of line %zu ours gave something else than went in\n", i);
            return 1;
        }
    }
    const totals *t = &total;
    printf("%zu lines, %" PRIu64 " octets: %" PRIu64 " frames, of which %" PRIu64 " have %zu octets; %" PRIu64 " spoiled, %" PRIu64
           " short, %" PRIu64 " cut by 7D, %" PRIu64 " empty",
           count, t->octets, t->frames, t->longest, longest(KIND), t->spoiled, t->shorts, t->cut, t->empty);
    return 0;
}

/* Check sequences --------------------------------------------------------------------------------------------------------------------- */

static void print_octets(const uint8_t *octets, size_t length)
{
    printf(" ");
    for (size_t i = 0; i < length; i++) {
        printf("%02X", octets[i]);
    }
}

static void print_check(const uint8_t *data, size_t length)
{
    static uint8_t out[HASFANDUR_QAFT_FCS_MAX_FRAME];
    print_octets(data, length);
    printf("%s %04X", length == 0 ? "-" : "", (unsigned)hasfandur_check_sequence(data, length));
    for (uint8_t level = 0; level <= 1 && length != 0; level++) {
        hasfandur_written w = hasfandur_qaft_write(level, KIND, false, data, length, out, sizeof out);
        print_octets(out, w.length);
    }
    printf("\n");
}

/* No data, every octet alone, the longest; then most are short. */
static void print_checks(size_t count)
{
    static uint8_t data[HASFANDUR_QAFT_MAX_DATA];
    for (size_t i = 0; i < count; i++) {
        size_t size = draw(256), length = i < 257 ? i != 0 : i < 260 ? sizeof data : 1 + draw(size < 8 ? sizeof data : 60);
        draw_octets(i % 3, data, length);
        if (i < 257) {
            data[0] = (uint8_t)(i - 1);
        }
        print_check(data, length);
    }
}

int main(int argc, char **argv)
{
    if (argc == 6 && strcmp(argv[1], "dump") == 0) {
        FILE *to_record = fopen(argv[4], "w"), *to_listing = fopen(argv[5], "w");
        if (to_record == NULL || to_listing == NULL) {
            perror("ppp");
            return 2;
        }
        int status = dump_lines((uint8_t)atoi(argv[2]), strtoul(argv[3], NULL, 10), to_record, to_listing);
        return fclose(to_record) != 0 || fclose(to_listing) != 0 ? 2 : status;
    } else if (argc == 3 && strcmp(argv[1], "checks") == 0) {
        print_checks(strtoul(argv[2], NULL, 10));
    } else {
        fprintf(stderr, "usage: ppp dump LEVEL COUNT RECORD LISTING | checks COUNT\n");
        return 2;
    }
    return 0;
}
