/*
 * Calls the functions of include/hasfandur.h for KISS lines, and the conversions between KISS and QAFT captures. The gate builds it
 * against the archive as C and as C++, runs it, and compares what it prints with kiss.expected.
 */
#include "hasfandur.h"
#include "show.h"

#include <string.h>

/* One frame into a buffer with `room` octets. */
static void write_case(const char *name, bool at_flag, const uint8_t *payload, size_t length, size_t room)
{
    static uint8_t out[HASFANDUR_KISS_MAX_FRAME + 1];
    memset(out, UNTOUCHED, sizeof out);
    hasfandur_written w = hasfandur_kiss_write(at_flag, payload, length, out, room);
    printf("%s: %u, %zu octets", name, (unsigned)w.number, w.length);
    if (w.length != 0 && w.length <= 8) {
        printf(":");
        print_octets(out, w.length);
    }
    printf(", the rest %s\n", untouched(out, w.length, sizeof out) ? "as before" : "CHANGED");
}

static void write_cases(void)
{
    static const uint8_t test[] = {0x54, 0x45, 0x53, 0x54}, both[] = {0xC0, 0xDB};
    static uint8_t big[HASFANDUR_QAFT_MAX_DATA + 1];

    /* the examples of TAPR's specification */
    write_case("write TEST", false, test, 4, HASFANDUR_KISS_MAX_FRAME);
    write_case("write C0 DB", false, both, 2, HASFANDUR_KISS_MAX_FRAME);
    write_case("write C0 DB at a flag", true, both, 2, HASFANDUR_KISS_MAX_FRAME);
    memset(big, 0xC0, sizeof big);
    write_case("write 2560", false, big, HASFANDUR_QAFT_MAX_DATA, HASFANDUR_KISS_MAX_FRAME);

    /* refusals, and each pair of neighbours in the order 1, 2, 64 */
    write_case("room 5122", false, big, HASFANDUR_QAFT_MAX_DATA, HASFANDUR_KISS_MAX_FRAME - 1);
    write_case("room 7", false, test, 4, 7);
    write_case("room 6", false, test, 4, 6);
    write_case("no payload", false, test, 0, 0);
    write_case("2561 octets", false, big, HASFANDUR_QAFT_MAX_DATA + 1, 0);
}

/* Every report of a line that is handed over in chunks of `size` octets. */
static void read_line(const char *name, const uint8_t *line, size_t length, size_t size)
{
    static uint8_t buffer[HASFANDUR_KISS_MAX_SEGMENT];
    hasfandur_kiss_reader state = hasfandur_kiss_fresh();
    size_t at = 0;
    printf("%s:", name);
    while (at < length) {
        size_t chunk = length - at < size ? length - at : size;
        hasfandur_kiss_answer a = hasfandur_kiss_read(state, line + at, chunk, buffer, sizeof buffer);
        state = a.reader;
        at += a.taken;
        if (a.number != HASFANDUR_QAFT_USED_UP) {
            printf(" %s", hasfandur_number_name(a.number));
            print_octets(buffer + 1, a.length);
        }
    }
    printf("\n");
}

static void read_cases(void)
{
    static const uint8_t line[] = {0xAA, 0xC0, 0x00, 0x54, 0x45, 0x53, 0x54, 0xC0, 0x50, 0x48, 0x69, 0xC0, 0xC0, 0x00, 0xDB,
                                   0xDC, 0xDB, 0xDD, 0xC0, 0x00, 0xC0, 0x00, 0xDB, 0x41, 0xC0, 0xDB, 0xC0, 0x33};
    static uint8_t small[HASFANDUR_KISS_MAX_SEGMENT - 1], buffer[HASFANDUR_KISS_MAX_SEGMENT];
    hasfandur_kiss_reader typed = hasfandur_kiss_fresh();
    typed.type_octet = 1;

    read_line("whole", line, sizeof line, sizeof line);
    read_line("octet by octet", line, sizeof line, 1);
    printf("small buffer: %u\n", (unsigned)hasfandur_kiss_read(hasfandur_kiss_fresh(), line, 1, small, sizeof small).number);
    printf("bad state: %u\n", (unsigned)hasfandur_kiss_read(typed, line, 1, buffer, sizeof buffer).number);
}

static void conversion_case(const char *name, hasfandur_conversion c, const uint8_t *out)
{
    printf("%s: %u, frames %u, skipped %u, others %u, %zu octets:", name, (unsigned)c.number, (unsigned)c.frames,
           (unsigned)c.skipped, (unsigned)c.others, c.length);
    print_octets(out, c.length);
    printf("\n");
}

static void conversion_cases(void)
{
    /* two frames and a bad check; two frames, one of port 5 and one short */
    static const uint8_t qaft[] = {0x7E, 0x41, 0xBF, 0x7E, 0x41, 0xBE, 0x7E, 0xC0, 0x40, 0x7E};
    static const uint8_t kiss[] = {0xC0, 0x00, 0x41, 0xC0, 0x50, 0x41, 0xC0, 0x00, 0x7E, 0xC0, 0x00, 0xC0};
    static uint8_t out[64];
    conversion_case("to KISS", hasfandur_qaft_to_kiss(0, qaft, sizeof qaft, out, sizeof out), out);
    conversion_case("to KISS, room 7", hasfandur_qaft_to_kiss(0, qaft, sizeof qaft, out, 7), out);
    conversion_case("to KISS, level 2", hasfandur_qaft_to_kiss(2, qaft, sizeof qaft, out, sizeof out), out);
    conversion_case("to QAFT", hasfandur_kiss_to_qaft(1, kiss, sizeof kiss, out, sizeof out), out);
    conversion_case("to QAFT, room 7", hasfandur_kiss_to_qaft(1, kiss, sizeof kiss, out, 7), out);
    conversion_case("nothing", hasfandur_kiss_to_qaft(0, kiss, 0, out, 0), out);
}

int main(void)
{
    write_cases();
    read_cases();
    conversion_cases();
    return 0;
}
