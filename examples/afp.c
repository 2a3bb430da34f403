/*
 * Calls the functions of include/hasfandur.h for AFP frames: writes them, reads them, and asks who they are for next, as a relay
 * does (desk.c has more of them, with the sums and the check sequence). The gate builds it against the archive as C and as C++, runs it, and compares
 * what it prints with afp.expected.
 */
#include "hasfandur.h"
#include "show.h"

#include <string.h>

/* the relay's own station field: length octet and ID */
static const uint8_t own[] = {3, 'X', '/', '9'};

/* from AB1C to X/9, with an empty supplementary header: the field pointed at has places 10 to 13, the data offset is 17 */
static const uint8_t to_us[] = {0xC3, 0x01, 0xF0, 0x11, 0x0A, 4, 'A', 'B', '1', 'C', 3, 'X', '/', '9', 0, 0,
                                0x90, 'h', 'i', 0x5F, 0x0D};

/* What a relay says of a frame. Only one for us or for all has to be read whole, and that may still refuse it. */
static const char *relay(const uint8_t *frame, size_t length)
{
    const hasfandur_receiver r = hasfandur_afp_next_receiver(frame, length);
    if (r.number != HASFANDUR_DONE) {
        return hasfandur_number_name(r.number);
    }
    if (r.field.size == 0) {
        return "for all";
    }
    const bool ours = r.field.size == sizeof own && memcmp(frame + r.field.place, own, sizeof own) == 0;
    return ours ? "for us" : "for somebody else";
}

/* What an answer shows of a frame, and what the relay says. */
static void receiver_case(const char *name, const uint8_t *frame, size_t length)
{
    const hasfandur_receiver r = hasfandur_afp_next_receiver(frame, length);
    printf("%s: %u, place %zu, size %zu, field", name, (unsigned)r.number, r.field.place, r.field.size);
    print_octets(frame + r.field.place, r.field.size);
    printf(", %s\n", relay(frame, length));
}

/* What an answer shows of a frame. */
static void print_reading(const char *name, const uint8_t *frame, hasfandur_reading r)
{
    printf("%s: %u", name, (unsigned)r.number);
    if (r.number == HASFANDUR_DONE) {
        printf(", protocol %02X, %zu IDs, next %zu, stations", r.protocol, r.ids, r.next);
        print_octets(frame + r.stations.place, r.stations.size);
        printf(", supplementary");
        print_octets(frame + r.supplementary.place, r.supplementary.size);
        printf(", data");
        print_octets(frame + r.payload.place, r.payload.size);
        printf("%s", r.unchecked ? ", unchecked" : "");
    }
    printf("\n");
}

/* Writes a frame into `room` octets, prints it, reads it again, and asks who it is for; and both with a bit changed. */
static void write_case(const char *name, uint8_t protocol, const char *stations, size_t stations_length, size_t next,
                       const char *supplementary, size_t supplementary_length, const char *data, size_t room)
{
    uint8_t out[64];
    memset(out, UNTOUCHED, sizeof out);
    hasfandur_afp_written w =
        hasfandur_afp_write(protocol, (const uint8_t *)stations, stations_length, next, (const uint8_t *)supplementary,
                            supplementary_length, (const uint8_t *)data, strlen(data), out, room);
    print_written(name, w, out, sizeof out);
    if (w.number == HASFANDUR_DONE) {
        print_reading("  read", out, hasfandur_afp_read(out, w.length));
        receiver_case("  next receiver", out, w.length);
        /* of the last data octet; where there are no data, of the header sum */
        out[w.length - 3] ^= 0x01;
        print_reading("  read with one bit changed", out, hasfandur_afp_read(out, w.length));
        receiver_case("  next receiver with one bit changed", out, w.length);
    }
}

static void write_cases(void)
{
    /* worked on paper: a broadcast by AB1C, protocol F0 */
    write_case("broadcast", 0xF0, "\004AB1C", 6, 0, "", 0, "", 64);
    write_case("to the second ID", 0xF0, "\004AB1C\003X/9", 10, 2, "\000", 1, "hi", 64);
    /* an ID that begins with ours; and a field whose sum is FF, which octet 0 has as 0 */
    write_case("to the third ID", 0xF0, "\004AB1C\003X/9\006X/9-12", 17, 3, "", 0, "", 64);
    write_case("to TTT", 0xF0, "\004AB1C\003TTT", 10, 2, "", 0, "hi", 64);
    write_case("without room", 0xF0, "\004AB1C", 6, 0, "", 0, "", 13);
    write_case("protocol FE", 0xFE, "\004ab1c", 6, 0, "", 0, "", 64);
    write_case("lower case", 0xF0, "\004ab1c", 6, 1, "", 0, "", 64);
    write_case("next 1", 0xF0, "\004AB1C", 6, 1, "\002", 1, "", 64);
    write_case("options missing", 0xF0, "\001A", 3, 0, "\002", 1, "", 64);
    write_case("short header", 0xF0, "\001A", 3, 0, "", 0, "", 0);
    static const uint8_t nothing[1] = {0};
    print_reading("no frame", nothing, hasfandur_afp_read(nothing, 0));
}

/* Faults put into one frame, against the order 30, 34, 36, 35, 37: each is told before those that are there already. */
static void fault_cases(void)
{
    uint8_t frame[sizeof to_us];
    memcpy(frame, to_us, sizeof frame);
    receiver_case("to us", frame, sizeof frame);
    frame[0] = 0xFF;
    receiver_case("octet 0 FF", frame, sizeof frame);
    frame[11] = 'x';
    receiver_case("and a lower case letter", frame, sizeof frame);
    frame[4] = 6;
    receiver_case("and octet 4 before any second ID", frame, sizeof frame);
    frame[3] = 11;
    receiver_case("and a header of 11 octets", frame, sizeof frame);
    receiver_case("and 13 octets", frame, 13);
    /* octet 0 is still FF */
    frame[3] = 12;
    frame[4] = 0;
    receiver_case("octets 0, 3 and 4 of a broadcast", frame, sizeof frame);
}

/* The numbers given for the frame to us, with 0s behind it up to `length` octets, where the octet at a place has each value from
 * `first` to `last`. */
static void octet_case(size_t length, size_t place, unsigned first, unsigned last)
{
    uint8_t frame[300] = {0};
    memcpy(frame, to_us, sizeof to_us);
    printf("%zu octets, octet %zu from %u to %u:", length, place, first, last);
    for (unsigned x = first; x <= last; x++) {
        frame[place] = (uint8_t)x;
        printf(" %u", (unsigned)hasfandur_afp_next_receiver(frame, length).number);
    }
    printf("\n");
}

/* The same for each length. */
static void length_case(size_t first, size_t last)
{
    static uint8_t frame[HASFANDUR_AFP_MAX_FRAME + 1];
    memcpy(frame, to_us, sizeof to_us);
    printf("%zu to %zu octets:", first, last);
    for (size_t length = first; length <= last; length++) {
        printf(" %u", (unsigned)hasfandur_afp_next_receiver(frame, length).number);
    }
    printf("\n");
}

static void limit_cases(void)
{
    /* the data offset: the field ends three before 16, and 21 octets have room for a header of 19; 254 is the longest header */
    octet_case(21, 3, 11, 20);
    octet_case(300, 3, 253, 255);
    /* the place pointed at: 0 where octet 0 says no broadcast, then 7 to 15, of which only 10 has the field */
    octet_case(21, 4, 0, 17);
    /* the length octet: no ID; X, X/ and X/9; then the closing 0 and what stands behind it */
    octet_case(21, 10, 0, 5);
    length_case(12, 21);
    length_case(HASFANDUR_AFP_MAX_FRAME - 1, HASFANDUR_AFP_MAX_FRAME + 1);
}

/* No octets, and no place for them. */
static void null_cases(void)
{
    static const uint8_t stations[] = {4, 'A', 'B', '1', 'C', 0};
    static uint8_t out[64];
    const hasfandur_receiver r = hasfandur_afp_next_receiver(NULL, 0);
    printf("null\n");
    printf("  write %u, %u, %u\n", hasfandur_afp_write(0xF0, NULL, 0, 0, NULL, 0, NULL, 0, NULL, 0).number,
           hasfandur_afp_write(0xF0, stations, sizeof stations, 0, NULL, 0, NULL, 0, NULL, 0).number,
           hasfandur_afp_write(0xF0, stations, sizeof stations, 0, NULL, 0, NULL, 0, out, sizeof out).number);
    printf("  read %u\n", hasfandur_afp_read(NULL, 0).number);
    printf("  next receiver %u, place %zu, size %zu, %s\n", r.number, r.field.place, r.field.size, relay(NULL, 0));
}

int main(void)
{
    write_cases();
    fault_cases();
    limit_cases();
    null_cases();
    return 0;
}
