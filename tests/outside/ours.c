/*
 * Our end of a KISS line, spoken by the library, and the payloads that go over it.
 *
 *   ours list LIST LIMIT      the payloads, each as a line of hexadecimal digits
 *   ours typed LIST LIMIT     the same as one types them to kissutil (LIST ui alone)
 *   ours printed LIST LIMIT   the same as kissutil prints them (LIST ui alone)
 *   ours send LIST LIMIT      the KISS line of the payloads, each frame between two flags of its own
 *   ours shared LIST LIMIT    the same with one flag between two frames
 *   ours read                 standard input as a KISS line: each payload as a line of hexadecimal digits, any other report as its number
 *   ours version              of the library
 *
 * LIST any: payloads of 1 to 2,560 octets, of which none takes more than LIMIT octets on the line, type octet and flags apart.
 * LIST ui: frames "A>B" of AX.25 (UI, no layer 3), whose information is no longer than LIMIT characters as one types it to kissutil.
 */
#include "hasfandur.h"

#include <stdio.h>
#include <stdlib.h>
#include <string.h>
#include <unistd.h>

#define FRAMES 1200
#define SEED 202605u
#define LONGEST 2560

/* the addresses B and A, control octet and protocol octet, as kissutil writes them for A>B: */
static const uint8_t header[] = {0x84, 0x40, 0x40, 0x40, 0x40, 0x40, 0xE0, 0x82, 0x40, 0x40, 0x40, 0x40, 0x40, 0xE1, 0x03, 0xF0};
static const uint8_t special[] = {0xC0, 0xDB, 0xDC, 0xDD};

static bool is_special(uint8_t octet)
{
    return memchr(special, octet, sizeof special) != NULL;
}

/* Whether kissutil prints an octet as <0xNN>; a space as well, where it is the last octet or stands before 00. */
static bool printed_in_hex(uint8_t octet)
{
    return octet < 0x20 || octet == 0x7F || octet >= 0xFE;
}

/* Whether we type it so: what could be misread on a line of text; and the special ones at every other place, to have both ways. */
static bool typed_in_hex(uint8_t octet, size_t place)
{
    return printed_in_hex(octet) || octet == '<' || (is_special(octet) && place % 2 == 1);
}

/* The payload under way: for ui, of the information alone. */
typedef struct filling {
    bool ui;
    size_t limit; /* what it may cost */
    size_t cost;
    size_t length;
    uint8_t octets[LONGEST];
} filling;

/* Adds an octet where there is room for it. */
static bool add(filling *f, uint8_t octet)
{
    size_t cost = f->ui ? (typed_in_hex(octet, f->length) ? 6 : 1) : (octet == 0xC0 || octet == 0xDB ? 2 : 1);
    if (f->length == LONGEST || f->cost + cost > f->limit) {
        return false;
    }
    f->cost += cost;
    f->octets[f->length++] = octet;
    return true;
}

/* splitmix64: the next number. */
static uint64_t next(uint64_t *state)
{
    uint64_t z = *state += UINT64_C(0x9E3779B97F4A7C15);
    z = (z ^ (z >> 30)) * UINT64_C(0xBF58476D1CE4E5B9);
    z = (z ^ (z >> 27)) * UINT64_C(0x94D049BB133111EB);
    return z ^ (z >> 31);
}

/* Payload number i. First every word of one to four special octets (for ui of none, too), then every octet alone, then the longest ones:
 * of C0, of DB, of any octets and of 41. The rest is drawn: length, kind (special octets, both, any), octets. */
static void fill(filling *f, size_t i)
{
    size_t length = f->ui ? 0 : 1, words = f->ui ? 1 : 4;
    for (; length <= 4; i -= words, length++, words *= 4) {
        if (i < words) {
            for (; length != 0; length--, i /= 4) {
                add(f, special[i % 4]);
            }
            return;
        }
    }
    if (i < 256) {
        add(f, (uint8_t)i);
        return;
    }
    i -= 256;
    uint64_t state = SEED + i;
    if (i < 4) {
        while (add(f, i == 0 ? 0xC0 : i == 1 ? 0xDB : i == 2 ? (uint8_t)next(&state) : 0x41)) {
        }
        return;
    }
    length = 1 + next(&state) % (i % 8 == 0 ? LONGEST : 300);
    for (unsigned kind = next(&state) % 3; length != 0; length--) {
        uint64_t drawn = next(&state);
        if (!add(f, kind == 0 || (kind == 1 && drawn % 2 == 0) ? special[drawn / 2 % 4] : (uint8_t)(drawn >> 8))) {
            return;
        }
    }
}

/* The payload number i of a list, and its length. */
static size_t payload(bool ui, size_t limit, size_t i, uint8_t *octets)
{
    static filling f;
    size_t before = ui ? sizeof header : 0;
    f.ui = ui;
    f.limit = limit;
    f.cost = f.length = 0;
    fill(&f, i);
    memcpy(octets, header, before);
    memcpy(octets + before, f.octets, f.length);
    return before + f.length;
}

static void print_hex(const uint8_t *octets, size_t length)
{
    for (size_t i = 0; i < length; i++) {
        printf("%02X", octets[i]);
    }
    printf("\n");
}

static void print_typed(const uint8_t *information, size_t length)
{
    printf("A>B:");
    for (size_t i = 0; i < length; i++) {
        printf(typed_in_hex(information[i], i) ? "<0x%02x>" : "%c", information[i]);
    }
    printf("\n");
}

static void print_printed(const uint8_t *information, size_t length)
{
    printf("[0] A>B:");
    for (size_t i = 0; i < length; i++) {
        bool lone_space = information[i] == ' ' && (i + 1 == length || information[i + 1] == 0);
        printf(printed_in_hex(information[i]) || lone_space ? "<0x%02x>" : "%c", information[i]);
    }
    printf("\n");
}

/* One frame of the KISS line. */
static void send(bool at_flag, const uint8_t *octets, size_t length)
{
    static uint8_t out[HASFANDUR_KISS_MAX_FRAME];
    hasfandur_written w = hasfandur_kiss_write(at_flag, octets, length, out, sizeof out);
    if (w.number != HASFANDUR_DONE || fwrite(out, 1, w.length, stdout) != w.length) {
        fprintf(stderr, "ours: a frame of %zu octets: %u\n", length, (unsigned)w.number);
        exit(1);
    }
}

/* Every report of what comes in, in the portions in which it comes. */
static void read_line(void)
{
    static uint8_t chunk[4096], buffer[HASFANDUR_KISS_MAX_SEGMENT];
    hasfandur_kiss_reader state = hasfandur_kiss_fresh();
    setvbuf(stdout, NULL, _IOLBF, 1 << 14);
    for (ssize_t length; (length = read(0, chunk, sizeof chunk)) > 0;) {
        for (size_t at = 0; at < (size_t)length;) {
            hasfandur_kiss_answer a = hasfandur_kiss_read(state, chunk + at, (size_t)length - at, buffer, sizeof buffer);
            state = a.reader;
            at += a.taken;
            if (a.number == HASFANDUR_QAFT_FRAME) {
                print_hex(buffer + 1, a.length);
            } else if (a.number != HASFANDUR_QAFT_USED_UP) {
                printf("%u %s\n", (unsigned)a.number, hasfandur_number_name(a.number));
            }
        }
    }
}

static void write_list(const char *how, bool ui, size_t limit)
{
    static uint8_t octets[sizeof header + LONGEST];
    for (size_t i = 0; i < FRAMES; i++) {
        size_t length = payload(ui, limit, i, octets);
        if (strcmp(how, "list") == 0) {
            print_hex(octets, length);
        } else if (strcmp(how, "typed") == 0) {
            print_typed(octets + sizeof header, length - sizeof header);
        } else if (strcmp(how, "printed") == 0) {
            print_printed(octets + sizeof header, length - sizeof header);
        } else {
            send(strcmp(how, "shared") == 0 && i != 0, octets, length);
        }
    }
}

int main(int argc, char **argv)
{
    if (argc == 2 && strcmp(argv[1], "version") == 0) {
        printf("%s\n", HASFANDUR_VERSION);
    } else if (argc == 2 && strcmp(argv[1], "read") == 0) {
        read_line();
    } else if (argc == 4) {
        write_list(argv[1], strcmp(argv[2], "ui") == 0, strtoul(argv[3], NULL, 10));
    } else {
        fprintf(stderr, "usage: ours list|typed|printed|send|shared any|ui LIMIT, or ours read, or ours version\n");
        return 2;
    }
    return fflush(stdout) == 0 ? 0 : 1;
}
