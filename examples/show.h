/* What the examples have in common: octets printed, and buffers in which every touched octet shows. */
#ifndef SHOW_H
#define SHOW_H

#include "hasfandur.h"

#include <stdbool.h>
#include <stddef.h>
#include <stdint.h>
#include <stdio.h>

/* What a buffer holds before a call. */
#define UNTOUCHED 0xAA

static void print_octets(const uint8_t *octets, size_t length)
{
    for (size_t i = 0; i < length; i++) {
        printf(" %02X", octets[i]);
    }
}

/* Whether every octet from index `from` on is as it was. */
static bool untouched(const uint8_t *octets, size_t from, size_t length)
{
    for (size_t i = from; i < length; i++) {
        if (octets[i] != UNTOUCHED) {
            return false;
        }
    }
    return true;
}

/* What a writer put into a buffer of `size` octets; the octets of a short frame, and whether those behind it are as before. */
static inline void print_written(const char *name, hasfandur_written w, const uint8_t *out, size_t size)
{
    printf("%s: %u, %zu octets", name, (unsigned)w.number, w.length);
    if (w.length != 0 && w.length <= 32) {
        printf(":");
        print_octets(out, w.length);
    }
    printf(", the rest %s\n", untouched(out, w.length, size) ? "as before" : "CHANGED");
}

#endif
