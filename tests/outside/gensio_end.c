/*
 * The other end of a KISS line, spoken by gensio's filter "kiss". Nothing of ours is called here.
 *
 *   gensio_end read GENSIO     prints each payload that the filter gives, as a line of hexadecimal digits, until the program is killed
 *   gensio_end write GENSIO    hands each line of hexadecimal digits from standard input to the filter, as one payload
 *
 * GENSIO is in gensio's own words, for instance kiss(server),serialdev,/dev/pts/3. When the line is open, "open" is printed on standard
 * error. A payload of another port than 0 has "tnc:" and the port behind it.
 */
#include <gensio/gensio.h>

#include <stdio.h>
#include <stdlib.h>
#include <string.h>

#define LONGEST 4096

static void must(int error, const char *what)
{
    if (error != 0) {
        fprintf(stderr, "gensio_end: %s: %s\n", what, gensio_err_to_str(error));
        exit(1);
    }
}

/* What gensio calls: each read event has one payload, and words beside it. */
static int event(struct gensio *io, void *user_data, int kind, int error, unsigned char *octets, gensiods *length,
                 const char *const *words)
{
    (void)user_data;
    if (kind != GENSIO_EVENT_READ) {
        return GE_NOTSUP;
    }
    if (error != 0) {
        printf("error: %s\n", gensio_err_to_str(error));
        gensio_set_read_callback_enable(io, false);
        return 0;
    }
    for (gensiods i = 0; i < *length; i++) {
        printf("%02X", octets[i]);
    }
    for (; words != NULL && *words != NULL; words++) {
        if (strncmp(*words, "tnc:", 4) == 0 && strcmp(*words, "tnc:0") != 0) {
            printf(" %s", *words);
        }
    }
    printf("\n");
    return 0;
}

/* Lets gensio work: so many milliseconds, or for ever where there is no number. */
static void serve(struct gensio_os_funcs *o, int milliseconds)
{
    struct gensio_waiter *waiter = gensio_os_funcs_alloc_waiter(o);
    gensio_time time = {milliseconds / 1000, milliseconds % 1000 * 1000000};
    gensio_os_funcs_wait(o, waiter, 1, milliseconds == 0 ? NULL : &time);
    gensio_os_funcs_free_waiter(o, waiter);
}

static void read_all(struct gensio *io, struct gensio_os_funcs *o)
{
    setvbuf(stdout, NULL, _IOLBF, 1 << 14);
    gensio_set_read_callback_enable(io, true);
    serve(o, 0);
}

/* Prints what gensio says that it took, where that is not all. */
static void write_all(struct gensio *io, struct gensio_os_funcs *o)
{
    static char line[2 * LONGEST + 2];
    static unsigned char octets[LONGEST];
    must(gensio_set_sync(io), "sync");
    while (fgets(line, sizeof line, stdin) != NULL) {
        gensiods length = 0, taken = 0;
        unsigned int octet;
        for (; length < LONGEST && sscanf(line + 2 * length, "%2x", &octet) == 1; length++) {
            octets[length] = (unsigned char)octet;
        }
        must(gensio_write_s(io, &taken, octets, length, NULL), "write");
        if (taken != length) {
            printf("of %lu octets it took %lu\n", length, taken);
        }
    }
    serve(o, 500); /* for what is still on its way */
}

int main(int argc, char **argv)
{
    struct gensio_os_funcs *o;
    struct gensio *io;
    if (argc != 3) {
        fprintf(stderr, "usage: gensio_end read|write GENSIO\n");
        return 2;
    }
    must(gensio_default_os_hnd(0, &o), "start");
    must(str_to_gensio(argv[2], o, event, NULL, &io), argv[2]);
    must(gensio_open_s(io), "open");
    fprintf(stderr, "open\n");
    if (strcmp(argv[1], "read") == 0) {
        read_all(io, o);
    } else {
        write_all(io, o);
    }
    gensio_close_s(io);
    return 0;
}
