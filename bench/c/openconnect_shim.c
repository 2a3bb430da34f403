/*
 * openconnect's hdlc_into_new_pkt and unhdlc_in_place (Debian: the source of openconnect 9.01), PPP's framing of RFC 1662, as they
 * stand in its ppp.c. bench/peers cuts them out, with their table: the rest of that file wants more of openconnect, and other
 * libraries. What they ask of openconnect is here in a cheaper form: a packet points to octets of the benchmark, so none is
 * allocated or copied.
 *
 * Like ours: the octets of a frame at level 0 with both flags, and the data of the frames of a good line. Not the same: neither
 * function has a limit or asks for room; unhdlc_in_place wants a whole frame, keeps nothing from call to call, writes over the line
 * that it reads, takes every pair for good, does not know an aborted frame, and says in words what ours reports. There is no level 1:
 * of the map of control octets that hdlc_into_new_pkt is given, it only asks whether it is 0.
 */
#include <errno.h>
#include <netinet/in.h>
#include <ppp.h>
#include <stddef.h>
#include <stdint.h>
#include <stdio.h>
#include <stdlib.h>

enum { PRG_ERR, PRG_INFO, PRG_DEBUG, PRG_TRACE };

struct pkt {
    unsigned char *data;
    int len;
    struct {
        uint32_t hlen;
    } ppp;
};

/* How much is said, and where the next packet's octets go. */
struct openconnect_info {
    int verbose;
    struct pkt next;
};

static struct pkt *alloc_pkt(struct openconnect_info *info, int length)
{
    (void)length;
    return &info->next;
}

/* What openconnect says of a bad line. No line here is bad, so it ends the benchmark. */
static void complain(const char *format)
{
    fprintf(stderr, "openconnect: %s", format);
    abort();
}
#define _(text) text
#define vpn_progress(info, level, format, ...) \
    do { \
        if ((info)->verbose >= (level)) \
            complain(format); \
    } while (0)
#define dump_buf_hex(info, level, prefix, octets, length) (void)(length)

#include <hdlc.c>

/* One frame; the octets it takes. `out` has room. openconnect does not write to what it reads here. */
size_t openconnect_write(const uint8_t *data, size_t length, uint8_t *out)
{
    struct pkt packet = {.data = (unsigned char *)data, .len = (int)length};
    /* four octets of a frame stand before the place that `data` of its packet points to */
    struct openconnect_info info = {.verbose = PRG_INFO, .next = {.data = out + 4}};
    struct pkt *frame = hdlc_into_new_pkt(&info, &packet, 0);
    return frame->ppp.hlen + (size_t)frame->len;
}

struct openconnect_answer {
    size_t taken;
    size_t length;
};

/* The first frame of a line: octets taken, and its data, which stand at the front of the line then. */
struct openconnect_answer openconnect_read(uint8_t *line, size_t length)
{
    struct openconnect_info info = {.verbose = PRG_INFO};
    unsigned char *next = line;
    int data = unhdlc_in_place(&info, line, (int)length, &next);
    return (struct openconnect_answer){(size_t)(next - line), (size_t)data};
}
