/*
 * lwIP's pppos.c as it stands, with its buffers; the four functions of lwIP's PPP that it calls are here instead, so that there is nothing
 * between a frame and us: no negotiation, no protocol.
 */
#include "lwip_end.h"

#include <lwip/memp.h>
#include <lwip/pbuf.h>
#include <lwip/stats.h>
#include <netif/ppp/ppp_impl.h>
#include <netif/ppp/pppos.h>
#include <stdlib.h>
#include <string.h>

LWIP_MEMPOOL_PROTOTYPE(PPPOS_PCB);

static ppp_pcb serial;
static void (*show)(const uint8_t *octets, size_t length);
static uint32_t now;
static uint8_t *written;
static size_t written_length;

ppp_pcb *ppp_new(struct netif *netif, const struct link_callbacks *callbacks, void *pppos, ppp_link_status_cb_fn status, void *context)
{
    serial.netif = netif;
    serial.link_cb = callbacks;
    serial.link_ctx_cb = pppos;
    serial.link_status_cb = status;
    serial.ctx_cb = context;
    return &serial;
}

void ppp_start(ppp_pcb *pcb)
{
    (void)pcb;
}

void ppp_link_end(ppp_pcb *pcb)
{
    (void)pcb;
}

/* What pppos calls with a good frame. */
void ppp_input(ppp_pcb *pcb, struct pbuf *frame)
{
    static uint8_t octets[UINT16_MAX];
    (void)pcb;
    show(octets, pbuf_copy_partial(frame, octets, frame->tot_len, 0));
    pbuf_free(frame);
}

/* The clock, by which pppos puts a flag before a frame, or none if it wrote one a moment ago. */
u32_t sys_now(void)
{
    return now;
}

static u32_t output(ppp_pcb *pcb, u8_t *octets, u32_t length, void *context)
{
    (void)pcb;
    (void)context;
    memcpy(written + written_length, octets, length);
    written_length += length;
    return length;
}

void lwip_open(uint32_t accm, void (*frame)(const uint8_t *octets, size_t length))
{
    static struct netif netif;
    if (serial.link_cb == NULL) {
        memp_init();
        LWIP_MEMPOOL_INIT(PPPOS_PCB);
        if (pppos_create(&netif, output, NULL, NULL) == NULL) {
            abort();
        }
    } else {
        serial.link_cb->disconnect(&serial, serial.link_ctx_cb);
    }
    show = frame;
    now = 0;
    memset(&lwip_stats.link, 0, sizeof lwip_stats.link);
    serial.link_cb->connect(&serial, serial.link_ctx_cb);
    serial.link_cb->recv_config(&serial, serial.link_ctx_cb, accm, 0, 0);
    serial.link_cb->send_config(&serial, serial.link_ctx_cb, accm, 0, 0);
}

/* pppos does not write to what it reads. */
void lwip_read(const uint8_t *chunk, size_t length)
{
    pppos_input(&serial, (u8_t *)chunk, (int)length);
}

lwip_counts lwip_dropped(void)
{
    const struct stats_proto *l = &lwip_stats.link;
    return (lwip_counts){l->chkerr, l->lenerr, l->memerr, l->drop};
}

/* A buffer of these octets, for the next frame to be written: with a flag before it where the line was idle. */
static struct pbuf *to_write(int at_flag, const uint8_t *octets, size_t length, uint8_t *out)
{
    struct pbuf *p = pbuf_alloc(PBUF_RAW, (u16_t)length, PBUF_RAM);
    if (p == NULL || pbuf_take(p, octets, (u16_t)length) != ERR_OK) {
        abort();
    }
    written = out;
    written_length = 0;
    now += at_flag ? 0 : PPP_MAXIDLEFLAG;
    return p;
}

/* pppos frees the buffer that it writes so. */
size_t lwip_write(int at_flag, const uint8_t *octets, size_t length, uint8_t *out)
{
    if (serial.link_cb->write(&serial, serial.link_ctx_cb, to_write(at_flag, octets, length, out)) != ERR_OK) {
        abort();
    }
    return written_length;
}

size_t lwip_write_packet(int at_flag, uint16_t protocol, const uint8_t *information, size_t length, uint8_t *out)
{
    struct pbuf *p = to_write(at_flag, information, length, out);
    if (serial.link_cb->netif_output(&serial, serial.link_ctx_cb, p, protocol) != ERR_OK) {
        abort();
    }
    pbuf_free(p);
    return written_length;
}
