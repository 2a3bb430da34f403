/*
 * Osmocom's core library (Debian: libosmocore-dev): its check sequence, and sercomm, its framing of serial lines. sercomm has
 * QAFT's flag, escape octet and mask; unlike QAFT it has two octets of head, escapes 00 also, and has no check octet.
 */
#include <osmocom/core/crc16.h>
#include <osmocom/core/sercomm.h>
#include <stddef.h>
#include <string.h>

enum { DLCI = SC_DLCI_L1A_L23 };

static struct osmo_sercomm_inst inst;
static size_t octets_read;

/* The driver's side, which sercomm calls; in one thread and with no line there is nothing to do. */
void sercomm_drv_lock(unsigned long *flags) { (void)flags; }
void sercomm_drv_unlock(unsigned long *flags) { (void)flags; }
void sercomm_drv_start_tx(struct osmo_sercomm_inst *sercomm) { (void)sercomm; }
int sercomm_drv_baudrate_chg(struct osmo_sercomm_inst *sercomm, uint32_t bdrt)
{
    (void)sercomm;
    (void)bdrt;
    return 0;
}

static void on_message(struct osmo_sercomm_inst *sercomm, uint8_t dlci, struct msgb *msg)
{
    (void)sercomm;
    (void)dlci;
    octets_read += msgb_length(msg);
    msgb_free(msg);
}

void osmocom_start(void)
{
    memset(&inst, 0, sizeof inst);
    inst.rx.msg_size = 4096;
    osmo_sercomm_init(&inst);
    osmo_sercomm_register_rx_cb(&inst, DLCI, on_message);
}

uint16_t osmocom_check_sequence(const uint8_t *octets, size_t length)
{
    return (uint16_t)~osmo_crc16_ccitt(0xFFFF, octets, length);
}

/* One frame; the octets it takes. `out` has room. */
size_t osmocom_write(const uint8_t *octets, size_t length, uint8_t *out)
{
    struct msgb *msg = osmo_sercomm_alloc_msgb((unsigned)length);
    size_t n = 0;
    memcpy(msgb_put(msg, (unsigned)length), octets, length);
    osmo_sercomm_sendmsg(&inst, DLCI, msg);
    while (osmo_sercomm_drv_pull(&inst, out + n))
        n++;
    return n;
}

/* The data octets of the frames in a chunk of a line. */
size_t osmocom_read(const uint8_t *chunk, size_t length)
{
    octets_read = 0;
    for (size_t i = 0; i < length; i++)
        osmo_sercomm_drv_rx_char(&inst, chunk[i]);
    return octets_read;
}
