/*
 * direwolf's kiss_encapsulate and kiss_unwrap (Debian: the source of direwolf 1.6), as they stand in its kiss_frame.c. DECAMAIN,
 * which direwolf itself defines for its decode_aprs, leaves out the rest of that file.
 *
 * Like ours: the octets of a frame with both flags, and the payloads of the frames of a good line. Not the same: neither function
 * has a limit, asks for room, or refuses; kiss_unwrap takes one whole frame, keeps nothing from call to call, prints where ours
 * reports, and does not ask what type the frame has. direwolf's own search for flags, kiss_rec_byte, can't read our lines: it holds
 * 2,048 octets of a frame, and takes what stands behind a closing flag for noise up to the next flag. So memchr finds them here, and
 * spares direwolf a call for each octet.
 */
#define DECAMAIN 1
#include <kiss_frame.c>
#include <stddef.h>
#include <stdint.h>

/* What direwolf says of a bad line. No line here is bad, so it ends the benchmark. */
void text_color_set(dw_color_t color) { (void)color; }
int dw_printf(const char *format, ...)
{
    fprintf(stderr, "direwolf: %s", format);
    abort();
}

/* One frame of a type octet and a payload; the octets it takes. `out` has room. direwolf does not write to what it reads. */
size_t direwolf_write(const uint8_t *octets, size_t length, uint8_t *out)
{
    return (size_t)kiss_encapsulate((unsigned char *)octets, (int)length, out);
}

struct direwolf_answer {
    size_t taken;
    size_t length;
};

/* The first frame of a line: octets taken, and its octets in `store`, of which the first is the type; none if there is no frame.
 * What stands before the first flag is taken for a frame. A frame that could be longer than the store is passed over. */
struct direwolf_answer direwolf_read(const uint8_t *line, size_t length, uint8_t *store, size_t room)
{
    const uint8_t *from = line, *end;
    while ((end = memchr(from, FEND, length - (size_t)(from - line))) != NULL) {
        size_t size = (size_t)(end + 1 - from);
        if (1 < size && size <= room) {
            int octets = kiss_unwrap((unsigned char *)from, (int)size, store);
            return (struct direwolf_answer){(size_t)(end + 1 - line), (size_t)octets};
        }
        from = end + 1;
    }
    return (struct direwolf_answer){length, 0};
}
