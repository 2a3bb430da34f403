/* AFP frames in plain C: byte table for the check sequence, sums folded at the end, the ID rule by comparisons. */
#include "plain.h"
#include <string.h>

enum { STATIONS = 5, MIN_HEADER = 12, MAX_HEADER = 254, MAX_IDS = 128 };

/* The place of each ID, and behind them that of the closing 0. The header has room for fewer than MAX_IDS. */
struct stations {
    size_t ids, end, places[MAX_IDS];
};

static bool callsign(uint8_t x) { return (x >= 'A' && x <= 'Z') || (x >= '0' && x <= '9') || x == '/'; }

/* The ID rule, with the octets added up on the way. It is compiled into its callers, so one that asks for no sum has none made. */
static inline __attribute__((always_inline)) bool add_id(const uint8_t *octets, size_t size, unsigned *sum)
{
    size_t i = 0;
    while (i < size && callsign(octets[i]))
        *sum += octets[i++];
    if (i == 0 || i == size)
        return i != 0;
    if (octets[i] != '-' || i + 1 == size)
        return false;
    *sum += octets[i];
    for (i++; i < size; i++) {
        if (octets[i] < 0x21 || octets[i] > 0x7E)
            return false;
        *sum += octets[i];
    }
    return true;
}

static bool is_id(const uint8_t *octets, size_t size)
{
    unsigned sum = 0;
    return add_id(octets, size, &sum);
}

static bool parse(const uint8_t *octets, size_t size, struct stations *s)
{
    size_t place = 0;
    s->ids = 0;
    while (place < size && octets[place] != 0) {
        size_t next = place + 1 + octets[place];
        if (next > size || !is_id(octets + place + 1, octets[place]))
            return false;
        s->places[s->ids++] = place;
        place = next;
    }
    s->end = place;
    s->places[s->ids] = place;
    return s->ids != 0 && place < size;
}

static bool is_supplementary(const uint8_t *octets, size_t size)
{
    size_t i = 1, calls = 0;
    if (size == 0)
        return true;
    if (octets[0] != size - 1)
        return false;
    while (i < size) {
        if (i + 2 > size || i + 2 + octets[i + 1] > size)
            return false;
        calls += octets[i] == 0;
        i += 2 + (size_t)octets[i + 1];
    }
    return calls <= 2;
}

static uint8_t next_sum(const uint8_t *fields, const struct stations *s, size_t next)
{
    uint8_t sum;
    if (next == 0)
        return 0xFF;
    sum = plain_sum_at_end(fields + s->places[next - 1], s->places[next] - s->places[next - 1]);
    return sum == 0xFF ? 0 : sum;
}

static uint8_t header_sum(const uint8_t *octets, size_t length)
{
    uint8_t sum = plain_sum_at_end(octets, length);
    return sum == 0 ? 0xFF : sum;
}

static size_t next_id(uint8_t octet, const struct stations *s)
{
    if (s->ids == 1)
        return octet == 0 ? 0 : SIZE_MAX;
    for (size_t i = 1; i < s->ids; i++)
        if (STATIONS + s->places[i] == octet)
            return i + 1;
    return SIZE_MAX;
}

static uint8_t envelope(const uint8_t *frame, size_t length)
{
    if (length < 14 || length > HASFANDUR_AFP_MAX_FRAME)
        return HASFANDUR_AFP_BAD_LENGTH;
    if (plain_check_by_table(frame, length - 2) != (frame[length - 2] | frame[length - 1] << 8))
        return HASFANDUR_AFP_BAD_CHECK;
    if (frame[1] != 1)
        return HASFANDUR_AFP_BAD_VERSION;
    if (frame[2] >= 0xFE)
        return HASFANDUR_AFP_BAD_PROTOCOL;
    if (frame[3] < MIN_HEADER || frame[3] > MAX_HEADER || frame[3] > length - 2)
        return HASFANDUR_AFP_BAD_OFFSET;
    return HASFANDUR_DONE;
}

hasfandur_reading plain_afp_read(const uint8_t *frame, size_t length)
{
    hasfandur_reading r = {.number = envelope(frame, length)};
    struct stations s;
    size_t header, next, stations, fields;
    if (r.number != HASFANDUR_DONE)
        return r;
    header = frame[3];
    fields = header - 1 - STATIONS;
    if (!parse(frame + STATIONS, fields, &s))
        return (hasfandur_reading){.number = HASFANDUR_AFP_BAD_STATIONS};
    next = next_id(frame[4], &s);
    if (next == SIZE_MAX)
        return (hasfandur_reading){.number = HASFANDUR_AFP_BAD_NEXT};
    if (frame[0] != next_sum(frame + STATIONS, &s, next))
        return (hasfandur_reading){.number = HASFANDUR_AFP_BAD_NEXT_SUM};
    stations = s.end + 1;
    if (!is_supplementary(frame + STATIONS + stations, fields - stations))
        return (hasfandur_reading){.number = HASFANDUR_AFP_BAD_SUPPLEMENTARY};
    if (frame[header - 1] != 0 && frame[header - 1] != header_sum(frame, header - 1))
        return (hasfandur_reading){.number = HASFANDUR_AFP_BAD_HEADER_SUM};
    if (length - 2 - header > HASFANDUR_AFP_MAX_DATA)
        return (hasfandur_reading){.number = HASFANDUR_AFP_BAD_DATA};
    return (hasfandur_reading){HASFANDUR_DONE, frame[2], {STATIONS, stations}, s.ids, next,
                               {STATIONS + stations, fields - stations}, {header, length - 2 - header}, frame[header - 1] == 0};
}

static hasfandur_receiver no_field(uint8_t number) { return (hasfandur_receiver){.number = number}; }

/* The next station's field is gone over once, for the rule and for the sum. Its octets add up to more than 0, so the remainder by
 * 255 is the sum with the carries brought round, and FF written as 0. */
hasfandur_receiver plain_afp_next_receiver(const uint8_t *frame, size_t length)
{
    size_t header, place, size;
    unsigned sum;
    if (length < HASFANDUR_AFP_MIN_FRAME || length > HASFANDUR_AFP_MAX_FRAME)
        return no_field(HASFANDUR_AFP_BAD_LENGTH);
    header = frame[3];
    place = frame[4];
    if (header < MIN_HEADER || header > MAX_HEADER || header > length - 2)
        return no_field(HASFANDUR_AFP_BAD_OFFSET);
    if (place == 0)
        return no_field(frame[0] == 0xFF ? HASFANDUR_DONE : HASFANDUR_AFP_BAD_NEXT_SUM);
    if (place < STATIONS + 2 || place > header - 2)
        return no_field(HASFANDUR_AFP_BAD_NEXT);
    sum = frame[place];
    size = sum;
    if (place + size > header - 3 || !add_id(frame + place + 1, size, &sum))
        return no_field(HASFANDUR_AFP_BAD_STATIONS);
    if (frame[0] != sum % 255)
        return no_field(HASFANDUR_AFP_BAD_NEXT_SUM);
    return (hasfandur_receiver){HASFANDUR_DONE, {place, 1 + size}};
}

hasfandur_written plain_afp_write(uint8_t protocol, const uint8_t *stations, size_t stations_length, size_t next,
                                  const uint8_t *supplementary, size_t supplementary_length, const uint8_t *octets,
                                  size_t length, uint8_t *out, size_t room)
{
    struct stations s;
    size_t header = STATIONS + stations_length + supplementary_length + 1;
    uint16_t check;
    if (protocol >= 0xFE)
        return (hasfandur_written){HASFANDUR_AFP_BAD_PROTOCOL, 0};
    if (!parse(stations, stations_length, &s) || s.end + 1 != stations_length)
        return (hasfandur_written){HASFANDUR_AFP_BAD_STATIONS, 0};
    if (s.ids == 1 ? next != 0 : next < 2 || next > s.ids)
        return (hasfandur_written){HASFANDUR_AFP_BAD_NEXT, 0};
    if (!is_supplementary(supplementary, supplementary_length))
        return (hasfandur_written){HASFANDUR_AFP_BAD_SUPPLEMENTARY, 0};
    if (header < MIN_HEADER || header > MAX_HEADER)
        return (hasfandur_written){HASFANDUR_AFP_BAD_OFFSET, 0};
    if (length > HASFANDUR_AFP_MAX_DATA)
        return (hasfandur_written){HASFANDUR_AFP_BAD_DATA, 0};
    if (room < header + length + 2)
        return (hasfandur_written){HASFANDUR_AFP_OUT_TOO_SMALL, 0};
    out[0] = next_sum(stations, &s, next);
    out[1] = 1;
    out[2] = protocol;
    out[3] = (uint8_t)header;
    out[4] = next == 0 ? 0 : (uint8_t)(STATIONS + s.places[next - 1]);
    memcpy(out + STATIONS, stations, stations_length);
    memcpy(out + STATIONS + stations_length, supplementary, supplementary_length);
    out[header - 1] = header_sum(out, header - 1);
    memcpy(out + header, octets, length);
    check = plain_check_by_table(out, header + length);
    out[header + length] = (uint8_t)check;
    out[header + length + 1] = (uint8_t)(check >> 8);
    return (hasfandur_written){HASFANDUR_DONE, header + length + 2};
}
