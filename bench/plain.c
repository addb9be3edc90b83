/* Reader, writer and lister in plain C with the same checks, as one would write them for speed: what the
 * library's instruction counts are held against. Document 01, sections "Frames" and "Lister". */
#include "plain.h"
#include <string.h>

enum { SD1 = 0x10, SD2 = 0x68, SD3 = 0xA2, SD4 = 0xDC, SC = 0xE5, ED = 0x16 };
enum { ANNOUNCED = 0x80, REQUEST = 0x40, ALL_STATIONS = 127, NO_POINT = CIHLOMET_NO_POINT };
enum { LAST_DESTINATION_POINT = 63, LAST_SOURCE_POINT = 62, LONGEST_UNIT = 246, MOST_BODIES = 4096 };

/* The listed codes, a bit each, by FC's high four bits: replies, then requests by their FCB and FCV. */
static const uint16_t codes[16] = {0x370F, 0x370F, 0x370F, 0x370F, 0xF278, 0x3028, 0x3028, 0x3028};

static int is_listed(uint8_t control)
{
    return codes[control >> 4] >> (control & 15) & 1;
}

static int is_sdn(uint8_t control)
{
    return control == 0x44 || control == 0x46;
}

static uint8_t checksum(const uint8_t *body, size_t count)
{
    uint8_t sum = 0;
    for (size_t i = 0; i < count; i++)
        sum += body[i];
    return sum;
}

static struct cihlomet_frame refused(uint8_t number)
{
    return (struct cihlomet_frame){.refused = number, .to = NO_POINT, .from = NO_POINT};
}

/* A frame with a checksum: its body of `length` octets starts at `body`. Refusals 5 to 11. */
static struct cihlomet_frame read_checked(const uint8_t *octets, size_t count, size_t body, size_t length)
{
    size_t at = body + 3, end = body + length;
    if (count != end + 2)
        return refused(5);
    if (octets[end + 1] != ED)
        return refused(6);
    if (octets[end] != checksum(octets + body, length))
        return refused(7);

    uint8_t da = octets[body], sa = octets[body + 1], control = octets[body + 2];
    struct cihlomet_frame frame = {.form = CIHLOMET_FRAME, .destination = da & 127, .to = NO_POINT,
                                   .source = sa & 127, .from = NO_POINT, .control = control};
    if (frame.source == ALL_STATIONS || (length == 3 && (da | sa) & ANNOUNCED))
        return refused(8);
    if (!is_listed(control))
        return refused(9);
    if (da & ANNOUNCED) {
        if (at == end || octets[at] > LAST_DESTINATION_POINT)
            return refused(10);
        frame.to = octets[at++];
    }
    if (sa & ANNOUNCED) {
        if (at == end || octets[at] > LAST_SOURCE_POINT)
            return refused(10);
        frame.from = octets[at++];
    }
    if (frame.destination == ALL_STATIONS && !is_sdn(control))
        return refused(11);
    frame.start = at;
    frame.count = end - at;
    return frame;
}

struct cihlomet_frame plain_read(const uint8_t *octets, size_t count)
{
    if (count == 0)
        return refused(1);
    switch (octets[0]) {
    case SD1:
        return read_checked(octets, count, 1, 3);
    case SD2:
        if (count < 4)
            return refused(3);
        if (octets[1] < 4 || octets[1] > 249 || octets[2] != octets[1] || octets[3] != SD2)
            return refused(4);
        return read_checked(octets, count, 4, octets[1]);
    case SD3:
        return read_checked(octets, count, 1, 11);
    case SD4:
        if (count != 3)
            return refused(5);
        if (octets[1] >= ALL_STATIONS || octets[2] >= ALL_STATIONS)
            return refused(8);
        return (struct cihlomet_frame){.form = CIHLOMET_TOKEN, .destination = octets[1], .to = NO_POINT,
                                       .source = octets[2], .from = NO_POINT};
    case SC:
        if (count != 1)
            return refused(5);
        return (struct cihlomet_frame){.form = CIHLOMET_SHORT, .to = NO_POINT, .from = NO_POINT};
    default:
        return refused(2);
    }
}

/* The writer's refusals 8 to 11, or 0. */
static uint8_t refuse_head(uint8_t destination, uint8_t to, uint8_t source, uint8_t from, uint8_t control)
{
    if (source >= ALL_STATIONS || destination > ALL_STATIONS)
        return 8;
    if (!is_listed(control))
        return 9;
    if ((to != NO_POINT && to > LAST_DESTINATION_POINT) || (from != NO_POINT && from > LAST_SOURCE_POINT))
        return 10;
    if (destination == ALL_STATIONS && !is_sdn(control))
        return 11;
    return 0;
}

struct cihlomet_written plain_write(uint8_t destination, uint8_t to, uint8_t source, uint8_t from, uint8_t control,
                           const uint8_t *data, size_t data_count, uint8_t *out, size_t out_count)
{
    uint8_t number = refuse_head(destination, to, source, from, control);
    if (number != 0)
        return (struct cihlomet_written){.refused = number};
    size_t points = (size_t)(to != NO_POINT) + (from != NO_POINT);
    if (data_count > LONGEST_UNIT - points)
        return (struct cihlomet_written){.refused = 12};
    size_t unit = points + data_count, count = unit == 0 ? 6 : unit + 9;
    if (out_count < count)
        return (struct cihlomet_written){.refused = 13};

    uint8_t *at = out;
    if (unit == 0) {
        *at++ = SD1;
    } else {
        at[0] = at[3] = SD2;
        at[1] = at[2] = (uint8_t)(unit + 3);
        at += 4;
    }
    uint8_t sum = 0;
    sum += *at++ = destination | (to != NO_POINT ? ANNOUNCED : 0);
    sum += *at++ = source | (from != NO_POINT ? ANNOUNCED : 0);
    sum += *at++ = control;
    if (to != NO_POINT)
        sum += *at++ = to;
    if (from != NO_POINT)
        sum += *at++ = from;
    if (data_count != 0) {
        memcpy(at, data, data_count);
        sum += checksum(data, data_count);
        at += data_count;
    }
    at[0] = sum;
    at[1] = ED;
    return (struct cihlomet_written){.count = count};
}

struct cihlomet_written plain_token(uint8_t destination, uint8_t source, uint8_t *out, size_t out_count)
{
    if (destination >= ALL_STATIONS || source >= ALL_STATIONS)
        return (struct cihlomet_written){.refused = 8};
    if (out_count < 3)
        return (struct cihlomet_written){.refused = 13};
    out[0] = SD4;
    out[1] = destination;
    out[2] = source;
    return (struct cihlomet_written){.count = 3};
}

struct cihlomet_written plain_short(uint8_t *out, size_t out_count)
{
    if (out_count < 1)
        return (struct cihlomet_written){.refused = 13};
    out[0] = SC;
    return (struct cihlomet_written){.count = 1};
}

/* The pieces of a line are put one after the other; each gives the place behind it. */
static uint8_t *put_text(uint8_t *at, const char *text, size_t count)
{
    memcpy(at, text, count);
    return at + count;
}

static uint8_t *put_number(uint8_t *at, uint32_t number)
{
    if (number >= 1000)
        *at++ = (uint8_t)('0' + number / 1000);
    if (number >= 100)
        *at++ = (uint8_t)('0' + number / 100 % 10);
    if (number >= 10)
        *at++ = (uint8_t)('0' + number / 10 % 10);
    *at++ = (uint8_t)('0' + number % 10);
    return at;
}

static uint8_t *put_next(uint8_t *at, uint32_t number)
{
    *at++ = ' ';
    return put_number(at, number);
}

#define PUT(at, text) put_text(at, text, sizeof text - 1)

static uint8_t *put_line(uint8_t *at, uint32_t index, const uint8_t *body, size_t length)
{
    struct cihlomet_frame frame = plain_read(body, length);
    at = put_number(at, index);
    if (frame.refused != 0) {
        at = put_next(PUT(at, " bad"), frame.refused);
    } else if (frame.form == CIHLOMET_SHORT) {
        at = PUT(at, " short");
    } else if (frame.form == CIHLOMET_TOKEN) {
        at = put_next(put_next(PUT(at, " token"), frame.destination), frame.source);
    } else {
        at = frame.control & REQUEST ? PUT(at, " request") : PUT(at, " reply");
        at = put_next(put_next(at, frame.destination), frame.source);
        at = put_next(put_next(at, frame.control & 15), (uint32_t)frame.count);
    }
    *at++ = '\n';
    return at;
}

size_t plain_list(const uint8_t *capture, size_t count, uint8_t *out, size_t out_count)
{
    uint8_t *at = out;
    if (out_count < CIHLOMET_LISTING_ROOM)
        return 0;
    if (count < 2)
        return (size_t)(PUT(at, "end short\n") - out);
    size_t bodies = (size_t)capture[0] << 8 | capture[1], place = 2 + 5 * bodies;
    if (bodies > MOST_BODIES)
        return (size_t)(PUT(at, "end count\n") - out);
    if (count < place)
        return (size_t)(PUT(at, "end short\n") - out);
    for (size_t index = 0; index < bodies; index++) {
        size_t length = capture[2 + 5 * index + 4];
        if (length > count - place)
            return (size_t)(PUT(at, "end short\n") - out);
        at = put_line(at, (uint32_t)index, capture + place, length);
        place += length;
    }
    at = place == count ? PUT(at, "end\n") : PUT(at, "end long\n");
    return (size_t)(at - out);
}
