/* Holds the numbers of include/cihlomet.h to the library's: where each field of a struct lies, what each code means,
 * and which lengths are refused and which are taken. Each field is given, or looked for, by a value of its own, so
 * that two exchanged ones would show. Every buffer ends at a fence, and one of no octets comes at no address. Prints
 * how many claims held, or stops at the first that does not and names its line here. */
#include "../include/cihlomet.h"
#include "lent.h"
#include <stdbool.h>
#include <stdio.h>
#include <string.h>

/* ---- Where each field lies. */
#define AT(type, field, offset) _Static_assert(offsetof(struct cihlomet_##type, field) == (offset), #type "." #field)
#define SIZE(type, size) _Static_assert(sizeof(struct cihlomet_##type) == (size), #type)

AT(frame, refused, 0); AT(frame, form, 1); AT(frame, destination, 2); AT(frame, to, 3); AT(frame, source, 4);
AT(frame, from, 5); AT(frame, control, 6); AT(frame, start, 8); AT(frame, count, 16); SIZE(frame, 24);
AT(written, refused, 0); AT(written, count, 8); SIZE(written, 16);
AT(settings, tset, 0); AT(settings, tqui, 4); AT(settings, min_tsdr, 8); AT(settings, max_tsdr, 12);
AT(settings, ttd, 16); AT(settings, ttr, 20); AT(settings, retries, 24); AT(settings, tsdi, 28); SIZE(settings, 32);
AT(core, settings, 0); AT(core, acceptance, 32); AT(core, before, 36); AT(core, ts, 40); AT(core, ps, 41);
AT(core, stranger, 42); AT(core, phase, 43); AT(core, served, 44); AT(core, sendings, 45); AT(core, sdn, 46);
AT(core, begun, 47); AT(core, high_places, 48); AT(core, high_first, 49); AT(core, high_confirmed, 50);
AT(core, high_unconfirmed, 51); AT(core, low_places, 52); AT(core, low_first, 53); AT(core, low_confirmed, 54);
AT(core, low_unconfirmed, 55); AT(core, source, 56); AT(core, bit, 57); AT(core, length, 58); SIZE(core, 60);
AT(station, core, 0); AT(station, masters, 60); AT(station, started, 187); AT(station, marks, 314);
AT(station, points, 441); AT(station, memory, 505); SIZE(station, 760);
AT(renewed, refused, 0); AT(renewed, core, 4); SIZE(renewed, 64);
AT(accepted, refused, 0); AT(accepted, place, 1); AT(accepted, core, 4); SIZE(accepted, 64);
AT(collected, refused, 0); AT(collected, place, 1); AT(collected, service, 2); AT(collected, destination, 3);
AT(collected, to, 4); AT(collected, from, 5); AT(collected, length, 6); AT(collected, status, 7);
AT(collected, count, 8); AT(collected, limit, 9); AT(collected, asks, 10); AT(collected, reference, 12);
AT(collected, core, 16); SIZE(collected, 76);
AT(indication, indicated, 0); AT(indication, control, 1); AT(indication, destination, 2); AT(indication, to, 3);
AT(indication, source, 4); AT(indication, from, 5); AT(indication, start, 8); AT(indication, count, 16);
SIZE(indication, 24);
AT(answer, refused, 0); AT(answer, wait, 4); AT(answer, length, 8); AT(answer, indication, 16); AT(answer, core, 40);
SIZE(answer, 104);

/* ---- Claims. */
static unsigned held;

#define CLAIM(claim) (name_call(__LINE__, #claim), (claim) ? (void)held++ : stop("does not hold"))

/* ---- What is lent. */
struct part {
    uint8_t *at, *fence;
    size_t count;
};

static struct part high, high_data, low, low_data, out, update_high, update_low, heard, data;
static struct part *const parts[] = {&high, &high_data, &low,   &low_data, &out,
                                     &update_high, &update_low, &heard, &data};
static struct cihlomet_station *s;

enum { HIGH_PLACES = 3, LOW_PLACES = 2 };
enum { TS = 3, NS = 9, PS = 20, LIFT = 7, POINT = 60, OWN_POINT = 62, INACTIVE = 5, NONE = 63 };
enum { FDL_STATUS = 0x49, SRD_LOW_FIRST = 0x6C, SDN_LOW = 0x44, CODE = 15, FCB = 0x20, FCV = 0x10 };
enum { TID1 = 91, TID2 = 405, CLOCK = 100000 };

/* With these TSM is 47, and Tid1 and Tid2 as above. */
static const struct cihlomet_settings settings = {
    .tset = 21, .tqui = 3, .min_tsdr = 44, .max_tsdr = 405, .ttd = 6, .ttr = 7007, .retries = 2, .tsdi = 91};

#define LENT(p) (p).at, (p).count
#define ROWS LENT(high), LENT(high_data), LENT(low), LENT(low_data)
#define STATION CIHLOMET_STATION(s)

/* Lends so many octets before the fence; none come at no address. */
static void lend(struct part *p, size_t count)
{
    p->count = count;
    p->at = count == 0 ? NULL : memset(p->fence - count, BEFORE, count);
}

static void lend_rows(size_t high_places, size_t low_places)
{
    lend(&high, high_places * CIHLOMET_RECORD);
    lend(&high_data, high_places * CIHLOMET_DATA);
    lend(&low, low_places * CIHLOMET_RECORD);
    lend(&low_data, low_places * CIHLOMET_DATA);
}

static void lend_octets(struct part *p, const void *octets, size_t count)
{
    lend(p, count);
    if (count != 0)
        memcpy(p->at, octets, count);
}

/* ---- Calls. Those that are accepted change the station. */
static struct cihlomet_renewed start(struct cihlomet_settings with, uint8_t ts, size_t high_places, size_t low_places)
{
    struct cihlomet_renewed r = cihlomet_start(with, ts, s->masters, s->started, s->marks, s->points, s->memory,
                                               high_places, low_places);
    s->core = r.core;
    return r;
}

/* A station in Idle with empty rows in the ring 3, 9, 20. */
static void begin(void)
{
    memset(s, 0, sizeof *s);
    memset(s->points, 1, sizeof s->points);
    s->masters[TS] = s->masters[NS] = s->masters[PS] = 1;
    s->points[INACTIVE] = 0;
    lend_rows(HIGH_PLACES, LOW_PLACES);
    for (size_t i = 4; i < sizeof parts / sizeof parts[0]; i++)
        lend(parts[i], 0);
    lend(&out, CIHLOMET_LONGEST);
    CLAIM(start(settings, TS, HIGH_PLACES, LOW_PLACES).refused == 0);
}

static struct cihlomet_answer hear(uint32_t clock, uint8_t room)
{
    struct cihlomet_answer a =
        cihlomet_hear(STATION, clock, room, LENT(update_high), LENT(update_low), LENT(heard), ROWS, LENT(out));
    s->core = a.core;
    return a;
}

static struct cihlomet_answer sent(uint32_t clock)
{
    struct cihlomet_answer a = cihlomet_sent(STATION, clock, ROWS, LENT(out));
    s->core = a.core;
    return a;
}

static struct cihlomet_answer slot(uint32_t clock)
{
    struct cihlomet_answer a = cihlomet_slot(STATION, clock, ROWS, LENT(out));
    s->core = a.core;
    return a;
}

static struct cihlomet_renewed reset(void)
{
    struct cihlomet_renewed r = cihlomet_reset(STATION, ROWS);
    s->core = r.core;
    return r;
}

/* What a request has of its own: a reference, a limit, and whether it asks for the station's. */
struct own {
    uint32_t reference;
    uint8_t limit, asks;
};

static struct cihlomet_accepted submit_own(bool upper, uint8_t service, uint8_t destination, uint8_t to, uint8_t from,
                                           struct own own)
{
    struct cihlomet_accepted a =
        upper ? cihlomet_submit_high(STATION, service, destination, to, from, own.reference, own.limit, own.asks,
                                     LENT(data), LENT(high), LENT(high_data))
              : cihlomet_submit_low(STATION, service, destination, to, from, own.reference, own.limit, own.asks,
                                    LENT(data), LENT(low), LENT(low_data));
    s->core = a.core;
    return a;
}

/* A request without a reference that asks for the station's limit; the one given beside would be refused. */
static struct cihlomet_accepted submit(bool upper, uint8_t service, uint8_t destination, uint8_t to, uint8_t from)
{
    return submit_own(upper, service, destination, to, from, (struct own){.reference = 0, .limit = 255, .asks = 1});
}

/* An SRD to the lift. */
static struct cihlomet_accepted srd(bool upper, uint32_t reference, uint8_t limit, uint8_t asks)
{
    return submit_own(upper, CIHLOMET_SRD, LIFT, POINT, OWN_POINT, (struct own){reference, limit, asks});
}

static struct cihlomet_collected collect(bool upper)
{
    struct cihlomet_collected c = upper ? cihlomet_collect_high(STATION, LENT(high), LENT(high_data))
                                        : cihlomet_collect_low(STATION, LENT(low), LENT(low_data));
    s->core = c.core;
    return c;
}

/* The station hears a token from `source`. */
static struct cihlomet_answer token(uint32_t clock, uint8_t source)
{
    uint8_t octets[3];
    lend_octets(&heard, octets, cihlomet_token(TS, source, octets, sizeof octets).count);
    return hear(clock, 0);
}

/* The station hears a frame to it from an access point. */
static struct cihlomet_answer frame(uint8_t source, uint8_t from, uint8_t to, uint8_t control, size_t count)
{
    uint8_t octets[CIHLOMET_LONGEST], some[CIHLOMET_DATA] = {1, 2, 3, 4, 5, 6, 7};
    lend_octets(&heard, octets,
                cihlomet_write(TS, to, source, from, control, some, count, octets, sizeof octets).count);
    return hear(CLOCK, 1);
}

/* All calls that are lent both rows refuse by this number. */
static bool rows_refused(uint8_t number)
{
    return hear(CLOCK, 0).refused == number && sent(CLOCK).refused == number && slot(CLOCK).refused == number &&
           reset().refused == number;
}

/* The second hold, in which there is time, begins after a first one in which there was nothing to send. */
static struct cihlomet_answer second_hold(bool upper, uint8_t service)
{
    begin();
    token(CLOCK - 1000, PS);
    submit(upper, service, LIFT, POINT, OWN_POINT);
    return token(CLOCK, PS);
}

/* ---- Frames. */
static void read_forms(void)
{
    static const uint8_t some[] = {1, 2, 3, 4, 5}, a_token[] = {0xDC, 3, 2}, a_short[] = {0xE5};
    lend(&out, CIHLOMET_LONGEST);
    struct cihlomet_written w = cihlomet_write(3, 60, 2, 62, 0x6D, some, 5, LENT(out));
    CLAIM(w.refused == 0 && w.count == 16);
    struct cihlomet_frame f = cihlomet_read(out.at, w.count);
    CLAIM(f.refused == 0 && f.form == CIHLOMET_FRAME && f.form == 3);
    CLAIM(f.destination == 3 && f.to == 60 && f.source == 2 && f.from == 62 && f.control == 0x6D);
    CLAIM(f.start == 9 && f.count == 5);
    f = cihlomet_read(a_token, sizeof a_token);
    CLAIM(f.refused == 0 && f.form == CIHLOMET_TOKEN && f.form == 1);
    CLAIM(f.destination == 3 && f.source == 2 && f.to == CIHLOMET_NO_POINT && f.from == CIHLOMET_NO_POINT);
    CLAIM(f.control == 0 && f.start == 0 && f.count == 0);
    f = cihlomet_read(a_short, sizeof a_short);
    CLAIM(f.refused == 0 && f.form == CIHLOMET_SHORT && f.form == 2);
    CLAIM(f.destination == 0 && f.source == 0 && f.to == CIHLOMET_NO_POINT && f.from == CIHLOMET_NO_POINT);
    CLAIM(f.control == 0 && f.start == 0 && f.count == 0);
}

/* The string number N, from 1, is refused N, and then no field holds. */
static void read_refusals(void)
{
    static const char *const strings[] = {
        "-",            "11",           "680404",           "6803036883820000", "1005024950", "100502495017",
        "100502495116", "10057F49CD16", "100502808716", "6804046883026D403216", "107F0249CA16"};
    for (size_t i = 0; i < sizeof strings / sizeof strings[0]; i++) {
        size_t count;
        const uint8_t *octets = lay(strings[i], heard.fence, &count);
        struct cihlomet_frame f = cihlomet_read(count == 0 ? NULL : octets, count);
        CLAIM(f.refused == i + 1);
        CLAIM((f.form | f.destination | f.source | f.control) == 0 && (f.start | f.count) == 0);
        CLAIM(f.to == CIHLOMET_NO_POINT && f.from == CIHLOMET_NO_POINT);
    }
}

/* What is refused where a frame with the FC of an SRD low is written. */
static uint8_t write_with(uint8_t destination, uint8_t to, uint8_t source, uint8_t from, uint8_t control, size_t count)
{
    lend(&data, count);
    struct cihlomet_written w = cihlomet_write(destination, to, source, from, control, LENT(data), LENT(out));
    CLAIM((w.refused == 0) == (w.count != 0));
    return w.refused;
}

static void write_refusals(void)
{
    const uint8_t none = CIHLOMET_NO_POINT, fc = SRD_LOW_FIRST;
    lend(&out, CIHLOMET_LONGEST);
    CLAIM(write_with(126, 63, 126, 62, fc, 244) == 0 && write_with(127, none, 126, none, SDN_LOW, 0) == 0);
    CLAIM(write_with(5, none, 127, none, fc, 0) == 8 && write_with(128, none, 2, none, SDN_LOW, 0) == 8);
    CLAIM(write_with(5, none, 2, none, 0x80, 0) == 9);
    CLAIM(write_with(5, 64, 2, none, fc, 0) == 10 && write_with(5, none, 2, 63, fc, 0) == 10);
    CLAIM(write_with(127, none, 2, none, fc, 0) == 11);
    CLAIM(write_with(5, none, 2, none, fc, CIHLOMET_DATA + 1) == 12);
    CLAIM(write_with(5, none, 2, none, fc, CIHLOMET_DATA) == 0);
    CLAIM(write_with(5, 60, 2, 62, fc, CIHLOMET_DATA - 1) == 12);
    lend(&out, CIHLOMET_LONGEST - 1);
    CLAIM(write_with(5, none, 2, none, fc, CIHLOMET_DATA) == 13);
    CLAIM(write_with(5, none, 2, none, fc, CIHLOMET_DATA - 1) == 0);
    lend(&out, 6);
    CLAIM(write_with(5, none, 2, none, fc, 0) == 0);
    lend(&out, 5);
    CLAIM(write_with(5, none, 2, none, fc, 0) == 13);
    lend(&out, 0);
    CLAIM(write_with(5, none, 2, none, fc, 0) == 13);
}

/* Tokens, short acknowledgements and listings with just enough room, with an octet less, and with none. */
static void other_rooms(void)
{
    static const uint8_t empty_capture[] = {0, 0};
    lend(&out, 3);
    CLAIM(cihlomet_token(126, 126, LENT(out)).count == 3 && cihlomet_token(127, 2, LENT(out)).refused == 8);
    CLAIM(cihlomet_token(2, 127, LENT(out)).refused == 8);
    lend(&out, 2);
    CLAIM(cihlomet_token(3, 2, LENT(out)).refused == 13);
    lend(&out, 1);
    CLAIM(cihlomet_short(LENT(out)).refused == 0 && cihlomet_short(LENT(out)).count == 1);
    lend(&out, 0);
    CLAIM(cihlomet_token(3, 2, LENT(out)).refused == 13);
    CLAIM(cihlomet_short(LENT(out)).refused == 13 && cihlomet_short(LENT(out)).count == 0);
    CLAIM(cihlomet_list(empty_capture, 2, LENT(out)) == 0);
    lend(&out, CIHLOMET_LISTING_ROOM - 1);
    CLAIM(cihlomet_list(empty_capture, 2, LENT(out)) == 0);
    lend(&out, CIHLOMET_LISTING_ROOM);
    CLAIM(cihlomet_list(empty_capture, 2, LENT(out)) == 4 && memcmp(out.at, "end\n", 4) == 0);
    CLAIM(cihlomet_list(NULL, 0, LENT(out)) == 10 && memcmp(out.at, "end short\n", 10) == 0);
}

/* ---- A station's settings and core. */

/* Each setting's bounds when the others are as above: no two have the same. */
static const struct {
    size_t offset;
    uint32_t least, greatest;
} bounds[] = {
    {offsetof(struct cihlomet_settings, tset), 20, 255},    {offsetof(struct cihlomet_settings, tqui), 0, 43},
    {offsetof(struct cihlomet_settings, min_tsdr), 20, 405}, {offsetof(struct cihlomet_settings, max_tsdr), 44, 65465},
    {offsetof(struct cihlomet_settings, ttd), 0, 32536},    {offsetof(struct cihlomet_settings, ttr), 20, 16777215},
    {offsetof(struct cihlomet_settings, retries), 0, 15},   {offsetof(struct cihlomet_settings, tsdi), 0, 65465},
};

/* What start says to a setting of this number, and then a call to a core with it. */
static uint8_t with_setting(size_t offset, uint32_t number, uint8_t *later)
{
    struct cihlomet_settings changed = settings;
    memcpy((uint8_t *)&changed + offset, &number, sizeof number);
    uint8_t refused = start(changed, TS, HIGH_PLACES, LOW_PLACES).refused;
    start(settings, TS, HIGH_PLACES, LOW_PLACES);
    s->core.settings = changed;
    *later = slot(CLOCK).refused;
    return refused;
}

static void setting_bounds(void)
{
    uint8_t later;
    begin();
    CLAIM(memcmp(&s->core.settings, &settings, sizeof settings) == 0);
    for (size_t i = 0; i < sizeof bounds / sizeof bounds[0]; i++) {
        CLAIM(with_setting(bounds[i].offset, bounds[i].least, &later) == 0 && later == 0);
        CLAIM(with_setting(bounds[i].offset, bounds[i].greatest, &later) == 0 && later == 0);
        CLAIM(with_setting(bounds[i].offset, bounds[i].least - 1, &later) == 20 && later == 29);
        CLAIM(with_setting(bounds[i].offset, bounds[i].greatest + 1, &later) == 20 && later == 29);
    }
}

static void start_refusals(void)
{
    begin();
    CLAIM(start(settings, CIHLOMET_ADDRESSES, 1, 1).refused == 20 && start(settings, TS + 1, 1, 1).refused == 20);
    CLAIM(reset().refused == 21 || reset().refused == 29);
    CLAIM(start(settings, TS, 0, 1).refused == 21 && start(settings, TS, 1, 0).refused == 21);
    CLAIM(start(settings, TS, 65, 1).refused == 21 && start(settings, TS, 1, 65).refused == 21);
    CLAIM(start(settings, TS, 64, 1).refused == 0 && start(settings, TS, 1, 64).refused == 0);
    CLAIM(s->core.high_places == 1 && s->core.low_places == 64);
    s->masters[CIHLOMET_ADDRESSES - 1] = 1;
    CLAIM(start(settings, CIHLOMET_ADDRESSES - 1, 1, 1).refused == 0 && s->core.ts == CIHLOMET_ADDRESSES - 1);
}

static void as_started(void)
{
    begin();
    const struct cihlomet_core *c = &s->core;
    CLAIM(c->ts == TS && c->ps == PS && c->stranger == CIHLOMET_ADDRESSES && c->phase == CIHLOMET_IDLE);
    CLAIM(c->begun == 0 && c->high_places == HIGH_PLACES && c->low_places == LOW_PLACES);
    CLAIM((c->high_first | c->high_confirmed | c->high_unconfirmed) == 0);
    CLAIM((c->low_first | c->low_confirmed | c->low_unconfirmed) == 0);
    CLAIM(c->source == CIHLOMET_ADDRESSES && c->length == 0);
    CLAIM(memcmp(s->started, s->masters, sizeof s->started) == 0);
    for (size_t i = 0; i < CIHLOMET_ADDRESSES; i++)
        CLAIM(s->marks[i] == CIHLOMET_MARK_UNKNOWN);
}

/* Of each number of a core that can be out of rule by itself: the greatest that is taken and the least refused. */
static const struct {
    const char *name;
    size_t offset;
    uint8_t taken, refused, number;
} numbers[] = {
#define NUMBER(field, taken, least, refusal) {#field, offsetof(struct cihlomet_core, field), taken, least, refusal}
    NUMBER(ts, NS, 127, 29),
    NUMBER(ps, 126, 127, 29),
    NUMBER(stranger, CIHLOMET_ADDRESSES, 128, 29),
    NUMBER(phase, CIHLOMET_PASS_CHECKED, CIHLOMET_PASS_TO_SELF + 1, 29),
    NUMBER(served, 1, 2, 29),
    NUMBER(sendings, 255, 0, 0),
    NUMBER(sdn, 1, 2, 29),
    NUMBER(begun, 255, 0, 0),
    NUMBER(high_places, HIGH_PLACES, HIGH_PLACES + 1, 21),
    NUMBER(high_first, HIGH_PLACES - 1, HIGH_PLACES, 29),
    NUMBER(high_confirmed, HIGH_PLACES, HIGH_PLACES + 1, 29),
    NUMBER(high_unconfirmed, HIGH_PLACES, HIGH_PLACES + 1, 29),
    NUMBER(low_places, LOW_PLACES, LOW_PLACES + 1, 21),
    NUMBER(low_first, LOW_PLACES - 1, LOW_PLACES, 29),
    NUMBER(low_confirmed, LOW_PLACES, LOW_PLACES + 1, 29),
    NUMBER(low_unconfirmed, LOW_PLACES, LOW_PLACES + 1, 29),
    NUMBER(source, CIHLOMET_ADDRESSES, 128, 29),
    NUMBER(bit, 1, 2, 29),
};

/* A core with one number changed: what reset says to it, and that a refused one comes back. */
static uint8_t with_number(size_t offset, uint8_t number)
{
    begin();
    ((uint8_t *)&s->core)[offset] = number;
    struct cihlomet_core given = s->core;
    uint8_t refused = reset().refused;
    CLAIM(refused == 0 || memcmp(&s->core, &given, sizeof given) == 0);
    return refused;
}

static void forged_numbers(void)
{
    for (size_t i = 0; i < sizeof numbers / sizeof numbers[0]; i++) {
        CLAIM(with_number(numbers[i].offset, numbers[i].taken) == 0);
        CLAIM(with_number(numbers[i].offset, numbers[i].refused) == numbers[i].number);
    }
    begin();
    s->core.length = CIHLOMET_LONGEST;
    CLAIM(reset().refused == 0);
    s->core.length = CIHLOMET_LONGEST + 1;
    CLAIM(reset().refused == 29);
    begin();
    s->masters[TS] = 0;
    CLAIM(reset().refused == 29);
    begin();
    s->started[TS] = 0;
    CLAIM(reset().refused == 29);
}

/* A phase at odds with the rest is refused by all, an unconfirmed record out of rule by those that may send it. */
static void forged_states(void)
{
    static const uint8_t at_odds[] = {CIHLOMET_REPLY_AWAITED, CIHLOMET_SDN_GOING_OUT, CIHLOMET_PASS_TO_SELF};
    for (size_t i = 0; i < sizeof at_odds; i++) {
        begin();
        s->core.phase = at_odds[i];
        CLAIM(rows_refused(29));
    }
    for (size_t i = 0; i < 2; i++) {
        begin();
        submit(i == 0, CIHLOMET_SRD, LIFT, POINT, OWN_POINT);
        CLAIM(slot(CLOCK).refused == 0);
        memset(i == 0 ? high.at : low.at, 0x55, CIHLOMET_RECORD);
        CLAIM(hear(CLOCK, 0).refused == 29 && sent(CLOCK).refused == 29 && slot(CLOCK).refused == 29);
        CLAIM(reset().refused == 0);
    }
}

/* ---- A station's holds. */
static void phases(void)
{
    begin();
    submit(true, CIHLOMET_SDN, LIFT, POINT, OWN_POINT);
    submit(true, CIHLOMET_SRD, LIFT, POINT, OWN_POINT);
    CLAIM(s->core.high_unconfirmed == 2 && s->core.phase == CIHLOMET_IDLE && CIHLOMET_IDLE == 0);
    token(500, PS);
    CLAIM(s->core.phase == CIHLOMET_SDN_GOING_OUT && s->core.phase == 2 && s->core.served == 0);
    CLAIM(s->core.acceptance == 500 && s->core.begun == 1 && s->core.sendings == 1);
    CLAIM(sent(600).wait == TID2 && s->core.phase == CIHLOMET_PASS_CHECKED && s->core.phase == 3);
    CLAIM(s->core.high_confirmed == 1 && s->core.high_unconfirmed == 1);
    CLAIM(token(700, PS).wait == TID1 && s->core.phase == CIHLOMET_REPLY_AWAITED && s->core.phase == 1);
    CLAIM(s->core.acceptance == 700 && s->core.before == 500 && s->core.begun == 2);
    for (int i = 0; i < 3; i++)
        slot(800); /* the request twice more, then NA and the token to 9 */
    CLAIM(s->core.high_confirmed == 2 && s->core.phase == CIHLOMET_PASS_CHECKED && s->core.sendings == 1);
    slot(900);
    CLAIM(s->core.sendings == 2 && s->masters[NS] == 1);
    for (int i = 0; i < 5; i++)
        slot(1000); /* once more to 9, thrice to 20 */
    CLAIM(s->core.phase == CIHLOMET_PASS_TO_SELF && s->core.phase == 4 && s->masters[NS] == 0 && s->masters[PS] == 0);
    CLAIM(collect(true).status == CIHLOMET_OK && s->core.high_first == 1 && s->core.high_confirmed == 1);
}

/* The same of the low queue, and the number that says an SDN went out. */
static void low_hold(void)
{
    begin();
    token(CLOCK - 1000, PS);
    submit(false, CIHLOMET_SDN, LIFT, POINT, OWN_POINT);
    CLAIM(submit(false, CIHLOMET_SRD, LIFT, POINT, OWN_POINT).place == 1 && s->core.low_unconfirmed == 2);
    token(CLOCK, PS);
    CLAIM(s->core.served == 1 && s->core.phase == CIHLOMET_SDN_GOING_OUT && s->core.sdn == 1);
    CLAIM(sent(CLOCK).wait == TID2 && s->core.phase == CIHLOMET_REPLY_AWAITED && s->core.sdn == 0);
    CLAIM(s->core.low_confirmed == 1 && s->core.low_unconfirmed == 1 && s->core.high_confirmed == 0);
    CLAIM(collect(true).refused == 28 && collect(false).refused == 0 && s->core.low_first == 1);
}

/* Time is left by ttr after the acceptance before; of the first hold, which begun tells, none. */
static uint8_t phase_with(uint32_t before, uint8_t begun)
{
    begin();
    token(CLOCK - 1000, PS);
    submit(false, CIHLOMET_SRD, LIFT, POINT, OWN_POINT);
    s->core.acceptance = before;
    s->core.begun = begun;
    token(CLOCK, PS);
    return s->core.phase;
}

static void times_in_a_core(void)
{
    CLAIM(phase_with(CLOCK - 7006, 1) == CIHLOMET_REPLY_AWAITED);
    CLAIM(phase_with(CLOCK - 7007, 1) == CIHLOMET_PASS_CHECKED);
    CLAIM(phase_with(CLOCK - 7006, 0) == CIHLOMET_PASS_CHECKED);
    second_hold(true, CIHLOMET_SRD);
    s->core.sendings = 3; /* all that the retry limit 2 allows */
    slot(CLOCK);
    CLAIM(s->core.high_confirmed == 1 && collect(true).status == CIHLOMET_NA);
    begin();
    token(CLOCK, 50);
    CLAIM(s->core.stranger == 50 && s->core.ps == PS && s->masters[50] == 0 && s->core.begun == 0);
    token(CLOCK, 50);
    CLAIM(s->core.stranger == CIHLOMET_ADDRESSES && s->core.ps == 50 && s->masters[50] == 1 && s->core.begun == 1);
}

/* The standard settings are those that the header names, and with them a slot that expires ends a request: no retry. */
static void standard_settings(void)
{
    struct cihlomet_settings standard = cihlomet_standard();
    CLAIM(standard.tset == 20 && standard.tqui == 0 && standard.min_tsdr == 20 && standard.max_tsdr == 400);
    CLAIM(standard.ttd == 1 && standard.ttr == 10000 && standard.retries == 0 && standard.tsdi == 0);
    begin();
    CLAIM(start(standard, TS, HIGH_PLACES, LOW_PLACES).refused == 0);
    submit(true, CIHLOMET_SRD, LIFT, POINT, OWN_POINT);
    CLAIM(token(CLOCK, PS).length == 11 && s->core.phase == CIHLOMET_REPLY_AWAITED);
    CLAIM(slot(CLOCK).length == 3 && s->core.phase == CIHLOMET_PASS_CHECKED);
    struct cihlomet_collected c = collect(true);
    CLAIM(c.refused == 0 && c.status == CIHLOMET_NA && c.count == 1);
}

/* ---- Services, statuses and what collect answers. */
static uint8_t code_sent(bool upper, uint8_t service)
{
    struct cihlomet_answer a = second_hold(upper, service);
    struct cihlomet_frame f = cihlomet_read(out.at, a.length);
    CLAIM(a.refused == 0 && a.wait == TID1 && a.length == 11 && f.form == CIHLOMET_FRAME);
    CLAIM(f.destination == LIFT && f.to == POINT && f.source == TS && f.from == OWN_POINT);
    return f.control & CODE;
}

static void services(void)
{
    CLAIM(code_sent(false, CIHLOMET_SDA) == 3 && code_sent(true, CIHLOMET_SDA) == 5);
    CLAIM(code_sent(false, CIHLOMET_SDN) == 4 && code_sent(true, CIHLOMET_SDN) == 6);
    CLAIM(code_sent(false, CIHLOMET_SRD) == 12 && code_sent(true, CIHLOMET_SRD) == 13);
}

/* The status of a request that is answered by a reply with this code and so many octets. */
static uint8_t status_of(uint8_t service, uint8_t code, size_t count)
{
    second_hold(true, service);
    frame(LIFT, POINT, OWN_POINT, code, count);
    struct cihlomet_collected c = collect(true);
    CLAIM(c.refused == 0 && c.service == service && c.length == count && s->marks[LIFT] == 0);
    return c.status;
}

static uint8_t status_by_short(uint8_t service)
{
    second_hold(false, service);
    lend_octets(&heard, "\xE5", 1);
    hear(CLOCK, 0);
    return collect(false).status;
}

/* FCB and FCV of a request to an address with this mark. */
static uint8_t bits_for(uint8_t mark)
{
    begin();
    s->marks[LIFT] = mark;
    submit(true, CIHLOMET_SRD, LIFT, POINT, OWN_POINT);
    return cihlomet_read(out.at, token(CLOCK, PS).length).control & (FCB | FCV);
}

static void marks(void)
{
    CLAIM(bits_for(CIHLOMET_MARK_UNKNOWN) == FCB && bits_for(0) == FCV && bits_for(1) == (FCB | FCV));
    for (int i = 0; i < 3; i++)
        slot(CLOCK);
    CLAIM(s->core.high_confirmed == 1 && s->marks[LIFT] == CIHLOMET_MARK_UNKNOWN);
}

static void statuses(void)
{
    CLAIM(status_of(CIHLOMET_SDA, 0, 0) == CIHLOMET_OK && status_of(CIHLOMET_SDA, 1, 0) == CIHLOMET_UE);
    CLAIM(status_of(CIHLOMET_SDA, 2, 0) == CIHLOMET_RR && status_of(CIHLOMET_SDA, 3, 0) == CIHLOMET_RS);
    CLAIM(status_of(CIHLOMET_SRD, 8, 2) == CIHLOMET_DL && status_of(CIHLOMET_SRD, 9, 0) == CIHLOMET_NR);
    CLAIM(status_of(CIHLOMET_SRD, 10, 3) == CIHLOMET_DH && status_of(CIHLOMET_SRD, 12, 4) == CIHLOMET_RDL);
    CLAIM(status_of(CIHLOMET_SRD, 13, 5) == CIHLOMET_RDH);
    CLAIM(status_by_short(CIHLOMET_SDA) == CIHLOMET_OK && status_by_short(CIHLOMET_SRD) == CIHLOMET_NR);
    second_hold(true, CIHLOMET_SRD);
    CLAIM(reset().refused == 0);
    struct cihlomet_collected c = collect(true);
    CLAIM(c.status == CIHLOMET_DS && c.count == 1);
    c = collect(true);
    CLAIM(c.refused == 28 && c.status == CIHLOMET_WAITING && (c.place | c.service | c.destination) == 0);
    CLAIM(c.to == CIHLOMET_NO_POINT && c.from == CIHLOMET_NO_POINT && (c.length | c.count) == 0);
    CLAIM((c.limit | c.asks) == 0 && c.reference == 0);
}

/* The second request of a queue, sent thrice and answered with four octets: every field has a value of its own. */
static void collected(void)
{
    begin();
    CLAIM(submit(true, CIHLOMET_SDN, LIFT, POINT, OWN_POINT).place == 0);
    CLAIM(srd(true, 0x81020304, 5, 0).place == 1);
    token(CLOCK - 1000, PS);
    sent(CLOCK - 900);
    collect(true);
    token(CLOCK - 800, PS);
    slot(CLOCK - 700);
    slot(CLOCK - 600);
    frame(LIFT, POINT, OWN_POINT, 8, 4);
    struct cihlomet_collected c = collect(true);
    CLAIM(c.refused == 0 && c.place == 1 && c.service == 12 && c.destination == LIFT && c.to == POINT);
    CLAIM(c.from == OWN_POINT && c.length == 4 && c.status == CIHLOMET_DL && c.count == 3);
    CLAIM(c.reference == 0x81020304 && c.limit == 5 && c.asks == 0);
    CLAIM(memcmp(high_data.at + CIHLOMET_DATA, "\1\2\3\4\xAA", 5) == 0 && high_data.at[CIHLOMET_DATA - 1] == BEFORE);
    CLAIM(s->core.high_first == 2 && s->core.high_confirmed == 0);
    s->core.high_confirmed = 1;
    memset(high.at, 0x55, high.count);
    CLAIM(collect(true).refused == 29); /* no status has this number */
}

static void submit_refusals(void)
{
    const uint8_t none = CIHLOMET_NO_POINT, srd = CIHLOMET_SRD, sdn = CIHLOMET_SDN;
    begin();
    CLAIM(submit(true, sdn, 128, none, none).refused == 23 && submit(true, srd, TS, none, none).refused == 23);
    CLAIM(submit(true, srd, 127, none, none).refused == 23 && submit(true, sdn, 127, none, none).refused == 0);
    CLAIM(submit(true, sdn, LIFT, 64, none).refused == 24 && submit(true, sdn, LIFT, none, 63).refused == 24);
    CLAIM(submit(true, srd, LIFT, 63, none).refused == 24 && submit(true, sdn, LIFT, 63, 62).refused == 0);
    for (unsigned service = 0; service <= 255; service++)
        if (service != CIHLOMET_SDA && service != CIHLOMET_SDN && service != CIHLOMET_SRD)
            CLAIM(submit(true, (uint8_t)service, LIFT, none, none).refused == 25);
    lend(&data, CIHLOMET_DATA + 1);
    CLAIM(submit(true, srd, LIFT, none, none).refused == 26);
    lend(&data, CIHLOMET_DATA - 1);
    CLAIM(submit(true, srd, LIFT, POINT, OWN_POINT).refused == 26);
    CLAIM(submit(true, srd, LIFT, POINT, none).refused == 0);
    CLAIM(submit(true, srd, LIFT, none, none).refused == 27);
    lend(&data, CIHLOMET_DATA);
    CLAIM(submit(false, srd, LIFT, none, none).refused == 0);
    s->core.bit = 2;
    CLAIM(submit(false, srd, LIFT, none, none).refused == 29 && collect(false).refused == 29);
}

/* ---- References and limits of requests. */

/* Where these lie in the octets of a record. */
enum { REFERENCE = 7, LIMIT = 11, ASKS = 12 };

/* What submit writes at its place, and a confirmation: the whole record, and no octet of another. */
static void record_octets(void)
{
    static const uint8_t own[] = {12, LIFT, POINT, OWN_POINT, 5, CIHLOMET_WAITING, 0, 4, 3, 2, 0x81, 9, 0};
    static const uint8_t asked[] = {12, LIFT, POINT, OWN_POINT, 5, CIHLOMET_WAITING, 0, 255, 255, 255, 255, 2, 1};
    _Static_assert(CIHLOMET_RECORD == 13 && sizeof own == 13 && sizeof asked == 13, "thirteen octets");
    begin();
    lend_octets(&data, "\1\2\3\4\5", 5);
    CLAIM(srd(true, 0x81020304, 9, 0).place == 0 && memcmp(high.at, own, 13) == 0 && high.at[13] == BEFORE);
    CLAIM(srd(true, UINT32_MAX, 200, 128).place == 1 && memcmp(high.at + 13, asked, 13) == 0);
    CLAIM(memcmp(high.at, own, 13) == 0 && high.at[26] == BEFORE && low.at[0] == BEFORE);
    CLAIM(reset().refused == 0 && high.at[4] == 0 && high.at[5] == CIHLOMET_DS && high.at[6] == 0);
    CLAIM(memcmp(high.at, own, 4) == 0 && memcmp(high.at + REFERENCE, own + REFERENCE, 6) == 0);
    CLAIM(memcmp(high.at + 13 + REFERENCE, asked + REFERENCE, 6) == 0 && high.at[26] == BEFORE);
}

/* A request that is lost, in a hold with time: what collect answers once it is given up. */
static struct cihlomet_collected lost(bool upper, uint8_t limit, uint8_t asks)
{
    begin();
    token(CLOCK - 1000, PS);
    srd(upper, 77, limit, asks);
    token(CLOCK, PS);
    for (int i = 0; i < 20 && s->core.phase == CIHLOMET_REPLY_AWAITED; i++)
        slot(CLOCK);
    struct cihlomet_collected c = collect(upper);
    CLAIM(c.refused == 0 && c.status == CIHLOMET_NA && c.reference == 77 && c.count == c.limit + 1);
    return c;
}

/* A limit of its own is what a request goes by, below, at and above the station's; who asks for the station's has that,
 * whatever limit is given beside and by whichever number it asks. */
static void limits(void)
{
    static const uint8_t beside[] = {0, 1, 3, 15, 16, 255}, yes[] = {1, 2, 128, 255};
    for (size_t i = 0; i < 2; i++) {
        for (uint8_t limit = 0; limit <= 15; limit++) {
            struct cihlomet_collected c = lost(i == 0, limit, 0);
            CLAIM(c.limit == limit && c.asks == 0);
        }
        for (size_t j = 0; j < sizeof beside * sizeof yes; j++) {
            struct cihlomet_collected c = lost(i == 0, beside[j / sizeof yes], yes[j % sizeof yes]);
            CLAIM(c.limit == settings.retries && c.asks == 1);
        }
    }
}

/* A request that is never sent again is NA after one sending, beside one that the station sends again twice. */
static void beside_each_other(void)
{
    begin();
    token(CLOCK - 1000, PS);
    CLAIM(srd(true, 10, 0, 0).place == 0 && srd(true, 11, 0, 1).place == 1);
    CLAIM(token(CLOCK, PS).length == 11 && s->core.sendings == 1 && s->core.high_confirmed == 0);
    CLAIM(slot(CLOCK).length == 11 && s->core.sendings == 1 && s->core.high_confirmed == 1);
    CLAIM(slot(CLOCK).length == 11 && s->core.sendings == 2 && slot(CLOCK).length == 11 && s->core.sendings == 3);
    CLAIM(slot(CLOCK).length == 3 && s->core.high_confirmed == 2 && s->core.phase == CIHLOMET_PASS_CHECKED);
    struct cihlomet_collected c = collect(true);
    CLAIM(c.status == CIHLOMET_NA && c.count == 1 && c.reference == 10 && c.limit == 0 && c.asks == 0);
    c = collect(true);
    CLAIM(c.status == CIHLOMET_NA && c.count == 3 && c.reference == 11 && c.limit == 2 && c.asks == 1);
}

/* The limit is filled in at submit and lies in the record: it is that one that counts then, not the station's. */
static void limit_in_the_record(void)
{
    second_hold(true, CIHLOMET_SRD);
    CLAIM(high.at[LIMIT] == 2);
    s->core.settings.retries = 0;
    CLAIM(slot(CLOCK).length == 11 && slot(CLOCK).length == 11 && s->core.high_confirmed == 0);
    CLAIM(slot(CLOCK).length == 3 && collect(true).count == 3);
    second_hold(false, CIHLOMET_SRD);
    low.at[LIMIT] = 0;
    CLAIM(slot(CLOCK).length == 3 && collect(false).count == 1);
    second_hold(true, CIHLOMET_SDA);
    high.at[LIMIT] = 3;
    s->core.sendings = 3;
    CLAIM(slot(CLOCK).length == 11 && slot(CLOCK).length == 3 && collect(true).count == 4);
}

/* The reference, the limit and whether it asked come back with each kind of confirmation; of an SDN too. */
static void kept(void)
{
    begin();
    token(CLOCK - 1000, PS);
    const struct own sdn = {UINT32_MAX, 15, 0};
    CLAIM(submit_own(true, CIHLOMET_SDN, LIFT, POINT, OWN_POINT, sdn).refused == 0);
    CLAIM(srd(true, 1u << 31, 0, 0).refused == 0 && srd(true, 258, 200, 1).refused == 0);
    CLAIM(srd(false, 0, 6, 0).refused == 0);
    token(CLOCK, PS);
    sent(CLOCK);
    lend_octets(&heard, "\xE5", 1);
    hear(CLOCK, 0);
    struct cihlomet_collected c = collect(true);
    CLAIM(c.status == CIHLOMET_OK && c.count == 1 && c.reference == UINT32_MAX && c.limit == 15 && c.asks == 0);
    c = collect(true);
    CLAIM(c.status == CIHLOMET_NR && c.count == 1 && c.reference == 1u << 31 && c.limit == 0 && c.asks == 0);
    CLAIM(s->core.phase == CIHLOMET_REPLY_AWAITED && reset().refused == 0);
    c = collect(true);
    CLAIM(c.status == CIHLOMET_DS && c.count == 1 && c.reference == 258 && c.limit == 2 && c.asks == 1);
    c = collect(false);
    CLAIM(c.status == CIHLOMET_DS && c.count == 0 && c.reference == 0 && c.limit == 6 && c.asks == 0);
}

/* 30: over 15, behind 26 and before 27, for an SDN too, and never for a request that asks. */
static void limit_refusals(void)
{
    const uint8_t none = CIHLOMET_NO_POINT;
    const struct own over = {1, 16, 0};
    begin();
    for (unsigned limit = 16; limit <= 255; limit++)
        CLAIM(srd(true, 1, (uint8_t)limit, 0).refused == 30 && srd(false, 1, (uint8_t)limit, 0).refused == 30);
    CLAIM(submit_own(true, CIHLOMET_SDN, 127, none, none, over).refused == 30);
    CLAIM(submit_own(true, CIHLOMET_SDN, 128, none, none, over).refused == 23);
    CLAIM(submit_own(true, CIHLOMET_SDN, LIFT, 64, none, over).refused == 24);
    CLAIM(submit_own(true, 9, LIFT, none, none, over).refused == 25);
    lend(&data, CIHLOMET_DATA - 1);
    CLAIM(srd(true, 1, 16, 0).refused == 26);
    lend(&data, 0);
    CLAIM(s->core.high_unconfirmed == 0 && srd(true, 1, 15, 0).refused == 0);
    CLAIM(srd(true, 1, 16, 1).refused == 0 && srd(true, 1, 255, 255).refused == 0);
    CLAIM(srd(true, 1, 16, 0).refused == 30 && srd(true, 1, 15, 0).refused == 27 && srd(true, 1, 16, 1).refused == 27);
    s->core.bit = 2;
    CLAIM(srd(true, 1, 16, 0).refused == 29);
    lend(&high, high.count - 1);
    CLAIM(srd(true, 1, 16, 0).refused == 21);
}

/* What hear, sent and slot say, if all say the same, else 255. */
static uint8_t turns(void)
{
    uint8_t said = hear(CLOCK, 0).refused;
    return sent(CLOCK).refused == said && slot(CLOCK).refused == said ? said : 255;
}

/* The limit of an unconfirmed record is looked at by those that may send it, whether it asked or not; that of a
 * confirmed one by nobody. The number by which a record asked is any, and 1 once the record was written. */
static void forged_limits(void)
{
    for (size_t i = 0; i < 4; i++) {
        begin();
        CLAIM(srd(i % 2 == 0, 5, 3, (uint8_t)(i / 2)).refused == 0);
        uint8_t *record = i % 2 == 0 ? high.at : low.at;
        record[LIMIT] = 15;
        CLAIM(turns() == 0);
        record[LIMIT] = 16;
        CLAIM(turns() == 29 && submit(i % 2 == 0, CIHLOMET_SRD, LIFT, POINT, OWN_POINT).refused == 0);
        CLAIM(collect(i % 2 == 0).refused == 28 && reset().refused == 0 && turns() == 0);
        struct cihlomet_collected c = collect(i % 2 == 0);
        CLAIM(c.status == CIHLOMET_DS && c.reference == 5 && c.limit == 16 && c.asks == i / 2);
    }
    begin();
    srd(true, 5, 3, 0);
    high.at[ASKS] = 7;
    CLAIM(turns() == 0 && high.at[ASKS] == 7 && reset().refused == 0 && high.at[ASKS] == 1);
    high.at[ASKS] = 255;
    high.at[LIMIT] = 255;
    struct cihlomet_collected c = collect(true);
    CLAIM(c.refused == 0 && c.asks == 1 && c.limit == 255 && c.reference == 5 && high.at[ASKS] == 255);
}

/* ---- Answering. */
static void indicated(void)
{
    begin();
    lend_octets(&update_low, "\x0A\x0B\x0C", 3);
    struct cihlomet_answer a = frame(PS, OWN_POINT, POINT, SRD_LOW_FIRST, 5);
    CLAIM(a.refused == 0 && a.wait == 44 && a.length == 14 && a.indication.indicated == 1);
    CLAIM(a.indication.control == SRD_LOW_FIRST && a.indication.destination == TS && a.indication.to == POINT);
    CLAIM(a.indication.source == PS && a.indication.from == OWN_POINT);
    CLAIM(a.indication.start == 9 && a.indication.count == 5);
    CLAIM(s->core.source == PS && s->core.bit == 1 && s->core.length == 14);
    CLAIM(memcmp(s->memory, out.at, 14) == 0);
    struct cihlomet_frame f = cihlomet_read(out.at, a.length);
    CLAIM(f.destination == PS && f.to == OWN_POINT && f.source == TS && f.from == POINT && f.count == 3);
    CLAIM((f.control & CODE) == CIHLOMET_DL && memcmp(out.at + f.start, "\x0A\x0B\x0C", 3) == 0);
    lend_octets(&update_high, "\x0D", 1);
    a = frame(PS, OWN_POINT, POINT, SRD_LOW_FIRST, 0);
    CLAIM((cihlomet_read(out.at, a.length).control & CODE) == CIHLOMET_DH);
    a = hear(CLOCK, 0);
    CLAIM((cihlomet_read(out.at, a.length).control & CODE) == CIHLOMET_RDH && a.indication.indicated == 0);
    CLAIM((a.indication.control | a.indication.destination | a.indication.source) == 0);
    CLAIM(a.indication.to == CIHLOMET_NO_POINT && a.indication.from == CIHLOMET_NO_POINT);
    CLAIM((a.indication.start | a.indication.count) == 0);
}

/* The code that an SRD to an access point is answered with; of none, the last place of the points decides. */
static uint8_t answered(uint8_t to)
{
    struct cihlomet_answer a = frame(PS, OWN_POINT, to, SRD_LOW_FIRST, 0);
    return cihlomet_read(out.at, a.length).control & CODE;
}

static void active_points(void)
{
    begin();
    lend(&update_low, 1);
    CLAIM(answered(INACTIVE) == CIHLOMET_RS && answered(INACTIVE + 1) == CIHLOMET_DL && answered(62) == CIHLOMET_DL);
    CLAIM(answered(CIHLOMET_NO_POINT) == CIHLOMET_DL && CIHLOMET_POINTS == NONE + 1);
    s->points[NONE] = 0;
    CLAIM(answered(CIHLOMET_NO_POINT) == CIHLOMET_RS && answered(62) == CIHLOMET_DL);
    CLAIM(frame(PS, OWN_POINT, NONE, SRD_LOW_FIRST, 0).length == 0);
    CLAIM(frame(PS, OWN_POINT, CIHLOMET_NO_POINT, FDL_STATUS, 0).length != 0);
}

/* ---- Lengths of what is lent. */
static void row_lengths(void)
{
    for (size_t i = 0; i < 4; i++) {
        struct part *p = parts[i];
        begin();
        const size_t right = p->count, wrong[] = {0, right - 1, right + 1};
        CLAIM(rows_refused(0));
        for (size_t j = 0; j < 3; j++) {
            lend(p, wrong[j]);
            CLAIM(rows_refused(21));
            CLAIM(submit(i < 2, CIHLOMET_SRD, LIFT, POINT, OWN_POINT).refused == 21);
            CLAIM(collect(i < 2).refused == 21);
        }
        lend(p, right);
        CLAIM(submit(i < 2, CIHLOMET_SRD, LIFT, POINT, OWN_POINT).refused == 0);
    }
}

static void output_lengths(void)
{
    begin();
    lend(&update_high, 244);
    lend(&update_low, 244);
    CLAIM(hear(CLOCK, 0).refused == 0);
    lend(&update_high, 245);
    CLAIM(hear(CLOCK, 0).refused == 22);
    lend(&update_high, 0);
    lend(&update_low, 245);
    CLAIM(hear(CLOCK, 0).refused == 22);
    lend(&update_low, 0);
    CLAIM(hear(CLOCK, 0).refused == 0 && sent(CLOCK).refused == 0 && slot(CLOCK).refused == 0);
    lend(&out, CIHLOMET_LONGEST - 1);
    CLAIM(hear(CLOCK, 0).refused == 22 && sent(CLOCK).refused == 22 && slot(CLOCK).refused == 22);
    lend(&out, 0);
    CLAIM(hear(CLOCK, 0).refused == 22 && sent(CLOCK).refused == 22 && slot(CLOCK).refused == 22);
}

int main(void)
{
    watch();
    for (size_t i = 0; i < sizeof parts / sizeof parts[0]; i++)
        parts[i]->fence = fenced();
    s = (struct cihlomet_station *)(void *)(fenced() - sizeof *s);
    read_forms();
    read_refusals();
    write_refusals();
    other_rooms();
    setting_bounds();
    start_refusals();
    as_started();
    forged_numbers();
    forged_states();
    phases();
    low_hold();
    times_in_a_core();
    standard_settings();
    services();
    marks();
    statuses();
    collected();
    submit_refusals();
    record_octets();
    limits();
    beside_each_other();
    limit_in_the_record();
    kept();
    limit_refusals();
    forged_limits();
    indicated();
    active_points();
    row_lengths();
    output_lengths();
    printf("%u claims\n", held);
    return 0;
}
