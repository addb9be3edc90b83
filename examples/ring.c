/* A ring in memory: the masters 2 and 5, each a station of the library, and the passive station 7 with two lifts,
 * behind its access points 60 and 61. What one sends all others hear, and the bit clock advances by the waits and the
 * octets. One reply is lost, and arrives later, when the other lift is asked. Prints what is sent, indicated and
 * confirmed, ends after six token passes, and exits with 1 if a confirmation is missing or a lift's data are booked
 * for the other. */
#include "../include/cihlomet.h"
#include <stdbool.h>
#include <stdio.h>
#include <stdlib.h>
#include <string.h>

enum { MASTERS = 2, PLACES = 4, PASSES = 6, OCTET_BITS = 11 };
enum { LIFT_STATION = 7, LIFTS = 2, FIRST_LIFT = 60, OWN_POINT = 62, EVERYBODY = 127 };
enum { FCB = 0x20, FCV = 0x10, CODE = 0x4F, SDN_HIGH = 0x46, SRD_LOW = 0x4C, SRD_HIGH = 0x4D, REPLY_DL = 0x08 };
enum { LOST_REPLY = 3, LATE_REPLY = 5 }; /* of station 7's replies, from 1: the lost one, and the one it arrives for */

/* The standard settings but for one retry, which they do not have: the reply that is lost here is asked for again. */
static const struct cihlomet_settings settings = {
    .tset = 20, .tqui = 0, .min_tsdr = 20, .max_tsdr = 400, .ttd = 1, .ttr = 10000, .retries = 1, .tsdi = 0};

/* A row of places and its data area. */
struct queue {
    uint8_t row[PLACES * CIHLOMET_RECORD], area[PLACES * CIHLOMET_DATA];
};

/* All that a master needs: the station, its two queues and an output. */
static struct master {
    struct cihlomet_station station;
    struct queue high, low;
    uint8_t out[CIHLOMET_LONGEST];
} masters[MASTERS];

#define QUEUE(q) (q)->row, sizeof(q)->row, (q)->area, sizeof(q)->area
#define LENT(m) QUEUE(&(m)->high), QUEUE(&(m)->low), (m)->out, sizeof(m)->out

/* Octets, to be sent after a wait. */
struct sending {
    uint8_t sender, octets[CIHLOMET_LONGEST];
    size_t count;
    uint32_t wait;
};

static struct sending next;        /* what is sent next; no octets if nobody has anything to send */
static struct master *last_sender; /* the master whose slot time runs */
static uint32_t bit_clock;
static unsigned passes, replies, indications;

static void must(bool held, const char *what)
{
    if (!held) {
        fflush(stdout);
        fprintf(stderr, "ring: %s\n", what);
        exit(1);
    }
}

/* ---- What is printed. */
static void say_data(const uint8_t *data, size_t count)
{
    printf(count == 0 ? ", no data" : ", data");
    for (size_t i = 0; i < count; i++)
        printf(" %u", data[i]);
    putchar('\n');
}

/* An address, and its access point if there is one. */
static void say_station(uint8_t address, uint8_t point)
{
    printf("%u", address);
    if (point != CIHLOMET_NO_POINT)
        printf(".%u", point);
}

static const char *code_name(uint8_t control)
{
    switch (control & CODE) {
    case SRD_LOW: return "SRD low";
    case SRD_HIGH: return "SRD high";
    case SDN_HIGH: return "SDN high";
    case REPLY_DL: return "DL";
    default: return "another code";
    }
}

static void say_frame(const struct sending *s)
{
    struct cihlomet_frame f = cihlomet_read(s->octets, s->count);
    must(f.refused == 0 && f.form != CIHLOMET_SHORT, "a frame that nobody in this ring sends");
    printf("%6u  ", bit_clock);
    say_station(f.source, f.from);
    printf(" -> ");
    say_station(f.destination, f.to);
    if (f.form == CIHLOMET_TOKEN) {
        puts("  token");
        return;
    }
    printf("  %s", code_name(f.control));
    if ((f.control & (FCB | FCV)) != 0)
        printf(", FCB %d FCV %d", (f.control & FCB) != 0, (f.control & FCV) != 0);
    say_data(s->octets + f.start, f.count);
}

/* ---- The confirmations, in the order in which they are expected. */
static const struct {
    uint8_t master, service, destination, to, status, count, length, data[2];
} expected[] = {
    {2, CIHLOMET_SRD, LIFT_STATION, 60, CIHLOMET_DL, 1, 2, {60, 13}},
    {5, CIHLOMET_SDN, EVERYBODY, CIHLOMET_NO_POINT, CIHLOMET_OK, 1, 0, {0}},
    {2, CIHLOMET_SRD, LIFT_STATION, 61, CIHLOMET_DL, 1, 2, {61, 105}},
    {2, CIHLOMET_SRD, LIFT_STATION, 60, CIHLOMET_DL, 2, 2, {60, 17}},
    {2, CIHLOMET_SRD, LIFT_STATION, 61, CIHLOMET_DL, 2, 2, {61, 105}},
    {5, CIHLOMET_SRD, LIFT_STATION, 61, CIHLOMET_DL, 1, 2, {61, 105}},
    {5, CIHLOMET_SRD, LIFT_STATION, 60, CIHLOMET_DL, 1, 2, {60, 17}},
};
enum { EXPECTED = sizeof expected / sizeof expected[0] };
static size_t confirmed;

/* Prints a confirmation and holds it against the expected one. Its data stand in its place only until the place is
 * used again, so they are taken at once. */
static void confirm(const struct master *m, const struct cihlomet_collected *c, const struct queue *q)
{
    const uint8_t *data = q->area + (size_t)CIHLOMET_DATA * c->place;
    printf("        %u: confirmation of the %s request in place %u, to ", m->station.core.ts,
           q == &m->high ? "high" : "low", c->place);
    say_station(c->destination, c->to);
    printf(": %s, sendings %u", c->status == CIHLOMET_DL ? "DL" : c->status == CIHLOMET_OK ? "OK" : "other", c->count);
    say_data(data, c->length);
    must(confirmed < EXPECTED, "a confirmation too many");
    must(m->station.core.ts == expected[confirmed].master && c->service == expected[confirmed].service &&
             c->destination == expected[confirmed].destination && c->to == expected[confirmed].to &&
             c->status == expected[confirmed].status && c->count == expected[confirmed].count,
         "another confirmation was expected");
    must(c->length == expected[confirmed].length && memcmp(data, expected[confirmed].data, c->length) == 0,
         "other data were expected: those of another lift?");
    confirmed++;
}

/* ---- The masters. */
static void start(struct master *m, uint8_t ts)
{
    struct cihlomet_station *s = &m->station;
    s->masters[2] = s->masters[5] = 1;
    s->points[OWN_POINT] = s->points[CIHLOMET_POINTS - 1] = 1; /* the last is for frames without access point */
    struct cihlomet_renewed answer =
        cihlomet_start(settings, ts, s->masters, s->started, s->marks, s->points, s->memory, PLACES, PLACES);
    must(answer.refused == 0, "start was refused");
    s->core = answer.core;
}

/* Submits an SRD to a lift: how far up it is to go, and where it is then comes back. 0 only fetches. Reference and
 * limit are 0: the confirmations come in order, and each request asks for the station's retry limit. */
static void ask_lift(struct master *m, bool high, uint8_t lift, uint8_t up)
{
    struct queue *q = high ? &m->high : &m->low;
    struct cihlomet_accepted answer = (high ? cihlomet_submit_high : cihlomet_submit_low)(
        CIHLOMET_STATION(&m->station), CIHLOMET_SRD, LIFT_STATION, lift, OWN_POINT, 0, 0, 1, &up, up != 0, QUEUE(q));
    must(answer.refused == 0, "submit was refused");
    m->station.core = answer.core;
}

/* Submits an SDN to all stations. */
static void tell_all(struct master *m, uint8_t what)
{
    struct cihlomet_accepted answer =
        cihlomet_submit_high(CIHLOMET_STATION(&m->station), CIHLOMET_SDN, EVERYBODY, CIHLOMET_NO_POINT,
                             CIHLOMET_NO_POINT, 0, 0, 1, &what, 1, QUEUE(&m->high));
    must(answer.refused == 0, "submit was refused");
    m->station.core = answer.core;
}

/* Hands back every confirmed request, so that its place can be used again. */
static void collect(struct master *m)
{
    struct cihlomet_collected c;
    while ((c = cihlomet_collect_high(CIHLOMET_STATION(&m->station), QUEUE(&m->high))).refused == 0) {
        m->station.core = c.core;
        confirm(m, &c, &m->high);
    }
    while ((c = cihlomet_collect_low(CIHLOMET_STATION(&m->station), QUEUE(&m->low))).refused == 0) {
        m->station.core = c.core;
        confirm(m, &c, &m->low);
    }
}

/* From the hold's begin to its end only its master and whom it asks send, so there is one next sending. */
static void send_next(uint8_t sender, const uint8_t *octets, size_t count, uint32_t wait)
{
    must(next.count == 0, "two stations send at once");
    next.sender = sender;
    next.count = count;
    next.wait = wait;
    memcpy(next.octets, octets, count);
}

/* Takes what hear, sent or slot answered: the core to hold, the octets to send, and what was indicated. */
static void take(struct master *m, const struct cihlomet_answer *answer, const uint8_t *heard)
{
    const struct cihlomet_indication *shown = &answer->indication;
    must(answer->refused == 0, "a call was refused");
    m->station.core = answer->core;
    if (shown->indicated == 1) {
        indications++;
        printf("        %u: indication of %s from %u", m->station.core.ts, code_name(shown->control), shown->source);
        say_data(heard + shown->start, shown->count);
    }
    if (answer->length != 0)
        send_next(m->station.core.ts, m->out, answer->length, answer->wait);
    collect(m);
}

static void hear(struct master *m, const struct sending *s)
{
    struct cihlomet_answer answer = cihlomet_hear(CIHLOMET_STATION(&m->station), bit_clock, 1, NULL, 0, NULL, 0,
                                                  s->octets, s->count, LENT(m));
    take(m, &answer, s->octets);
}

static void sent(struct master *m)
{
    struct cihlomet_answer answer = cihlomet_sent(CIHLOMET_STATION(&m->station), bit_clock, LENT(m));
    last_sender = m;
    take(m, &answer, NULL);
}

static uint32_t longer(uint32_t one, uint32_t other)
{
    return one > other ? one : other;
}

/* TSL, by the Tid1 that heeds min TSDR and TSDI. */
static uint32_t slot_time(void)
{
    uint32_t tsm = 2 + 2 * settings.tset + settings.tqui;
    uint32_t tid1 = longer(33 + tsm, longer(settings.min_tsdr, settings.tsdi));
    return 2 * settings.ttd + 11 + tsm + longer(settings.max_tsdr, tid1);
}

/* Nobody sent anything: the slot time of the master that sent last expires. */
static void expire(void)
{
    struct master *m = last_sender;
    bit_clock += slot_time();
    printf("%6u  %u: slot expired\n", bit_clock, m->station.core.ts);
    struct cihlomet_answer answer = cihlomet_slot(CIHLOMET_STATION(&m->station), bit_clock, LENT(m));
    take(m, &answer, NULL);
}

/* ---- Station 7: where its lifts are, and the reply that it remembers, with whose request it answered and the bit. */
static uint8_t position[LIFTS] = {10, 100};
static struct {
    uint8_t source, bit, reply[CIHLOMET_LONGEST];
    size_t count;
} memory = {.source = CIHLOMET_ADDRESSES};

/* Moves a lift as ordered and makes its reply, access points swapped: its number and where it is. */
static void obey(const struct cihlomet_frame *f, const uint8_t *octets)
{
    uint8_t *lift = &position[f->to - FIRST_LIFT];
    if (f->count != 0)
        *lift = (uint8_t)(*lift + octets[f->start]);
    const uint8_t data[] = {f->to, *lift};
    struct cihlomet_written written = cihlomet_write(f->source, f->from, f->destination, f->to, REPLY_DL, data,
                                                     sizeof data, memory.reply, sizeof memory.reply);
    must(written.refused == 0, "no reply can be written");
    memory.count = written.count;
}

/* Answers an SRD to a lift. One with FCV and the bit of the same master's last one is that one again: the lift has
 * moved already, and only the reply is repeated. */
static void lifts_hear(const struct sending *s)
{
    struct cihlomet_frame f = cihlomet_read(s->octets, s->count);
    uint8_t code = f.control & CODE, bit = (f.control & FCB) != 0;
    if (f.form != CIHLOMET_FRAME || f.destination != LIFT_STATION || (code != SRD_LOW && code != SRD_HIGH) ||
        f.to < FIRST_LIFT || f.to >= FIRST_LIFT + LIFTS)
        return;
    if ((f.control & FCV) == 0 || f.source != memory.source || bit != memory.bit) {
        obey(&f, s->octets);
        memory.source = f.source;
        memory.bit = bit;
    }
    send_next(LIFT_STATION, memory.reply, memory.count, settings.min_tsdr);
}

/* ---- The line. */

/* Counts a reply, and puts the lost one in the place of a later one. True if nobody hears it. */
static bool disturbed(struct sending *reply)
{
    static struct sending lost;
    replies++;
    if (replies == LATE_REPLY) {
        *reply = lost;
        puts("        line: the lost reply arrives, and this lift's is not heard");
    }
    if (replies != LOST_REPLY)
        return false;
    lost = *reply;
    puts("        line: the reply is lost");
    return true;
}

/* Sends what is to be sent: its sender is told when it has gone out, then all others hear it. */
static void transmit(void)
{
    struct sending now = next;
    next.count = 0;
    if (now.sender == LIFT_STATION && disturbed(&now))
        return;
    bit_clock += now.wait + OCTET_BITS * (uint32_t)now.count;
    say_frame(&now);
    for (size_t i = 0; i < MASTERS; i++)
        if (masters[i].station.core.ts == now.sender)
            sent(&masters[i]);
    for (size_t i = 0; i < MASTERS; i++)
        if (masters[i].station.core.ts != now.sender)
            hear(&masters[i], &now);
    lifts_hear(&now);
    passes += cihlomet_read(now.octets, now.count).form == CIHLOMET_TOKEN;
}

int main(void)
{
    struct master *two = &masters[0], *five = &masters[1];
    start(two, 2);
    start(five, 5);
    ask_lift(two, true, 60, 3);
    ask_lift(two, true, 61, 5);
    ask_lift(two, false, 60, 4);
    ask_lift(two, false, 61, 0);
    tell_all(five, 9);
    ask_lift(five, false, 61, 0);
    ask_lift(five, false, 60, 0);

    /* The ring runs already: 5 is passing the token to 2. */
    uint8_t token[3];
    struct cihlomet_written written = cihlomet_token(2, 5, token, sizeof token);
    send_next(5, token, written.count, 0);
    puts(" clock  sender -> receiver  frame, with each station's address and access point");
    while (passes < PASSES) {
        if (next.count != 0)
            transmit();
        else
            expire();
    }
    must(confirmed == EXPECTED, "a confirmation is missing");
    must(indications == 1, "the broadcast was not indicated once");
    printf("%zu confirmations, none with the data of the other lift\n", confirmed);
    return 0;
}
